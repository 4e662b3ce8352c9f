# Makes the three jobs of the benchmark in the folder that is given.
import os
import sys

from proof_file import proof

out = sys.argv[1]
TURNS = int(sys.argv[2]) if len(sys.argv) > 2 else 300


def write(name, file, names, turns):
    with open(os.path.join(out, name + ".pmt"), "wb") as f:
        f.write(file)
    with open(os.path.join(out, name + ".job"), "w") as f:
        f.write("\n".join(names + ["check " + name + ".pmt"] * turns) + "\n")


SHOP = ["principal 1 0 0", "principal 1 1 0", "principal 2 0 1", "principal 3 0 1"]
TIN = ["1 0 0", "4 2 0", "2 0 0", "3 1 2", "2 3 0", "4 0 0", "4 1 0", "4 0 6", "5 0 0", "4 3 0"]
names = ["open 7 ledger 3"] + SHOP + ["statement " + r for r in TIN]
book = ["file 1 1 4", "file 2 2 5", "file 3 2 6"]
thirteen = [(1, 1, 0), (3, 1), (5, 2), (7, 3), (10, 0), (2, 2), (6, 5, 1), (14, 6, 4), (2, 3), (6, 5, 1), (14, 6, 4), (3, 3), (14, 4, 0)]
write("small", proof(0, thirteen), names + book, TURNS * 20)

# the request "r and r" is false at the start, so every line 5 0 forks; each branch is closed by the saying r
forks = []
# go down: every line forks; every branch below has r false as its last fact, and the saying r closes it
depth = 2600
for i in range(depth):
    forks.append((5, 0))
forks.append((2, 1))
# the facts: 0 is the request, 1 to depth are "r false", depth + 1 is "r true"
forks.append((14, depth + 1, 1))
for i in range(depth - 1, -1, -1):
    # back at the fork i: facts 0 to i, and then the kept "r false" as number i + 1
    forks.append((2, 1))
    forks.append((14, i + 2, 1))
assert len(forks) <= 8000, len(forks)
write("forks", proof(1, forks), ["open 7 ledger 3", "principal 1 0 0", "statement 1 0 0", "statement 3 0 0", "file 1 2 0"], TURNS)

# 1,024 entries, cited in a mixed order on 4,000 facts; links fill the rest
entries = ["open 7 ledger 1024", "principal 1 0 0", "principal 1 1 0", "principal 2 0 1", "statement 1 0 0", "statement 5 0 0"]
entries += ["file %d 2 0" % (60 * i + 7) for i in range(1024)]
lookups = [(9, 0)] + [(2, 60 * ((i * 619) % 1024) + 7) for i in range(4000)] + [(12, 0, 2)] * 3998 + [(15, 0, 1)]
write("lookups", proof(1, lookups), entries, TURNS)
