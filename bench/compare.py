# Makes random jobs with proof files that mostly fit and are then sometimes damaged, and compares the answers of two programs.
# compare.py GATE REFERENCE JOBS SEED
import os
import random
import subprocess
import sys
import tempfile

from proof_file import proof

gate, reference, jobs, seed = sys.argv[1], sys.argv[2], int(sys.argv[3]), int(sys.argv[4])
rnd = random.Random(seed)


def rows():
    principals = [(1, i, 0) for i in range(rnd.randint(1, 3))]
    for _ in range(rnd.randint(0, 4)):
        row = (rnd.randint(2, 3), rnd.randrange(len(principals)), rnd.randrange(len(principals)))
        if row not in principals:
            principals.append(row)
    statements = [(1, i, 0) for i in range(rnd.randint(1, 2))]
    for _ in range(rnd.randint(3, 14)):
        n, p = len(statements), len(principals)
        row = rnd.choice([(2, rnd.randrange(n), 0), (3, rnd.randrange(n), rnd.randrange(n)), (4, rnd.randrange(p), rnd.randrange(n)), (5, rnd.randrange(p), rnd.randrange(p))])
        if row not in statements:
            statements.append(row)
    return principals, statements


def grow(principals, statements, book, request, length):
    """Lines that fit, one after another, chosen at random."""
    facts, links, forks, worlds, lines = [(False, request, 0)], [], [], 1, []

    def f(n):
        return facts[n]

    for _ in range(length):
        options = []
        for serial, (standing, row) in book.items():
            options.append(((1, serial, rnd.randrange(worlds)), None) if standing == 1 else ((2, serial), None))
        for i, (sign, row, w) in enumerate(facts[-40:]):
            i += max(0, len(facts) - 40)
            form, x, y = statements[row]
            if form == 2:
                options.append(((3, i), None))
            if form == 3:
                options.append(((4, i) if sign else (5, i), None))
            if form == 4 and not sign:
                options.append(((7, i), None))
            if form == 5 and not sign:
                options.append(((9, i), None))
            if form in (4, 5) and sign:
                for j, (yes, r, a, b) in enumerate(links):
                    if yes and form == 4 and r == x and a == w:
                        options.append(((6, i, j), None))
                    if yes and form == 5 and r == y:
                        options.append(((8, i, j), None))
            for j, (other, r, v) in enumerate(facts):
                if sign and not other and r == row and v == w:
                    options += [((14, i, j), None)] * 6
        for i, (yes, r, a, b) in enumerate(links[-30:]):
            i += max(0, len(links) - 30)
            form, x, y = principals[r]
            if yes and form == 2:
                options.append(((10, i), None))
            if yes and form == 3:
                options.append(((11, i), None))
            for k, (g, p, q) in enumerate(principals):
                if yes and g == 2 and r in (p, q):
                    options.append(((12, i, k), None))
                for j, (also, s, c, d) in enumerate(links[-10:]):
                    if yes and also and g == 3 and r == p and s == q and b == c:
                        options.append(((13, i, j + max(0, len(links) - 10), k), None))
            for j, (also, s, c, d) in enumerate(links):
                if yes and not also and (r, a, b) == (s, c, d):
                    options += [((15, i, j), None)] * 6
        if not options:
            break
        line = rnd.choice(options)[0]
        lines.append(line)
        code = line[0]
        if code == 1:
            facts.append((True, book[line[1]][1], line[2]))
        elif code == 2:
            facts.append((True, book[line[1]][1], 0))
        elif code in (3, 4, 5, 7, 9, 6, 8):
            sign, row, w = f(line[1])
            _, x, y = statements[row]
            if code == 3:
                facts.append((not sign, x, w))
            elif code == 4:
                facts += [(True, x, w), (True, y, w)]
            elif code == 5:
                forks.append((len(facts), len(links), worlds, ("fact", (False, y, w))))
                facts.append((False, x, w))
            elif code == 7:
                links.append((True, x, w, worlds))
                facts.append((False, y, worlds))
                worlds += 1
            elif code == 9:
                links += [(True, y, worlds, worlds + 1), (False, x, worlds, worlds + 1)]
                worlds += 2
            elif code == 6:
                facts.append((True, y, links[line[2]][3]))
            else:
                links.append((True, x, links[line[2]][2], links[line[2]][3]))
        elif code in (10, 11, 12, 13):
            _, r, a, b = links[line[1]]
            _, x, y = principals[r]
            if code == 10:
                forks.append((len(facts), len(links), worlds, ("link", (True, y, a, b))))
                links.append((True, x, a, b))
            elif code == 11:
                links += [(True, x, a, worlds), (True, y, worlds, b)]
                worlds += 1
            elif code == 12:
                links.append((True, line[2], a, b))
            else:
                links.append((True, line[3], a, links[line[2]][3]))
        else:
            if not forks:
                break
            nf, nl, worlds, (kind, kept) = forks.pop()
            facts, links = facts[:nf], links[:nl]
            (facts if kind == "fact" else links).append(kept)
    return lines


def damaged(data):
    data = bytearray(data)
    for _ in range(rnd.choice([0, 0, 0, 1, 1, 2])):
        at = rnd.randrange(len(data))
        data[at] = rnd.choice([data[at] ^ 1, (data[at] + 1) % 256, rnd.randrange(256), 0])
    if rnd.random() < 0.03:
        data = data[: rnd.randrange(len(data) + 1)]
    if rnd.random() < 0.03:
        data += bytes(rnd.randrange(9))
    return bytes(data)


answers = {}
for job in range(jobs):
    with tempfile.TemporaryDirectory() as folder:
        principals, statements = rows()
        book = {}
        lines = ["open 1 ledger 20"]
        lines += ["principal %d %d %d" % r for r in principals] + ["statement %d %d %d" % r for r in statements]
        for serial in rnd.sample(range(1, 30), rnd.randint(0, 6)):
            book[serial] = (rnd.randint(1, 2), rnd.randrange(len(statements)))
            lines.append("file %d %d %d" % (serial, *book[serial]))
        for k in range(40):
            request = rnd.randrange(len(statements))
            file = damaged(proof(request, grow(principals, statements, book, request, rnd.choice([1, 3, 8, 20, 60])) or [(14, 0, 0)]))
            with open(os.path.join(folder, "p%d" % k), "wb") as f:
                f.write(file)
            sizes = "" if rnd.random() < 0.6 else " %d %d %d" % tuple(rnd.choice([0, 1, 2, 3, 5, 8, 20, 60, 5000]) for _ in range(3))
            lines.append("check p%d%s" % (k, sizes))
        with open(os.path.join(folder, "job"), "w") as f:
            f.write("\n".join(lines) + "\n")
        outs = []
        for program in (gate, reference):
            out = subprocess.run([program, "job"], cwd=folder, stdout=subprocess.PIPE, check=True).stdout.decode()
            outs.append([line.split(" (")[0] for line in out.splitlines()])
        for one, other in zip(*outs):
            word = " ".join(one.split()[1:3])
            answers[word] = answers.get(word, 0) + 1
            if one != other:
                print("job", job, "seed", seed, one, "|", other)
                sys.exit(1)
        assert len(outs[0]) == len(outs[1])
print("the same answers to", sum(answers.values()), "lines:", ", ".join("%s %d" % p for p in sorted(answers.items(), key=lambda p: -p[1]) if p[0].startswith(("denied", "keeps"))))
