# The bytes of a proof file: a head of ten bytes, and seven bytes for each line.


def proof(request, lines):
    data = b"PMT" + bytes([0, 1, 1]) + request.to_bytes(2, "big") + len(lines).to_bytes(2, "big")
    for line in lines:
        code, a, b, c = (list(line) + [0, 0, 0])[:4]
        data += bytes([code]) + a.to_bytes(2, "big") + b.to_bytes(2, "big") + c.to_bytes(2, "big")
    return data
