#!/usr/bin/env python3
"""What the program `cases` must print, worked out from the paper's rules on lists of trits and on whole numbers; it shares nothing with the crates.

A packed byte is t0 + 3 t1 + 9 t2 + 27 t3 + 81 t4, so its trits come by dividing by 3 five times. A plane is one whole number whose bit i is place i,
cut into words of 64 bits. Each call tests in the paper's order: 1, every length (2), then the contents (4, 3 of planes; 5, 15 of packed bytes) or the
stream's end (6)."""


def trits_of(byte):
    out = []
    for _ in range(5):
        out.append(byte % 3)
        byte //= 3
    return out


def words_for(m):
    return -(-m // 64)


def bytes_for(m):
    return -(-m // 5)


def plane(trits, which):
    whole = sum(1 << i for i, t in enumerate(trits) if t == which)
    return [whole >> 64 * j & (1 << 64) - 1 for j in range(words_for(len(trits)))]


def joined(words):
    return sum(w << 64 * j for j, w in enumerate(words))


def pack(m, ones, twos, out):
    a, b = joined(ones), joined(twos)
    if m > 16384:
        code = 1
    elif len(ones) != words_for(m) or len(twos) != words_for(m) or len(out) != bytes_for(m):
        code = 2
    elif (a | b) >> m:
        code = 4
    elif a & b:
        code = 3
    else:
        code = 0
        trits = [(a >> i & 1) + 2 * (b >> i & 1) for i in range(m)] + [0] * 4
        out = [sum(3 ** k * trits[5 * j + k] for k in range(5)) for j in range(bytes_for(m))]
    print(*["pack", m, "answers", code], end=", bytes")
    print("".join(f" {x}" for x in out))
    return out


def show(name, m, code, ones, twos):
    print(name, m, "answers", code, end=", ones")
    print("".join(f" {x}" for x in ones), end=", twos")
    print("".join(f" {x}" for x in twos))


def unpack_code(m, data, ones, twos):
    if m > 16384:
        return 1
    if len(data) != bytes_for(m) or len(ones) != words_for(m) or len(twos) != words_for(m):
        return 2
    if any(x > 242 for x in data):
        return 5
    trits = [t for x in data for t in trits_of(x)]
    return 15 if any(trits[m:]) else 0


def unpack(m, data, ones, twos):
    code = unpack_code(m, data, ones, twos)
    if code == 0:
        trits = [t for x in data for t in trits_of(x)][:m]
        ones, twos = plane(trits, 1), plane(trits, 2)
    show("unpack", m, code, ones, twos)
    return ones, twos


def last_bytes(m, before):
    print("unpack", str(m) + ",", "last byte 0 to 255, answers", *[unpack_code(m, before + [x], [9], [9]) for x in range(256)])


def stream(m, data, ones, twos):
    trits = [t for x in data if x < 243 for t in trits_of(x)]
    if m > 16384:
        code = 1
    elif len(ones) != words_for(m) or len(twos) != words_for(m):
        code = 2
    elif len(trits) < m:
        code = 6
    else:
        code = 0
        ones, twos = plane(trits[:m], 1), plane(trits[:m], 2)
    show("stream", m, code, ones, twos)


def main():
    print("what the packing calls answer and leave; expected by tests/packing_cases.py, from the paper's rules on lists of trits")
    for m, a, b, n in [(5, 17, 2, 1), (5, 0, 31, 1), (4, 0, 15, 1), (6, 0, 63, 2), (1, 0, 1, 1)]:
        pack(m, [a], [b], [9] * n)
    for m, x in [(5, 88), (5, 242), (2, 8), (1, 2)]:
        unpack(m, [x], [9], [9])
    pack(16385, [0], [0], [9])
    pack(5, [0, 0], [0], [9])
    pack(5, [0], [0, 0], [9])
    pack(5, [0], [0], [9, 9])
    pack(6, [0], [0], [9])
    pack(65, [0], [0, 0], [9] * 13)
    pack(5, [4], [6], [9])
    pack(5, [32], [0], [9])
    pack(5, [0], [1 << 63], [9])
    pack(5, [32], [32], [9])
    pack(5, [33], [1], [9])
    for m, data, n, k in [(16385, [0], 1, 1), (6, [0], 1, 1), (5, [0, 0], 1, 1), (5, [0], 2, 1), (5, [0], 1, 2), (5, [243], 1, 1), (6, [0, 255], 1, 1), (1, [243], 1, 1),
                          (2, [242], 1, 1), (1, [241], 1, 1), (6, [0, 3], 1, 1), (6, [243, 3], 1, 1)]:
        unpack(m, data, [9] * n, [9] * k)
    for m in range(1, 6):
        last_bytes(m, [])
    for m in range(6, 11):
        last_bytes(m, [242])
    for m, data, n, k in [(9, [255, 88, 243, 242, 7], 1, 1), (10, [88, 244, 242], 1, 1), (6, [1, 1, 255], 1, 1), (5, [243, 250, 80], 1, 1), (1, [2], 1, 1), (1, [242], 1, 1), (6, [1, 243], 1, 1),
                          (1, [243, 255], 1, 1), (11, [1, 2], 1, 1), (16385, [1], 1, 1), (5, [1], 2, 1), (5, [1], 1, 2), (65, [1], 1, 1)]:
        stream(m, data, [9] * n, [9] * k)
    for m in [0, 1, 4, 5, 6, 63, 64, 65, 16384]:
        data = [(7 * j + 3) % 243 for j in range(bytes_for(m) - 1)] + [1] * (m > 0)
        ones, twos = unpack(m, data, [5] * words_for(m), [6] * words_for(m))
        pack(m, ones, twos, [7] * bytes_for(m))


main()
