#!/usr/bin/env python3
"""What the program `hash_cases` must print, worked out by Python's hashlib and on lists of trits; it shares nothing
with the crates.

Its lines: a published message and 64 bytes of its SHAKE256; the length of a message and 32 bytes; `out`, how many bytes
are taken of 100 bytes a3, and the last 8 of them; `y`, how many trits are taken of a salt and a text, and these trits.
Bytes are in hex, trits in digits. hashlib is held to the published values first."""
import hashlib

PUBLISHED = [
    ("empty", b"", "46b9dd2b0ba88d13233b3feb743eeb243fcd52ea62b81b82b50c27646ed5762f"),
    ("abc", b"abc", "483366601360a8771c6863080cc4114d8db44530f8f1e1ee4f94ea37e78b5739"),
    ("a3x200", b"\xa3" * 200, "cd8a920ed141aa0407a22d59288652e9d9f1a7ee0c1e7c1ca699424da84a904d"),
]
# the first and the last length of each stretch of messages
LENGTHS = [(0, 420), (539, 548), (1000, 1000)]
OUTPUTS = [1, 8, 31, 32, 33, 64, 135, 136, 137, 200, 271, 272, 273, 300, 408, 409, 544, 545, 600]
SYNDROMES = [0, 1, 4, 5, 6, 63, 64, 65, 128, 200, 639, 640, 641, 700, 1000]


def shake256(message, size):
    return hashlib.shake_256(message).digest(size)


def message_of(length):
    return bytes((7 * i + length) % 256 for i in range(length))


def trits_of(byte):
    return [byte // 3**k % 3 for k in range(5)]


def syndrome(m, salt, text):
    trits = [t for byte in shake256(salt + text, m + 136) if byte < 243 for t in trits_of(byte)]
    assert len(trits) >= m
    return trits[:m]


def main():
    print("what SHAKE256 and the syndrome call make; expected by tests/hash_cases.py, from Python's hashlib")
    for name, message, value in PUBLISHED:
        assert shake256(message, 32).hex() == value
        print(name, shake256(message, 64).hex())
    for first, last in LENGTHS:
        for length in range(first, last + 1):
            print(length, shake256(message_of(length), 32).hex())
    for size in OUTPUTS:
        print("out", size, shake256(b"\xa3" * 100, size)[-8:].hex())
    for m in SYNDROMES:
        print("y", m, "".join(map(str, syndrome(m, bytes([90] * 32), message_of(m)))))


main()
