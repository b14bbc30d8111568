"""The digest functions of a host's blocks, from outside: SHA-256 of Python, and SipHash-2-4 of 128 bits (Aumasson and Bernstein, 2012) under two keys."""
import hashlib

MASK = (1 << 64) - 1
KEYS = bytes(range(16)), bytes(range(16, 32))


def turned(x, by):
    return (x << by | x >> 64 - by) & MASK


def mixed(v, rounds):
    a, b, c, d = v
    for _ in range(rounds):
        a, c = (a + b) & MASK, (c + d) & MASK
        b, d = turned(b, 13) ^ a, turned(d, 16) ^ c
        a, c = (turned(a, 32) + d) & MASK, (c + b) & MASK
        b, c, d = turned(b, 17) ^ c, turned(c, 32), turned(d, 21) ^ a
    return [a, b, c, d]


def siphash(key, data):
    first, second = (int.from_bytes(key[at : at + 8], "little") for at in (0, 8))
    v = [first ^ 0x736F6D6570736575, second ^ 0x646F72616E646F6D ^ 0xEE, first ^ 0x6C7967656E657261, second ^ 0x7465646279746573]
    whole = len(data) // 8 * 8
    last = data[whole:] + bytes(7 - len(data) % 8) + bytes([len(data) % 256])
    for at in range(0, whole + 8, 8):
        word = int.from_bytes((data[:whole] + last)[at : at + 8], "little")
        v[3] ^= word
        v = mixed(v, 2)
        v[0] ^= word
    digest = b""
    for at, turn in (2, 0xEE), (1, 0xDD):
        v[at] ^= turn
        v = mixed(v, 4)
        digest += (v[0] ^ v[1] ^ v[2] ^ v[3]).to_bytes(8, "little")
    return digest


def sha256(data):
    return hashlib.sha256(data).digest()


def fast(data):
    return b"".join(siphash(key, data) for key in KEYS)


# By the words of `--digest`: the number that a host's row has, and the function.
DIGESTS = {"sha256": (0, sha256), "fast": (1, fast)}
