#!/usr/bin/env python3
"""Makes the expected output of the program seal_vectors, and checks RFC 8439's own values.

    make.py            writes crates/seal_vectors/stdout
    make.py --check    holds rfc8439.txt against the ChaCha20 below and against `openssl enc -chacha20`

The stream's values are RFC 8439's, from rfc8439.txt. The values of sealing come from hashlib, hmac and the ChaCha20 below. Nothing is taken from the output of the crate.
"""
import hashlib
import hmac
import pathlib
import struct
import subprocess
import sys

HERE = pathlib.Path(__file__).resolve().parent


def rotl(x, n):
    return ((x << n) | (x >> (32 - n))) & 0xFFFFFFFF


def quarter_round(s, a, b, c, d):
    for x, y, z, n in ((a, b, d, 16), (c, d, b, 12), (a, b, d, 8), (c, d, b, 7)):
        s[x] = (s[x] + s[y]) & 0xFFFFFFFF
        s[z] = rotl(s[z] ^ s[x], n)


def block(key, nonce, counter):
    state = list(struct.unpack("<16I", b"expand 32-byte k" + key + struct.pack("<I", counter) + nonce))
    s = state[:]
    for _ in range(10):
        for i in range(4):
            quarter_round(s, i, 4 + i, 8 + i, 12 + i)
        for i in range(4):
            quarter_round(s, i, 4 + (i + 1) % 4, 8 + (i + 2) % 4, 12 + (i + 3) % 4)
    return struct.pack("<16I", *((x + y) & 0xFFFFFFFF for x, y in zip(s, state)))


def chacha20(key, nonce, counter, text):
    stream = b"".join(block(key, nonce, counter + i) for i in range((len(text) + 63) // 64))
    return bytes(x ^ y for x, y in zip(text, stream))


def seal(key, header, text):
    covered = chacha20(key, bytes(12), 1, text)
    tag_key = hmac.new(key, b"\x03", hashlib.sha256).digest()
    return covered + hmac.new(tag_key, header + covered, hashlib.sha256).digest()[:16]


def rfc_values():
    for line in (HERE / "rfc8439.txt").read_text().splitlines():
        if not line.startswith("#"):
            name, key, nonce, counter, text, becomes = line.split()
            yield name, bytes.fromhex(key), bytes.fromhex(nonce), int(counter), bytes.fromhex(text), bytes.fromhex(becomes)


def check():
    for name, key, nonce, counter, text, becomes in rfc_values():
        iv = struct.pack("<I", counter) + nonce
        run = subprocess.run(["openssl", "enc", "-chacha20", "-K", key.hex(), "-iv", iv.hex()], input=text, capture_output=True, check=True)
        for who, value in (("this script", chacha20(key, nonce, counter, text)), ("openssl", run.stdout)):
            if value != becomes:
                sys.exit(f"{name}: {who} has another value")
        print(f"{name}: the same here and by openssl")


# The program has the same rules for keys, headers and texts.
def made(size, start, step):
    return bytes((start + step * i) % 256 for i in range(size))


CASES = [(0, 0), (1, 1), (63, 2), (64, 3), (65, 4), (1000, 5)]
ROOM = 1024


def lines():
    for name, _, _, _, _, becomes in rfc_values():
        yield f"{name} {becomes.hex()}"
    yield f"last counter, one block {block(bytes(range(32)), bytes(12), 0xFFFFFFFF).hex()}"
    yield "last counter, a byte more too long"
    for size, n in CASES:
        key = made(32, 17 * n, 7)
        header = made(47, 29 * n, 3)
        text = made(size, 5 * n, 11)
        body = seal(key, header, text)
        yield f"sealed {size} {(body + bytes([170]) * (ROOM - len(body))).hex()}"
        yield f"opened {size} {(text + bytes([170]) * (ROOM - size)).hex()}"
        yield "output one short: no room, output untouched"
        for what in ("another key", "cut to 15 bytes", "another header", "another tag", "another text"):
            if what != "another text" or size > 0:
                yield f"{what}: forged, output untouched"
    key, header, text = made(32, 1, 5), made(47, 82, 1), made(65, 97, 1)
    message = header + seal(key, header, text)
    yield f"message {len(message)} {(message + bytes([170]) * (160 - len(message))).hex()}"
    yield f"its text {len(text)} {(text + bytes([170]) * (80 - len(text))).hex()}"


if __name__ == "__main__":
    if sys.argv[1:] == ["--check"]:
        check()
    else:
        (HERE.parent.parent / "crates/seal_vectors/stdout").write_text("".join(line + "\n" for line in lines()))
