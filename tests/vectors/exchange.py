#!/usr/bin/env python3
"""Writes exchange.txt: a worked exchange of two sides with boxes of numbers, each message and some pages as bytes.

Every value is worked out from its link and place alone, by docs/PROTOCOL.md, with hashlib, hmac and cryptography.
"""
import hashlib
import hmac
import pathlib
import struct

from cryptography.hazmat.primitives.ciphers import Cipher, algorithms

HERE = pathlib.Path(__file__).resolve().parent
ROOT_0 = bytes(range(32))

# With which draw of its side each key came. The second's draw 2 is forgotten: it stopped before its page was written.
DRAWS = [0, 0, 1, 1, 3]


def mac(key, message):
    return hmac.new(key, message, hashlib.sha256).digest()


def half(n):
    first_side = n % 2 == 1
    return bytes([0 if first_side else 1]) + bytes(7) + struct.pack(">Q", DRAWS[n]) + bytes(16)


def joint(n):
    """The joint secret of keys n and n + 1: the first side's half comes first."""
    odd, even = (n, n + 1) if n % 2 == 1 else (n + 1, n)
    return half(odd)[:16] + half(even)[:16]


def link(n):
    """Root n + 1 and the value of link n's chain at place 0."""
    extracted = mac(root(n), joint(n))
    one = mac(extracted, b"\x01")
    return one, mac(extracted, one + b"\x02")


def root(n):
    return ROOT_0 if n == 0 else link(n - 1)[0]


def chain(n, place):
    value = link(n)[1]
    for _ in range(place):
        value = mac(value, b"\x02")
    return value


def key(n, place):
    return mac(chain(n, place), b"\x01")


def message(n, place, before, text):
    header = struct.pack(">BIII", 82, n, place, before) + half(n + 1) + struct.pack(">H", len(text))
    stream = Cipher(algorithms.ChaCha20(key(n, place), struct.pack("<I", 1) + bytes(12)), mode=None).encryptor()
    sealed = stream.update(text)
    return header + sealed + mac(mac(key(n, place), b"\x03"), header + sealed)[:16]


def page(drawn, sent, taken, before, aside):
    body = struct.pack(">BIIII", 1, drawn, sent, taken, before) + half(drawn) + root(drawn)
    body += chain(drawn - 1, sent) if drawn >= 1 else bytes(32)
    body += chain(drawn - 2, taken) if drawn >= 2 else bytes(32)
    body += struct.pack(">H", len(aside))
    for n, place in aside:
        body += struct.pack(">II", n, place) + key(n, place)
    return body + hashlib.sha256(body).digest()


def send(who, n, place, before, text):
    return f"send {who} {text.hex() or '-'} {message(n, place, before, text).hex()}"


LONG = bytes(i % 251 for i in range(1000))

LINES = [
    "# Made by exchange.py. Root 0 is 000102...1f, and the boxes are boxes of numbers.",
    "# send SIDE TEXT BYTES: it sends the text, and this is the message. Text and bytes are in hex, - is an empty text.",
    "# take M: the other side takes the M-th message of this file and gives its text.",
    "# undone M: the same, but it stops before its page is written.",
    "# page SIDE BYTES: this is its page.",
    f"page first {page(1, 0, 0, 0, []).hex()}",
    f"page second {page(0, 0, 0, 0, []).hex()}",
    send("first", 0, 0, 0, b"abc"),
    send("first", 0, 1, 0, b""),
    send("first", 0, 2, 0, LONG),
    f"page first {page(1, 3, 0, 0, []).hex()}",
    "take 3",
    f"page second {page(2, 0, 3, 0, [(0, 0), (0, 1)]).hex()}",
    send("second", 1, 0, 0, b"one"),
    send("second", 1, 1, 0, bytes(64)),
    "take 5",
    f"page first {page(3, 0, 2, 3, [(1, 0)]).hex()}",
    send("first", 2, 0, 3, b"two"),
    send("first", 2, 1, 3, bytes(65)),
    "undone 7",
    f"page second {page(2, 2, 3, 0, [(0, 0), (0, 1)]).hex()}",
    "take 7",
    f"page second {page(4, 0, 2, 2, [(0, 0), (0, 1), (2, 0)]).hex()}",
    "take 2",
    "take 6",
    f"page second {page(4, 0, 2, 2, [(0, 0)]).hex()}",
    send("second", 3, 0, 2, b"\x00\xff"),
    "take 4",
    f"page first {page(3, 2, 2, 3, []).hex()}",
    f"page second {page(4, 1, 2, 2, [(0, 0)]).hex()}",
]

if __name__ == "__main__":
    (HERE / "exchange.txt").write_text("".join(line + "\n" for line in LINES))
