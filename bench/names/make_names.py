#!/usr/bin/env python3
"""Writes a names file (see docs/NAMES_FILE.md) of so many players and no other names on standard output.

usage: make_names.py COUNT

The players have names as `Novak, Alexander 004711`, each used once. Their ids are in another order than their names.
"""
import os
import sys

SURNAMES = ["Bauer", "Fischer", "Horvat", "Ivanov", "Kovacs", "Larsen", "Moreau", "Novak", "Petrov", "Santos"]
FIRST_NAMES = ["Alexander", "Boris", "Daniel", "Elena", "Judit", "Magnus", "Nona", "Peter", "Viktor", "Xenia"]


def names_file(count):
    names = sorted(
        f"{SURNAMES[n % 10]}, {FIRST_NAMES[n // 10 % 10]} {n:06}".encode() for n in range(count)
    )
    id_width = 3 if count >= 65536 else 2
    out = bytearray(b"Scid.sn\0" + bytes(4))
    for number in [count, 0, 0, 0, 1, 0, 0, 0]:
        out += number.to_bytes(3, "big")
    before = b""
    for place, name in enumerate(names):
        shared = len(os.path.commonprefix([before, name]))
        identity = int(name[-6:])
        out += identity.to_bytes(id_width, "big") + bytes([1, len(name)])
        out += (bytes([shared]) if place else b"") + name[shared:]
        before = name
    return bytes(out)


sys.stdout.buffer.write(names_file(int(sys.argv[1])))
