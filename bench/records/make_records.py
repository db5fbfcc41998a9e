#!/usr/bin/env python3
"""Writes records of games (see docs/PACKED_MOVES.md) on standard output, each behind its length in four bytes.

usage: make_records.py plain|annotated GAMES COUNT

GAMES is as make_base.py of bench/find reads it. Its games are repeated in turn until there are COUNT. With `annotated`
a glyph, a comment and a variation follow every fourth half-move. The variation repeats up to six half-moves of its game,
with a glyph and a comment behind the first and, behind the second, a variation of up to two half-moves in it.
"""
import copy
import os
import struct
import sys

sys.path.insert(0, os.path.join(os.path.dirname(os.path.abspath(__file__)), "..", "find"))
from make_base import Game

GLYPH, COMMENT, OPEN, CLOSE, END = bytes([11]), bytes([12]), bytes([13]), bytes([14]), bytes([15])
LONG = b"A better way to go on was found later.\0"
SHORT = b"Played since.\0"


def plain(moves):
    game = Game()
    return b"".join(game.packed(move) for move in moves) + END


def inner(before, moves):
    """A variation of the first of these moves, from the position before it."""
    game = copy.deepcopy(before)
    return OPEN + b"".join(game.packed(move) for move in moves) + CLOSE


def variation(before, moves):
    """The bytes of a variation with another one in it, and its comments."""
    game, out, texts = copy.deepcopy(before), bytearray(OPEN), b""
    for place, move in enumerate(moves):
        start = copy.deepcopy(game)
        out += game.packed(move)
        if place == 0:
            out += GLYPH + bytes([6]) + COMMENT
            texts += SHORT
        if place == 1:
            out += inner(start, moves[1:3])
    return bytes(out) + CLOSE, texts


def annotated(moves):
    game, out, texts = Game(), bytearray(), b""
    for place, move in enumerate(moves):
        before = copy.deepcopy(game)
        out += game.packed(move)
        if place % 4 == 3:
            line, line_texts = variation(before, moves[place : place + 6])
            out += GLYPH + bytes([1]) + COMMENT + line
            texts += LONG + line_texts
    return bytes(out) + END + texts


def main():
    make = {"plain": plain, "annotated": annotated}[sys.argv[1]]
    lines = [line.partition("#")[0].split() for line in open(sys.argv[2])]
    records = [bytes([0, 0]) + make(moves) for moves in lines if moves]
    for place in range(int(sys.argv[3])):
        record = records[place % len(records)]
        sys.stdout.buffer.write(struct.pack(">I", len(record)) + record)


if __name__ == "__main__":
    main()
