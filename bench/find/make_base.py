#!/usr/bin/env python3
"""Makes a Scid base (BASE.si4, BASE.sn4, BASE.sg4) of games in coordinate notation, for samples and measurements.

usage: make_base.py GAMES BASE [COUNT]

GAMES has one game a line: moves such as `e2e4 c7c5 e1g1 e7e8q`, a null move as `--`. With COUNT the games are
repeated in turn until there are so many. The moves are not tested: docs/PACKED_MOVES.md says how they are packed.
"""
import struct
import sys

START = "RNBQKBNR" + "P" * 8 + "." * 32 + "p" * 8 + "rnbqkbnr"
KING = {-9: 1, -8: 2, -7: 3, -1: 4, 1: 5, 7: 6, 8: 7, 9: 8, -2: 9, 2: 10}
KNIGHT = {-17: 1, -15: 2, -10: 3, -6: 4, 6: 5, 10: 6, 15: 7, 17: 8}
PROMOTION = {"": 0, "q": 3, "r": 6, "b": 9, "n": 12}
BLOCK = 131072


def square(text):
    return "abcdefgh".index(text[0]) + 8 * (int(text[1]) - 1)


class Game:
    """A board with the numbered squares of both sides."""

    def __init__(self):
        self.board = list(START)
        back = [4, 0, 1, 2, 3, 5, 6, 7]
        self.men = [back + list(range(8, 16)), [s + 56 for s in back] + list(range(48, 56))]
        self.side = 0

    def packed(self, text):
        """The bytes of a move, which is then played."""
        own, enemy = self.men[self.side], self.men[1 - self.side]
        if text == "--":
            self.side = 1 - self.side
            return bytes([0])
        start, target, promotion = square(text[:2]), square(text[2:4]), text[4:]
        number, man = own.index(start), self.board[start].upper()
        out = bytes([16 * number + self.value(man, start, target, promotion)])
        if man == "Q" and start % 8 != target % 8 and start // 8 != target // 8:
            out += bytes([64 + target])
        captured = target
        if man == "P" and start % 8 != target % 8 and self.board[target] == ".":
            captured = target - 8 if self.side == 0 else target + 8
        if self.board[captured] != "." and captured != start:
            place = enemy.index(captured)
            enemy[place] = enemy[-1]
            enemy.pop()
            self.board[captured] = "."
        arrives = self.board[start]
        if promotion:
            arrives = promotion.upper() if self.side == 0 else promotion
        self.board[target], self.board[start], own[number] = arrives, ".", target
        if man == "K" and abs(start - target) == 2:
            rook, to = (target + 1, target - 1) if target > start else (target - 2, target + 1)
            self.board[to], self.board[rook] = self.board[rook], "."
            own[own.index(rook)] = to
        self.side = 1 - self.side
        return out

    def value(self, man, start, target, promotion):
        if man == "K":
            return KING[target - start]
        if man == "N":
            return KNIGHT[target - start]
        if man == "B":
            rises = (target // 8 - start // 8) * (target % 8 - start % 8) > 0
            return target % 8 + (0 if rises else 8)
        if man == "P":
            forward = (target - start) * (1 if self.side == 0 else -1)
            return 15 if forward == 16 else forward - 7 + PROMOTION[promotion]
        if start // 8 == target // 8:
            return target % 8
        if start % 8 == target % 8:
            return 8 + target // 8
        return start % 8


def record(line):
    game = Game()
    return bytes([0, 0]) + b"".join(game.packed(text) for text in line.split()) + bytes([15])


def write_base(base, records):
    games, entries = bytearray(), bytearray()
    for one in records:
        if len(games) % BLOCK + len(one) > BLOCK:
            games += bytes(-len(games) % BLOCK)
        entries += struct.pack(">IH", len(games), len(one) % 65536) + bytes([one.__len__() // 65536 * 128]) + bytes(40)
        games += one
    head = b"Scid.si\0" + struct.pack(">HI", 400, 0) + len(records).to_bytes(3, "big") + bytes(165)
    uses = [min(2 * len(records), 0xFFFFFF)] + [len(records)] * 3
    names = b"Scid.sn\0" + bytes(4) + b"\0\0\1" * 4 + b"".join(n.to_bytes(3, "big") for n in uses)
    for n in uses:
        width = 3 if n >= 65536 else 2 if n >= 256 else 1
        names += b"\0\0" + n.to_bytes(width, "big") + b"\1?"
    for name, content in (("si4", head + entries), ("sn4", names), ("sg4", games)):
        with open(f"{base}.{name}", "wb") as file:
            file.write(content)


def main():
    lines = [line.partition("#")[0].strip() for line in open(sys.argv[1])]
    records = [record(line) for line in lines if line]
    count = int(sys.argv[3]) if len(sys.argv) > 3 else len(records)
    write_base(sys.argv[2], [records[i % len(records)] for i in range(count)])


if __name__ == "__main__":
    main()
