#!/usr/bin/env python3
"""Prints legal games in coordinate notation, one a line, for bench/find/make_base.py: each begins with one of some openings, those that
are played most come most often, and goes on with moves that are drawn among the legal ones. The games are the same at each run.

usage: make_openings.py GAMES HALF_MOVES
"""
import os
import sys

sys.path.insert(0, os.path.join(os.path.dirname(os.path.abspath(__file__)), "..", "open"))
from make_games import START, Draws, legal_moves

# How often of a hundred games, and the first moves.
OPENINGS = (
    (14, "e2e4 e7e5 g1f3 b8c6 f1b5 a7a6 b5a4 g8f6"),
    (10, "e2e4 e7e5 g1f3 b8c6 f1c4 f8c5 c2c3 g8f6"),
    (6, "e2e4 e7e5 g1f3 g8f6 f3e5 d7d6 e5f3 f6e4"),
    (16, "e2e4 c7c5 g1f3 d7d6 d2d4 c5d4 f3d4 g8f6 b1c3 a7a6"),
    (8, "e2e4 c7c5 g1f3 b8c6 d2d4 c5d4 f3d4 g7g6"),
    (8, "e2e4 e7e6 d2d4 d7d5 b1c3 f8b4 e4e5 c7c5"),
    (7, "e2e4 c7c6 d2d4 d7d5 e4d5 c6d5 c2c4 g8f6"),
    (9, "d2d4 d7d5 c2c4 e7e6 b1c3 g8f6 c1g5 f8e7"),
    (8, "d2d4 g8f6 c2c4 g7g6 b1c3 f8g7 e2e4 d7d6"),
    (7, "d2d4 g8f6 c2c4 e7e6 b1c3 f8b4 d1c2 d7d5"),
    (5, "c2c4 e7e5 b1c3 g8f6 g2g3 d7d5 c4d5 f6d5"),
    (2, "g1f3 d7d5 g2g3 c7c6 f1g2 c8g4"),
)


def opening(draws):
    place = draws.below(sum(weight for weight, _ in OPENINGS))
    for weight, line in OPENINGS:
        if place < weight:
            return line.split()
        place -= weight


def played(line):
    """The board and the side after these moves, which are legal."""
    board, white = list(START), True
    for move in line:
        board = dict(legal_moves(board, white))[move]
        white = not white
    return board, white


def main():
    draws = Draws(1)
    made = 0
    while made < int(sys.argv[1]):
        moves = opening(draws)
        board, white = played(moves)
        while len(moves) < int(sys.argv[2]):
            choices = list(legal_moves(board, white))
            if not choices:
                break
            move, board = choices[draws.below(len(choices))]
            moves.append(move)
            white = not white
        if len(moves) == int(sys.argv[2]):
            print(" ".join(moves))
            made += 1


if __name__ == "__main__":
    main()
