#!/usr/bin/env python3
"""Prints legal games in coordinate notation, one a line, for bench/find/make_base.py: each move is drawn among the legal
ones, so the games are the same at each run. Castling and en passant are left out, which keeps this short.

usage: make_games.py GAMES HALF_MOVES
"""
import sys

KNIGHT = [(1, 2), (2, 1), (2, -1), (1, -2), (-1, -2), (-2, -1), (-2, 1), (-1, 2)]
LINES = [(1, 0), (0, 1), (-1, 0), (0, -1)]
DIAGONALS = [(1, 1), (1, -1), (-1, -1), (-1, 1)]
RAYS = {"R": LINES, "B": DIAGONALS, "Q": LINES + DIAGONALS}
START = "RNBQKBNR" + "P" * 8 + "." * 32 + "p" * 8 + "rnbqkbnr"


class Draws:
    """A linear congruential generator."""

    def __init__(self, seed):
        self.x = seed

    def below(self, n):
        self.x = (self.x * 6364136223846793005 + 1442695040888963407) % 2**64
        return (self.x >> 33) % n


def name(square):
    return "abcdefgh"[square % 8] + str(square // 8 + 1)


def targets(board, square):
    """The squares that the man attacks, or for a pawn also those that it goes to."""
    man, file, rank = board[square], square % 8, square // 8
    kind, own = man.upper(), man.isupper()
    if kind == "P":
        up = 1 if own else -1
        if board[square + 8 * up] == ".":
            yield square + 8 * up
            if rank == (1 if own else 6) and board[square + 16 * up] == ".":
                yield square + 16 * up
        for step in (-1, 1):
            if 0 <= file + step < 8:
                to = square + 8 * up + step
                if board[to] != "." and board[to].isupper() != own:
                    yield to
        return
    for across, up in RAYS.get(kind) or (KNIGHT if kind == "N" else LINES + DIAGONALS):
        at_file, at_rank = file + across, rank + up
        while 0 <= at_file < 8 and 0 <= at_rank < 8:
            to = 8 * at_rank + at_file
            if board[to] == "." or board[to].isupper() != own:
                yield to
            if board[to] != "." or kind in "NK":
                break
            at_file, at_rank = at_file + across, at_rank + up


def is_safe(board, white):
    king = board.index("K" if white else "k")
    return all(king not in targets(board, square) for square, man in enumerate(board) if man != "." and man.isupper() != white)


def legal_moves(board, white):
    for square, man in enumerate(board):
        if man == "." or man.isupper() != white:
            continue
        for to in targets(board, square):
            after = list(board)
            after[to], after[square] = man, "."
            text = name(square) + name(to)
            if man in "Pp" and to // 8 in (0, 7):
                after[to], text = "Q" if white else "q", text + "q"
            if is_safe(after, white):
                yield text, after


def main():
    draws = Draws(1)
    made = 0
    while made < int(sys.argv[1]):
        board, white, moves = list(START), True, []
        while len(moves) < int(sys.argv[2]):
            choices = list(legal_moves(board, white))
            if not choices:
                break
            text, board = choices[draws.below(len(choices))]
            moves.append(text)
            white = not white
        if len(moves) == int(sys.argv[2]):
            print(" ".join(moves))
            made += 1


if __name__ == "__main__":
    main()
