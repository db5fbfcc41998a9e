#!/usr/bin/env python3
"""Checks that no position has more than 256 legal moves, by whole numbers alone. docs/LEGAL_MOVES.md tells the method.

White is to move, and the black king is on one of the files a to d: every position is like one of these, by a mirror.
For each square of the black king the file weights.txt has weights, which charge each man with some of the moves. Any
weights give a bound that holds; good ones give a small bound.
"""
import os
import sys

UNIT = 20  # The parts of a move; weights are whole numbers of them.
ROOM = 256  # The list has room for so many moves.
FILE = os.path.join(os.path.dirname(os.path.abspath(__file__)), "weights.txt")


# Squares are 0 to 63, file by file within a rank. A line is all squares of a rank, a file or a diagonal, in order.
def beside(square, files, ranks):
    """The square so many files and ranks away, or None beyond the edge."""
    file, rank = square % 8 + files, square // 8 + ranks
    return 8 * rank + file if 0 <= file < 8 and 0 <= rank < 8 else None


def lines():
    """The 42 lines of two squares or more, each with whether it is a diagonal."""
    found = []
    for files, ranks in ((1, 0), (0, 1), (1, 1), (-1, 1)):
        for square in range(64):
            if beside(square, -files, -ranks) is None:
                line = []
                while square is not None:
                    line.append(square)
                    square = beside(square, files, ranks)
                if len(line) > 1:
                    found.append((line, files != 0 and ranks != 0))
    return found


# What a line knows of a man: S is a white man that moves along the line any number of squares, K the white king,
# W another white man, X a black man, B the black king. '#' is the edge of the board.
WEIGHED = "SKWX"


def toward(man, gap, other):
    """The moves of a man over `gap` empty squares toward the next man or the edge, with the capture of it."""
    if man == "S":
        return gap + (other == "X")
    if man == "K":
        return 1 if gap > 0 or other == "X" else 0
    return 0


def attacks(man, gap, other):
    """Whether the man attacks the black king, which is the next man on the line."""
    return other == "B" and (man == "S" or man == "K" and gap == 0)


def steps(line, king):
    """All pairs of neighbours on a line that a position can have: (place, man, next place, next man, moves of both)."""
    places = ["#"] + ["B" if square == king else WEIGHED for square in line] + ["#"]
    for end in range(1, len(places)):
        for start in range(end):
            if "B" in places[start + 1:end]:
                continue  # The square of the black king is not empty.
            gap = end - start - 1
            for man in places[start]:
                for other in places[end]:
                    if not attacks(man, gap, other) and not attacks(other, gap, man):
                        yield start, man, end, other, toward(man, gap, other) + toward(other, gap, man)


def surplus(line, king, weights):
    """The most that the moves along a line are worth beyond the weights of its men, over all ways to fill the line."""
    best = {(0, "#"): 0}
    for start, man, end, other, moves in steps(line, king):
        if (start, man) in best:
            value = best[start, man] + UNIT * moves - weights.get((end, other), 0)
            if (end, other) not in best or best[end, other] < value:
                best[end, other] = value
    return best[len(line) + 1, "#"]


def leaps(square):
    """The most moves of a knight on the square, or of a pawn there that does not promote."""
    knight = sum(beside(square, files, ranks) is not None
                 for files in (-2, -1, 1, 2) for ranks in (-2, -1, 1, 2) if abs(files) != abs(ranks))
    pawn = 0
    if 1 <= square // 8 <= 5:
        pawn = (2 if square // 8 == 1 else 1) + sum(beside(square, files, 1) is not None for files in (-1, 1))
    return max(knight, pawn)


# A pawn on the seventh rank promotes, in four ways, onto a target: the square before it, where that is empty, or one
# diagonally before it, where a black man stands.
PROMOTIONS = [(square, beside(square, files, 1)) for square in range(48, 56) for files in (-1, 0, 1)
              if beside(square, files, 1) is not None]


def bound(king, weights, shares):
    """A bound of the moves, in parts of a move, for the black king on its square: sums of what the squares may bear.

    weights: for each line what each man on each place is charged with. shares: for each promotion how much of its
    four moves the pawn is charged with; the target is charged with the rest.
    """
    total = 0
    straight = [dict.fromkeys(WEIGHED, 0) for _ in range(64)]
    diagonal = [dict.fromkeys(WEIGHED, 0) for _ in range(64)]
    for (line, slanted), charge in zip(lines(), weights):
        total += surplus(line, king, charge)
        for (place, man), weight in charge.items():
            (diagonal if slanted else straight)[line[place - 1]][man] += weight

    gains, crowns = [], []
    for square in range(64):
        if square == king:
            continue
        rook, bishop = straight[square], diagonal[square]
        both = {man: rook[man] + bishop[man] for man in WEIGHED}
        pawn, empty, black = both["W"], 0, both["X"]
        for (start, target), share in zip(PROMOTIONS, shares):
            if start == square:
                pawn += share
            if target == square and target - start == 8:
                empty += 4 * UNIT - share
            if target == square and target - start != 8:
                black += 4 * UNIT - share
        white = [both["S"], rook["S"] + bishop["W"], rook["W"] + bishop["S"], both["W"] + UNIT * leaps(square)]
        if square // 8 == 6:
            white.append(pawn)
        crown = both["K"] + (2 * UNIT if square in (3, 4) else 0)  # Castling, from e1 or its mirror image.
        without = max(empty, black)
        total += without
        gains.append(max(0, max(white) - without))
        crowns.append(crown - without)
    # One white king and at most 15 other white men.
    return total + max(crowns) + sum(sorted(gains)[-15:])


def kings():
    return [square for square in range(64) if square % 8 < 4]


def name(square):
    return "abcdefgh"[square % 8] + "12345678"[square // 8]


def read(file):
    """For each square of the black king its weights by line, and its shares."""
    rows = [row.split() for row in open(file) if not row.startswith("#")]
    found = {}
    for king in kings():
        (head,), *body = rows[:len(lines()) + 2]
        rows = rows[len(lines()) + 2:]
        assert head == name(king)
        weights = []
        for (line, _), row in zip(lines(), body):
            cells = [(place, man) for place in range(1, len(line) + 1) for man in WEIGHED]
            assert len(row) == len(cells)
            weights.append({cell: int(number) for cell, number in zip(cells, row)})
        shares = [int(number) for number in body[-1]]
        assert len(shares) == len(PROMOTIONS) and all(0 <= share <= 4 * UNIT for share in shares)
        found[king] = weights, shares
    assert not rows
    return found


def main():
    most = 0
    for king, (weights, shares) in read(FILE).items():
        moves = bound(king, weights, shares) // UNIT
        print(f"black king {name(king)}: at most {moves} moves")
        most = max(most, moves)
    print(f"every position: at most {most} moves")
    return 0 if most <= ROOM else 1


if __name__ == "__main__":
    sys.exit(main())
