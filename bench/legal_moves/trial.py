#!/usr/bin/env python3
"""Tries the parts of check.py on positions at random, with moves that are found in another way, a step at a time."""
import itertools
import random

from check import PROMOTIONS, UNIT, WEIGHED, kings, leaps, lines, steps, surplus

BEST = "knQ1QQ1K/nnQ4Q/Q4Q2/3Q4/1Q4Q1/4Q3/2Q4Q/Q4Q2"  # The best position known.
KING = [(1, 0), (0, 1), (-1, 0), (0, -1), (1, 1), (1, -1), (-1, 1), (-1, -1)]
KNIGHT = [(1, 2), (2, 1), (-1, 2), (-2, 1), (1, -2), (2, -1), (-1, -2), (-2, -1)]
WAYS = {"Q": KING, "R": KING[:4], "B": KING[4:], "K": KING, "N": KNIGHT}


def placement(text):
    board = {}
    for rank, row in zip(range(7, -1, -1), text.split("/")):
        file = 0
        for letter in row:
            if letter.isalpha():
                board[file, rank] = letter
            file += 1 if letter.isalpha() else int(letter)
    return board


def moves(board, place):
    """The moves of the white man on the place, as (target, promoted man); they may leave its king attacked.

    An empty square above a pawn may be one of en passant, so a pawn captures there too.
    """
    (file, rank), man, found = place, board[place], []
    if man == "P":
        ahead = [(file, up) for up in range(rank + 1, 4 if rank == 1 else rank + 2)]
        targets = [to for to in ahead if to not in board and ahead[0] not in board]
        targets += [(side, rank + 1) for side in (file - 1, file + 1)
                    if 0 <= side < 8 and board.get((side, rank + 1), "." if rank == 6 else "p").islower()]
        return [(to, promoted) for to in targets for promoted in ("QRBN" if rank == 6 else " ")]
    for across, up in WAYS[man]:
        to = file + across, rank + up
        while 0 <= to[0] < 8 and 0 <= to[1] < 8 and not board.get(to, ".").isupper():
            found.append((to, " "))
            if man in "NK" or to in board:
                break
            to = to[0] + across, to[1] + up
    return found


def chance(king):
    """A board with the black king on its square, one white king, and others at random, many on the last two ranks."""
    board = {(king % 8, king // 8): "k"}
    for man in "K" + "".join(random.choices("QRBNPp", (4, 1, 1, 1, 3, 4), k=random.randrange(25))):
        square = random.choice((random.randrange(64), random.randrange(48, 64)))
        place = square % 8, square // 8
        if place not in board and not (man == "P" and place[1] in (0, 7)):
            board[place] = man
    return board if "K" in board.values() else chance(king)


def on_line(man, slanted):
    if man.islower():
        return "B" if man == "k" else "X"
    return "S" if man in ("QB" if slanted else "QR") else man if man == "K" else "W"


def compare(board, king):
    """The moves along lines are those of check.py, and the others are no more than it allows. Gives all moves."""
    count, far = 0, 0
    at = {8 * rank + file: man for (file, rank), man in board.items()}
    for square, man in at.items():
        if man.isupper():
            found = moves(board, (square % 8, square // 8))
            assert len(set(found)) == len(found)
            count += len(found)
            if man in "QRBK":
                far += len(found)
            elif man == "P" and square // 8 == 6:
                hits = [target for start, target in PROMOTIONS if start == square
                        and (at.get(target, "K").islower() if target - start != 8 else target not in at)]
                assert len(found) == 4 * len(hits)
            else:
                assert len(found) <= leaps(square)
    for line, slanted in lines():
        known = {(start, man, end, other): worth for start, man, end, other, worth in steps(line, king)}
        men = [(place, on_line(at[square], slanted)) for place, square in enumerate(line, 1) if square in at]
        men = [(0, "#")] + men + [(len(line) + 1, "#")]
        far -= sum(known[left + right] for left, right in zip(men, men[1:]))
    assert far == 0
    return count


def compare_surplus(line, king):
    """The surplus of a line is the greatest over all its fillings, each worked out by itself."""
    weights = {(place, man): random.randrange(-60, 61) for place in range(1, len(line) + 1) for man in WEIGHED}
    known = {(start, man, end, other): worth for start, man, end, other, worth in steps(line, king)}
    best = None
    for filling in itertools.product(*("B" if square == king else WEIGHED + " " for square in line)):
        men = [(0, "#")] + [(place, man) for place, man in enumerate(filling, 1) if man != " "]
        pairs = [left + right for left, right in zip(men, men[1:] + [(len(line) + 1, "#")])]
        if all(pair in known for pair in pairs):
            worth = UNIT * sum(known[pair] for pair in pairs) - sum(weights.get(man, 0) for man in men)
            best = worth if best is None else max(best, worth)
    assert best == surplus(line, king, weights)


def main():
    print(f"the best position known: {compare(placement(BEST), 56)} moves")
    tried = 0
    while tried < 1000:
        king = random.choice(kings())
        board = chance(king)
        if all(board.get(to) != "k" for place in board if board[place].isupper() for to, _ in moves(board, place)):
            compare(board, king)
            tried += 1
    print(f"{tried} positions: moves as check.py counts them")
    short = [line for line, _ in lines() if len(line) <= 5]
    for line in short:
        for king in line + [64]:
            compare_surplus(line, king)
    print(f"{len(short)} lines: surplus as by all fillings")


if __name__ == "__main__":
    main()
