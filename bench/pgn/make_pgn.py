#!/usr/bin/env python3
"""Prints games in Portable Game Notation, with eleven tags each and their moves in lines of up to 79 bytes: the games of a file in
coordinate notation, one a line, in turn.

usage: make_pgn.py GAMES FILE
"""
import pathlib
import sys
import textwrap

sys.path.insert(0, str(pathlib.Path(__file__).resolve().parent.parent / "open"))
from make_games import START, is_safe, legal_moves, name, targets

TAGS = """[Event "Club evening {n}"]
[Site "Vienna AUT"]
[Date "19{year:02}.{month:02}.??"]
[Round "{round}"]
[White "Player, W{white}"]
[Black "Player, B{black}"]
[Result "{result}"]
[WhiteElo "{elo}"]
[BlackElo "2100"]
[ECO "B{eco:02}"]
[Annotator "nobody"]
"""
RESULTS = ["1-0", "0-1", "1/2-1/2"]


def square(text):
    return "abcdefgh".index(text[0]) + 8 * (int(text[1]) - 1)


def after(board, word):
    """The board after a move in coordinate notation."""
    at, to = square(word[:2]), square(word[2:4])
    board, man = list(board), board[at]
    if man in "Kk" and abs(to - at) == 2:
        rook, beside = (at + 3, at + 1) if to > at else (at - 4, at - 1)
        board[beside], board[rook] = board[rook], "."
    if man in "Pp" and (to - at) % 8 and board[to] == ".":
        board[at // 8 * 8 + to % 8] = "."
    board[to], board[at] = man, "."
    if len(word) == 5:
        board[to] = word[4].upper() if man == "P" else word[4]
    return board


def sign(board, white):
    """The sign of check or mate, where this side is to move."""
    if is_safe(board, white):
        return ""
    return "+" if any(True for _ in legal_moves(board, white)) else "#"


def named(board, at, to):
    """A man's letter, and as much of its square as tells it from the others of its kind."""
    man = board[at]
    others = []
    for other, standing in enumerate(board):
        if standing == man and other != at and to in targets(board, other):
            moved = list(board)
            moved[to], moved[other] = man, "."
            if is_safe(moved, man.isupper()):
                others.append(other)
    if not others:
        return man.upper()
    if all(other % 8 != at % 8 for other in others):
        return man.upper() + name(at)[0]
    if all(other // 8 != at // 8 for other in others):
        return man.upper() + name(at)[1]
    return man.upper() + name(at)


def san(board, word):
    """The move in Standard Algebraic Notation, without the sign of check."""
    at, to = square(word[:2]), square(word[2:4])
    man = board[at]
    if man in "Kk" and abs(to - at) == 2:
        return "O-O" if to > at else "O-O-O"
    if man in "Pp":
        text = name(at)[0] + "x" + name(to) if (to - at) % 8 else name(to)
        return text + ("=" + word[4].upper() if len(word) == 5 else "")
    return named(board, at, to) + ("x" if board[to] != "." else "") + name(to)


def movetext(line):
    board, words = list(START), []
    for ply, word in enumerate(line.split()):
        text = san(board, word)
        board = after(board, word)
        text += sign(board, ply % 2 == 1)
        words.append(f"{ply // 2 + 1}. {text}" if ply % 2 == 0 else text)
    return words


def main():
    lines = [line for line in pathlib.Path(sys.argv[2]).read_text().splitlines() if line and not line.startswith("#")]
    games = [" ".join(movetext(line)) for line in lines]
    for n in range(int(sys.argv[1])):
        result = RESULTS[n % 3]
        print(TAGS.format(n=n // 50, year=n % 100, month=n % 12 + 1, round=n % 9 + 1, white=n % 997, black=n % 991, result=result,
                          elo=1800 + n % 700, eco=n % 100))
        print(textwrap.fill(games[n % len(games)] + " " + result, 79))
        print()


if __name__ == "__main__":
    main()
