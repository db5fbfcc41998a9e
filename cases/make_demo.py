#!/usr/bin/env python3
"""Writes what `demo` is to write in some cases: the text, and the games file that it leaves.

usage: cases/make_demo.py

The games are drawn here by docs/COMMANDS.md and the Laws of Chess, their records put together by docs/RECORDS.md and
docs/PACKED_MOVES.md, and their trees by docs/OPENING.md, by no code of the program.
"""
import pathlib

HERE = pathlib.Path(__file__).parent
BLOCK = 131072
START = "RNBQKBNRPPPPPPPP" + "." * 32 + "pppppppprnbqkbnr"
KNIGHT = [(-1, -2), (1, -2), (-2, -1), (2, -1), (-2, 1), (2, 1), (-1, 2), (1, 2)]
KING = [(-1, -1), (0, -1), (1, -1), (-1, 0), (1, 0), (-1, 1), (0, 1), (1, 1)]
ROOK = [(1, 0), (-1, 0), (0, 1), (0, -1)]
BISHOP = [(1, 1), (1, -1), (-1, 1), (-1, -1)]
RIGHTS = {4: "KQ", 60: "kq", 0: "Q", 7: "K", 56: "q", 63: "k"}


class Position:
    def __init__(self, board=START, white=True, rights="KQkq", crossed=None):
        self.board, self.white, self.rights, self.crossed = list(board), white, rights, crossed

    def own(self, man):
        return man != "." and man.isupper() == self.white

    def mine(self, kind):
        return kind.upper() if self.white else kind

    def after(self, move):
        origin, target, promotion = move
        next = Position(self.board, not self.white, self.rights)
        man = next.board[origin]
        next.board[origin], next.board[target] = ".", self.mine(promotion) if promotion else man
        if man in "pP":
            if abs(origin - target) == 16:
                next.crossed = (origin + target) // 2
            elif self.crossed == target:
                next.board[origin // 8 * 8 + target % 8] = "."
        if man in "kK" and abs(origin - target) == 2:
            rook, to = (origin + 3, origin + 1) if target > origin else (origin - 4, origin - 1)
            next.board[rook], next.board[to] = ".", self.mine("r")
        for square in (origin, target):
            next.rights = "".join(right for right in next.rights if right not in RIGHTS.get(square, ""))
        return next

    def attacked(self, square, by_white):
        def stands(step, times):
            file, rank = square % 8 + step[0] * times, square // 8 + step[1] * times
            return self.board[rank * 8 + file] if 0 <= file < 8 and 0 <= rank < 8 else " "

        def is_a(man, kinds):
            return man.isalpha() and man.isupper() == by_white and man.lower() in kinds

        if any(is_a(stands(step, 1), "n") for step in KNIGHT) or any(is_a(stands(step, 1), "k") for step in KING):
            return True
        if any(is_a(stands((side, -1 if by_white else 1), 1), "p") for side in (-1, 1)):
            return True
        for steps, kinds in ((ROOK, "rq"), (BISHOP, "bq")):
            for step in steps:
                times = 1
                while stands(step, times) == ".":
                    times += 1
                if is_a(stands(step, times), kinds):
                    return True
        return False

    def moves(self):
        """The legal moves but the null move, in the order of moves."""
        found = []
        for origin in range(64):
            if self.own(self.board[origin]):
                found += self.reached(origin, self.board[origin].lower())
        king = self.mine("k")
        legal = [move for move in found if not (after := self.after(move)).attacked(after.board.index(king), not self.white)]
        return sorted(legal, key=lambda move: (move[0], move[1], " qrbn".index(move[2] or " ")))

    def reached(self, origin, kind):
        def squares(steps, most):
            for step in steps:
                file, rank = origin % 8, origin // 8
                for _ in range(most):
                    file, rank = file + step[0], rank + step[1]
                    if not (0 <= file < 8 and 0 <= rank < 8) or self.own(self.board[rank * 8 + file]):
                        break
                    yield rank * 8 + file
                    if self.board[rank * 8 + file] != ".":
                        break

        if kind == "p":
            return self.pawn_moves(origin)
        steps = {"n": KNIGHT, "k": KING, "r": ROOK, "b": BISHOP, "q": ROOK + BISHOP}[kind]
        targets = list(squares(steps, 1 if kind in "nk" else 7))
        if kind == "k" and not self.attacked(origin, not self.white):
            for right, empty, crossed in (("k", (1, 2), 1), ("q", (-1, -2, -3), -1)):
                if self.mine(right) in self.rights and all(self.board[origin + way] == "." for way in empty):
                    if not self.attacked(origin + crossed, not self.white):
                        targets.append(origin + 2 * crossed)
        return [(origin, target, None) for target in targets]

    def pawn_moves(self, origin):
        ahead = 8 if self.white else -8
        targets = []
        if self.board[origin + ahead] == ".":
            targets.append(origin + ahead)
            if origin // 8 == (1 if self.white else 6) and self.board[origin + 2 * ahead] == ".":
                targets.append(origin + 2 * ahead)
        for side in (-1, 1):
            target = origin + ahead + side
            if 0 <= origin % 8 + side < 8:
                man = self.board[target]
                if man != "." and not self.own(man) or target == self.crossed:
                    targets.append(target)
        return [(origin, target, kind) for target in targets for kind in ("qrbn" if target // 8 in (0, 7) else [None])]


def games_of(seed, count):
    """The games that are drawn: for each its result, 0 to 3, and its moves."""
    x = seed

    def draw():
        nonlocal x
        x = (x * 6364136223846793005 + 1442695040888963407) % 2**64
        return x // 2**33

    for _ in range(count):
        result, position, line = draw() % 4, Position(), []
        while len(line) < 60 and 0 < len(moves := position.moves()) <= 256:
            line.append(moves[draw() % len(moves)])
            position = position.after(line[-1])
        yield result, line


def packed(position, numbers, move):
    """The bytes of a move, whose man has the number that its square has in `numbers`."""
    origin, target, promotion = move
    kind, number = position.board[origin].lower(), numbers.index(origin)
    difference = target - origin
    along = target % 8 if origin // 8 == target // 8 else 8 + target // 8
    if kind == "k":
        value = [0, -9, -8, -7, -1, 1, 7, 8, 9, -2, 2].index(difference)
    elif kind == "n":
        value = [0, -17, -15, -10, -6, 6, 10, 15, 17].index(difference)
    elif kind == "b":
        value = target % 8 + (0 if (target % 8 > origin % 8) == (target > origin) else 8)
    elif kind == "p":
        value = 15 if abs(difference) == 16 else abs(difference) - 7 + 3 * " qrbn".index(promotion or " ")
    elif kind == "r" or origin % 8 == target % 8 or origin // 8 == target // 8:
        value = along
    else:
        return bytes([number * 16 + origin % 8, 64 + target])
    return bytes([number * 16 + value])


def record(line):
    """The record of a game from the initial position."""
    sides = {True: [4, 0, 1, 2, 3, 5, 6, 7, *range(8, 16)], False: [60, 56, 57, 58, 59, 61, 62, 63, *range(48, 56)]}
    position, body = Position(), b""
    for move in line:
        origin, target, promotion = move
        own, other = sides[position.white], sides[not position.white]
        body += packed(position, own, move)
        man = position.board[origin]
        own[own.index(origin)] = target
        if man in "kK" and abs(origin - target) == 2:
            rook, to = (origin + 3, origin + 1) if target > origin else (origin - 4, origin - 1)
            own[own.index(rook)] = to
        taken = origin // 8 * 8 + target % 8 if man in "pP" and target == position.crossed else target
        if taken in other:
            other[other.index(taken)] = other[-1]
            other.pop()
        position = position.after(move)
    promotions = [promotion for _, _, promotion in line if promotion]
    flags = 2 * bool(promotions) + 4 * any(promotion != "q" for promotion in promotions)
    return bytes([0, flags]) + body + bytes([15])


def games_file(games):
    """The records one behind the other, none of which crosses the end of a block."""
    out = b""
    for _, line in games:
        body = record(line)
        if len(out) % BLOCK + len(body) > BLOCK:
            out += bytes(BLOCK - len(out) % BLOCK)
        out += body
    return out


def square(number):
    return "abcdefgh"[number % 8] + str(number // 8 + 1)


def row(name, games):
    """A line of a tree, of the numbers and results of its games."""
    white, draws, black, unfinished = (sum(result == code for _, result in games) for code in (1, 3, 2, 0))
    decided = white + draws + black
    score = 1000 * (2 * white + draws) // (2 * decided) if decided else "-"
    ratings = [sum(rating(number % 400) for number, _ in games) // len(games) for rating in (lambda n: 2000 + n, lambda n: 2400 - n)]
    counts = [len(games), white, draws, black, unfinished]
    return f"{name:<8}" + "".join(f"{count:>9}" for count in counts) + "".join(f"{part:>6}" for part in [score, *ratings, "-"]) + "\n"


def tree(games):
    """The tree of the initial position."""
    rows = {}
    for number, (result, line) in enumerate(games):
        rows.setdefault(line[0], []).append((number, result))
    ordered = sorted(rows.items(), key=lambda item: (-len(item[1]), item[0][:2]))
    named = [(("N" if move[0] in (1, 6) else "") + square(move[1]), hits) for move, hits in ordered]
    return "".join(row(name, hits) for name, hits in named) + row("total", [hit for _, hits in named for hit in hits])


def demo_text(games):
    plies = sum(len(line) for _, line in games)
    return f"demo {len(games)} games {plies} plies\nfilter {len(games)} of {len(games)}\n" + tree(games)


def write(case, script, text, games):
    folder = HERE / case
    (folder / "after").mkdir(parents=True, exist_ok=True)
    (folder / "words").write_text("--create\nbase\n")
    (folder / "script").write_text(script)
    (folder / "text").write_text("base 0 games 0 mended\n" + text + "unsaved\n")
    (folder / "after" / "base.sg4").write_bytes(games_file(games))
    for name in ("base.si4", "base.sn4"):
        (folder / "after" / name).write_bytes(b"")


one = list(games_of(1, 1))
listed = "0 0 0-1 ????.??.?? - Demo White - Demo Black\nfilter 1 of 1\n"
write("demo_of_one_game", "demo 1 1\nlist\n", demo_text(one) + listed, one)
many = list(games_of(7, 2000))
write("demo_of_many_games", "demo 7 2000\n", demo_text(many), many)
mated = list(games_of(257, 1))
write("demo_of_a_mate", "demo 257 1\n", demo_text(mated), mated)
