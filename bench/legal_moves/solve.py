#!/usr/bin/env python3
"""Finds the weights that check.py checks, by linear programming, and writes weights.txt. Needs SciPy (python3-scipy).

For each square of the black king it looks for the most moves, where a square may hold parts of several men and a line
parts of several fillings, so long as they agree. The prices of that agreement, rounded, are the weights.
"""
import numpy
from scipy.optimize import linprog
from scipy.sparse import coo_matrix

from check import FILE, PROMOTIONS, UNIT, WEIGHED, kings, leaps, lines, name, steps

MEN = "QRBNPKX"  # Of White queen, rook, bishop, knight or pawn, promoting pawn, king; X a black man.


def on_line(man, slanted):
    """What a line knows of the man."""
    sliders = "QB" if slanted else "QR"
    return "S" if man in sliders else man if man in "KX" else "W"


class Program:
    def __init__(self):
        self.values, self.equal, self.less = [], [], []

    def unknown(self, value):
        self.values.append(value)
        return len(self.values) - 1

    def matrix(self, rows):
        cells = [(r, column, factor) for r, (terms, _) in enumerate(rows) for column, factor in terms]
        r, columns, factors = zip(*cells)
        return coo_matrix((factors, (r, columns)), (len(rows), len(self.values))).tocsr(), [limit for _, limit in rows]

    def solve(self):
        equal, equal_limits = self.matrix(self.equal)
        less, less_limits = self.matrix(self.less)
        found = linprog(-numpy.array(self.values, float), less, less_limits, equal, equal_limits, (0, None),
                        "highs-ipm")
        assert found.status == 0, found.message
        return -found.fun, -found.eqlin.marginals, -found.ineqlin.marginals


def weigh(king):
    program = Program()
    part = {}
    for square in set(range(64)) - {king}:
        for man in MEN:
            if man != "P" or square // 8 == 6:
                value = leaps(square) if man == "N" else 2 if man == "K" and square in (3, 4) else 0
                part[square, man] = program.unknown(value)
        program.less.append(([(part[square, man], 1) for man in MEN if (square, man) in part], 1))
    program.less.append(([(column, 1) for (_, man), column in part.items() if man in "QRBNP"], 15))
    program.equal.append(([(column, 1) for (_, man), column in part.items() if man == "K"], 1))

    priced = []  # For each line the rows whose prices make up the weight of a man on a place.
    for line, slanted in lines():
        into, out_of = {}, {}
        for start, man, end, other, moves in steps(line, king):
            column = program.unknown(moves)
            out_of.setdefault((start, man), []).append((column, 1))
            into.setdefault((end, other), []).append((column, 1))
        program.equal.append((out_of[0, "#"], 1))
        program.equal.append((into[len(line) + 1, "#"], 1))
        rows = {}
        for place, square in enumerate(line, 1):
            for kind in "B" if square == king else WEIGHED:
                held = [(part[square, man], -1) for man in MEN
                        if (square, man) in part and on_line(man, slanted) == kind]
                rows[place, kind] = len(program.equal), len(program.equal) + 1
                for ways in (into, out_of):
                    program.equal.append((ways.get((place, kind), []) + held, 1 if kind == "B" else 0))
        priced.append(rows)

    shared = len(program.less)
    for start, target in PROMOTIONS:
        column = program.unknown(4)
        program.less.append(([(column, 1), (part[start, "P"], -1)] if start != king else [(column, 1)], 0))
        if target == king:
            program.less.append(([(column, 1)], 0))
        elif target - start == 8:
            program.less.append(([(column, 1)] + [(part[target, man], 1) for man in MEN if (target, man) in part], 1))
        else:
            program.less.append(([(column, 1), (part[target, "X"], -1)], 0))

    most, prices, limits = program.solve()
    weights = []
    for (line, _), rows in zip(lines(), priced):
        row = []
        for place in range(1, len(line) + 1):
            for man in WEIGHED:
                row.append(round(UNIT * sum(prices[r] for r in rows.get((place, man), ()))))
        weights.append(row)
    shares = [round(UNIT * min(4, max(0, limits[shared + 2 * number]))) for number in range(len(PROMOTIONS))]
    return most, weights + [shares]


def main():
    with open(FILE, "w") as out:
        out.write("# For each square of the black king: the weights by line, place and man, and the pawns' shares.\n")
        for king in kings():
            most, rows = weigh(king)
            print(f"black king {name(king)}: {most:.2f}", flush=True)
            out.write(name(king) + "\n" + "".join(" ".join(map(str, row)) + "\n" for row in rows))


if __name__ == "__main__":
    main()
