#!/usr/bin/env python3
"""Makes a base of 100,000 games of one record, for measurements of searches by heads.

usage: make_base.py BASE

The players, events, sites and rounds, the dates, ratings, opening codes and results are drawn by a generator of numbers with a fixed seed.
"""
import pathlib
import random
import sys

sys.dont_write_bytecode = True
sys.path.insert(0, str(pathlib.Path(__file__).resolve().parents[2] / "cases"))
from make_bases import E4, entry, game, index, names_file  # noqa: E402

GAMES = 100000
SYLLABLES = ("an", "be", "chi", "dor", "el", "fi", "gan", "hu", "ik", "jo", "kar", "lev", "mo", "nov", "os", "pe", "ra", "sk", "tal", "vi")


def names(draw, count, parts):
    made = {}
    while len(made) < count:
        made["".join(draw.choice(SYLLABLES) for _ in range(parts)).capitalize()] = None
    return list(made)


def main(base):
    draw = random.Random(1)
    kinds = [names(draw, count, parts) for count, parts in ((10000, 5), (1000, 4), (1000, 4), (1000, 4))]
    uses = [[0] * len(kind) for kind in kinds]
    record = game(E4)
    entries = []
    for _ in range(GAMES):
        ids = [draw.randrange(len(kinds[kind])) for kind in (0, 0, 1, 2, 3)]
        for kind, number in zip((0, 0, 1, 2, 3), ids):
            uses[kind][number] += 1
        entries.append(entry(0, len(record), ids=ids, result=draw.randrange(4), eco=draw.randrange(1, 65501), dates=draw.randrange(1950, 2025) * 512,
                             ratings=(draw.randrange(1800, 2800), draw.randrange(1800, 2800)), plies=1, home=(11,)))
    written = (("si4", index(entries)), ("sn4", names_file(*(list(zip(kind, used)) for kind, used in zip(kinds, uses)))), ("sg4", record))
    for ending, content in written:
        pathlib.Path(f"{base}.{ending}").write_bytes(content)


if __name__ == "__main__":
    main(sys.argv[1])
