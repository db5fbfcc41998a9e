#!/usr/bin/env python3
"""Makes a base of 100,000 games of one record, for measurements of crosstables.

usage: make_base.py BASE

The games of the event Open are one for each pair of 200 names, 19,900 in all, and lie among those of other events; names and results are drawn
by a generator of numbers with a fixed seed. The frequencies of names are not counted, since no reader looks at them.
"""
import itertools
import pathlib
import random
import sys

sys.dont_write_bytecode = True
sys.path.insert(0, str(pathlib.Path(__file__).resolve().parents[2] / "cases"))
from make_bases import E4, entry, game, index, names_file  # noqa: E402

GAMES = 100000
PLAYERS = 10000
AMONG = 200
EVENTS = 1000
OTHERS = 1000


def main(base):
    draw = random.Random(1)
    pairs = [draw.sample(pair, 2) for pair in itertools.combinations(range(AMONG), 2)]
    rows = [(white, black, 0) for white, black in pairs]
    rows += [(draw.randrange(PLAYERS), draw.randrange(PLAYERS), draw.randrange(1, EVENTS)) for _ in range(GAMES - len(rows))]
    draw.shuffle(rows)
    kinds = [[f"Player {number:05}" for number in range(PLAYERS)], ["Open"] + [f"Event {number:04}" for number in range(1, EVENTS)],
             [f"Site {number:04}" for number in range(OTHERS)], [f"Round {number:04}" for number in range(OTHERS)]]
    record = game(E4)
    entries = []
    for white, black, event in rows:
        ids = [white, black, event, draw.randrange(OTHERS), draw.randrange(OTHERS)]
        entries.append(entry(0, len(record), ids=ids, result=draw.randrange(4), eco=draw.randrange(1, 65501), dates=draw.randrange(1950, 2025) * 512,
                             ratings=(draw.randrange(1800, 2800), draw.randrange(1800, 2800)), plies=1, home=(11,)))
    written = (("si4", index(entries)), ("sn4", names_file(*([(name, 1) for name in kind] for kind in kinds))), ("sg4", record))
    for ending, content in written:
        pathlib.Path(f"{base}.{ending}").write_bytes(content)


if __name__ == "__main__":
    main(sys.argv[1])
