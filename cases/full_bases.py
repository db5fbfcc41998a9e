#!/usr/bin/env python3
"""Runs the built program on bases that stand one below a limit: the edit that reaches it is done, the next one is refused by name, as a
compaction is that would pass it.

usage: cases/full_bases.py [PROGRAM]

The bases are too large to be kept as cases: each is the Vienna game (make_bases.py) beside as many names of one kind as leave room for one
more, or in a games file that has room for one more record; or one game without moves as often as leaves room for one more game. And one is
a game of the longest record as often as a games file has no room for, all of one record, so that it can't be compacted. Of an event in
which 200 names play there is a crosstable, of one with 201 there is none. An index of depth 40 has room for 390,243 games: one more is
refused while it is kept, and is added under an index of a smaller depth; then one of depth 40 is refused.
"""
import os
import pathlib
import subprocess
import sys
import tempfile

from make_bases import HERE, VIENNA, VIENNA_RECORD, entry, game, index

LONGEST_FILE = 4_294_967_295
MOST_GAMES = 16_777_214
BLOCKS = 32_768
MOST_INDEXED = 16_000_000 // 41
LONGEST_RECORD = 131_071
LIMITS = {"players": 1_048_576, "events": 524_288, "sites": 524_288, "rounds": 262_144}
TAGS = {"players": "White", "events": "Event", "sites": "Site", "rounds": "Round"}


def names_file(counts):
    """As many names of each kind, `0`, `1`, and so on in one width, with their number as id."""
    head, body = bytearray(b"Scid.sn\0" + bytes(4)), bytearray()
    for count in counts:
        head += count.to_bytes(3, "big")
    head += bytes([0, 0, 1] * 4)
    for count in counts:
        id_width = 3 if count >= 65_536 else 2
        before = b""
        for number in range(count):
            name = f"{number:07}".encode()
            shared = len(os.path.commonprefix([before, name]))
            body += number.to_bytes(id_width, "big") + bytes([1, len(name)])
            body += (bytes([shared]) if before else b"") + name[shared:]
            before = name
    return bytes(head + body)


def run(program, parts, games_len, script, copies=0):
    """What the program writes behind its opening line. The index is written with so many more of its last entry."""
    with tempfile.TemporaryDirectory() as room:
        base = pathlib.Path(room, "base")
        for part, content in parts.items():
            base.with_suffix(part).write_bytes(content)
        with base.with_suffix(".si4").open("ab") as entries:
            for _ in range(copies // 1000):
                entries.write(parts[".si4"][-47:] * 1000)
            entries.write(parts[".si4"][-47:] * (copies % 1000))
        os.truncate(base.with_suffix(".sg4"), games_len)
        done = subprocess.run([program, base], input=script, capture_output=True, text=True, check=True)
        return done.stdout.split("\n", 1)[1]


def full_names(program, kind):
    counts = [LIMITS[kind] - 1 if of == kind else 2 for of in LIMITS]
    parts = {".si4": index([VIENNA]), ".sn4": names_file(counts), ".sg4": VIENNA_RECORD}
    script = "".join(f"tag 0 {TAGS[kind]} {value}\n" for value in ("new", "newer", "new"))
    return run(program, parts, len(VIENNA_RECORD), script + "quit\n")


def full_file(program):
    parts = {".si4": index([VIENNA]), ".sn4": names_file([2, 2, 2, 2]), ".sg4": VIENNA_RECORD}
    script = "tag 0 WhiteElo 2600\ntag 0 WhiteElo 2700\n"
    return run(program, parts, LONGEST_FILE - len(VIENNA_RECORD), script + "quit\n")


def full_games(program):
    record = game(b"")
    header = index([])[:14] + (MOST_GAMES - 1).to_bytes(3, "big") + index([])[17:]
    parts = {".si4": header + entry(0, len(record)), ".sn4": names_file([1, 1, 1, 1]), ".sg4": record}
    script = "import <<END\n*\n\n*\nEND\n"
    return run(program, parts, len(record), script + "quit\n", MOST_GAMES - 2)


def full_index(program):
    """One game without moves, as often as an index of depth 40 has room for. A game that takes the place of another needs no room."""
    record = game(b"")
    header = index([])[:14] + MOST_INDEXED.to_bytes(3, "big") + index([])[17:]
    parts = {".si4": header + entry(0, len(record)), ".sn4": names_file([1, 1, 1, 1]), ".sg4": record}
    searches = "".join(f"search ignore position exact {board}\n" for board in (
        "rnbqkbnr/pppppppp/8/8/8/8/PPPPPPPP/RNBQKBNR w", "rnbqkbnr/pppppppp/8/8/4P3/8/PPPP1PPP/RNBQKBNR b"))
    added = "import <<END\n1. e4 *\n\n1. e4 e4 *\nEND\n"
    replaced = f"replace {MOST_INDEXED} <<END\n*\nEND\nreplace 7 <<END\n1. e4 *\n\n*\nEND\nreplace 7 <<END\n1. e4 *\nEND\n"
    script = f"index 40\n{added}demo 1 1\n{replaced}{searches}index 39\n{added}{searches}index 40\ninfo\nindex off\n{searches}index 40\ninfo\n"
    return run(program, parts, len(record), script + "quit\n", MOST_INDEXED - 1)


def text_of_full_index():
    """`1. e4 e4` is no game, which is looked at before what an index has room for."""
    faulty = "error: game 2 line 3 column 7: no legal move\n"
    most = MOST_INDEXED
    told = f"games {most + 1} deleted 0 players 2 events 2 sites 2 rounds 2 unsaved yes index"
    return (
        f"index 40 {most} entries\nerror: game 1: full index\n{faulty}imported 0 refused 2\nerror: full index\n"
        f"error: no game {most}\nerror: one game expected\nreplaced 7\nfilter {most} of {most}\nfilter 1 of {most}\n"
        f"index 39 {most + 1} entries\nadded {most}\n{faulty}imported 1 refused 1\nfilter {most + 1} of {most + 1}\nfilter 2 of {most + 1}\n"
        f"error: index too big\n{told} 39\nindex off\nfilter {most + 1} of {most + 1}\nfilter 2 of {most + 1}\n"
        f"error: index too big\n{told} off\nunsaved\n"
    )


def full_new_file(program):
    record = game(b"\x0c", (b"x" * (LONGEST_RECORD - 5),))
    header = index([])[:14] + (BLOCKS + 1).to_bytes(3, "big") + index([])[17:]
    parts = {".si4": header + entry(0, len(record), counts=(0, 1, 0)), ".sn4": names_file([1, 1, 1, 1]), ".sg4": record}
    return run(program, parts, len(record), "compact\nreset\nquit\n", BLOCKS)


def many_players(program):
    """Each of the names but the last plays one game as White with the next, and wins."""
    last, record = 200, game(b"")
    games = [entry(0, len(record), ids=(name, name + 1, 0, 0, 0), result=1) for name in range(last)]
    parts = {".si4": index(games), ".sn4": names_file([last + 1, 1, 1, 1]), ".sg4": record}
    script = f"cross {0:07}\ndelete {last - 1}\ncross {0:07}\nquit\n"
    return run(program, parts, len(record), script)


def crosstable_of_many_players():
    """All but the last name have one point, the first of one game; the last has none."""
    lines = []
    for row in range(200):
        cells = ["x" if column == row else "1" if column == row + 1 else "0" if column == row - 1 else "." for column in range(200)]
        games = 1 if row in (0, 199) else 2
        lines.append(f"{row + 1} {row:07} {0 if row == 199 else 1}.0/{games} {' '.join(cells)}\n")
    return "".join(lines) + "cross 200 players 199 games\n"


def main():
    program = os.path.realpath(sys.argv[1] if len(sys.argv) > 1 else HERE / "../crates/scid_shell/out/scid_shell")
    failed = 0
    for kind in LIMITS:
        wanted = f"tagged 0\nerror: full {kind}\ntagged 0\nunsaved\n"
        failed += (text := full_names(program, kind)) != wanted
        print(f"full {kind}: {text!r}" if text != wanted else f"full {kind}: as it should be")
    wanted = "tagged 0\nerror: full file\nunsaved\n"
    failed += (text := full_file(program)) != wanted
    print(f"full file: {text!r}" if text != wanted else "full file: as it should be")
    wanted = f"added {MOST_GAMES - 1}\nerror: game 2: full games\nimported 1 refused 1\nunsaved\n"
    failed += (text := full_games(program)) != wanted
    print(f"full games: {text!r}" if text != wanted else "full games: as it should be")
    wanted = text_of_full_index()
    failed += (text := full_index(program)) != wanted
    print(f"full index: {text!r}" if text != wanted else "full index: as it should be")
    wanted = f"error: full file\nfilter {BLOCKS + 1} of {BLOCKS + 1}\n"
    failed += (text := full_new_file(program)) != wanted
    print(f"full new file: {text!r}" if text != wanted else "full new file: as it should be")
    wanted = f"error: too many players\ndeleted 199\n{crosstable_of_many_players()}unsaved\n"
    failed += (text := many_players(program)) != wanted
    print(f"many players: {text!r}" if text != wanted else "many players: as it should be")
    sys.exit(failed != 0)


if __name__ == "__main__":
    main()
