#!/usr/bin/env python3
"""Runs scid_mend over bases with faults, and what it made through scid_shell with `--strict`.

usage: cases/mend.py [SHELL MEND]

The bases are put together by make_bases.py, byte by byte and by no code of the programs, and so are the lines that are wanted: each row is a
change of a base, the lines that scid_mend writes, its status, and the lines of `list` over the new base. A row passes where these are so, the
old files are as they were, and scid_shell opens the new base with `--strict` and mends nothing.
"""
import fcntl
import os
import shutil
import subprocess
import sys
import tempfile
from pathlib import Path

sys.dont_write_bytecode = True
import make_bases as made  # noqa: E402

TOP = Path(__file__).resolve().parent.parent
PROGRAMS = ("scid_shell", "scid_mend")
ENDINGS = ("si4", "sn4", "sg4")
FILES_FAULT, USAGE, BAD_INDEX, NOT_ALL = 5, 9, 2, 11


def programs():
    """The two programs: those given, or the proved ones, or else the unproved ones."""
    if len(sys.argv) > 2:
        return [str(Path(word).resolve()) for word in sys.argv[1:3]]
    found = []
    for name in PROGRAMS:
        proved = TOP / "crates" / name / "out" / name
        found.append(str(proved if proved.exists() else TOP / "crates" / name / "out/unproved" / name))
    return found


SHELL, MEND = programs()

# A base of one game, and its line in `list`.
ONE = (made.index([made.VIENNA]), made.VIENNA_NAMES, made.VIENNA_RECORD)
LISTED = "0 0 1-0 1910.??.?? B15 Reti, Richard - Tartakower, Savielly"


def several():
    """Four games of different names: two with the moves e4 and d4, one deleted, one with a tag, comments and a variation."""
    records = [made.game(made.E4), made.game(made.D4),
               made.game(b"\x0c" + made.E4 + b"\x0b\x01\x0d" + made.D4 + b"\x0e\x0c", (b"Start", b"Best"), made.tag(b"Annotator", b"N")),
               made.game(made.C4)]
    says = [dict(ids=(0, 1, 0, 0, 0), result=1, plies=1, home=(11,)), dict(ids=(1, 2, 1, 0, 1), result=2, plies=1, home=(12,), flags=8),
            dict(ids=(2, 3, 1, 1, 1), result=3, plies=1, home=(11,), counts=(1, 2, 1), ratings=(2500, 2400)),
            dict(ids=(3, 0, 0, 1, 0), plies=1, home=(13,), dates=made.DATE)]
    entries, end = [], 0
    for record, of in zip(records, says):
        entries.append(made.entry(end, len(record), **of))
        end += len(record)
    names = made.names_file([("Adams", 2), ("Baker", 2), ("Clark", 2), ("Davis", 2)], [("East", 2), ("West", 2)], [("?", 2), ("Town", 2)],
                            [("1", 2), ("2", 2)])
    return made.index(entries), names, b"".join(records)


MANY = several()
MANY_LISTED = ["0 0 1-0 ????.??.?? - Adams - Baker", "1 0 0-1 ????.??.?? - Baker - Clark", "2 0 1/2-1/2 ????.??.?? - Clark - Davis",
               "3 0 * 2000.05.10 - Davis - Adams"]


def renumbered(lines, first):
    """These lines of `list` with the numbers from this one on."""
    return [f"{first + i} {line.split(' ', 1)[1]}" for i, line in enumerate(lines)]


# Where the entry of game i begins, and where its record does.
ENTRIES = 182
RECORDS = [0, 4, 8]


def with_bytes(base, part, place, new):
    """The base with these bytes at a place of one of its parts."""
    parts = list(base)
    parts[part] = parts[part][:place] + new + parts[part][place + len(new):]
    return tuple(parts)


def cut(base, part, length):
    parts = list(base)
    parts[part] = parts[part][:length]
    return tuple(parts)


INDEX, NAMES, GAMES = range(3)


def entry_of_one(place, new):
    return with_bytes(ONE, INDEX, ENTRIES + place, new)


def mended(lines, came, of, listed, changed=0):
    """What a row wants: these lines, and so many games that came over of so many, some of them changed, as `list` shows them."""
    status = NOT_ALL if came < of or changed else 0
    return lines, f"mended {came} of {of} games, {changed} changed", status, listed


def left_out(fault):
    return mended([f"left out 0: {fault}"], 0, 1, [])


def changed(fault, listed):
    """What a row wants of one game that comes over without what stands for nothing."""
    return mended([f"changed 0: index file: entry of game 0: {fault}"], 1, 1, [listed], changed=1)


def unnamed(field, listed):
    return changed(f"no {field} has its id", listed)


def too_few(length):
    return f"index file: an index of {length} bytes, which are too few for its games"


def counted(count, base=None):
    """The base with another count of games in its header."""
    return with_bytes(MANY if base is None else base, INDEX, 14, count.to_bytes(3, "big"))


# A base with a null move in check, as Scid writes it: 1. e4 e5 2. Qh5 Nc6 3. Qxf7+ and a null move of Black.
E4_E5_QH5 = b"\xcf\xcf\x43\x67"
CHECKED = made.game(E4_E5_QH5 + b"\x22" + b"\x47\x75" + b"\x00")

WHOLE = mended([], 4, 4, MANY_LISTED)
LENGTH = len(MANY[INDEX])
NO_NAMES = [f"{game} 0 {result} {date} - ? - ?" for game, result, date in
            ((0, "1-0", "????.??.??"), (1, "0-1", "????.??.??"), (2, "1/2-1/2", "????.??.??"), (3, "*", "2000.05.10"))]
ALL_UNNAMED = [f"changed {game}: index file: entry of game {game}: no white has its id" for game in range(4)]
PAST = [f"left out {game}: games file: the record of game {game} ends behind the end of the file" for game in range(4)]

# The table of docs/MENDING.md: the ways in which a base is spoilt.
WAYS = [
    ("1. an index cut in its third entry", cut(MANY, INDEX, ENTRIES + 2 * 47 + 10),
     mended(["counted 4, found 2", f"left out 2 to 3: {too_few(ENTRIES + 2 * 47 + 10)}"], 2, 4, MANY_LISTED[:2])),
    ("2. an index without its last byte", cut(MANY, INDEX, LENGTH - 1),
     mended(["counted 4, found 3", f"left out 3: {too_few(LENGTH - 1)}"], 3, 4, MANY_LISTED[:3])),
    ("3. a count that is too low", counted(3), mended(["counted 3, found 4"], 4, 4, MANY_LISTED)),
    ("4. a count of no games", counted(0), mended(["counted 0, found 4"], 4, 4, MANY_LISTED)),
    ("5. a count that is too high", counted(9), mended(["counted 9, found 4", f"left out 4 to 8: {too_few(LENGTH)}"], 4, 9, MANY_LISTED)),
    ("6. the greatest count", counted(16777214),
     mended(["counted 16777214, found 4", f"left out 4 to 16777213: {too_few(LENGTH)}"], 4, 16777214, MANY_LISTED)),
    ("7. an index of another magic", with_bytes(MANY, INDEX, 0, b"\0\0"),
     mended(["index file: not an index; its entries are tried"], 4, 4, MANY_LISTED)),
    ("8. an index of another version", with_bytes(MANY, INDEX, 8, b"\x01\x2c"),
     mended(["index file: an index of version 300; its entries are tried"], 4, 4, MANY_LISTED)),
    ("9. an entry of zeros", with_bytes(MANY, INDEX, ENTRIES + 47, bytes(47)),
     mended(["left out 1: games file: game 1, byte 0: the record ends too early"], 3, 4, [MANY_LISTED[0], *renumbered(MANY_LISTED[2:], 1)])),
    ("10. names cut in the third player", cut(MANY, NAMES, 36 + 9 + 10 + 3),
     mended(["changed 0: index file: entry of game 0: no event has its id", "changed 1: index file: entry of game 1: no black has its id",
             "changed 2: index file: entry of game 2: no white has its id", "changed 3: index file: entry of game 3: no white has its id"],
            4, 4, [MANY_LISTED[0], "1 0 0-1 ????.??.?? - Baker - ?", "2 0 1/2-1/2 ????.??.?? - ? - ?", "3 0 * 2000.05.10 - ? - Adams"],
            changed=4)),
    ("11. names cut in their header", cut(MANY, NAMES, 35), mended(ALL_UNNAMED, 4, 4, NO_NAMES, changed=4)),
    ("12. a names file of no bytes", cut(MANY, NAMES, 0), mended(ALL_UNNAMED, 4, 4, NO_NAMES, changed=4)),
    ("13. names of another magic", with_bytes(MANY, NAMES, 0, b"\0"), mended(ALL_UNNAMED, 4, 4, NO_NAMES, changed=4)),
    ("14. an id that no name has", with_bytes(MANY, INDEX, ENTRIES + 10, b"\0\x07"),
     mended(["changed 0: index file: entry of game 0: no white has its id"], 4, 4, ["0 0 1-0 ????.??.?? - ? - Baker", *MANY_LISTED[1:]], changed=1)),
    ("15. a games file cut in its last record", cut(MANY, GAMES, len(MANY[GAMES]) - 2), mended(PAST[3:], 3, 4, MANY_LISTED[:3])),
    ("16. a games file of no bytes", cut(MANY, GAMES, 0), mended(PAST, 0, 4, [])),
    ("17. a move that is not legal", with_bytes(MANY, GAMES, RECORDS[1] + 2, b"\xbc"),
     mended(["left out 1: games file: game 1, byte 2: a bad move: not legal"], 3, 4, [MANY_LISTED[0], *renumbered(MANY_LISTED[2:], 1)])),
    ("18. a null move in check", (made.index([made.VIENNA, made.entry(25, len(CHECKED), ids=(0, 1, 0, 0, 0), plies=6)]), made.VIENNA_NAMES,
                                  made.VIENNA_RECORD + CHECKED),
     mended(["left out 1: games file: game 1, byte 9: a bad move: not legal"], 1, 2, [LISTED])),
    ("19. a record that crosses a block", with_bytes(MANY, INDEX, ENTRIES, b"\x00\x01\xff\xfe"),
     mended(["left out 0: games file: the record of game 0 crosses the end of a block"], 3, 4, renumbered(MANY_LISTED[1:], 0))),
    ("20. a derived field that differs", with_bytes(MANY, INDEX, ENTRIES + 39, b"\x5b"), WHOLE),
    ("21. a result of no kind", entry_of_one(21, b"\x40"), changed("no such result", LISTED.replace("1-0", "*"))),
    ("22. an ECO code of none", entry_of_one(23, b"\xff\xdd"), changed("no such ECO code", LISTED.replace("B15", "-"))),
    ("23. a date of a month above twelve", entry_of_one(25, b"\x00\x0e\xed\xa0"), changed("a month above twelve", LISTED.replace("1910", "????"))),
    ("24. a rating of no kind", entry_of_one(29, b"\x70\x01"), changed("no such kind of rating", LISTED)),
]

# What a comment says that ends a line before its fault, and bases of a whole game and one whose record has a fault: the record, the fault, and the
# moves that come over with `--fronts`, as `export` writes them; none where the game is left out then too.
SAID = "{scid_mend: the rest of this line is left out, since it has a fault}"
SAID_BEHIND = "{said " + SAID[1:]
NC6, QXF7, NULL = b"\x22", b"\x47\x75", b"\x00"
QUEENS_GAMBIT = made.D4 + made.D5 + made.C4
FRONTS = [
    ("27. a null move in check", CHECKED, "byte 9: a bad move: not legal", f"1. e4 e5 2. Qh5 Nc6 3. Qxf7+ {SAID} *"),
    ("28. a null move in check in a variation", made.game(E4_E5_QH5 + NC6 + made.G3 + b"\x0d" + QXF7 + NULL + made.G3 + b"\x0e" + made.D5),
     "byte 11: a bad move: not legal", f"1. e4 e5 2. Qh5 Nc6 3. g3 (3. Qxf7+ {SAID}) 3... d5 *"),
    ("29. a fault behind a comment, before others", made.game(made.E4 + b"\x0d" + made.D4 + b"\x0c\xbc\x0c\x0e\x0c" + made.D5 + b"\x0c",
                                                               (b"said", b"lost", b"main", b"last")),
     "byte 6: a bad move: not legal", f"1. e4 {{main}} (1. d4 {SAID_BEHIND}) 1... d5 {{last}} *"),
    ("30. a record that ends in a variation in a variation", made.game(made.E4 + b"\x0d" + made.D4 + b"\x0d" + made.C4)[:-1],
     "byte 7: the record ends too early", f"1. e4 (1. d4 {SAID} (1. c4 {SAID})) *"),
    ("31. a record that ends in its comments", made.game(made.E4 + b"\x0c" + made.D5 + b"\x0c", (b"one",)), "byte 11: the record ends too early",
     "1. e4 {one} 1... d5 *"),
    ("32. bytes behind a record", made.game(QUEENS_GAMBIT) + b"more", "byte 6: bytes behind the record", "1. d4 d5 2. c4 *"),
    ("33. a tag of no code", b"\xfb" + made.game(made.E4), "byte 0: a code that stands for no tag name", None),
    ("a second comment", made.game(made.E4 + b"\x0c\x0c" + made.D5, (b"said", b"lost")), "byte 4: a second comment", f"1. e4 {SAID_BEHIND} *"),
    ("a NAG before the first move", made.game(b"\x0b\x01" + made.E4), "byte 2: a mark out of place", f"{SAID} *"),
    ("a NAG without its number", made.game(made.E4 + b"\x0b")[:-1], "byte 4: the record ends too early", f"1. e4 {SAID} *"),
    ("a move without its second byte", made.game(E4_E5_QH5)[:-2], "byte 5: a bad move: a byte is missing", f"1. e4 e5 {SAID} *"),
    ("a variation that is not ended", made.game(made.E4 + b"\x0d" + made.D4), "byte 5: a mark out of place", f"1. e4 (1. d4 {SAID}) *"),
    ("the end of a variation in the main line", made.game(made.E4 + b"\x0e" + made.D5), "byte 3: a mark out of place", f"1. e4 {SAID} *"),
    ("two faults in one line", made.game(made.E4 + b"\x0d\xbc\xbc\x0e" + b"\xbc"), "byte 4: a bad move: not legal", f"1. e4 {SAID} ({SAID}) *"),
    ("a fault behind tags and a start of its own", made.game(b"\x04\xbc", tags=made.tag(b"Annotator", b"N"), start=b"4k3/8/8/8/8/8/8/R3K2R w - - 0 1"),
     "byte 47: a bad move: no man has this number", f"1. Kd1 {SAID} *"),
]

ROWS = [
    ("a base without a fault", ONE, mended([], 1, 1, [LISTED])),
    ("several games, one deleted", MANY, WHOLE),
    ("no games", (made.index([]), made.VIENNA_NAMES, b""), mended([], 0, 0, [])),
    ("an index cut in its one entry", cut(ONE, INDEX, 228), mended(["counted 1, found 0", f"left out 0: {too_few(228)}"], 0, 1, [])),
    ("an index with a part of an entry behind it", (MANY[INDEX] + bytes(46), *MANY[1:]), WHOLE),
    ("an index of another magic and version", with_bytes(with_bytes(MANY, INDEX, 0, b"\0"), INDEX, 8, b"\0\0"),
     mended(["index file: not an index; its entries are tried"], 4, 4, MANY_LISTED)),
    ("an event's date of a month above twelve", entry_of_one(25, b"\x9a\x0e\xec\x00"), changed("a month above twelve", LISTED)),
    ("Black's rating of no kind", entry_of_one(31, b"\xf0\x01"), changed("no such kind of rating", LISTED)),
    ("a result of no kind, a code of none, a late month and no name", with_bytes(entry_of_one(21, b"\x40\x00\xff\xdd\x00\x0e\xed\xa0"), INDEX, ENTRIES + 12,
                                                                                b"\x00\x02"),
     changed("no such result", "0 0 * ????.??.?? - Reti, Richard - ?")),
    ("black without a name", entry_of_one(12, b"\x00\x02"), unnamed("black", "0 0 1-0 1910.??.?? B15 Reti, Richard - ?")),
    ("a record past the end", entry_of_one(4, b"\x00\x1a"), left_out("games file: the record of game 0 ends behind the end of the file")),
    ("a record without its end", entry_of_one(4, b"\x00\x18"), left_out("games file: game 0, byte 24: the record ends too early")),
    ("a tag of no code", with_bytes(ONE, GAMES, 0, b"\xfb"), left_out("games file: game 0, byte 0: a code that stands for no tag name")),
    ("a mark of no kind", with_bytes(ONE, GAMES, 24, b"\x0e"), left_out("games file: game 0, byte 24: a mark out of place")),
    ("a game that is left out and has no name", with_bytes(entry_of_one(10, b"\x00\x07"), GAMES, 24, b"\x0e"),
     left_out("games file: game 0, byte 24: a mark out of place")),
]


# The records that no entry names: bases, what `--loose` tells of them, and the moves of the games that it takes, the last ones of the new base.
D4_RECORD, C4_RECORD = made.game(made.D4), made.game(made.C4)
SAID_RECORD = MANY[GAMES][RECORDS[2]:-len(C4_RECORD)]
GAPS = [len(MANY[GAMES]), len(MANY[GAMES]) + len(D4_RECORD)]


def without(entries, base=MANY):
    """The base without the entries of these games, whose records stay."""
    packed = [base[INDEX][place:place + 47] for place in range(ENTRIES, len(base[INDEX]), 47)]
    return made.index([entry for game, entry in enumerate(packed) if game not in entries]), *base[1:]


def behind(base, more):
    return base[INDEX], base[NAMES], base[GAMES] + more


def took(game, place):
    return f"took {game}: games file: the record at byte {place}, which has no entry"


LOOSE_HEADS = "0 * ????.??.?? - ? - ?"
ALL_LOOSE = [took(game, place) for game, place in enumerate([*RECORDS, len(MANY[GAMES]) - len(C4_RECORD)])]
ALL_MOVES = ["1. e4 *", "1. d4 *", "{Start} 1. e4 $1 {Best} (1. d4) *", "1. c4 *"]
NO_HEADER = "index file: an index of {} bytes, which is no whole header; no entry is known"
GARBAGE = b"garbage \xbc\xbd" + b"\0\0\x0f"
LOOSE = [
    ("34. an index of no bytes", cut(MANY, INDEX, 0), [NO_HEADER.format(0), *ALL_LOOSE], 4, 4, ALL_MOVES),
    ("35. an index of another magic with another length", (b"Scid.xx" + MANY[INDEX][7:-1], *MANY[1:]),
     ["index file: not an index; no entry is known", *ALL_LOOSE], 4, 4, ALL_MOVES),
    ("36. an index cut in its third entry", cut(MANY, INDEX, ENTRIES + 2 * 47 + 10),
     ["counted 4, found 2", took(2, RECORDS[2]), took(3, len(MANY[GAMES]) - len(C4_RECORD))], 4, 4, ALL_MOVES[2:]),
    ("37. a record between two others that no entry names", without({1}), [took(3, RECORDS[1])], 4, 4, ALL_MOVES[1:2]),
    ("38. records behind the last one, and zeros", behind(MANY, D4_RECORD + C4_RECORD + bytes(300)), [took(4, GAPS[0]), took(5, GAPS[1])], 6, 6,
     ["1. d4 *", "1. c4 *"]),
    ("39. garbage before and behind a record without an entry", behind(MANY, GARBAGE + SAID_RECORD + GARBAGE),
     [took(4, GAPS[0] + len(GARBAGE))], 5, 5, ALL_MOVES[2:3]),
    ("40. an index cut in its third entry, and a record with a fault", (*cut(MANY, INDEX, ENTRIES + 2 * 47 + 10)[:2],
                                                                        MANY[GAMES][:-len(C4_RECORD)] + b"\0\0\xbc\x0f"),
     ["counted 4, found 2", took(2, RECORDS[2]), f"left out 3: {too_few(ENTRIES + 2 * 47 + 10)}"], 3, 4, ALL_MOVES[2:3]),
    ("an index whose magic is another and whose length fits", behind((b"Scid.xx" + MANY[INDEX][7:], *MANY[1:]), D4_RECORD),
     ["index file: not an index; its entries are tried", took(4, GAPS[0])], 5, 5, ["1. d4 *"]),
    ("nothing but records with entries", MANY, [], 4, 4, []),
    ("records that say nothing", behind(MANY, b"\0\0\x0f" * 9), [], 4, 4, []),
    ("a record that begins like filling", behind(MANY, b"\0\0\0" + made.D4 + b"\x0f"), [took(4, GAPS[0] + 1)], 5, 5, ["1. d4 *"]),
    ("two records of which one ends a block", (made.index([]), MANY[NAMES], bytes(131072 - len(D4_RECORD)) + D4_RECORD + C4_RECORD),
     [took(0, 131072 - len(D4_RECORD)), took(1, 131072)], 2, 2, ["1. d4 *", "1. c4 *"]),
    ("a record that crosses the end of a block", (made.index([]), MANY[NAMES], bytes(131072 - 3) + made.VIENNA_RECORD), [], 0, 0, []),
    ("a record within that of an entry", (made.index([made.entry(0, len(D4_RECORD) + len(C4_RECORD))]), MANY[NAMES], D4_RECORD + C4_RECORD),
     ["left out 0: games file: game 0, byte 4: bytes behind the record"], 0, 1, []),
    ("an entry whose record ends behind the file", (made.index([made.entry(0, 300)]), MANY[NAMES], D4_RECORD),
     ["left out 0: games file: the record of game 0 ends behind the end of the file", took(1, 0)], 1, 2, ["1. d4 *"]),
]


def write(folder, name, base):
    for ending, content in zip(ENDINGS, base):
        (folder / f"{name}.{ending}").write_bytes(content)


def run(folder, *words):
    """The status, the output and the errors of scid_mend."""
    ran = subprocess.run([MEND, *words], cwd=folder, capture_output=True, text=True, timeout=60)
    return ran.returncode, ran.stdout, ran.stderr


def opened(folder, name):
    """What scid_shell says of a base: its opening with `--strict`, and the games."""
    ran = subprocess.run([SHELL, "--strict", name], cwd=folder, input="list\nexport\n", capture_output=True, text=True, timeout=60)
    return ran.returncode, ran.stdout.splitlines(), ran.stderr


def contents(folder):
    return {path.name: path.read_bytes() for path in folder.iterdir()}


def a_row(folder, base, wanted):
    lines, last, status, listed = wanted
    write(folder, "old", base)
    before = contents(folder)
    got = run(folder, "old", "new")
    assert got == (status, "".join(line + "\n" for line in [*lines, last]), ""), got
    after = contents(folder)
    assert all(after[name] == content for name, content in before.items()), "the old base was changed"
    assert set(after) - set(before) == {f"new.{ending}" for ending in ENDINGS}, set(after)
    code, text, errors = opened(folder, "new")
    count = len(listed)
    assert (code, errors) == (0, ""), (code, errors)
    assert text[: count + 2] == [f"base {count} games 0 mended", *listed, f"filter {count} of {count}"], text[: count + 2]


def the_games_are_the_same(folder):
    """A base without a fault exports the same text as the new one, marks and tags too."""
    write(folder, "old", MANY)
    assert run(folder, "old", "new")[0] == 0
    assert opened(folder, "old") == opened(folder, "new")


def moves_of(text):
    """The moves of the last game of an export, on one line."""
    return " ".join("\n".join(text).rstrip().rpartition("\n\n")[2].split())


def a_front(folder, record, fault, moves):
    """A game whose record has a fault is left out, or comes over with `--fronts` up to it; the game before it comes over in any case."""
    base = (made.index([made.VIENNA, made.entry(25, len(record), ids=(0, 1, 0, 0, 0))]), made.VIENNA_NAMES, made.VIENNA_RECORD + record)
    told = f"1: games file: game 1, {fault}\nmended"
    write(folder, "old", base)
    before = contents(folder)
    assert run(folder, "old", "new") == (NOT_ALL, f"left out {told} 1 of 2 games, 0 changed\n", "")
    got = run(folder, "--fronts", "old", "front")
    wanted = f"changed {told} 2 of 2 games, 1 changed\n" if moves else f"left out {told} 1 of 2 games, 0 changed\n"
    assert got == (NOT_ALL, wanted, ""), got
    assert all(contents(folder)[name] == content for name, content in before.items()), "the old base was changed"
    code, text, errors = opened(folder, "front")
    games = 2 if moves else 1
    assert (code, errors, text[:2]) == (0, "", [f"base {games} games 0 mended", LISTED]), (code, errors, text)
    assert moves is None or moves_of(text) == moves, moves_of(text)


def a_loose_record(folder, base, told, came, of, moves):
    """With `--loose` each whole record that no entry names comes over behind the other games, without a head."""
    write(folder, "old", base)
    before = contents(folder)
    got = run(folder, "--loose", "old", "new")
    taken = sum(line.startswith("took") for line in told)
    status = NOT_ALL if taken or came < of else 0
    assert got == (status, "".join(line + "\n" for line in [*told, f"mended {came} of {of} games, {taken} changed"]), ""), got
    assert all(contents(folder)[name] == content for name, content in before.items()), "the old base was changed"
    code, text, errors = opened(folder, "new")
    assert (code, errors, text[:1]) == (0, "", [f"base {came} games 0 mended"]), (code, errors, text)
    heads = text[1 + came - taken: 1 + came]
    assert heads == [f"{came - taken + i} {LOOSE_HEADS}" for i in range(taken)], heads
    exported = "\n".join(text).rstrip().split("\n\n")
    assert [" ".join(moved.split()) for moved in exported[len(exported) - 2 * taken + 1:: 2]] == moves, exported
    # With both options nothing is lost of it.
    status, text, errors = run(folder, "--loose", "--fronts", "old", "both")
    assert (errors, text.count("took")) == ("", taken), (status, text, errors)


def refusals(folder):
    """What is refused leaves the folder as it was."""
    write(folder, "old", ONE)
    write(folder, "magic", counted(2, with_bytes(ONE, INDEX, 0, b"\x00")))
    write(folder, "older", counted(2, with_bytes(ONE, INDEX, 8, b"\x01\x2c")))
    write(folder, "many", counted(16777215, ONE))
    write(folder, "short", cut(ONE, INDEX, 181))
    (folder / "there.sn4").write_bytes(b"mine")
    before = contents(folder)
    in_the_way = "it is in the way, and this run did not make it; it stays as it is"
    usage = (USAGE, "", "usage: scid_mend [--fronts] [--loose] OLD NEW\n")
    for words, wanted in [
        (("magic", "new"), (BAD_INDEX, "", "bad base: index file: not an index\n")),
        (("older", "new"), (BAD_INDEX, "", "bad base: index file: an index of version 300\n")),
        (("many", "new"), (BAD_INDEX, "", "bad base: index file: an index of 16777215 games, which are too many\n")),
        (("short", "new"), (BAD_INDEX, "", "bad base: index file: an index of 181 bytes, which is no whole header\n")),
        (("old", "there"), (FILES_FAULT, "", f"there.sn4: {in_the_way}\nfiles fault\n")),
        (("old", "old"), (FILES_FAULT, "", f"old.si4: {in_the_way}\nfiles fault\n")),
        ((), usage),
        (("old",), usage),
        (("old", "new", "more"), usage),
        (("old", ""), usage),
        (("--strict", "old"), usage),
        (("--fronts", "old"), usage),
        (("--loose", "old"), usage),
        (("--loose", "--other", "old", "new"), usage),
        (("--fronts", "old", "new", "more"), usage),
        (("old", "--fronts", "new"), usage),
    ]:
        got = run(folder, *words)
        assert got == wanted, (words, got)
        assert contents(folder) == before, (words, sorted(contents(folder)))
    status, _, errors = run(folder, "absent", "new")
    assert status == FILES_FAULT and errors.startswith("absent.si4: ") and contents(folder) == before, errors
    status, _, errors = run(folder, "--loose", "absent", "new")
    assert status == FILES_FAULT and errors.startswith("absent.si4: ") and contents(folder) == before, errors
    assert run(folder, "--version") == (0, "scid_mend 0.1.0\n", "")
    status, text, errors = run(folder, "--help")
    assert (status, errors) == (0, "") and text.startswith("usage: scid_mend [--fronts] [--loose] OLD NEW\n")


def a_compaction_that_was_broken_off(folder):
    """A base whose index is set aside is refused, with the command that puts it right, which then mends."""
    write(folder, "old", ONE)
    for ending in ENDINGS:
        shutil.copy(folder / f"old.{ending}", folder / f"old.{ending}.new")
    (folder / "old.si4").rename(folder / "old.si4.old")
    before = contents(folder)
    status, text, errors = run(folder, "old", "new")
    assert (status, text) == (FILES_FAULT, "") and errors.startswith("old.si4.old: a compact was broken off"), errors
    assert "scid_mend --back old puts it right" in errors and contents(folder) == before
    assert run(folder, "--back", "old")[::2] == (0, "")
    assert run(folder, "old", "new")[0] == 0


def absent_files(folder):
    """A names file or a games file that is not there is as one of no bytes, and that is told. An index is wanted."""
    for ending, told, (lines, last, status, listed) in [
        ("sn4", "names file: not there; no name is known", mended(ALL_UNNAMED, 4, 4, NO_NAMES, changed=4)),
        ("sg4", "games file: not there; no record is known", mended(PAST, 0, 4, [])),
    ]:
        write(folder, "old", MANY)
        (folder / f"old.{ending}").unlink()
        for new in ENDINGS:
            (folder / f"new.{new}").unlink(missing_ok=True)
        before = contents(folder)
        got = run(folder, "old", "new")
        assert got == (status, "".join(line + "\n" for line in [told, *lines, last]), ""), got
        after = contents(folder)
        assert {name: after[name] for name in before} == before and set(after) - set(before) == {f"new.{new}" for new in ENDINGS}, sorted(after)
        code, text, errors = opened(folder, "new")
        assert (code, errors, text[1: len(listed) + 1]) == (0, "", listed), (code, errors, text)
    write(folder, "old", MANY)
    (folder / "old.si4").unlink()
    for new in ENDINGS:
        (folder / f"new.{new}").unlink(missing_ok=True)
    lines = ["index file: not there", NO_HEADER.format(0), *ALL_LOOSE, "mended 4 of 4 games, 4 changed"]
    assert run(folder, "--loose", "old", "new") == (NOT_ALL, "".join(line + "\n" for line in lines), "")
    assert opened(folder, "new")[0] == 0 and not (folder / "old.si4").exists()
    for absent, special in (("sn4", "sg4"), ("sg4", "sn4")):
        write(folder, "old", MANY)
        (folder / f"old.{absent}").unlink()
        (folder / f"old.{special}").unlink()
        os.mkfifo(folder / f"old.{special}")
        for new in ENDINGS:
            (folder / f"new.{new}").unlink(missing_ok=True)
        status, text, errors = run(folder, "old", "new")
        assert status == FILES_FAULT and "it is a folder, a device, a pipe or a socket" in errors, (status, text, errors)
        (folder / f"old.{special}").unlink()


def left_over_files(folder):
    """What a run left of NEW that was broken off is taken away by the next one, and stays where a run at work holds the lock, or where a file has bytes."""
    write(folder, "old", MANY)
    left = {"new.si4": b"", "new.sn4": b"", "new.sg4": b"", "new.sg4.new": b"begun"}
    for name, content in left.items():
        (folder / name).write_bytes(content)
    before = contents(folder)
    with open(folder / "new.sg4", "rb") as games:
        fcntl.flock(games, fcntl.LOCK_EX)
        status, text, errors = run(folder, "old", "new")
    assert (status, text) == (FILES_FAULT, "") and "new.sg4: another run" in errors and contents(folder) == before, (status, text, errors)
    status, text, errors = run(folder, "old", "new")
    assert (status, text, errors) == (0, "mended 4 of 4 games, 0 changed\n", ""), (status, text, errors)
    assert set(contents(folder)) == {f"{name}.{ending}" for name in ("old", "new") for ending in ENDINGS}
    assert opened(folder, "new")[0] == 0
    # A new base that is whole is in the way.
    before = contents(folder)
    assert run(folder, "old", "new")[0] == FILES_FAULT and contents(folder) == before
    # So is one file with bytes, and two empty files alone.
    for name, content in left.items():
        (folder / name).write_bytes(content)
    (folder / "new.sg4.new").unlink()
    for change in (lambda: (folder / "new.sn4").write_bytes(b"mine"), lambda: (folder / "new.sn4").unlink()):
        change()
        before = contents(folder)
        assert run(folder, "old", "new")[0] == FILES_FAULT and contents(folder) == before


def a_full_output(folder):
    """Where the lines can't be written no new base is left, unless it was whole before."""
    write(folder, "old", MANY)
    with open("/dev/full", "w") as full:
        ran = subprocess.run([MEND, "old", "new"], cwd=folder, stdout=full, stderr=subprocess.PIPE, text=True, timeout=60)
    assert (ran.returncode, ran.stderr) == (4, "write fault\n"), ran
    assert opened(folder, "new")[0] == 0


def main():
    rows = [(title, a_row, row) for title, *row in WAYS + ROWS] + [(title, a_front, row) for title, *row in FRONTS]
    rows += [(title, a_loose_record, row) for title, *row in LOOSE]
    for title, shows, row in rows:
        with tempfile.TemporaryDirectory() as folder:
            try:
                shows(Path(folder), *row)
            except AssertionError as wrong:
                raise AssertionError(title) from wrong
    ways = sum(title[0].isdigit() for title, *_ in rows)
    print(f"{ways} ways of spoiling a base, and {len(rows) - ways} bases beside: ok")
    for show in (the_games_are_the_same, refusals, a_compaction_that_was_broken_off, absent_files, left_over_files, a_full_output):
        with tempfile.TemporaryDirectory() as folder:
            show(Path(folder))
        print(f"{show.__name__}: ok")


if __name__ == "__main__":
    main()
