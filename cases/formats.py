#!/usr/bin/env python3
"""Runs scid_shell over bases with one game whose record, entry, header or names are bytes that were worked out from the formats by hand or by
another program (docs/RECORDS.md, docs/INDEX_FILE.md, docs/NAMES_FILE.md), good ones and faulty ones, and over texts in PGN (docs/PGN.md).

usage: cases/formats.py [PROGRAM]

A faulty row passes where the base is refused with its fault, in its place. A record passes where the base opens, and where the record that a
tag of the head makes the program write anew is the row's written form; a main line, where each of its positions is found at its ply; a field
of an entry at its greatest value, where all that is told of the game is as before but for that field; a text, where its game is shown as it is
written.
"""
import pathlib
import struct
import subprocess
import sys
import tempfile

sys.dont_write_bytecode = True
HERE = pathlib.Path(__file__).resolve().parent
sys.path.insert(0, str(HERE.parent / "bench" / "find"))
import make_bases as made  # noqa: E402
from make_base import START, square  # noqa: E402

PROGRAM = pathlib.Path(sys.argv[1] if len(sys.argv) > 1 else HERE / "../crates/scid_shell/out/scid_shell").resolve()
NAMES = made.VIENNA_NAMES

# `{Start} 1. e4 $1 $14 {Best}} (1. d4 d5 (1... Nf6)) 1... e5`.
NESTED = b"\x00\x00\x0c\xcf\x0b\x01\x0b\x0e\x0c\x0d\xbf\xbf\x0da\x0e\x0e\xcf\x0fStart\x00Best}\x00"

# Records as they are written: of whole games, of starts of their own with promotions, of nested variations, with NAGs that look like marks,
# and with a tag.
WRITTEN = [
    b"\x00\x00\x0f",
    b"\x00\x00\xcf\xa1\xbf\xbf(\xb0&aJ\xcf\xb2C`3D\x09aO\x046\x01;\x0f",
    b"\x00\x00gab\x0f",
    b"\x00\x037k/P7/8/8/8/8/8/KQQQ4 w - - 0 1\x00\x14\x0f",
    b"\x00\x074k3/P7/8/8/8/8/8/4K3 w - - 0 1\x00\x1d\x01\x12\x01\x04\x04\x0f",
    b"\x00\x00\xcf\xbf\xbf\x0f",
    b"\x00\x00\xcfa\xc1\xbf\xc0\xb1\x0f",
    NESTED,
    b"\x09EventDate\x0a2004.01.02\x00\x00\xcf\x0f",
    b"\x00\x00\xcf\x0b\x0e\x0b\x0f\x0f",
]

# The written form of 1. e4 $1 {x} (1. d4).
ONE_NOTE = b"\x00\x00\xcf\x0b\x01\x0c\x0d\xbf\x0e\x0fx\x00"

# Records in another form, and their written form: the marks of that game in every other order; NAGs before and behind a variation; comments
# of a move and of its variation; comments without a text; every coded name, two of them reserved, and a packed date; a tag of a reserved
# name; the FEN of the initial position, with the numbers of its order; flags that are not looked at.
OTHERWISE = [
    (b"\x00\x00\xcf\x0b\x01\x0d\xbf\x0e\x0c\x0fx\x00", ONE_NOTE),
    (b"\x00\x00\xcf\x0c\x0b\x01\x0d\xbf\x0e\x0fx\x00", ONE_NOTE),
    (b"\x00\x00\xcf\x0c\x0d\xbf\x0e\x0b\x01\x0fx\x00", ONE_NOTE),
    (b"\x00\x00\xcf\x0d\xbf\x0e\x0b\x01\x0c\x0fx\x00", ONE_NOTE),
    (b"\x00\x00\xcf\x0d\xbf\x0e\x0c\x0b\x01\x0fx\x00", ONE_NOTE),
    (b"\x00\x00\xcf\x0c\x0b\x01\x0d\xbf\x0e\x0b\x0e\x0fx\x00", b"\x00\x00\xcf\x0b\x01\x0b\x0e\x0c\x0d\xbf\x0e\x0fx\x00"),
    (b"\x00\x00\xcf\x0d\xbf\x0c\x0e\x0c\x0fx\x00y\x00", b"\x00\x00\xcf\x0c\x0d\xbf\x0c\x0e\x0fy\x00x\x00"),
    (b"\x00\x00\x0c\xcf\x0c\x0f\x00\x00", b"\x00\x00\xcf\x0f"),
    (b"\xf1\x01a\xf2\x01b\xf3\x01c\xf4\x01d\xf5\x01e\xf6\x01f\xf7\x01g\xf8\x01h\xf9\x01i\xfa\x01j\x00\x00\x0f",
     b"\x0cWhiteCountry\x01a\x0cBlackCountry\x01b\x09Annotator\x01c\x08PlyCount\x01d\x09EventDate\x01e"
     b"\x07Opening\x01f\x09Variation\x01g\x06Source\x01i\x00\x00\x0f"),
    (b"\xff\x0f\xa8\"\x00\x00\x0f", b"\x09EventDate\x0a2004.01.02\x00\x00\x0f"),
    (b"\xf8\x01x\x03FEN\x00\x00\x00\x0f", b"\x00\x00\x0f"),
    (b"\x00\x01rnbqkbnr/pppppppp/8/8/8/8/PPPPPPPP/RNBQKBNR w KQkq - 0 1\x00O\x0f", b"\x00\x00\xcf\x0f"),
    (b"\x00\xfe\xcf\x0f", b"\x00\x00\xcf\x0f"),
    (b"\x01!\x00\x00\x00\x0f", b"\x01!\x00\x00\x00\x0f"),
]

# Records that are nearly faulty: for each fault the nearest bytes that have none; and a name of 240 bytes.
NEIGHBOURS = [
    b"\xf0" + 240 * b"a" + b"\x00\x00\x00\x0f",
    b"\xfa\x00\x00\x00\x0f",
    b"\x01!\x00\x00\x00\x0f",
    b"\x01~\x00\x00\x00\x0f",
    b"\x01a\x01\x01\x00\x00\x0f",
    b"\xff\x0f\xff\x9f\x00\x00\x0f",
    b"\x00\x014k3/8/8/8/8/8/8/4K3 w\x00\x0f",
    b"\x00\x00\xcf\x0b\x01\x0f",
    b"\x00\x00\xcf\x0d\x0e\x0f",
    b"\x00\x00\xcf\x0d\xcf\x0b\x01\x0e\x0f",
    b"\x00\x00\x0c\xcf\x0c\x0f\x00\x00",
    b"\x00\x00\xcf\x0c\x0d\x0c\x0e\x0f\x00\x00",
    b"\x00\x00\x0c\x0fx\x00",
    b"\x00\x00\xcf\xcfCg\x0f",
    b"\x00\x00\xcf\xbf\xc0\xb1\x0f",
    b"\x00\x00(\x0f",
    b"\x00\x00\xcf\xcf\x07\x0f",
]

# Bytes that are no record, the place of their first fault, and what it is.
FAULTY = [
    (b"\xfb\x00\x00\x0f", 0, "a code that stands for no tag name"),
    (b"\x01a\x01b\xfe\x00\x00\x0f", 4, "a code that stands for no tag name"),
    (b"\x01 \x00\x00\x00\x0f", 0, "a byte in a tag name that no name has"),
    (b"\x01\"\x00\x00\x00\x0f", 0, "a byte in a tag name that no name has"),
    (b"\x02a]\x00\x00\x00\x0f", 0, "a byte in a tag name that no name has"),
    (b"\x01\x7f\x00\x00\x00\x0f", 0, "a byte in a tag name that no name has"),
    (b"\x03a ", 0, "a byte in a tag name that no name has"),
    (b"\x03ab", 3, "the record ends too early"),
    (b"\x01a", 2, "the record ends too early"),
    (b"\x01a\x02b\x00\x00\x00\x0f", 0, "a zero byte in a value, or a date out of range"),
    (b"\x01a\x03b\x00", 0, "a zero byte in a value, or a date out of range"),
    (b"\x01a\x03bc", 5, "the record ends too early"),
    (b"\xf5\x02b", 3, "the record ends too early"),
    (b"\xff\x10\x00\x00\x00\x00\x0f", 0, "a zero byte in a value, or a date out of range"),
    (b"\xff\x0f\xa1\xa0\x00\x00\x0f", 0, "a zero byte in a value, or a date out of range"),
    (b"\xff\x0f\xa1", 3, "the record ends too early"),
    (b"", 0, "the record ends too early"),
    (b"\x00", 1, "the record ends too early"),
    (b"\x00\x01x\x00\x0f", 2, "a start that is no position"),
    (b"\x00\x01x", 3, "the record ends too early"),
    (b"\x00\x00", 2, "the record ends too early"),
    (b"\x00\x00\xcf\x0b", 4, "the record ends too early"),
    (b"\x00\x00\x0b\x01\x0f", 2, "a mark out of place"),
    (b"\x00\x00\x0d\x0e\x0f", 2, "a mark out of place"),
    (b"\x00\x00\xcf\x0d\x0b\x01\x0e\x0f", 4, "a mark out of place"),
    (b"\x00\x00\xcf\x0e\x0f", 3, "a mark out of place"),
    (b"\x00\x00\xcf\x0d\x0f", 4, "a mark out of place"),
    (b"\x00\x00\x0c\x0c\x0f\x00\x00", 3, "a second comment"),
    (b"\x00\x00\xcf\x0c\x0d\x0e\x0c\x0f\x00\x00", 6, "a second comment"),
    (b"\x00\x00\x0f\x00", 3, "bytes behind the record"),
    (b"\x00\x00\x0c\x0fx\x00y", 6, "bytes behind the record"),
    (b"\x00\x00\x0c\x0fx", 5, "the record ends too early"),
    (b"\x00\x00\xcf\xcfC", 5, "a bad move: a byte is missing"),
    (b"\x00\x00\xcf\xbf\xc0\xff\x0f", 5, "a bad move: no man has this number"),
    (b"\x00\x00)\x0f", 2, "a bad move: no such square"),
    (b"\x00\x00\x10\x0c\x0f", 2, "a bad move: no such square"),
    (b"\x00\x00\xcf\xcfC\x0f\x0f", 4, "a bad move: no such square"),
    (b"\x00\x00\xcf\x0a\x0f", 3, "a bad move: not legal"),
    (b"\x00\x00\xcf\x0d\xcf\xcf\x0e\xc8\x0f", 7, "a bad move: not legal"),
]

# Names files whose header is faulty.
HEADERS = [
    (b"", "the file ends too early"),
    (b"Scid.si", "the file ends too early"),
    (b"Scid.si\x00", "not a names file"),
    (b"Scid.sn\x01", "not a names file"),
    (b"Scid.sn\x00\x00\x00\x00", "the file ends too early"),
    (b"Scid.sn\x00\x00\x00\x00\x00\x10\x00\x01", "too many names"),
    (b"Scid.sn\x00\x00\x00\x00\x00\x10\x00\x00\x08\x00\x01", "too many names"),
    (b"Scid.sn\x00\x00\x00\x00\x00\x10\x00\x00\x08\x00\x00\x08\x00\x01", "too many names"),
    (b"Scid.sn\x00\x00\x00\x00\x00\x10\x00\x00\x08\x00\x00\x08\x00\x00\x04\x00\x01", "too many names"),
    (b"Scid.sn" + 27 * b"\x00", "the file ends too early"),
]

# A number of players and what follows the header, each with the place of the fault and the fault. `Ab` and `Abc` are whole.
PLAYERS = [
    (1, b"\x00", 0, "the file ends too early"),
    (1, b"\x00\x00", 0, "the file ends too early"),
    (1, b"\x00\x00\x01", 0, "the file ends too early"),
    (1, b"\x00\x00\x01\x02A", 0, "the file ends too early"),
    (1, b"\x00\x01\x01\x02Ab", 0, "an id past the number of names"),
    (1, b"\x00\x00\x01\x02A\x00", 0, "a zero byte in a name"),
    (1, b"\x00\x00\x01\x03\x00", 0, "a zero byte in a name"),
    (2, b"\x00\x00\x01\x02Ab\x00\x00", 1, "an id that stands twice"),
    (2, b"\x00\x00\x01\x02Ab\x00\x01\x01\x03", 1, "the file ends too early"),
    (2, b"\x00\x00\x01\x02Ab\x00\x01\x01\x02\x03", 1, "a shared prefix that is too long"),
    (2, b"\x00\x00\x01\x02Ab\x00\x01\x01\x05\x03", 1, "a shared prefix that is too long"),
    (2, b"\x00\x00\x01\x02Ab\x00\x01\x01\x01\x02", 1, "a shared prefix that is too long"),
    (2, b"\x00\x00\x01\x02Ab\x00\x01\x01\x03\x02\x00", 1, "a zero byte in a name"),
    (2, b"\x00\x00\x01\x02Ab\x00\x01\x01\x03\x02", 1, "the file ends too early"),
    (2, b"\x00\x00\x01\x02Ab\x00\x01\x01\x02\x02", 1, "a name that stands twice"),
    (2, b"\x00\x00\x01\x02Ab\x00\x01\x01\x02\x00Ab", 1, "a name that stands twice"),
    (3, b"\x00\x01\x01\x02Ab\x00\x00\x01\x03\x02c\x00\x03", 2, "an id past the number of names"),
]

# How many bytes of the Vienna game's names are there, and where they then end too early: behind its 36 bytes of header each player, event,
# site and round has four bytes and the length before its text, and the second player what it shares with the first.
ENDS = [(len(NAMES) - 1, "round 0"), (36, "player 0"), (36 + 18, "player 1"), (36 + 18 + 26, "event 0"), (36 + 18 + 26 + 11, "site 0"),
        (36 + 18 + 26 + 11 + 15, "round 0")]

# Changes of the header of an index of one game: at a place these bytes, and the fault.
INDEXES = [
    (0, b"s", "not an index"),
    (7, b"\x01", "not an index"),
    (9, b"\x2c", "an index of version 300"),
    (14, b"\xff\xff\xff", "an index of 16777215 games, which are too many"),
    (14, b"\xff\xff\xfe", "an index of 229 bytes, which are too few for its games"),
    (16, b"\x02", "an index of 229 bytes, which are too few for its games"),
]

# Moves from square to square of a main line: NAGs in a variation that look like marks; NAGs, comments and nested variations; en passant; a
# queen's diagonal move; comments in a variation; such a move in a variation, its second byte 64 more than a mark.
WALKS = [
    (b"\x00\x00\xcf\x0d\xbf\x0b\x0e\xbf\x0b\x0f\x0e\xcf\x0f", "e2e4 e7e5"),
    (NESTED, "e2e4 e7e5"),
    (b"\x00\x00\xcf\x61\xc1\xbf\xc0\xb1\x0f", "e2e4 g8f6 e4e5 d7d5 e5d6 h7h6"),
    (b"\x00\x00\xcf\xcf\x43\x67\x0f", "e2e4 e7e5 d1h5"),
    (b"\x00\x00\xcf\x0d\x0c\xbf\x0c\xbf\x0e\xcf\x0fx\x00y\x00", "e2e4 e7e5"),
    (b"\x00\x00\xcf\xcf\xbf\x0d\x43\x4c\x0e\x0f", "e2e4 e7e5 d2d4"),
]

# The entry of the Vienna game as `list` tells it.
LISTED = "0 0 1-0 1910.??.?? B15 Reti, Richard - Tartakower, Savielly"

# Bits of its entry that are turned, as places and masks, and what is told then: the line of `list`, or the fault.
FIELDS = [
    ([(21, 0x20)], "0 0 1/2-1/2 1910.??.?? B15 Reti, Richard - Tartakower, Savielly"),
    ([(21, 0x50)], "index file: entry of game 0: no such result"),
    ([(23, 0xC5), (24, 0x06)], "0 0 1-0 1910.??.?? E99z4 Reti, Richard - Tartakower, Savielly"),
    ([(23, 0xC5), (24, 0x07)], "index file: entry of game 0: no such ECO code"),
    ([(27, 1), (28, 0x80)], "0 0 1-0 1910.12.?? B15 Reti, Richard - Tartakower, Savielly"),
    ([(27, 1), (28, 0xA0)], "index file: entry of game 0: a month above twelve"),
    ([(28, 31)], "0 0 1-0 1910.??.31 B15 Reti, Richard - Tartakower, Savielly"),
    ([(26, 0x01), (27, 0x12)], "0 0 1-0 2047.??.?? B15 Reti, Richard - Tartakower, Savielly"),
    ([(25, 0x98)], LISTED),
    ([(25, 0x9A)], "index file: entry of game 0: a month above twelve"),
    ([(25, 0x1A)], LISTED),
    ([(29, 0x70), (30, 1)], "index file: entry of game 0: no such kind of rating"),
    ([(31, 0x70)], LISTED),
    ([(41, 0x0F), (46, 0x0F)], LISTED),
    ([(21, 0x50), (23, 0xFF), (25, 0x9A), (29, 0x70), (30, 1)], "index file: entry of game 0: no such result"),
    ([(0, 255), (1, 255), (2, 255), (3, 255)], "games file: the record of game 0 crosses the end of a block"),
    ([(4, 255), (5, 255 ^ 25), (6, 128)], "games file: the record of game 0 ends behind the end of the file"),
    ([(9, 0xF0), (10, 255), (11, 255)], "index file: entry of game 0: no white has its id"),
    ([(9, 0x0F), (12, 255), (13, 254)], "index file: entry of game 0: no black has its id"),
    ([(14, 0xE0), (15, 255), (16, 255)], "index file: entry of game 0: no event has its id"),
    ([(14, 0x1C), (17, 255), (18, 255)], "index file: entry of game 0: no site has its id"),
    ([(14, 0x03), (19, 255), (20, 255)], "index file: entry of game 0: no round has its id"),
]

# What else is told of the game as it is, each by a search that finds it.
TOLD = ["deleted=no", "welo=0..0", "belo=0..0", "eco=B15..B15", "year=1910..1910", "plies=21..21", "result=1-0"]

# Bits that are turned, the search that finds the game no more, and one that does then.
SEARCHED = [
    ([(8, 8)], "deleted=no", "deleted=yes"),
    ([(29, 15), (30, 255)], "welo=0..0", "welo=4095..4095"),
    ([(31, 15), (32, 255)], "belo=0..0", "belo=4095..4095"),
    *(([(8 - (bit + 4) // 8, 1 << (bit + 4) % 8)], "mark=1", f"mark={letter}") for bit, letter in enumerate("WBMENPTKQ!?U")),
    *(([(6, 1 << bit)], "mark=W", f"mark={letter}") for bit, letter in enumerate("123456")),
]

# Bits that are turned, and what then differs from the record.
DERIVED = [
    ([(8, 1)], "mark of an own start"),
    ([(8, 2)], "mark of a promotion"),
    ([(8, 4)], "mark of an underpromotion"),
    ([(22, 15)], "number of variations"),
    ([(21, 15)], "number of NAGs"),
    ([(22, 0xF0)], "number of comments"),
    ([(34, 0xC0)], "final material"),
    ([(35, 0xF0)], "final material"),
    ([(36, 15)], "final material"),
    ([(37, 255), (38, 0xC0)], "number of half-moves"),
    ([(38, 63)], "list of pawns that left home"),
    ([(41, 0xF0)], "list of pawns that left home"),
]

# Texts of a game, and with what tags behind the date and behind the roster and with what movetext it is shown: the six suffixes and castling in
# digits, with no number before a move of Black behind a NAG; castling to the queen's side of both; of several tags EventDate the first whose year
# is at most three from the game's, in the place of all; such tags in which nothing is known, and of a game without a year, as they are; a comment
# behind a semicolon, without the carriage return of its line.
TEXTS = [
    ("1. e4! e5? 2. Nf3!! Nc6?? 3. Bc4!? Bc5?! 4. 0-0 Nf6 *", "????.??.??", [],
     "1. e4 $1 e5 $2 2. Nf3 $3 Nc6 $4 3. Bc4 $5 Bc5 $6 4. O-O Nf6 *"),
    ("1. d4 d5 2. Nc3 Nc6 3. Bf4 Bf5 4. Qd2 Qd7 5.0-0-0 0-0-0 *", "????.??.??", [], "1. d4 d5 2. Nc3 Nc6 3. Bf4 Bf5 4. Qd2 Qd7 5. O-O-O O-O-O *"),
    ('[Date "2000.05.10"] [EventDate "2004.01.02"] [Source "book"] [EventDate "2003.01.02"] [EventDate "2001"] *', "2000.05.10",
     ['[EventDate "2003.01.02"]', '[Source "book"]'], "*"),
    ('[Date "2000.05.10"] [EventDate "????.??.??"] *', "2000.05.10", ['[EventDate "????.??.??"]'], "*"),
    ('[EventDate "1994"] *', "????.??.??", ['[EventDate "1994"]'], "*"),
    ("1. e4 ;x\r\n e5 *", "????.??.??", [], "1. e4 {x} 1... e5 *"),
]

# Texts with a comment that is of no game, what `import` says of each, and what game 1 is then.
COMMENTS = [
    ("* {behind}", ["added 1", "imported 1 refused 0"], "*"),
    ("{alone}", ["imported 0 refused 0"], None),
]

# How many players there are, how often the first is used and each other, and how their part of the names file begins: an id takes two bytes,
# and three where there are more than 65,535 names; a frequency one, two or three, by the greatest.
WIDTHS = [
    (2, 255, 1, "0000 ff 06 303030303030 0001 01 06 05 31"),
    (2, 256, 2, "0000 0100 06 303030303030 0001 0002 06 05 31"),
    (2, 65_535, 1, "0000 ffff 06 303030303030 0001 0001 06 05 31"),
    (2, 65_536, 2, "0000 010000 06 303030303030 0001 000002 06 05 31"),
    (65_535, 2, 1, "0000 02 06 303030303030 0001 01 06 05 31"),
    (65_536, 257, 1, "000000 0101 06 303030303030 000001 0001 06 05 31"),
]


def base(record=made.VIENNA_RECORD, entry=made.VIENNA, names=NAMES):
    return made.index([entry]), names, record


def of_record(record):
    return base(record, made.entry(0, len(record)))


def turned(entry, bits):
    changed = bytearray(entry)
    for place, mask in bits:
        changed[place] ^= mask
    return bytes(changed)


def run(files, script="", *words):
    """The status of a run over a base, what it writes behind the opening line, the errors, and the games file and the index behind it."""
    with tempfile.TemporaryDirectory() as folder:
        paths = [pathlib.Path(folder, f"base.{end}") for end in ("si4", "sn4", "sg4")]
        for path, content in zip(paths, files):
            path.write_bytes(content)
        ran = subprocess.run([PROGRAM, *words, "base"], cwd=folder, input=script.encode(), capture_output=True, timeout=60)
        return ran.returncode, ran.stdout.decode().splitlines()[1:], ran.stderr.decode(), paths[2].read_bytes(), paths[0].read_bytes()


def look(title, got, wanted):
    if got != wanted:
        sys.exit(f"cases/formats.py: {title}: {got}, and not {wanted}")


def refused(title, files, fault, *words):
    look(title, run(files, "", *words)[:3], (2, [], f"bad base: {fault}\n"))


def records():
    for record, written in [*((one, one) for one in WRITTEN), *OTHERWISE]:
        status, text, errors, games, _ = run(of_record(record), "tag 0 White x\nsave\n")
        look(record, (status, text, errors, games[len(record):]), (0, ["tagged 0", "saved 1 games"], "", written))
    for record in NEIGHBOURS:
        look(record, run(of_record(record))[:3], (0, [], ""))
    for record, place, what in FAULTY:
        refused(record, of_record(record), f"games file: game 0, byte {place}: {what}")
    nested = [b"\x00\x00" + depth * b"\xcf\x0d" + b"\xcf" + depth * b"\x0e" + b"\x0f" for depth in (200, 201)]
    look("200 variations", run(of_record(nested[0]))[:3], (0, [], ""))
    refused("201 variations", of_record(nested[1]), "games file: game 0, byte 403: a variation too deep")


def longest_record():
    """A record of 131,071 bytes is written again; with a tag it would be longer."""
    record = b"\x00\x00\x0c\x0f" + 131_066 * b"x" + b"\x00"
    status, text, errors, games, _ = run(of_record(record), "tag 0 Mood x\ntag 0 White x\n")
    behind = games[len(record):].lstrip(b"\x00")
    look("the longest record", (status, text, errors), (0, ["error: record too long", "tagged 0", "unsaved"], ""))
    look("the longest record", behind, record.lstrip(b"\x00"))


def fen(board):
    rows = ["".join(board[8 * rank:8 * rank + 8]) for rank in range(7, -1, -1)]
    text = "/".join(rows)
    for empty in range(8, 0, -1):
        text = text.replace(empty * ".", str(empty))
    return text


def positions(moves):
    """The boards of a main line with the sides to move, as `find` has them. A pawn that goes to another file takes one beside it, where no man
    stands before it."""
    board, side = list(START), 0
    yield fen(board), "w"
    for move in moves.split():
        start, target = square(move[:2]), square(move[2:])
        if board[start] in "Pp" and start % 8 != target % 8 and board[target] == ".":
            board[8 * (start // 8) + target % 8] = "."
        board[target], board[start], side = board[start], ".", 1 - side
        yield fen(board), "wb"[side]


def walks():
    for record, moves in WALKS:
        places = list(positions(moves))
        _, text, *_ = run(of_record(record), "".join(f"find {board} {side}\n" for board, side in places))
        look(record, text, [line for ply in range(len(places)) for line in (f"0 {ply}", "filter 1 of 1")])
    own = b"\x00\x037k/P7/8/8/8/8/8/KQQQ4 w - - 0 1\x00\x14\x0f"
    look(own, run(of_record(own), "find Q6k/8/8/8/8/8/8/KQQQ4 b\n")[1], ["0 1", "filter 1 of 1"])


def entries():
    for bits, told in FIELDS:
        files = base(entry=turned(made.VIENNA, bits))
        if told.startswith("0 "):
            look(bits, run(files, "list\n")[:3], (0, [told, "filter 1 of 1"], ""))
        else:
            refused(bits, files, told)
    for bits, before, behind in SEARCHED:
        items = [item for item in TOLD if item != before] + [behind]
        searches = "".join(f"search ignore header {item}\n" for item in [before, *items])
        wanted = ["filter 0 of 1", *len(items) * ["filter 1 of 1"]]
        look(bits, run(base(entry=turned(made.VIENNA, bits)), f"{searches}list\n")[:3], (0, [*wanted, LISTED, "filter 1 of 1"], ""))
    for bits, what in DERIVED:
        files = base(entry=turned(made.VIENNA, bits))
        refused(bits, files, f"index file: entry of game 0: its {what} is not that of the record", "--strict")
        look(bits, run(files, "list\n")[:3], (0, [LISTED, "filter 1 of 1"], ""))


def indexes():
    whole = made.index([made.VIENNA])
    for length in (181, 228):
        what = "which is no whole header" if length < 182 else "which are too few for its games"
        refused(length, (whole[:length], NAMES, made.VIENNA_RECORD), f"index file: an index of {length} bytes, {what}")
    for place, changed, what in INDEXES:
        refused((place, changed), (whole[:place] + changed + whole[place + len(changed):], NAMES, made.VIENNA_RECORD), f"index file: {what}")
    header = b"Scid.si\x00\x01\x90\x00\x00\x00\x07\x00\x00\x01\x01\x00\x00" + 108 * b"d" + 54 * b"c"
    status, text, errors, _, index = run((header + made.VIENNA, NAMES, made.VIENNA_RECORD), "undelete 0\nsave\n")
    look("a header", (status, text, errors, index[:182]), (0, ["undeleted 0", "saved 1 games"], "", header))


def names():
    def refused_names(content, what):
        refused(content, base(names=content), f"names file: {what}")

    for content, what in HEADERS:
        refused_names(content, f"header: {what}")
    for count, players, place, what in PLAYERS:
        refused_names(b"Scid.sn" + bytes(7) + bytes([count]) + bytes(21) + players, f"player {place}: {what}")
    for length, place in ENDS:
        refused_names(NAMES[:length], f"{place}: the file ends too early")


def widths():
    for players, first, other, begins in WIDTHS:
        uses = [0] * first + [player for player in range(1, players) for _ in range(other)]
        games = "".join(f'[White "{white:06}"]\n[Black "{black:06}"]\n\n*\n' for white, black in zip(uses[::2], uses[1::2]))
        with tempfile.TemporaryDirectory() as folder:
            script = f"import <<X\n{games}X\nsave\n".encode()
            subprocess.run([PROGRAM, "--create", "base"], cwd=folder, input=script, stdout=subprocess.DEVNULL, check=True, timeout=60)
            files = [pathlib.Path(folder, f"base.{end}").read_bytes() for end in ("si4", "sn4", "sg4")]
        wanted = bytes.fromhex(begins)
        look(f"the names of {players} players", files[1][36 : 36 + len(wanted)], wanted)
        counts = f"games {len(uses) // 2} deleted 0 players {players} events 1 sites 1 rounds 1 unsaved no index off"
        look(f"a base of {players} players", run(files, "info\n", "--strict")[:3], (0, [counts], ""))


def shown(date, tags, movetext, head=("?", "?", "?", "?", "?")):
    """What `show` writes of a game with no known result."""
    event, site, names_round, white, black = head
    values = {"Event": event, "Site": site, "Date": date, "Round": names_round, "White": white, "Black": black, "Result": "*"}
    return [*(f'[{name} "{value}"]' for name, value in values.items()), *tags, "", movetext, ""]


def texts():
    for text, date, tags, movetext in TEXTS:
        wanted = ["replaced 0", *shown(date, tags, movetext), "unsaved"]
        look(text, run(base(), f"replace 0 <<X\n{text}\nX\nshow 0\n")[:3], (0, wanted, ""))
    for text, said, movetext in COMMENTS:
        wanted = [*said, *(["error: no game 1"] if movetext is None else [*shown("????.??.??", [], movetext), "unsaved"])]
        look(text, run(base(), f"import <<X\n{text}\nX\nshow 1\n")[:3], (0, wanted, ""))
    # The event date of an entry, with a tag of its name in the record.
    record = made.game(made.E4, tags=made.tag(b"EventDate", b"1990"))
    entry = made.entry(0, len(record), ids=(0, 1, 0, 0, 0), dates=(3 + 4) << 29 | 1 << 25 | 2 << 20 | made.DATE, plies=1, home=(11,))
    wanted = shown("2000.05.10", ['[EventDate "2003.01.02"]'], "1. e4 *", ("Vienna", "Vienna AUT", "?", "Reti, Richard", "Tartakower, Savielly"))
    look("the event date of an entry", run(base(record, entry), "show 0\n", "--strict")[:3], (0, wanted, ""))


def main():
    for part in (records, longest_record, walks, entries, indexes, names, widths, texts):
        part()
        print(f"{part.__name__}: ok")


if __name__ == "__main__":
    main()
