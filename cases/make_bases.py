#!/usr/bin/env python3
"""Writes the bases of some cases, byte by byte: CASE/before/NAME.si4, .sn4 and .sg4, and for some CASE/after.

usage: cases/make_bases.py

The bytes are put together here by docs/INDEX_FILE.md, docs/NAMES_FILE.md and docs/RECORDS.md, by no code of the program. A base is
a list of games; a faulty one is a good one with a change of a few bytes.
"""
import pathlib
import struct

HERE = pathlib.Path(__file__).parent
START_MATERIAL = (1, 2, 2, 2, 8)


def material(white, black):
    word = 0
    for queens, rooks, bishops, knights, pawns in (white, black):
        for count in (queens, rooks, bishops, knights):
            word = word << 2 | min(count, 3)
        word = word << 4 | pawns
    return word


def entry(offset, length, ids=(0, 0, 0, 0, 0), flags=0, customs=0, counts=(0, 0, 0), result=0, eco=0, dates=0, ratings=(0, 0),
          final=(START_MATERIAL, START_MATERIAL), plies=0, home=()):
    """The 47 bytes of an entry."""
    white, black, event, site, names_round = ids
    nibbles = list(home) + [0] * (16 - len(home))
    return (
        struct.pack(">IHB", offset, length & 0xFFFF, length >> 16 << 7 | customs)
        + struct.pack(">HB", flags, white >> 16 << 4 | black >> 16)
        + struct.pack(">HH", white & 0xFFFF, black & 0xFFFF)
        + struct.pack(">BHHH", event >> 16 << 5 | site >> 16 << 2 | names_round >> 16, event & 0xFFFF, site & 0xFFFF, names_round & 0xFFFF)
        + struct.pack(">HHI", result << 12 | counts[2] << 8 | counts[1] << 4 | counts[0], eco, dates)
        + struct.pack(">HHI", *ratings, material(*final))
        + struct.pack(">BB", plies & 0xFF, plies >> 8 << 6 | len(home))
        + bytes(nibbles[2 * i] << 4 | nibbles[2 * i + 1] for i in range(8))
    )


def index(entries, version=400):
    return b"Scid.si\0" + struct.pack(">HI", version, 0) + len(entries).to_bytes(3, "big") + bytes(165) + b"".join(entries)


def names_file(*kinds):
    """Each kind is a list of pairs of a name and its number of uses, by id."""
    head, body = b"", b""
    for kind in kinds:
        head += len(kind).to_bytes(3, "big")
    for kind in kinds:
        head += max(uses for _, uses in kind).to_bytes(3, "big")
        before = None
        for name, number, uses in sorted((name.encode(), number, uses) for number, (name, uses) in enumerate(kind)):
            shared = 0
            while before is not None and shared < min(len(name), len(before)) and name[shared] == before[shared]:
                shared += 1
            body += struct.pack(">HBB", number, uses, len(name)) + (b"" if before is None else bytes([shared])) + name[shared:]
            before = name
    return b"Scid.sn\0" + bytes(4) + head + body


VIENNA_RECORD = bytes.fromhex("0000cfa1bfbf28b026614acfb24360334409614f0436013b0f")
VIENNA_FINAL = ((0, 2, 2, 1, 6), (1, 2, 2, 2, 6))
VIENNA_HOME = (11, 5, 12, 4, 3)
VIENNA = entry(0, 25, ids=(0, 1, 0, 0, 0), result=1, eco=1 + 13100 + 1310 + 131 * 5, dates=1910 * 512, final=VIENNA_FINAL, plies=21,
               home=VIENNA_HOME)
VIENNA_NAMES = names_file([("Reti, Richard", 1), ("Tartakower, Savielly", 1)], [("Vienna", 1)], [("Vienna AUT", 1)], [("?", 1)])

PAWNS_RECORDS = bytes.fromhex("0000cfbfbf0f") + bytes.fromhex("0000bfbfcf0f")
PAWNS = [
    entry(0, 6, ids=(0, 1, 0, 0, 0), result=1, dates=2001 * 512 + 2 * 32 + 3, ratings=(2500, 2400), plies=3, home=(11, 4, 12)),
    entry(6, 6, ids=(1, 0, 0, 0, 0), result=3, plies=3, home=(12, 4, 11)),
]
PAWNS_NAMES = names_file([("A", 2), ("B", 2)], [("?", 2)], [("?", 2)], [("?", 2)])


# Games that `show` writes: each is its record, and what its entry says besides the place of the record.
E4 = b"\xcf"
E5 = b"\xcf"
D4 = b"\xbf"
C4 = b"\xaf"
D5 = b"\xbf"
G3 = b"\xe1"
NF3 = b"\x67"
DATE = 2000 * 512 + 5 * 32 + 10


def game(moves, texts=(), tags=b"", start=None):
    """A record: extra tags, a start of its own, the moves with their marks, and the texts of the comments."""
    place = b"\0" if start is None else b"\1" + start + b"\0"
    return tags + b"\0" + place + moves + b"\x0f" + b"".join(text + b"\0" for text in texts)


def tag(name, value):
    return bytes([len(name)]) + name + bytes([len(value)]) + value


SHOWN = [
    (VIENNA_RECORD, dict(ids=(0, 1, 0, 0, 0), result=1, eco=1 + 13100 + 1310 + 131 * 5, dates=1910 * 512, final=VIENNA_FINAL, plies=21,
                         home=VIENNA_HOME)),
    # Comments, NAGs and variations
    (game(b"\x0c" + E4 + b"\x0b\x01\x0b\x0e\x0c\x0d" + D4 + b"\xbf\x0d\x61\x0e\x0e" + E5, (b"Start", b"Best}")),
     dict(counts=(2, 2, 2), plies=2, home=(11, 3))),
    # A null move
    (game(E4 + b"\0" + D4), dict(plies=3, home=(11, 12))),
    # An event date near the game's, and one that is a tag
    (game(E4), dict(dates=(3 + 4) << 29 | 1 << 25 | 2 << 20 | DATE, plies=1, home=(11,))),
    (game(E4, tags=tag(b"EventDate", b"2004.01.02")), dict(dates=DATE, plies=1, home=(11,))),
    # A start of its own with Black to move
    (game(b"\x01\x1f", start=b"4k3/8/8/8/8/8/8/4K2R b - - 0 1"),
     dict(flags=1, result=3, final=((0, 1, 0, 0, 0), (0, 0, 0, 0, 0)), plies=2)),
    # Quotation marks and backslashes, all marks, ratings of two kinds, a code with an extension
    (game(b"", tags=tag(b"Annotator", b"\\")),
     dict(ids=(2, 3, 1, 0, 0), result=2, flags=0xfff8, customs=0x3f, eco=1 + 13100 + 1310 + 131 * 5 + 2, ratings=(2500, 5 << 12 | 2400))),
    # Line feeds in comments before the 79th byte and at it, and a carriage return, which is no line end
    (game(b"\x0c" + E4 + b"\x0c" + E5, (b"x" * 69, b"\nb")), dict(counts=(0, 2, 0), plies=2, home=(11, 3))),
    (game(b"\x0c" + E4 + b"\x0c" + E5, (b"x" * 69, b"\r\nb")), dict(counts=(0, 2, 0), plies=2, home=(11, 3))),
    # Units longer than a line
    (game(b"\x0c" + E4 + b"\x0c", (b"x" * 80, b"x" * 80)), dict(counts=(0, 2, 0), plies=1, home=(11,))),
    # A variation without moves, and variations one in the other, as many as there may be
    (game(E4 + b"\x0d\x0e" + E5), dict(counts=(1, 0, 0), plies=2, home=(11, 3))),
    (game(E4 + (b"\x0d" + E4) * 200 + b"\x0e" * 200), dict(counts=(15, 0, 0), plies=1, home=(11,))),
]
SHOWN_NAMES = names_file([("Reti, Richard", 11), ("Tartakower, Savielly", 11), ('O"Neil', 1), ("back\\slash", 1)], [("Vienna", 11), ('"', 1)],
                         [("Vienna AUT", 12)], [("?", 12)])


# Games that a search of material looks at: with a fourth queen, with a knight that was a pawn and is captured, with more half-moves than an
# entry tells.
MEN = [
    (PAWNS_RECORDS[:6], dict(plies=3, home=(11, 4, 12))),
    (PAWNS_RECORDS[6:], dict(plies=3, home=(12, 4, 11))),
    (game(b"\x14", start=b"7k/P7/8/8/8/8/8/KQQQ4 w - - 0 1"), dict(flags=3, final=((4, 0, 0, 0, 0), (0, 0, 0, 0, 0)), plies=1)),
    (game(b"\x1d\x01\x12\x01\x04\x04", start=b"4k3/P7/8/8/8/8/8/4K3 w - - 0 1"),
     dict(flags=7, final=((0, 0, 0, 0, 0), (0, 0, 0, 0, 0)), plies=6)),
    (game(b"\x67\x61\x62\x68" * 275), dict(plies=1023)),
]
MEN_NAMES = names_file([("A", 5), ("B", 5)], [("?", 5)], [("?", 5)], [("?", 5)])


# Games whose boards an opening tree counts together: castling with both rights, with one and with none, and a game that ends there; a pawn
# that can be captured en passant, and one that cannot; and the start of a game, which comes again at its end. Some have no year and no
# rating, and a rating is of another kind.
ROOKS = "4k3/8/8/8/8/8/8/R3K2R w %s - 0 1"
EN_PASSANT = "4k3/8/8/3pP3/8/8/8/4K3 w - %s 0 1"


def rooks(moves, rights, **says):
    return game(moves, start=(ROOKS % rights).encode()), dict(flags=1, final=((0, 2, 0, 0, 0), (0, 0, 0, 0, 0)), plies=len(moves), **says)


def en_passant(move, square, pawns):
    return game(move, start=(EN_PASSANT % square).encode()), dict(flags=1, final=((0, 0, 0, 0, 1), (0, 0, 0, 0, pawns)), plies=1)


TREES = [
    rooks(b"\x0a", "KQ", result=1, dates=2000 * 512, ratings=(2500, 0)),
    rooks(b"\x06", "-", result=3, dates=1999 * 512, ratings=(2501, 2300)),
    rooks(b"", "-", result=2, dates=1998 * 512),
    rooks(b"\x09", "KQ"),
    rooks(b"\x0a", "K", result=2, ratings=(0, 5 << 12 | 2400)),
    en_passant(b"\x11", "-", 1),
    en_passant(b"\x10", "d6", 0),
    (game(b"\x67\x61\x62\x68"), dict(plies=4)),
]
TREE_NAMES = names_file([("A", 8), ("B", 8)], [("?", 8)], [("?", 8)], [("?", 8)])


def all_of(games):
    """The entries and the records of games, one behind the other; each has the names of Vienna but where it says others."""
    entries, records = [], b""
    for record, says in games:
        entries.append(entry(len(records), len(record), **{"ids": (0, 1, 0, 0, 0), **says}))
        records += record
    return entries, records


def put(one, at, byte):
    return one[:at] + bytes([byte]) + one[at + 1:]


def write(case, name, index_bytes, names_bytes, games_bytes, when="before"):
    folder = HERE / case / when
    folder.mkdir(parents=True, exist_ok=True)
    for ending, content in (("si4", index_bytes), ("sn4", names_bytes), ("sg4", games_bytes)):
        (folder / f"{name}.{ending}").write_bytes(content)


# A byte of an entry of the Vienna game that tells another thing than its record does.
DIFFERENCES = {
    "own_start": (8, 0x01),
    "promotion": (8, 0x02),
    "underpromotion": (8, 0x04),
    "variations": (22, 0x01),
    "comments": (22, 0x10),
    "nags": (21, 0x11),
    "material": (36, 0x27),
    "plies": (37, 20),
}


def vienna(case, of_entry):
    write(case, "vienna", index([of_entry]), VIENNA_NAMES, VIENNA_RECORD)


# The games of the base of pawns after edits: `tag 0 WhiteElo 2600` and then `mark 0 W on` and `delete 1`, or `tag 0 White C`. The record
# is written once more, behind the others.
TAGGED_RECORDS = PAWNS_RECORDS + PAWNS_RECORDS[:6]
PAWNS_DATE = 2001 * 512 + 2 * 32 + 3
EDITED = [
    entry(12, 6, ids=(0, 1, 0, 0, 0), flags=0x10, result=1, dates=PAWNS_DATE, ratings=(2600, 2400), plies=3, home=(11, 4, 12)),
    entry(6, 6, ids=(1, 0, 0, 0, 0), flags=0x08, result=3, plies=3, home=(12, 4, 11)),
]
RENAMED_NAMES = names_file([("A", 1), ("B", 2), ("C", 1)], [("?", 2)], [("?", 2)], [("?", 2)])

# The event dates that a game of 2000 may have in its entry, and those that are a tag of its record.
DATED_RECORD = game(E4)
EVENT_TAGGED_RECORD = game(E4, tags=tag(b"EventDate", b"2004.01.02"))
EVENT_DATE = (3 + 4) << 29 | 1 << 25 | 2 << 20

# A record whose length is near the limit, and the same with a tag that takes it there.
LONG_COMMENT = game(b"\x0c", (b"x" * 130_995,))
LONGEST_RECORD = game(b"\x0c", (b"x" * 130_995,), tags=tag(b"Z", b"z" * 68))


def edits():
    """The bases of the cases of edits and of saving."""
    ids = (0, 1, 0, 0, 0)
    for case in ("edit_and_save", "edits_of_no_game", "edits_not_saved", "names_not_replaced", "index_not_replaced", "filters_after_edits",
                 "rating_taken_away"):
        write(case, "pawns", index(PAWNS), PAWNS_NAMES, PAWNS_RECORDS)
    write("edit_and_save", "pawns", index(EDITED), PAWNS_NAMES, TAGGED_RECORDS, "after")
    write("open_what_was_saved", "pawns", index(EDITED), PAWNS_NAMES, TAGGED_RECORDS)
    # A rating of 0 has no kind, whatever the tag's is.
    unrated = entry(12, 6, ids=ids, result=1, dates=PAWNS_DATE, ratings=(2500, 0), plies=3, home=(11, 4, 12))
    write("rating_taken_away", "pawns", index([unrated, PAWNS[1]]), PAWNS_NAMES, TAGGED_RECORDS, "after")
    write("edits_not_saved", "pawns", index(PAWNS), PAWNS_NAMES, TAGGED_RECORDS, "after")
    write("filters_after_edits", "pawns", index(PAWNS), PAWNS_NAMES, TAGGED_RECORDS, "after")
    write("names_not_replaced", "pawns", index(PAWNS), PAWNS_NAMES, TAGGED_RECORDS, "after")
    write("index_not_replaced", "pawns", index(PAWNS), PAWNS_NAMES, TAGGED_RECORDS, "after")
    write("open_after_a_save_that_failed", "pawns", index(PAWNS), RENAMED_NAMES, TAGGED_RECORDS)
    renamed = entry(18, 6, ids=(2, 1, 0, 0, 0), result=1, dates=PAWNS_DATE, ratings=(2500, 2400), plies=3, home=(11, 4, 12))
    write("open_after_a_save_that_failed", "pawns", index([renamed, PAWNS[1]]), RENAMED_NAMES, TAGGED_RECORDS + PAWNS_RECORDS[:6], "after")
    for case, part in (("names_not_replaced", "sn4"), ("index_not_replaced", "si4")):
        for when in ("before", "after"):
            blocked = HERE / case / when / f"pawns.{part}.new"
            blocked.mkdir(parents=True, exist_ok=True)
            (blocked / "why").write_text("The new file is written here before it takes the place of the old one.\n")
    dated = dict(ids=ids, plies=1, home=(11,))
    date = 2000 * 512 + 5 * 32 + 10
    names = names_file([("A", 1), ("B", 1)], [("?", 1)], [("?", 1)], [("?", 1)])
    write("event_dates_by_tag", "dated", index([entry(0, 4, dates=date, **dated)]), names, DATED_RECORD)
    write("event_dates_by_tag", "dated", index([entry(8, 25, dates=date, **dated)]), names, DATED_RECORD * 2 + EVENT_TAGGED_RECORD, "after")
    write("event_date_near", "dated", index([entry(0, 4, dates=date, **dated)]), names, DATED_RECORD)
    write("event_date_near", "dated", index([entry(4, 4, dates=EVENT_DATE | date, **dated)]), names, DATED_RECORD * 2, "after")
    month = game(E4, tags=tag(b"EventDate", b"????.05.??"))
    write("event_date_of_a_month_alone", "dated", index([entry(0, 4, dates=date, **dated)]), names, DATED_RECORD)
    write("event_date_of_a_month_alone", "dated", index([entry(4, len(month), dates=date, **dated)]), names, DATED_RECORD + month, "after")
    long = entry(0, len(LONG_COMMENT), ids=ids, counts=(0, 1, 0))
    tagged = entry(131_072, len(LONGEST_RECORD), ids=ids, counts=(0, 1, 0))
    write("record_too_long", "long", index([long]), names, LONG_COMMENT)
    write("record_too_long", "long", index([tagged]), names, LONG_COMMENT + bytes(131_072 - len(LONG_COMMENT)) + LONGEST_RECORD, "after")
    write("edits_of_vienna", "vienna", index([VIENNA]), VIENNA_NAMES, VIENNA_RECORD)
    write("created_and_saved", "base", index([]), b"Scid.sn\0" + bytes(28), b"", "after")


def imports():
    """The bases of the cases of games that come in."""
    write("import_vienna", "vienna", index([VIENNA]), VIENNA_NAMES, VIENNA_RECORD, "after")
    write("import_two_games", "pawns", index(PAWNS), PAWNS_NAMES, PAWNS_RECORDS, "after")
    # Comments, NAGs, variations and a null move; event dates near the game's, behind and before it, and such that are a tag of the record;
    # comments at the beginning of the game and of its variation
    near = [EVENT_DATE, (4 - 3) << 29 | 1 << 25 | 2 << 20]
    far = [EVENT_TAGGED_RECORD, game(E4, tags=tag(b"EventDate", b"1996.01.02"))]
    dates = [(DATED_RECORD, dict(dates=date | DATE, plies=1, home=(11,))) for date in near]
    dates += [(record, dict(dates=DATE, plies=1, home=(11,))) for record in far]
    leads = (game(b"\x0c" + E4 + b"\x0d\x0c" + D4 + b"\x0e", (b"a", b"b")), dict(counts=(1, 2, 0), plies=1, home=(11,)))
    entries, records = all_of([(record, {**says, "ids": (0, 0, 0, 0, 0)}) for record, says in [*SHOWN[1:3], *dates, leads]])
    names = names_file([("?", 14)], [("?", 7)], [("?", 7)], [("?", 7)])
    write("import_marks_and_dates", "marks", index(entries), names, records, "after")
    # A base that was created and not saved has its games file alone.
    clock = b"\n[%clk 0:01:00]"
    unsaved = {
        "import_faulty_games": game(E4 + b"\x0c" + E5, (clock,)) + game(D4) * 2,
        "bodies": game(E4) + game(D4 + b"\x0c" + D5, (b"a comment with\nEND of it",)) + game(D4 + b"\x0c", (b"END\nE2 \n E2\n\tE2\nE2\r\r\n",)) + game(E4)
        + game(C4) + game(G3),
        "body_ended_by_the_input": game(G3),
    }
    for case, records in unsaved.items():
        write(case, "base", b"", b"", records, "after")
    longest = game(b"\x0c", (b"x" * 131_066,))
    write("import_record_too_long", "base", b"", b"", longest + b"\0" + game(E4), "after")
    write("replace_games", "vienna", index([VIENNA]), VIENNA_NAMES, VIENNA_RECORD)
    # The records of the games that take the place of the Vienna one stand behind it.
    write("replace_games", "vienna", index([VIENNA]), VIENNA_NAMES, VIENNA_RECORD + game(D4) + game(C4), "after")


def compactions():
    """The bases of the cases of compaction. Names get their ids by first use, and records are placed from the beginning."""
    write("compact", "pawns", index(PAWNS), PAWNS_NAMES, PAWNS_RECORDS)
    kept = entry(0, 6, ids=(0, 1, 0, 0, 0), result=3, plies=3, home=(12, 4, 11))
    write("compact", "pawns", index([kept]), names_file([("B", 1), ("A", 1)], [("?", 1)], [("?", 1)], [("?", 1)]), PAWNS_RECORDS[6:], "after")
    write("compact_to_no_games", "pawns", index(PAWNS), PAWNS_NAMES, PAWNS_RECORDS)
    write("compact_to_no_games", "pawns", index([]), b"Scid.sn\0" + bytes(28), b"", "after")
    # Two games of one record get one each, and the names that no game uses go.
    shared = dict(ids=(0, 1, 0, 0, 0), result=1, final=VIENNA_FINAL, plies=21, home=VIENNA_HOME)
    names = names_file([("Nobody", 0), ("Tartakower, Savielly", 2), ("Reti, Richard", 2)], [("Vienna", 2)], [("Wien", 0), ("Vienna AUT", 2)], [("?", 2)])
    old = entry(2, 25, **{**shared, "ids": (2, 1, 0, 1, 0)})
    write("compact_shared_record", "vienna", index([old, old]), names, b"ab" + VIENNA_RECORD)
    names = names_file([("Reti, Richard", 2), ("Tartakower, Savielly", 2)], [("Vienna", 2)], [("Vienna AUT", 2)], [("?", 2)])
    write("compact_shared_record", "vienna", index([entry(0, 25, **shared), entry(25, 25, **shared)]), names, VIENNA_RECORD * 2, "after")
    # A game that takes the place of another leaves the record and the names of that one behind.
    write("compact_after_replace", "vienna", index([VIENNA]), VIENNA_NAMES, VIENNA_RECORD)
    names = names_file([("?", 2)], [("?", 1)], [("?", 1)], [("?", 1)])
    write("compact_after_replace", "vienna", index([entry(0, 4, plies=1, home=(12,))]), names, game(D4), "after")
    # Names that one later game uses stay, and those of the deleted games alone go.
    places = [(0, 6), (6, 6), (0, 6)]
    ids = [(0, 1, 0, 0, 0), (1, 2, 1, 1, 1), (3, 1, 2, 0, 1)]
    says = [dict(plies=3, home=(11, 4, 12)), dict(plies=3, home=(12, 4, 11)), dict(plies=3, home=(11, 4, 12))]
    names = names_file([("A", 1), ("B", 3), ("C", 1), ("D", 1)], [("E", 1), ("F", 1), ("G", 1)], [("H", 2), ("I", 1)], [("J", 1), ("K", 2)])
    write("compact_names_of_later_games", "names", index([entry(*place, ids=of, **said) for place, of, said in zip(places, ids, says)]), names,
          PAWNS_RECORDS)
    names = names_file([("B", 2), ("C", 1), ("D", 1)], [("F", 1), ("G", 1)], [("I", 1), ("H", 1)], [("K", 2)])
    ids = [(0, 1, 0, 0, 0), (2, 0, 1, 1, 0)]
    write("compact_names_of_later_games", "names", index([entry(place, 6, ids=of, **said) for place, of, said in zip((0, 6), ids, says[1:])]), names,
          PAWNS_RECORDS[6:] + PAWNS_RECORDS[:6], "after")
    # The last record comes to stand where it would cross a block's end.
    longs = [game(b"\x0c", (b"x" * n,)) for n in (59_995, 59_995, 49_995, 69_995)]
    says = dict(ids=(0, 1, 0, 0, 0), counts=(0, 1, 0))
    places = [(0, 60_000), (60_000, 60_000), (131_072, 50_000), (181_072, 70_000)]
    names = names_file([("A", 4), ("B", 4)], [("?", 4)], [("?", 4)], [("?", 4)])
    write("compact_across_a_block", "long", index([entry(*place, **says) for place in places]), names,
          longs[0] + longs[1] + bytes(11_072) + longs[2] + longs[3])
    places = [(0, 60_000), (60_000, 50_000), (131_072, 70_000)]
    names = names_file([("A", 3), ("B", 3)], [("?", 3)], [("?", 3)], [("?", 3)])
    write("compact_across_a_block", "long", index([entry(*place, **says) for place in places]), names,
          longs[1] + longs[2] + bytes(21_072) + longs[3], "after")


def twins_and_crosstables():
    """The bases of the cases of `twins` and `cross`. A game whose result is set is placed once more."""
    write("crosstables", "base", b"", b"", game(b"") * 14, "after")
    write("twins_of_pawns", "pawns", index(PAWNS), PAWNS_NAMES, PAWNS_RECORDS)
    write("twins_of_pawns", "pawns", index(PAWNS), PAWNS_NAMES, PAWNS_RECORDS + game(E4 + D5 + NF3), "after")
    own = game(b"\x1f", start=b"4k3/8/8/8/8/8/4P3/4K3 w - - 0 1")
    records = game(E4) * 3 + game(E4 + E5) + game(E4 + D5) + game(E4) * 2 + own * 2 + game(D4) + game(E4) * 4
    write("twins_among_games", "base", b"", b"", records, "after")


def opening_codes():
    """The bases of the cases of `eco`. A game whose round is set is placed once more."""
    b12 = entry(0, 25, ids=(0, 1, 0, 0, 0), result=1, eco=1 + 13100 + 1310 + 131 * 2, dates=1910 * 512, final=VIENNA_FINAL, plies=21, home=VIENNA_HOME)
    write("eco_of_vienna", "vienna", index([VIENNA]), VIENNA_NAMES, VIENNA_RECORD)
    write("eco_of_vienna", "vienna", index([b12]), VIENNA_NAMES, VIENNA_RECORD, "after")
    for case in ("eco_of_pawns", "eco_errors"):
        write(case, "pawns", index(PAWNS), PAWNS_NAMES, PAWNS_RECORDS)
    write("eco_table_of_many_lines", "base", b"", b"", b"", "after")
    spanish = game(E4 + E5 + NF3 + b"\x22\x59\x81")
    after_e4 = b"rnbqkbnr/pppppppp/8/8/4P3/8/PPPP1PPP/RNBQKBNR"
    records = spanish + game(b"\xff") + game(b"") + game(NF3 + D5 + D4) + game(E4 + b"\xb1") + game(b"\x8f\x0d" + E4 + E5 + b"\x0e\x8f")
    records += game(b"\x81", start=after_e4 + b" b - - 0 1") + game(E5, start=after_e4 + b" b - - 0 1") + game(b"\x11", start=after_e4 + b" w - - 0 1")
    records += game(b"\x0a", start=b"4k3/8/8/8/8/8/8/4K2R w K - 0 1") + game(E4 + E5 + NF3 + b"\x61\x62\x68") + game(E4 + b"\xa1" + D4 + D5) + game(E4 + b"\0")
    write("eco_classifies", "base", b"", b"", records + spanish, "after")


def indexes():
    """The bases of the cases of a position index, in which they leave nothing behind."""
    write("index", "pawns", index(PAWNS), PAWNS_NAMES, PAWNS_RECORDS)
    write("index_of_no_games", "base", index([]), b"Scid.sn\0" + bytes(28), b"", "after")
    # What a compaction left, and behind it a game of draws and one that took the place of another.
    write("index_follows_edits", "pawns", index(PAWNS), PAWNS_NAMES, PAWNS_RECORDS)
    own = game(b"\x1f\x01\x11", start=b"4k3/8/8/8/8/8/4P3/4K3 w - - 0 1")
    entries, records = all_of([
        (game(D4), dict(ids=(0, 0, 0, 0, 0), eco=1 + 1310 * 4, plies=1, home=(12,))),
        (game(E4 + D5), dict(ids=(1, 0, 0, 0, 0), flags=0x10, plies=2, home=(11, 4))),
        (own, dict(ids=(0, 0, 0, 0, 0), flags=1, final=((0, 0, 0, 0, 1), (0, 0, 0, 0, 0)), plies=3)),
    ])
    names = names_file([("?", 5), ("C", 1)], [("?", 3)], [("?", 3)], [("?", 3)])
    drawn = (HERE / "demo_of_one_game" / "after" / "base.sg4").read_bytes()
    write("index_follows_edits", "pawns", index(entries), names, records + drawn + game(E4), "after")


def main():
    edits()
    imports()
    compactions()
    twins_and_crosstables()
    opening_codes()
    indexes()
    for case in ("filters_by_number", "find_in_both_orders", "search_header_among_filters", "search_material_by_signatures",
                 "search_position", "search_position_in_each_mode", "tree_in_both_orders"):
        write(case, "pawns", index(PAWNS), PAWNS_NAMES, PAWNS_RECORDS)
    # One change a case.
    write("index_of_another_length", "vienna", index([VIENNA])[:-1], VIENNA_NAMES, VIENNA_RECORD)
    write("index_of_another_magic", "vienna", put(index([VIENNA]), 0, 0), VIENNA_NAMES, VIENNA_RECORD)
    vienna("result_of_no_kind", put(VIENNA, 21, 0x40))
    vienna("site_without_a_name", put(VIENNA, 18, 1))
    vienna("crosses_a_block", put(put(put(VIENNA, 1, 1), 2, 0xFF), 3, 0xF0))
    vienna("past_the_end", put(VIENNA, 5, 26))
    vienna("record_without_its_end", put(VIENNA, 5, 24))
    vienna("rating_of_no_kind", put(put(VIENNA, 29, 0x70), 30, 1))
    vienna("black_without_a_name", put(VIENNA, 13, 2))
    write("names_cut_in_their_header", "vienna", index([VIENNA]), VIENNA_NAMES[:35], VIENNA_RECORD)
    for case, place, byte in (("tag_of_no_name", 0, 0xFB), ("move_that_is_not_legal", 2, 0xCE), ("mark_of_no_kind", 24, 0x0E)):
        write(case, "vienna", index([VIENNA]), VIENNA_NAMES, put(VIENNA_RECORD, place, byte))
    for field, (place, byte) in DIFFERENCES.items():
        vienna(f"strict_on_{field}", put(VIENNA, place, byte))
    # Two games of one record, one of them with the spare bit and the code of a stored line, other bytes before and behind the record,
    # names that no game uses, a time stamp, bytes behind all.
    shared = entry(2, 25, ids=(0, 1, 0, 0, 0), result=1, final=VIENNA_FINAL, plies=21, home=VIENNA_HOME)
    names = names_file([("Reti, Richard", 9), ("Tartakower, Savielly", 1), ("Nobody", 1)], [("Vienna", 1), ("Wien", 1)],
                       [("Vienna AUT", 1)], [("?", 1), ("1", 1)])
    write("base_of_another_program", "vienna", index([shared, put(put(shared, 6, 0x40), 33, 7)]) + b"more", names[:8] + b"time" + names[12:] + b"more",
          b"ab" + VIENNA_RECORD + b"cd")
    entries, records = all_of(SHOWN)
    for case in ("show_games", "list_and_export", "search_header", "search_header_in_three_ways"):
        write(case, "games", index(entries), SHOWN_NAMES, records)
    entries, records = all_of(MEN)
    write("search_material", "games", index(entries), MEN_NAMES, records)
    entries, records = all_of(TREES)
    write("tree_of_shared_boards", "boards", index(entries), TREE_NAMES, records)
    entries, records = all_of([SHOWN[0], MEN[2]])
    names = names_file([("Reti, Richard", 2), ("Tartakower, Savielly", 2)], [("Vienna", 2)], [("Vienna AUT", 2)], [("?", 2)])
    write("find_the_start", "starts", index(entries), names, records)
    entries, records = all_of([(game(b"\x67\x61\x62\x68"), dict(plies=4))])
    write("search_position_joined", "knights", index(entries), names_file([("A", 1), ("B", 1)], [("?", 1)], [("?", 1)], [("?", 1)]), records)
    write("base_of_no_games", "none", index([]), names_file([("Nobody", 0)], [("?", 0)], [("?", 0)], [("?", 0)]), b"")


if __name__ == "__main__":
    main()
