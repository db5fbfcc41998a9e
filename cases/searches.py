#!/usr/bin/env python3
"""Runs scid_shell over bases with one game, beside what was worked out by hand of it: the signature that its entry has to have, the ply at
which a position is found on its main line or in a variation, and which searches read its record at all, without a position index and with one.

usage: cases/searches.py [PROGRAM]

A signature passes where the base opens with `--strict`. Whether a record is read shows where it is written over behind the opening: who reads
it then ends.
"""
import subprocess
import sys
import tempfile
from pathlib import Path

sys.dont_write_bytecode = True
HERE = Path(__file__).resolve().parent
sys.path.insert(0, str(HERE.parent / "bench" / "find"))
import make_bases as made  # noqa: E402
from make_base import Game  # noqa: E402

PROGRAM = Path(sys.argv[1] if len(sys.argv) > 1 else HERE / "../crates/scid_shell/out/scid_shell").resolve()
FULL, NOTHING = made.START_MATERIAL, (0, 0, 0, 0, 0)
OWN_START, PROMOTION, UNDERPROMOTION = 1, 2, 4
CHANGED_GAME = 6

# `{Start} 1. e4 $1 $14 {Best}} (1. d4 d5 (1... Nf6)) 1... e5`.
NESTED = b"\x00\x00\x0c\xcf\x0b\x01\x0b\x0e\x0c\x0d\xbf\xbf\x0d\x61\x0e\x0e\xcf\x0fStart\x00Best}\x00"

# The start of a record of a game that begins with the initial position without castling rights.
NO_RIGHTS = b"\x00\x01rnbqkbnr/pppppppp/8/8/8/8/PPPPPPPP/RNBQKBNR w - - 0 1\x00"


def record_of(moves):
    """The record of a main line of moves as `e2e4`."""
    game = Game()
    return b"\x00\x00" + b"".join(game.packed(move) for move in moves.split()) + b"\x0f"


def knights(plies):
    """The knights of the king's side go out and back."""
    return record_of(" ".join(["g1f3", "g8f6", "f3g1", "f6g8"][ply % 4] for ply in range(plies)))


# Records, and what their entries say: final material, half-moves, the pawns that left home, the marks and the numbers of variations, comments
# and NAGs.
SIGNATURES = [
    (made.VIENNA_RECORD, made.VIENNA_FINAL, 21, made.VIENNA_HOME, 0, (0, 0, 0)),
    # A fourth queen: 1. a8=Q+.
    (b"\x00\x037k/P7/8/8/8/8/8/KQQQ4 w - - 0 1\x00\x14\x0f", ((3, 0, 0, 0, 0), NOTHING), 1, (), OWN_START | PROMOTION, (0, 0, 0)),
    # A knight that is captured: 1. a8=N Kd7 2. Nb6+ Kc6 3. Kd1 Kxb6.
    (b"\x00\x074k3/P7/8/8/8/8/8/4K3 w - - 0 1\x00\x1d\x01\x12\x01\x04\x04\x0f", (NOTHING, NOTHING), 6, (),
     OWN_START | PROMOTION | UNDERPROMOTION, (0, 0, 0)),
    # A promotion in a variation alone: 1. Ka2 (1. a8=Q+).
    (b"\x00\x037k/P7/8/8/8/8/8/K7 w - - 0 1\x00\x07\x0d\x14\x0e\x0f", ((0, 0, 0, 0, 1), NOTHING), 1, (), OWN_START | PROMOTION, (1, 0, 0)),
    # The pawn of d7 moved before it was captured.
    (record_of("e2e4 g8f6 e4e5 d7d5 e5d6 h7h6"), (FULL, (1, 2, 2, 2, 7)), 6, (11, 4, 0), 0, (0, 0, 0)),
    (record_of("e2e4 d7d5 d2d4"), (FULL, FULL), 3, (11, 4, 12), 0, (0, 0, 0)),
    (NESTED, (FULL, FULL), 2, (11, 3), 0, (2, 2, 2)),
    # {a} 1. e4 ({b} 1. d4): a comment at the beginning of a line counts.
    (b"\x00\x00\x0c\xcf\x0d\x0c\xbf\x0e\x0fa\x00b\x00", (FULL, FULL), 1, (11,), 0, (1, 2, 0)),
    *((knights(plies), (FULL, FULL), min(plies, 1023), (), 0, (0, 0, 0)) for plies in (1022, 1023, 1024, 1100)),
]

INITIAL = "RNBQKBNRPPPPPPPP................................pppppppprnbqkbnr"

# A record, the mode of a search, a board from a1 on, the side to move, whether variations are looked at, and the first ply.
POSITIONS = [
    (record_of("e2e4 e7e5"), "exact", INITIAL, "w", False, 0),
    # The last ply, and the one before with the wrong side to move.
    (record_of("e2e4 e7e5"), "exact", "RNBQKBNRPPPP.PPP............P.......p...........pppp.ppprnbqkbnr", "w", False, 2),
    (record_of("e2e4 e7e5"), "exact", "RNBQKBNRPPPP.PPP............P...................pppppppprnbqkbnr", "w", False, None),
    (record_of("e2e4 e7e5"), "exact", "RNBQKBNRPPPP.PPP............P...................pppppppprnbqkbnr", "b", False, 1),
    # A start without castling rights.
    (NO_RIGHTS + b"\x0f", "exact", INITIAL, "w", False, 0),
    # No kings, a pawn on the first rank.
    (record_of("e2e4 e7e5"), "exact", "RNBQ.BNRPPPPPPPP................................pppppppprnbq.bnr", "w", False, None),
    (record_of("e2e4 e7e5"), "exact", "RNBQKBNPPPPPPPP.................................pppppppprnbqkbnr", "w", False, None),
    # A knight on another square, and a pawn on another rank or file.
    (record_of("e2e4 e7e5"), "exact", "RNBQKB.RPPPPPPPP.....N..........................pppppppprnbqkbnr", "w", False, None),
    (record_of("e2e4 e7e5"), "pawns", "RNBQKB.RPPPPPPPP.....N..........................pppppppprnbqkbnr", "w", False, 0),
    (record_of("e2e4 e7e5"), "pawns", "RNBQKBNRPPPP.PPP....P...........................pppppppprnbqkbnr", "w", False, None),
    (record_of("e2e4 e7e5"), "files", "RNBQKBNRPPPP.PPP....P...........................pppppppprnbqkbnr", "w", False, 0),
    (record_of("e2e4 e7e5"), "files", "RNBQKBNRPPPP.PPP...P............................pppppppprnbqkbnr", "w", False, None),
    (record_of("e2e4 e7e5"), "material", "RNBQKBNRPPPP.PPP...P............................pppppppprnbqkbnr", "b", False, 1),
    # A man less.
    (record_of("e2e4 e7e5"), "material", "RNBQKBNRPPPP.PPP................................pppppppprnbqkbnr", "w", False, None),
    # The main line comes first, also where it comes later.
    (b"\x00\x00\x67\x0d\x28\x0e\x61\x62\x68\x28\x0f", "exact", "R.BQKBNRPPPPPPPP..N.............................pppppppprnbqkbnr", "b", True, 5),
    (b"\x00\x00\x67\x0d\x28\x0e\x61\x62\x68\x0f", "exact", "R.BQKBNRPPPPPPPP..N.............................pppppppprnbqkbnr", "b", True, 1),
    (b"\x00\x00\x67\x0d\x28\x0e\x61\x62\x68\x0f", "exact", "R.BQKBNRPPPPPPPP..N.............................pppppppprnbqkbnr", "b", False, None),
    # 1. e4 (1. d4 (1. c4) 1... d5) 1... e5: a variation of a variation, and behind it the first.
    (b"\x00\x00\xcf\x0d\xbf\x0d\xaf\x0e\xbf\x0e\xcf\x0f", "exact", "RNBQKBNRPP.PPPPP..........P.....................pppppppprnbqkbnr", "b", True, 1),
    (b"\x00\x00\xcf\x0d\xbf\x0d\xaf\x0e\xbf\x0e\xcf\x0f", "exact", "RNBQKBNRPPP.PPPP...........P.......p............ppp.pppprnbqkbnr", "w", True, 2),
    # 1. e4 e5 2. Nf3 (2. Nc3 Nc6): the plies before the variation count.
    (b"\x00\x00\xcf\xcf\x67\x0d\x28\x22\x0e\x0f", "exact", "R.BQKBNRPPPP.PPP..N.........P.......p.....n.....pppp.pppr.bqkbnr", "w", True, 4),
    # 1. e4 (1. -- d5): a null move.
    (b"\x00\x00\xcf\x0d\x00\xbf\x0e\x0f", "exact", "RNBQKBNRPPPPPPPP...................p............ppp.pppprnbqkbnr", "w", True, 2),
    # 1. e4 (1. e4 (1. e4 .. (1. d4))): the tenth open line.
    (b"\x00\x00" + 9 * b"\xcf\x0d" + b"\xbf" + 9 * b"\x0e" + b"\x0f", "exact", "RNBQKBNRPPP.PPPP...........P....................pppppppprnbqkbnr", "b", True, 1),
]

OPENING, EXCHANGE = "e2e4 d7d5 d2d4", "e2e4 d7d5 e4d5"
PROMOTED = "h2h4 g7g5 h4g5 h7h6 g5h6 g8f6 h6h7 h8g8 h7g8q"
BLACK_FIRST = "rnbqkbnr/ppp1pppp/8/3p4/8/8/PPPPPPPP/RNBQKBNR w"
WITH_A_KNIGHT = "rnbqkb1r/pppppppp/5n2/8/3P4/8/PPP1PPPP/RNBQKBNR w"

# A record, a search, and whether it reads the record.
READ = [
    (record_of(OPENING), "material wq=0..0", False),
    (record_of(OPENING), "material wp=9..16", False),
    (record_of(OPENING), "material wq=2..16", False),
    (record_of(OPENING), "material wp=0..16 ply=3..131071", True),
    (record_of(OPENING), "material wp=0..16 ply=4..131071", False),
    (knights(1100), "material wp=0..16 ply=2000..131071", True),
    (record_of(PROMOTED), "material wq=1..1", True),
    (record_of(PROMOTED), "material wr=0..1", False),
    (record_of(PROMOTED), "material wq=9..16", True),
    (record_of(PROMOTED), "material wq=10..16", False),
    (record_of(PROMOTED), "material wn=3..16", False),
    (NO_RIGHTS + b"\x0f", "material wn=3..16", True),
    (record_of(EXCHANGE), "position exact rnbqkbnr/pppppppp/8/8/8/8/PPPPPPPP/RNBQKBNR w", True),
    # The pawn of d7 left after that of e2.
    (record_of(EXCHANGE), f"position exact {BLACK_FIRST}", False),
    (record_of(EXCHANGE), f"position pawns {BLACK_FIRST}", False),
    (record_of(EXCHANGE), f"position files {BLACK_FIRST}", True),
    (record_of(EXCHANGE), f"position material {BLACK_FIRST}", True),
    (NO_RIGHTS + b"\x0f", f"position exact {BLACK_FIRST}", True),
    # With variations nothing is known of a game that has some.
    (record_of(EXCHANGE), f"position exact {BLACK_FIRST} vars", False),
    (b"\x00\x00\xcf\x0d\xbf\x0e\xbf\x0f", f"position exact {BLACK_FIRST} vars", True),
    (NESTED, f"position exact {WITH_A_KNIGHT}", False),
    (NESTED, f"position exact {WITH_A_KNIGHT} vars", True),
]

START = "rnbqkbnr/pppppppp/8/8/8/8/PPPPPPPP/RNBQKBNR w"
BLACK_MOVED = "rnbqkbnr/ppp1pppp/8/3p4/4P3/8/PPPP1PPP/RNBQKBNR w"
BEHIND = "rnbqkbnr/ppp1pppp/8/3p4/3PP3/8/PPP2PPP/RNBQKBNR b"
KNIGHT_OUT = "rnbqkbnr/pppppppp/8/8/8/5N2/PPPPPPPP/RNBQKB1R b"

# A record, an index, lines behind it, and whether one of them reads the record: 1. e4 d5 2. d4 and, met twice, 1. Nf3 Nf6 2. Ng1 Ng8.
READ_UNDER_INDEX = [
    (record_of(OPENING), "index 2", f"find {START}", False),
    (record_of(OPENING), "index 2", f"find {BLACK_MOVED}", False),
    (record_of(OPENING), "index 2", f"search ignore position exact {BLACK_MOVED} vars", False),
    (record_of(OPENING), "index 2", f"search and position exact {BLACK_MOVED}", False),
    (record_of(OPENING), "index 2", f"tree {BLACK_MOVED}", False),
    (record_of(OPENING), "index 0", f"find {START}", False),
    (record_of(OPENING), "index 40", f"find {BEHIND}", False),
    (record_of(OPENING), "index 1", f"find {KNIGHT_OUT}", False),
    (record_of(OPENING), "index 40", f"find {KNIGHT_OUT}", False),
    (knights(4), "index 0", f"find {START}", False),
    (NESTED, "index 40", f"search ignore position exact {START} vars", False),
    # Behind the depth, nowhere on the main line, and in other modes it tells nothing.
    (record_of(OPENING), "index 2", f"find {BEHIND}", True),
    (record_of(OPENING), "index 0", f"find {BLACK_MOVED}", True),
    (record_of(OPENING), "index 2", f"tree {BEHIND}", True),
    (record_of(OPENING), "index 0", f"find {KNIGHT_OUT}", True),
    (record_of(OPENING), "index 2", f"search ignore position pawns {START}", True),
    (record_of(OPENING), "index 2", f"search ignore position files {START}", True),
    (record_of(OPENING), "index 2", f"search ignore position material {START}", True),
    (record_of(OPENING), "index 2", "search ignore material wp=0..16", True),
    (record_of(OPENING), "index 2", "show 0", True),
    # What is deleted and marked is still decided; what is dropped decides nothing, and no error drops it.
    (record_of(OPENING), "index 2", f"delete 0\nmark 0 W on\nfind {BLACK_MOVED}", False),
    (record_of(OPENING), "index 2", f"index 41\nindex\nindex off 2\nfind {BLACK_MOVED}", False),
    (record_of(OPENING), "index 2", f"index off\nfind {BLACK_MOVED}", True),
    # It is built anew from the records.
    (record_of(OPENING), "index 2", "index 2", True),
]

# A record, a line, lines behind it, and whether one of these reads the record: a slot that comes to show a tree reads what a tree of all games
# would, the games that are out too, and no command reads more because a slot shows one.
READ_FOR_SLOTS = [
    (record_of(OPENING), "info", f"watch 0 {BEHIND}", True),
    (record_of(EXCHANGE), "info", f"watch 0 {BLACK_FIRST}", False),
    (record_of(OPENING), "index 2", f"watch 0 {BLACK_MOVED}", False),
    (record_of(OPENING), "index 2", f"watch 0 {BEHIND}", True),
    (record_of(OPENING), "clear", f"tree {BEHIND}", False),
    (record_of(OPENING), "clear", f"watch 0 {BEHIND}", True),
    (record_of(OPENING), f"watch 0 {BEHIND}", f"watch 0 {BEHIND}", True),
    (record_of(OPENING), f"watch 0 {BEHIND}", "view 0\nclear\nreset\nrestrict 1 1\nnegate\ndelete 0\nmark 0 W on\ncross E\nview 0\nunwatch 0\nview 0", False),
]


def fen(board):
    text = "/".join(board[8 * rank:8 * rank + 8] for rank in range(7, -1, -1))
    for empty in range(8, 0, -1):
        text = text.replace(empty * ".", str(empty))
    return text


def fail(words):
    sys.exit(f"cases/searches.py: {words}")


def write(folder, entries, games):
    for end, content in (("si4", made.index(entries)), ("sn4", made.VIENNA_NAMES), ("sg4", games)):
        Path(folder, f"base.{end}").write_bytes(content)


def run(script, entry, record, *words):
    """The status, the lines behind the opening, and the errors."""
    with tempfile.TemporaryDirectory() as folder:
        write(folder, [entry], record)
        ran = subprocess.run([PROGRAM, *words, "base"], cwd=folder, input=script, capture_output=True, text=True, timeout=60)
    return ran.returncode, ran.stdout.splitlines()[1:], ran.stderr


def signatures():
    for record, final, plies, home, flags, counts in SIGNATURES:
        entry = made.entry(0, len(record), flags=flags, counts=counts, final=final, plies=plies, home=home)
        got = run("info\n", entry, record, "--strict")
        if got[0] or got[2]:
            fail(f"{record}: {got}")


def positions():
    for record, mode, board, side, aside, first in POSITIONS:
        search = f"search ignore position {mode} {fen(board)} {side}{' vars' if aside else ''}\nhits\n"
        got = run(search, made.entry(0, len(record)), record)
        found = 0 if first is None else 1
        wanted = (0, [f"filter {found} of 1", *found * [f"0 {first}"], f"filter {found} of 1"], "")
        if got != wanted:
            fail(f"{search} of {record}: {got}, and not {wanted}")


def is_read(record, first, lines):
    """Whether lines read a record that was written over behind the first. Behind it stands a game in the next block of the games file, which
    the opening reads last, and so does an index."""
    with tempfile.TemporaryDirectory() as folder:
        other = record_of("a2a3")
        write(folder, [made.entry(0, len(record)), made.entry(131_072, len(other))], record.ljust(131_072, b"\x00") + other)
        session = subprocess.Popen([PROGRAM, "base"], cwd=folder, stdin=subprocess.PIPE, stdout=subprocess.PIPE, stderr=subprocess.PIPE, text=True)
        session.stdin.write(f"{first}\n")
        session.stdin.flush()
        if not session.stdout.readline().startswith("base 2 games "):
            fail(f"no base of {record}")
        session.stdout.readline()
        with Path(folder, "base.sg4").open("r+b") as file:
            file.write(len(record) * b"\xce")
        errors = session.communicate(f"{lines}\n", timeout=60)[1]
    if (session.returncode, errors) not in ((0, ""), (CHANGED_GAME, "changed game 0\n")):
        fail(f"{lines} of {record} ended with {session.returncode}: {errors}")
    return session.returncode != 0


def reading():
    searches = [(record, "info", f"search ignore {search}", wanted) for record, search, wanted in READ]
    for record, first, lines, wanted in searches + READ_UNDER_INDEX + READ_FOR_SLOTS:
        if is_read(record, first, lines) != wanted:
            fail(f"{first}, {lines} {'does not read' if wanted else 'reads'} {record}")


def main():
    for part in (signatures, positions, reading):
        part()
        print(f"{part.__name__}: ok")


if __name__ == "__main__":
    main()
