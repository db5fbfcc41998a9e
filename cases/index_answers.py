#!/usr/bin/env python3
"""Runs scid_shell twice over the same edits and the same searches behind each of them, with position indexes and without one: the texts have to
be the same but for what they tell of the index. And writes the games file over behind edits under an index: what it decides is still found, in games
that came in, took the place of another or got a new number.

usage: cases/index_answers.py [PROGRAM]

The games meet boards again and again, begin on boards of their own, and differ from move 2 or from move 11; some boards that are sought stand
behind the depth, in variations alone, or in no game.
"""
import re
import subprocess
import sys
import tempfile
from pathlib import Path

sys.dont_write_bytecode = True
HERE = Path(__file__).resolve().parent
sys.path.insert(0, str(HERE.parent / "bench" / "find"))
from make_base import Game  # noqa: E402

PROGRAM = Path(sys.argv[1] if len(sys.argv) > 1 else HERE / "../crates/scid_shell/out/scid_shell").resolve()

VIENNA = (
    "e2e4 c7c6 d2d4 d7d5 b1c3 d5e4 c3e4 g8f6 d1d3 e7e5 d4e5 d8a5 c1d2 a5e5 e1c1 f6e4 d3d8 e8d8 d2g5 d8c7 g5d8",
    "1. e4 c6 2. d4 d5 3. Nc3 dxe4 4. Nxe4 Nf6 5. Qd3 e5 6. dxe5 Qa5+ 7. Bd2 Qxe5 8. O-O-O Nxe4 9. Qd8+ Kxd8 10. Bg5+ Kc7 11. Bd8# 1-0",
)
OTHER_END = VIENNA[1].replace("11. Bd8# 1-0", "11. Be7 1/2-1/2")
KNIGHTS = "Nf3 Nf6 Ng1 Ng8 " * 16 + "e4 *"
PAWNS = '[Event "P"]\n[White "A"]\n[Black "B"]\n[Date "2001.02.03"]\n\n1. e4 d5 2. d4 1-0\n\n[Event "P"]\n[White "B"]\n[Black "A"]\n\n1. d4 d5 2. e4 1/2-1/2\n'
NOTES = "{Start} 1. e4 $1 (1. d4 d5 (1... Nf6 2. Nf3) 2. c4) 1... e5 2. Nf3 (2. Nc3 Nc6) *"
PROMOTED = '[Event "O"]\n[FEN "4k3/P7/8/8/8/8/8/4K3 w - - 0 1"]\n\n1. a8=N Kd7 2. Nb6+ Kc6 3. Kd1 Kxb6 *'
OWN_WITH_RIGHTS = '[Event "O"]\n[FEN "rnbqkbnr/pppppppp/8/8/4P3/8/PPPP1PPP/RNBQKBNR b - - 0 1"]\n\n1... e5 2. Nf3 *'

EDITS = [
    "import <<END\n" + "\n\n".join([VIENNA[1], PAWNS, NOTES, KNIGHTS, PROMOTED, OWN_WITH_RIGHTS, "1. e4 -- 2. d4 *", "*"]) + "\nEND\n",
    "demo 7 40\n",
    f"import <<END\n1. e4 e4 *\n\n[Event \"V\"]\n\n{OTHER_END}\n\n[Event \"W\"]\n\n1. Ke2 *\nEND\n",
    # Another game, the same game, one that begins alike, a longer and a shorter one, and games that stay as they are.
    f"replace 0 <<END\n{OTHER_END}\nEND\nreplace 3 <<END\n{NOTES}\nEND\nreplace 4 <<END\n1. Nf3 Nf6 2. Ng1 Nc6 *\nEND\n",
    f"replace 1 <<END\n{KNIGHTS}\nEND\nreplace 2 <<END\n*\nEND\nreplace 1000 <<END\n*\nEND\nreplace 2 <<END\nEND\nreplace 9 <<END\n1. e4 *\n\n*\nEND\n",
    "tag 0 White Reti\ntag 5 EventDate 2004.01.02\ntag 6 Result 0-1\ntag 6 FEN x\ntag 1000 White x\nmark 2 W on\nmark 2 x on\n",
    "eco <<END\nB10 e4 c6\nB15 e4 c6 d4 d5 Nc3\nA04 Nf3\nEND\neco <<END\nx e4\nEND\n",
    "delete 0\ndelete 3\ndelete 11\nundelete 3\ndelete 49\ndelete 50\n",
    "twins 4\n",
    "search ignore header deleted=yes\nkeep gone\nsave\n",
    "compact\n",
    f"demo 9 8\nimport <<END\n{VIENNA[1]}\n\n{PROMOTED}\nEND\nreplace 3 <<END\n{PROMOTED}\nEND\n",
    "search ignore header deleted=no\nrestrict 2 1000\nnegate\n" + "".join(f"delete {game}\n" for game in range(3, 60)) + "compact\n",
    f"replace 0 <<END\n{VIENNA[1]}\nEND\nimport <<END\n{NOTES}\nEND\n",
    "delete 0\ndelete 1\ndelete 2\ndelete 3\ncompact\n",
    f"import <<END\n{VIENNA[1]}\n\n{PAWNS}\nEND\n",
]


# Edits behind which every game meets the start. What demo searches stays in memory, but for a compaction.
GAMES = "import <<END\n1. e4 e5 *\n\n1. d4 *\n\n1. Nf3 Nf6 2. Ng1 Ng8 *\nEND\n"
MET = [
    GAMES,
    f"{GAMES}replace 0 <<END\n1. c4 *\nEND\nreplace 2 <<END\n*\nEND\n",
    f"{GAMES}delete 0\ncompact\n",
    f"{GAMES}delete 1\ndemo 3 3\ncompact\nimport <<END\n1. e4 *\nEND\n",
]
CHANGED_GAME = 6


def board_after(moves):
    """The board and the side to move behind these moves, as a search names them."""
    game = Game()
    for move in moves.split():
        game.packed(move)
    rows = ["".join(game.board[8 * rank:8 * rank + 8]) for rank in range(7, -1, -1)]
    return re.sub(r"\.+", lambda empty: str(len(empty[0])), "/".join(rows)) + (" b" if game.side else " w")


def front(plies):
    return " ".join(VIENNA[0].split()[:plies])


OUT_AND_BACK = "g1f3 g8f6 f3g1 f6g8"
SOUGHT = [board_after(line) for line in (
    "", "--", *map(front, (1, 2, 3, 5, 19, 20, 21)), "e2e4 d7d5", "e2e4 d7d5 d2d4", "e2e4 e7e5 g1f3", "d2d4 d7d5", "d2d4 d7d5 c2c4", "d2d4 g8f6 g1f3",
    "e2e4 e7e5 b1c3 b8c6", "g1f3", "g1f3 g8f6", f"{OUT_AND_BACK} e2e4", "g1f3 g8f6 f3g1 b8c6", "e2e4 --", "a2a4 a7a5 h2h4 h7h5")]
SOUGHT += ["4k3/P7/8/8/8/8/8/4K3 w", "8/8/1k6/8/8/8/8/3K4 w", "8/8/8/8/8/8/8/8 w"]


def searches():
    """Every kind of search, by every way to join the filter."""
    lines = []
    for board in SOUGHT:
        lines += [f"find {board}", f"tree {board}", f"search ignore position exact {board} vars", "hits", "reset"]
        lines += [f"search and position exact {board}", "keep some", "negate", f"search and position exact {board} vars", "hits"]
        lines += ["use some", f"search or position exact {SOUGHT[0]}", f"search or position exact {board} vars", "hits"]
        for mode in ("pawns", "files", "material"):
            lines += [f"search ignore position {mode} {board}", f"search or position {mode} {board} vars", "hits"]
    lines += ["search ignore material wn=1..1 streak=2", "hits", "search or header white=A", f"tree {SOUGHT[0]}", "list", "info"]
    return "".join(line + "\n" for line in lines)


def run(pieces):
    """The text of a script over a new base, without what it tells of an index."""
    with tempfile.TemporaryDirectory() as folder:
        done = subprocess.run([PROGRAM, "--create", "base"], cwd=folder, input="".join(pieces), capture_output=True, text=True, timeout=600)
    if done.returncode or done.stderr:
        fail(f"ended with {done.returncode}: {done.stderr}")
    kept, told = [], []
    for line in done.stdout.splitlines():
        (told if line.startswith("index ") else kept).append(line)
    return [re.sub(r"^(games .* index) \w+$", r"\1", line) for line in kept], told


def fail(words):
    sys.exit(f"cases/index_answers.py: {words}")


def script(indexes):
    """The edits, each with the searches behind it and, where one is named for it, the line of an index before it; and the searches once more."""
    pieces = [piece for i, edit in enumerate(EDITS) for piece in (indexes.get(i, ""), edit, searches())]
    return pieces + [indexes.get(len(EDITS), ""), searches()]


def compare(indexes, wanted):
    got, told = run(script(indexes))
    if len(told) != len(indexes):
        fail(f"{indexes}: these lines tell of indexes: {told}")
    for number, (one, other) in enumerate(zip(got, wanted)):
        if one != other:
            fail(f"{indexes}: line {number} is {one!r}, and {other!r} without an index")
    if len(got) != len(wanted):
        fail(f"{indexes}: {len(got)} lines, and {len(wanted)} without an index")


def found_behind(first):
    """Status and text of searches for the start, where the games file is written over behind the first lines and a save, so that no game waits to
    be written."""
    lines = f"find {SOUGHT[0]}\ntree {SOUGHT[0]}\nsearch and position exact {SOUGHT[0]} vars\n"
    with tempfile.TemporaryDirectory() as folder:
        streams = dict(stdin=subprocess.PIPE, stdout=subprocess.PIPE, stderr=subprocess.PIPE, text=True)
        session = subprocess.Popen([PROGRAM, "--create", "base"], cwd=folder, **streams)
        session.stdin.write(f"{first}save\ninfo\n")
        session.stdin.flush()
        while (line := session.stdout.readline()) and not line.startswith("games "):
            pass
        games = Path(folder, "base.sg4")
        with games.open("r+b") as file:
            file.write(games.stat().st_size * b"\xce")
        text = session.communicate(lines, timeout=60)[0]
    with tempfile.TemporaryDirectory() as folder:
        sound = subprocess.run([PROGRAM, "--create", "base"], cwd=folder, input=f"{first}save\n{lines}", capture_output=True, text=True, timeout=60)
    return session.returncode, sound.stdout.endswith(text)


def unread():
    for edits in MET:
        if (got := found_behind("index 0\n" + edits)) != (0, True):
            fail(f"behind {edits!r} an index decides too little: {got}")
        if (got := found_behind("index 0\n" + edits + "index off\n")[0]) != CHANGED_GAME:
            fail(f"behind {edits!r} no game was read without an index: {got}")


def main():
    unread()
    print("unread: ok")
    wanted, _ = run(script({}))
    last = len(EDITS)
    for depth in (0, 1, 2, 5, 20, 40):
        # The last searches are made without the index.
        compare({0: f"index {depth}\n", last: "index off\n"}, wanted)
        print(f"index {depth}: ok")
    # Indexes of many depths over each other, built anew and dropped between the edits.
    depths = (2, 40, "off", 0, 7, 3, 20, "off", 1, 21)
    compare({i: f"index {depths[i % len(depths)]}\n" for i in range(last + 1)}, wanted)
    compare({i: "index 40\n" for i in range(1, last + 1, 2)}, wanted)
    print(f"indexes between edits: ok, {len(wanted)} lines")


if __name__ == "__main__":
    main()
