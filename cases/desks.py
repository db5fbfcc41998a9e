#!/usr/bin/env python3
"""cases/desks.py: what a client of a desk is told, beside plain sessions.

Scripts of four clients are drawn from fixed seeds. What each client is told of each of his lines has to be what a plain session is told of it that says
his lines, and of the others those alone that change the base; there the filter is kept aside while another client adds games, so that these are out of it.

usage: cases/desks.py [PROGRAM]
"""
import pathlib
import random
import shutil
import subprocess
import sys
import tempfile

TOP = pathlib.Path(__file__).resolve().parent.parent
BASE = TOP / "cases/watch_of_two_games/before"
START = "rnbqkbnr/pppppppp/8/8/8/8/PPPPPPPP/RNBQKBNR w"
BOARDS = [START, "rnbqkbnr/pppppppp/8/8/4P3/8/PPPP1PPP/RNBQKBNR b", "rnbqkbnr/ppp1pppp/8/3p4/4P3/8/PPPP1PPP/RNBQKBNR w"]
GAMES = ['[White "C"]\n\n1. c4 *', '[White "A"]\n[Result "0-1"]\n\n1. d4 d5 2. e4 0-1', '1. e4 d5 2. d4 e5 *', '[Black "B"]\n\n1. e4 *']
SCRIPTS, LINES = 40, 50


def private(draw):
    name, board = draw.choice("abcdefgh"), draw.choice(BOARDS)
    return draw.choice([
        "hits", "list", "reset", "clear", "negate", "info", "export", "cross ?", f"find {board}", f"tree {board}", f"restrict {draw.randrange(3)} {draw.randrange(6)}",
        f"keep {name}", f"keep {name}", f"use {name}", f"and {name}", f"or {name}", f"drop {name}", f"watch {draw.randrange(3)} {board}",
        f"view {draw.randrange(3)}", f"view {draw.randrange(3)}", "unwatch 1", f"show {draw.randrange(6)}",
        f"search {draw.choice(['ignore', 'and', 'or'])} header {draw.choice(['white=A', 'white=C', 'result=1-0', 'deleted=yes', 'mark=W'])}",
        "search or material wp=8..8 ply=1..2", f"search and position exact {board}", "faulty", "keep",
    ])


def public(draw):
    game = draw.randrange(6)
    return draw.choice([
        "import <<END\n" + "\n\n".join(draw.sample(GAMES, 2)) + "\nEND", f"replace {game} <<END\n{draw.choice(GAMES)}\nEND", f"tag {game} WhiteElo {draw.randrange(2000, 2800)}",
        f"tag {game} White {draw.choice('ABCD')}", f"delete {game}", f"undelete {game}", f"mark {game} W {draw.choice(['on', 'off'])}", "index 2", "index off", "save", "compact",
        f"demo {draw.randrange(9)} 1", "twins 2", "eco <<END\nA40 d4\nB00 e4\nEND",
    ])


def told(program, words, script):
    """What is told of each line, which a line with its number follows that no slot has."""
    with tempfile.TemporaryDirectory() as room:
        shutil.copytree(BASE, room, dirs_exist_ok=True)
        run = subprocess.run([program, *words, "pawns"], input=script, capture_output=True, text=True, cwd=room, check=True)
    parts, part = {}, []
    for line in run.stdout.splitlines()[1:]:
        if "error: no view 1000" in line:
            parts[int(line.split()[-1]) - 1000000] = part
            part = []
        else:
            part.append(line)
    return parts


def main():
    program = str(pathlib.Path(sys.argv[1] if len(sys.argv) > 1 else TOP / "crates/scid_shell/out/scid_shell").resolve())
    lines = 0
    for seed in range(SCRIPTS):
        draw = random.Random(seed)
        said = [(draw.randrange(4), is_public, public(draw) if is_public else private(draw)) for is_public in (draw.random() < 0.35 for _ in range(LINES))]
        desk = told(program, ["--desk"], "".join(f"@{client} {line}\n@{client} view {1000000 + k}\n" for k, (client, _, line) in enumerate(said)))
        for client in range(4):
            script = ""
            for k, (by, is_public, line) in enumerate(said):
                if by == client:
                    # He has two slots.
                    script += f"{'view 9' if line.startswith(('watch 2', 'view 2')) else line}\nview {1000000 + k}\n"
                elif is_public:
                    script += f"keep aside\n{line}\nuse aside\ndrop aside\nview {1000000 + k}\n" if line.startswith(("import", "demo")) else f"{line}\nview {1000000 + k}\n"
            plain = told(program, [], script)
            for k, (by, _, line) in enumerate(said):
                if by == client:
                    tag, lines = f"@{client} ", lines + 1
                    wanted = [tag + it.replace("no view 9", "no view 2") for it in plain[k]]
                    if desk[k] != wanted:
                        sys.exit(f"seed {seed}, line {k}, {line!r} of client {client}:\n" + "\n".join(desk[k]) + "\nand not\n" + "\n".join(wanted))
    print(f"desks: ok, {lines} lines")


main()
