#!/usr/bin/env python3
"""Runs the built program over real files: beside other programs, beside files of the user's own, and ended at each call of the system.

Usage: cases/real_files.py [PROGRAM [SHOW ..] [--all]]

With --all every schedule of two runs is tried, and not a sample of them.
"""
import fcntl
import itertools
import os
import pty
import re
import select
import shutil
import stat
import subprocess
import sys
import tempfile
import threading
import time
from pathlib import Path

sys.dont_write_bytecode = True
import races  # noqa: E402
from over_files import (  # noqa: E402
    BAD_BASE, BUSY, CHANGED, CHANGED_GAME, ENDINGS, FILES_FAULT, IN_THE_WAY, PROGRAM, SET_ASIDE, TOP, USAGE, WRITE_FAULT, Session, begin, calls_within, clear,
    contents, fill, heads, held_back, make_base, put_right, run, traced, wait_for)


def a_changed_file_is_never_saved_over(folder):
    """Each of the three files, changed in its place, replaced or removed by another program."""
    for ending, how, what in itertools.product(ENDINGS, ("write", "replace", "remove"), ("tag 0 White C", "demo 1 1", "save", "compact")):
        base = make_base(folder)
        session = Session(base)
        session.ask("mark 0 W on")
        path = Path(f"{base}.{ending}")
        old = path.read_bytes()
        if how == "write":
            path.write_bytes(old[:-1] + b"\7" + b"\7")
        elif how == "replace":
            Path(folder, "other").write_bytes(old)
            os.rename(Path(folder, "other"), path)
        else:
            path.unlink()
        then = contents(folder)
        assert session.ask(what) == "", (ending, how, what)
        status, errors = session.end()
        assert status == FILES_FAULT and f"{path}: {CHANGED}" in errors, (ending, how, what, errors)
        assert contents(folder) == then, (ending, how, what)
        clear(folder)


def a_base_that_another_run_holds_stays(folder):
    """A base whose games file another program has locked is not changed."""
    base = make_base(folder)
    then = contents(folder)
    with open(f"{base}.sg4", "rb") as games:
        fcntl.flock(games, fcntl.LOCK_EX)
        for what in ("save", "compact"):
            status, output, errors = run(base, f"delete 1\n{what}\n")
            assert (status, output) == (FILES_FAULT, "base 4 games 0 mended\ndeleted 1\n"), (status, output)
            assert BUSY in errors and contents(folder) == then, errors
    assert run(base, "delete 1\nsave\n")[0] == 0


def two_programs_in_turn(folder):
    """Two programs that load, edit, save and compact, in every order: who did not see the last change is refused, and nothing is lost."""
    ways = list(itertools.permutations(("save", "compact")))
    orders = sorted(set(itertools.permutations("AAAABBBB")))
    orders = [order for order in orders if order[0] == "A"]
    for order, first, second, edit in itertools.product(orders, ways, ways, ("tag", "mark")):
        one_order(folder, order, {"A": first, "B": second}, edit)
        clear(folder)
    return f"{len(orders) * len(ways) ** 2 * 2} orders"


def one_order(folder, order, ways, edit):
    base = make_base(folder)
    version, saved = 0, "Anderssen, Adolf"
    sessions, seen, ended, steps = {}, {}, set(), {}
    for who in order:
        step = steps[who] = steps.get(who, 0) + 1
        if who in ended:
            continue
        if step == 1:
            sessions[who], seen[who] = Session(base), version
            assert sessions[who].opened == "base 4 games 0 mended\n", order
            continue
        line = f"tag 0 White {who}" if edit == "tag" else "mark 0 W on"
        writes = step > 2 or edit == "tag"
        line = line if step == 2 else ways[who][step - 3]
        then = contents(folder)
        answer = sessions[who].ask(line)
        if not writes or seen[who] == version:
            assert answer, (order, ways, edit, who, line)
            if writes:
                version += 1
                seen[who] = version
                saved = who if step > 2 and edit == "tag" else saved
        else:
            assert answer == "", (order, ways, edit, who, line, answer)
            status, errors = sessions[who].end()
            assert status == FILES_FAULT and CHANGED in errors, (order, errors)
            assert contents(folder) == then, (order, ways, edit, who, line)
            ended.add(who)
    for who, session in sessions.items():
        if who not in ended:
            assert session.end() == (0, ""), order
    found = heads(base)
    assert len(found) == 5 and f" {saved} - " in found[0], (order, ways, edit, found, saved)


def files_of_the_user_stay(folder):
    """A file that stands where a new one or an old one would have to: who needs its name is refused before anything is done."""
    for ending, form in itertools.product(ENDINGS, ("new", "old")):
        base = make_base(folder)
        own = Path(f"{base}.{ending}.{form}")
        own.write_text("my own")
        then = contents(folder)
        status, output, errors = run(base, "mark 0 W on\ncompact\n")
        assert status == FILES_FAULT and "compacted" not in output, (own, output)
        assert errors.splitlines()[0].startswith(f"{own}: of a run that was broken off or is at work, or your own"), errors
        assert f"{own}: {IN_THE_WAY}" in errors, errors
        assert contents(folder) == then, own
        status, output, errors = run(base, "mark 0 W on\nsave\n")
        if form == "new" and ending != "sg4":
            assert status == FILES_FAULT and f"{own}: {IN_THE_WAY}" in errors and contents(folder) == then, (own, errors)
        else:
            assert status == 0 and "saved 4 games" in output, (own, errors)
        assert own.read_text() == "my own"
        clear(folder)


def modes_and_links_stay(folder):
    """The modes of the files are those that they had, and a symbolic link stays one."""
    for what in ("tag 0 White C\nsave\n", "tag 0 White C\ndelete 1\ncompact\n"):
        far = Path(folder, "far")
        far.mkdir()
        make_base(far, "real")
        base = str(Path(folder, "near"))
        for ending in ENDINGS:
            os.symlink(f"far/real.{ending}", f"{base}.{ending}")
        for ending, mode in zip(ENDINGS, (0o660, 0o600, 0o640)):
            os.chmod(far / f"real.{ending}", mode)
        status, _, errors = run(base, what)
        assert (status, errors) == (0, ""), errors
        for ending, mode in zip(ENDINGS, (0o660, 0o600, 0o640)):
            assert os.readlink(f"{base}.{ending}") == f"far/real.{ending}"
            assert stat.S_IMODE(os.stat(far / f"real.{ending}").st_mode) == mode, (what, ending)
        assert sorted(path.name for path in far.iterdir()) == ["real.sg4", "real.si4", "real.sn4"]
        assert " C - " in heads(str(far / "real"))[0]
        shutil.rmtree(far)
        clear(folder)


def edits_go_on_after_a_compaction(folder):
    """What is read and added after a compaction is read of the new files and added to them."""
    base = make_base(folder)
    second = re.findall(r'^\[Black "(.*)"\]', (TOP / "samples/classics.pgn").read_text(), flags=re.M)[1]
    # The second addition waits unread, and goes with its game.
    script = "show 0\ntag 1 White Z\ntag 2 White Y\ndelete 0\ndelete 2\ncompact\nshow 0\ntag 0 Black C\nshow 0\nsave\nshow 0\n"
    status, output, errors = run(base, script)
    assert (status, errors) == (0, ""), errors
    assert re.findall(r'^\[Black "(.*)"\]', output, flags=re.M)[1:] == [second, "C", "C"], output
    assert " - C" in heads(base)[0]


def additions_wait_for_a_block(folder):
    """The first addition since the base was opened or saved is in the games file at once. Those behind it are before one of them is read, by a
    save, and at the end."""
    base = make_base(folder)
    sizes = [Path(f"{base}.sg4").stat().st_size]
    session = Session(base)

    def grows(line, answer):
        """Whether the games file is longer behind this line."""
        assert session.ask(line) == answer, (line, session.end())
        sizes.append(Path(f"{base}.sg4").stat().st_size)
        return sizes[-1] > sizes[-2]

    assert grows("tag 0 White A", "tagged 0\n")
    assert not grows("tag 1 White B", "tagged 1\n")
    assert grows("tag 1 Black C", "tagged 1\n")
    assert grows("save", "saved 4 games\n")
    saved = heads(base)
    assert grows("tag 2 White D", "tagged 2\n")
    assert not grows("tag 3 White E", "tagged 3\n")
    assert session.end() == (0, "")
    assert Path(f"{base}.sg4").stat().st_size > sizes[-1]
    assert heads(base) == saved and " A - " in saved[0] and " B - C" in saved[1], saved


def a_record_that_changes_ends_the_run(folder):
    """A record that another program writes over after the opening, with bytes that are none or with the record of another game: whoever reads
    it ends there, and leaves the files as they are. Searches, trees, slots, an index, twins and codes go along the moves alone, and a tree to
    the move behind the position. A demo of no games has said so before it searches."""
    read = ("show 0", "export", "tag 0 White C")
    start = "rnbqkbnr/pppppppp/8/8/8/8/PPPPPPPP/RNBQKBNR w"
    search = (f"find {start}", f"search ignore position exact {start}", f"search ignore position pawns {start}", "search ignore material wp=8..8",
              f"tree {start}", "demo 1 0", f"watch 0 {start}", "index 20", "twins 0", "eco <<END\nA00 e4\nEND")
    none, another, no_move = b"\xce", b"\0\0\xcf\x0c\x0f", b"\0\0\xce"
    for what, new in (*((what, none) for what in (*read, *search)), *((what, another) for what in read),
                      *((what, no_move) for what in (f"tree {start}", f"watch 0 {start}"))):
        for before in ((), search[:1]):
            session, base = two_blocks(folder, before)
            with Path(f"{base}.sg4").open("r+b") as file:
                file.write(new)
            then = contents(folder)
            first = session.ask(what)
            status, errors = session.end()
            assert (status, errors) == (CHANGED_GAME, "changed game 0\n"), (what, status, errors)
            said = "demo 0 games 0 plies\n" if what == "demo 1 0" else ""
            assert first == said and contents(folder) == then, (what, first)
            clear(folder)


def a_move_that_changes_ends_the_search_that_comes_to_it(folder):
    """A move of a record that another program makes illegal behind the opening. The record begins as before, so that only a search which goes on
    to that move can tell; one of them goes into a variation."""
    knights = ["rnbqkbnr/pppp1ppp/8/4p3/4P3/5N2/PPPP1PPP/RNBQKB1R b", "rnbqkbnr/pppp1ppp/8/4p3/4P3/2N5/PPPP1PPP/R1BQKBNR b"]
    longest = 131_066 * "x"
    record = b"\0\0\xcf\xcf\x67\x0d\x28\x0e\x0f"
    rows = (
        ("search ignore material wp=8..8 ply=1..131071", 2),
        ("search ignore material wp=8..8 streak=3", 3),
        (f"search ignore position exact {knights[0]}", 4),
        (f"search ignore position exact {knights[1]} vars", 4),
        (f"search ignore position exact {knights[1]} vars", 6),
        (f"find {knights[0]}", 4),
    )
    for what, place in rows:
        base = os.path.join(folder, "knights")
        script = f"import <<END\n1. e4 e5 2. Nf3 (2. Nc3) *\n\n{{{longest}}} *\nEND\nsave\n"
        assert run(base, script, ["--create"])[0] == 0
        session = Session(base)
        assert session.ask("info").startswith("games 2 "), session.end()
        with Path(f"{base}.sg4").open("r+b") as file:
            assert file.read(len(record)) == record
            file.seek(place)
            file.write(b"\xce")
        then = contents(folder)
        first = session.ask(what)
        status, errors = session.end()
        assert (status, errors, first) == (CHANGED_GAME, "changed game 0\n", ""), (what, place, status, errors, first)
        assert contents(folder) == then, (what, place)
        clear(folder)


def two_blocks(folder, before):
    """A session that has opened a base whose games file has two blocks, so that the first is read anew, and has run these searches."""
    shutil.copytree(TOP / "cases/compact_across_a_block/before", folder, dirs_exist_ok=True)
    base = str(Path(folder, "long"))
    session = Session(base)
    assert session.ask("info").startswith("games 4 "), session.end()
    for what in before:
        lines = [session.ask(what), *(session.ask("") for _ in range(4))]
        assert lines[-1] == "filter 4 of 4\n", lines
    return session, base


def a_mended_base_opens_again(folder):
    """A base whose entries are mended as it is opened is refused under --strict, and opens so again once it was saved or compacted."""
    for leaves in ("save", "compact"):
        for ending in ENDINGS:
            shutil.copy(TOP / f"samples/openings.{ending}", folder)
        base = str(Path(folder, "openings"))
        assert run(base, "info\n", ("--strict",))[0] == BAD_BASE
        status, output, errors = run(base, f"{leaves}\n")
        assert (status, errors) == (0, "") and output.startswith("base 5 games 5 mended\n"), (leaves, output, errors)
        status, output, errors = run(base, "info\n", ("--strict",))
        assert (status, errors) == (0, "") and output.startswith("base 5 games 0 mended\n"), (leaves, output, errors)
        clear(folder)


def a_word_that_is_no_text(folder):
    """A word with bytes that no text has is no base, and nothing is read of the input."""
    ran = subprocess.run([PROGRAM, os.fsencode(folder) + b"/\xff"], input="info\n", capture_output=True, text=True, timeout=60)
    assert (ran.returncode, ran.stdout) == (USAGE, "") and ran.stderr.startswith("usage: "), (ran.returncode, ran.stdout, ran.stderr)
    assert contents(folder) == {}


def an_end_at_each_call(folder, what, answer, edits):
    """A session that is killed at each call of the system while it saves or compacts: the base is the old one or the new one."""
    base = make_base(folder)
    whole = contents(folder)
    old = heads(base)
    script = "".join(f"{edit}\n" for edit in edits) + f"{what}\n"
    calls, status, _, errors = traced(base, script)
    assert (status, errors) == (0, ""), errors
    new = heads(base)
    assert old != new
    ends = calls_within(calls, "tagged", answer)
    assert len(ends) > 20, len(ends)
    put_back = 0
    for name, number in ends:
        fill(folder, whole)
        _, status, output, _ = traced(base, script, "-e", f"inject={name}:signal=KILL:when={number}")
        assert answer not in output or name == "write", (name, number, output)
        put_back += goes_on(base, old, new, (what, name, number))
    return f"{len(ends)} calls of {what}, {put_back} put back"


def goes_on(base, old, new, where):
    """Opens a base whose last run was killed, which changes nothing, puts it right as it is told, looks that it is one of these two, and saves it."""
    folder = Path(base).parent
    then = contents(folder)
    status, output, errors = run(base, "list\n", ["--strict"])
    assert contents(folder) == then, where
    command = f"scid_mend --back {base}"
    there = [str(path) for path in folder.iterdir() if path.suffix in (".new", ".old")]
    refused = status == FILES_FAULT
    if refused:
        assert errors == f"{base}.si4.old: {SET_ASIDE}; nothing was changed; {command} puts it right\nfiles fault\n", (where, errors)
    else:
        assert status == 0 and output.splitlines()[1:] in (old, new), (where, status, output, errors)
        told = [line.split(": ")[0] for line in errors.splitlines() if line.endswith(command)]
        assert sorted(told) == sorted(there), (where, errors)
    if there:
        status, said, errors = put_right(base)
        words = "put back" if refused else "finished" if f"{base}.sg4.old" in there else "taken away"
        assert (status, errors) == (0, "") and said.startswith(f"{words}: "), (where, said, errors)
        assert heads(base) == (new if words == "finished" else old), where
    assert not [path for path in folder.iterdir() if path.suffix in (".new", ".old")], where
    assert put_right(base) == (0, "whole: nothing is to be put right\n", ""), where
    status, output, errors = run(base, "mark 0 W on\nsave\ncompact\n")
    assert (status, errors) == (0, ""), (where, errors)
    return int(refused)


FAILING = ("rename", "openat", "read", "lseek", "write", "fsync", "statx", "fchmod", "flock", "unlink")


def an_error_at_each_call(folder, what, answer, edits):
    """A session whose calls fail that read files, write them, make new ones, rename them or hand them on, one after the other: the base is the old
    one or the new one."""
    base = make_base(folder)
    whole = contents(folder)
    old = heads(base)
    script = "".join(f"{edit}\n" for edit in edits) + f"{what}\n"
    calls, _, _, _ = traced(base, script)
    new = heads(base)
    tried = [it for it in calls_within(calls, "tagged", answer) if it[0] in FAILING]
    for name, number in tried:
        fill(folder, whole)
        _, status, output, errors = traced(base, script, "-e", f"inject={name}:error=EIO:when={number}")
        where = (what, name, number, status, errors)
        if name in ("unlink", "statx"):
            # A file that can't be removed, or not be looked at, stays, and is told of at the next opening.
            assert put_right(base)[0] == 0, where
        if status == 0:
            assert answer in output and errors == "" and heads(base) == new, where
        else:
            assert heads(base) in ((old,) if status == FILES_FAULT else (old, new)), where
            assert sorted(contents(folder)) == sorted(whole), where
            # What can't be looked at may count as changed.
            reasons = ["Input/output error", *(["another program changed it"] if name == "statx" else [])]
            assert status != FILES_FAULT or any(reason in errors for reason in reasons), where
    return f"{len(tried)} calls of {what}"


def ends_with(session, fault, folder, then):
    """The session ends with a fault of the files and no line, and leaves the files as they were."""
    assert session.process.stdout.readline() == ""
    status, errors = session.end()
    assert status == FILES_FAULT and fault in errors, (status, errors)
    assert contents(folder) == then, contents(folder).keys()


def a_new_file_that_grows_takes_no_place(folder):
    """A new games file to which another program adds a byte before it is handed on to the disk: it goes, and the base stays as it was."""
    base = make_base(folder)
    new = Path(f"{base}.sg4.new")
    session = held_back(base, "fsync", ":when=1")
    session.ask("delete 1")
    then = contents(folder)
    begin(session, "compact")
    wait_for(new)
    with new.open("ab") as file:
        file.write(b"x")
    ends_with(session, f"{new}: {CHANGED} while it was made", folder, then)


def a_file_that_changes_while_another_is_made_stays(folder):
    """An index that another program touches while the new one is handed on to the disk: nothing takes its place, and no new file is left."""
    base = make_base(folder)
    index, new = Path(f"{base}.si4"), Path(f"{base}.si4.new")
    for what in ("save", "compact"):
        session = held_back(base, "fsync")
        session.ask("delete 1")
        then = contents(folder)
        begin(session, what)
        wait_for(new)
        os.utime(index)
        ends_with(session, f"{index}: {CHANGED}", folder, then)


def an_addition_behind_another_ones_is_none(folder):
    """A byte that another program adds to the games file right before a record is written there: the record is at no place of the base's."""
    base = make_base(folder)
    games, old = Path(f"{base}.sg4"), heads(base)
    # The first write is the opening line, and the second the record.
    session = held_back(base, "write", ":when=2")
    begin(session, "tag 0 White C")
    time.sleep(0.2)
    with games.open("ab") as file:
        file.write(b"x")
    assert session.process.stdout.readline() == ""
    status, errors = session.end()
    assert status == FILES_FAULT and f"{games}: {CHANGED}" in errors, (status, errors)
    assert heads(base) == old


def files_are_handed_on_in_order(folder):
    """The games file before the index that names its records, each new file before it takes its place, and then its folder."""
    base = make_base(folder)
    calls, status, _, errors = traced(base, "tag 0 White C\nsave\n")
    assert status == 0, errors
    opened, order = {}, []
    for line in calls:
        if found := re.search(r'openat\(AT_FDCWD, "([^"]*)".* = (\d+)$', line):
            opened[found[2]] = found[1]
        elif found := re.search(r"fsync\((\d+)\)", line):
            order.append(("handed on", opened[found[1]].replace(base, "")))
        elif found := re.search(r'rename\("[^"]*", "([^"]*)"\)', line):
            order.append(("in place", found[1].replace(base, "")))
    wanted = [
        ("handed on", ".sn4.new"),
        ("in place", ".sn4"),
        ("handed on", str(folder)),
        ("handed on", ".sg4"),
        ("handed on", ".si4.new"),
        ("in place", ".si4"),
        ("handed on", str(folder)),
    ]
    assert order == wanted, order


def a_thousand_games_take_few_calls(folder):
    """A thousand games are taken in and written as text with no more than 200 calls of the system in all."""
    base = make_base(folder)
    games = (TOP / "samples/classics.pgn").read_text() * 250
    calls, status, output, errors = traced(base, f"import <<END\n{games}END\nexport\n")
    assert (status, errors) == (0, ""), (status, errors)
    assert output.count("\nadded ") == 1000 and "\nimported 1000 refused 0\n" in output, output
    assert output.count("\n[Event ") == 1004
    assert len(calls) <= 200, len(calls)
    return f"{len(calls)} calls"


def lines_of_an_import_stand_while_it_waits(folder):
    """What a program that writes a body reads before it writes the rest: the lines of the games that were read."""
    games = (TOP / "samples/classics.pgn").read_text() * 30
    session = Session(make_base(folder))
    session.process.stdin.write(f"import <<END\n{games}")
    session.process.stdin.flush()
    too_long = threading.Timer(60, session.process.kill)
    too_long.start()
    first = [session.process.stdout.readline() for _ in range(10)]
    too_long.cancel()
    assert first == [f"added {game}\n" for game in range(4, 14)], first
    session.process.stdin.write("END\n")
    session.process.stdin.close()
    output = session.process.stdout.read()
    assert session.process.wait(60) == 0
    rest = [f"added {game}" for game in range(14, 124)]
    assert output.splitlines() == [*rest, "imported 120 refused 0", "unsaved"], output


def ten_thousand_lines_take_few_writes(folder):
    """Lines that are there at once are answered with no more than 200 writes."""
    calls, status, output, errors = traced(make_base(folder), "delete 1\nundelete 1\n" * 5000, "-e", "trace=write")
    assert (status, errors) == (0, ""), (status, errors)
    assert output.splitlines()[1:] == ["deleted 1", "undeleted 1"] * 5000 + ["unsaved"], output[-200:]
    assert len(calls) <= 200, len(calls)
    return f"{len(calls)} writes"


def each_answer_stands_before_the_next_line(folder):
    """Whoever waits for an answer before the next line gets it: over a pipe and on a terminal, at a desk and without."""
    base = make_base(folder)
    for words, tag in ([], ""), (["--desk"], "@2 "):
        for terminal in False, True:
            ours, theirs = pty.openpty() if terminal else os.pipe()
            process = subprocess.Popen([PROGRAM, *words, base], stdin=subprocess.PIPE, stdout=theirs, stderr=subprocess.DEVNULL)
            os.close(theirs)
            assert answer(ours, b"\n"), (words, terminal)
            for line, said in [("delete 1", "deleted 1"), ("what", "error: unknown command"), ("# nothing\nundelete 1", "undeleted 1")]:
                process.stdin.write("".join(f"{tag}{part}\n" for part in line.split("\n")).encode())
                process.stdin.flush()
                shown = answer(ours, f"{tag}{said}".encode())
                assert shown, (words, terminal, line)
            process.stdin.close()
            assert process.wait(60) == 0
            os.close(ours)


def answer(place, last):
    """What comes at this place up to these bytes, or None where they don't come within a minute."""
    shown, until = b"", time.monotonic() + 60
    while last not in shown:
        if not select.select([place], [], [], max(0, until - time.monotonic()))[0]:
            return None
        shown += os.read(place, 65536)
    return shown


def what_is_said_of_files_stands_behind_the_text(folder):
    """One file takes the text and standard error: what is said of a file that is in the way stands behind the answers of the lines before."""
    base = make_base(folder)
    Path(f"{base}.si4.new").write_text("mine")
    ran = subprocess.run([PROGRAM, base], input="delete 1\nsave\n", stdout=subprocess.PIPE, stderr=subprocess.STDOUT, text=True, timeout=60)
    said = [line for line in ran.stdout.splitlines() if ".si4.new" not in line or IN_THE_WAY in line]
    assert ran.returncode == FILES_FAULT, ran
    assert [said[-3], said[-1]] == ["deleted 1", "files fault"] and IN_THE_WAY in said[-2], ran.stdout


def a_run_whose_text_nobody_takes_ends(folder):
    """No line is read on where the answer of the one before it can't be written, and that is a write fault."""
    base = make_base(folder)
    before = contents(folder)
    session = Session(base)
    session.process.stdout.close()
    session.process.stdin.write("delete 1\n")
    session.process.stdin.flush()
    assert session.process.wait(60) == WRITE_FAULT
    assert session.process.stderr.read() == "write fault\n"
    assert contents(folder) == before


def a_broken_off_run_that_was_not_alone(folder):
    """An index that was set aside beside files that no run leaves so: it is named, and nothing is touched, with `--create` and `--back` too."""
    base = make_base(folder)
    os.rename(f"{base}.si4", f"{base}.si4.old")
    then = contents(folder)
    told = f"{base}.si4.old: no run leaves such files beside a base; nothing was changed"
    for words in ([], ["--create"]):
        status, output, errors = run(base, "info\n", words)
        assert status == FILES_FAULT and output == "" and errors.startswith(told), errors
        assert contents(folder) == then
    status, output, errors = put_right(base)
    assert status == FILES_FAULT and output == "" and errors.startswith(told) and contents(folder) == then, errors
    os.rename(f"{base}.si4.old", f"{base}.si4")
    heads(base)


def the_launcher_of_a_fresh_clone(folder):
    """Without ./build: what README shows, and a base of one's own that is changed and saved."""
    clone = Path(folder, "clone")
    shutil.copytree(TOP, clone, ignore=shutil.ignore_patterns("out", ".git", "__pycache__"))
    shown = re.search(r"\$ \./scid_shell samples/openings < samples/find\.txt\n((?:    .*\n)+)", (TOP / "README.md").read_text())
    script = (clone / "samples/find.txt").read_text()
    status, output, errors = launched(clone, "samples/openings", script)
    assert status == 0 and output == re.sub("^    ", "", shown[1], flags=re.M), (output, errors)
    assert "without its proofs" in errors and "not proved" in errors, errors
    base = make_base(folder)
    status, output, errors = launched(clone, base, "tag 0 White C\nsave\n")
    assert (status, errors) == (0, "scid_shell: the program is not proved (./build proves it)\n") and "saved 4 games" in output, errors
    assert " C - " in heads(base)[0]
    proved = clone / "crates/scid_shell/out/scid_shell"
    shutil.copy(PROGRAM, proved)
    os.utime(proved, (0, 0))
    status, output, errors = launched(clone, base, "tag 0 White D\nsave\n")
    assert status == 0 and "newer than the proved program" in errors and " D - " in heads(base)[0], errors
    shutil.rmtree(clone)


def launched(clone, base, script):
    words = [str(clone / "scid_shell"), base]
    ran = subprocess.run(words, input=script, capture_output=True, text=True, timeout=900, cwd=clone)
    return ran.returncode, ran.stdout, ran.stderr


def main():
    shows = [
        (a_changed_file_is_never_saved_over,),
        (a_base_that_another_run_holds_stays,),
        (two_programs_in_turn,),
        (files_of_the_user_stay,),
        (modes_and_links_stay,),
        (edits_go_on_after_a_compaction,),
        (additions_wait_for_a_block,),
        (a_record_that_changes_ends_the_run,),
        (a_move_that_changes_ends_the_search_that_comes_to_it,),
        (a_mended_base_opens_again,),
        (a_word_that_is_no_text,),
        (lines_of_an_import_stand_while_it_waits,),
        (each_answer_stands_before_the_next_line,),
        (what_is_said_of_files_stands_behind_the_text,),
        (a_run_whose_text_nobody_takes_ends,),
        (a_broken_off_run_that_was_not_alone,),
        *races.SHOWS,
    ]
    if shutil.which("strace"):
        shows += [
            (files_are_handed_on_in_order,),
            (a_thousand_games_take_few_calls,),
            (ten_thousand_lines_take_few_writes,),
            (a_new_file_that_grows_takes_no_place,),
            (a_file_that_changes_while_another_is_made_stays,),
            (an_addition_behind_another_ones_is_none,),
            (an_error_at_each_call, "save", "saved", ["tag 0 White C"]),
            (an_error_at_each_call, "compact", "compacted", ["delete 1", "tag 0 White C"]),
            (an_end_at_each_call, "save", "saved", ["tag 0 White C"]),
            (an_end_at_each_call, "compact", "compacted", ["delete 1", "tag 0 White C"]),
            *races.TRACED,
        ]
    else:
        print("cases/real_files.py: strace is not there: the order of what is handed on, the number of calls, and an end at each call, are not tried")
    if shutil.which("rt"):
        shows.append((the_launcher_of_a_fresh_clone,))
    else:
        print("cases/real_files.py: rt is not there: the launcher of a fresh clone is not tried")
    only = [word for word in sys.argv[2:] if not word.startswith("--")]
    for show, *words in shows:
        if only and show.__name__ not in only:
            continue
        with tempfile.TemporaryDirectory() as folder:
            said = show(folder, *words)
            print(f"{show.__name__}: ok" + (f" ({said})" if said else ""), flush=True)


if __name__ == "__main__":
    main()
