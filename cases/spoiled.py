#!/usr/bin/env python3
"""Runs the built program over files that were spoiled and on machines that are too small, and looks that each run ends with a status that is
named and that nothing is lost.

usage: cases/spoiled.py [PROGRAM [PART ..]]

Every byte of two small bases is changed to three values, and every file of theirs is cut at each length. Disks are full, files may not grow, a
folder can't be written, a file vanishes between two commands; a script breaks off and an output takes no more behind each byte; scripts have 1 GiB,
a base a million games, and memory has a limit, or is refused once, at each place in turn. Parts that look at a clock run where they are named: whether what is refused is refused in time that grows no faster
than its bytes (bench/refusals/run).
"""
import itertools
import os
import re
import resource
import shutil
import signal
import socket
import subprocess
import sys
import tempfile
from collections import Counter
from concurrent.futures import ThreadPoolExecutor
from pathlib import Path

sys.dont_write_bytecode = True
import make_bases as made  # noqa: E402
from over_files import other_program  # noqa: E402

TOP = Path(__file__).resolve().parent.parent
PROGRAM = str(Path(sys.argv[1] if len(sys.argv) > 1 else TOP / "crates/scid_shell/out/scid_shell").resolve())
ENDINGS = ("si4", "sn4", "sg4")
DONE, BAD_BASE, READ_FAULT, WRITE_FAULT, FILES_FAULT, INPUT_TOO_LONG, MEMORY = 0, 2, 3, 4, 5, 7, 8
BLOCK = 131_072
LONGEST_RECORD = 131_071
MIB = 1 << 20
AT_ONCE = 4

START = "rnbqkbnr/pppppppp/8/8/8/8/PPPPPPPP/RNBQKBNR w"
NOWHERE = "7k/8/8/8/8/8/8/KQ6 w"
# Commands that look at all there is of a base, and change nothing of it.
READING = (
    f"info\nlist\nfind {START}\ntree {START}\nsearch ignore position exact {NOWHERE} vars\nsearch ignore material wq=5..5\n"
    "search ignore header year=1..2047\nreset\nhits\nshow 0\nexport\ncross ?\nindex 3\n"
    f"find {START}\ntree {START}\nwatch 0 {START}\nnegate\nview 0\nunwatch 0\ninfo\nquit\n"
)

VIENNA = (made.index([made.VIENNA]), made.VIENNA_NAMES, made.VIENNA_RECORD)
PAWNS = (made.index(made.PAWNS), made.PAWNS_NAMES, made.PAWNS_RECORDS)


def base_of(games, names):
    entries, records = made.all_of(games)
    return made.index(entries), names, records


# Games with comments, NAGs and variations, a null move, a tag of the record, a start of its own, and all marks.
SHOWN = base_of(made.SHOWN[1:3] + made.SHOWN[4:7], made.SHOWN_NAMES)


def write(base, files):
    for ending, content in zip(ENDINGS, files):
        Path(f"{base}.{ending}").write_bytes(content)


def run(base, script, words=(), **more):
    """The status, the output and the errors of a session."""
    given = {"stdin": script} if hasattr(script, "read") else {"input": script.encode()}
    ran = subprocess.run([PROGRAM, *words, base], stdout=subprocess.PIPE, stderr=subprocess.PIPE, timeout=120, **given, **more)
    return ran.returncode, ran.stdout.decode("latin-1"), ran.stderr.decode("latin-1")


def contents(folder):
    return {path.name: path.read_bytes() for path in Path(folder).iterdir() if path.is_file()}


def heads(base):
    """The lines that `list` has for a base, which has to open with `--strict` and without a word."""
    status, text, errors = run(base, "list\n", ["--strict"])
    assert (status, errors) == (DONE, ""), (status, errors)
    return text.splitlines()[1:]


# Spoiled files


def spoiled(content):
    """The content with each byte changed to three other values, and cut at each length."""
    for place, byte in enumerate(content):
        for mask in (1, 0x80, 0xFF):
            yield (place, mask), content[:place] + bytes([byte ^ mask]) + content[place + 1:]
    for length in range(len(content)):
        yield length, content[:length]


def stands(path):
    found = path.stat()
    return found.st_ino, found.st_size, found.st_mtime_ns


def each_byte_of(folder, files):
    """Four at a time, each in a folder of its own, since most of a run is waiting for its end."""
    with ThreadPoolExecutor(AT_ONCE) as pool:
        found = sum(pool.map(lambda share: spoil(Path(folder, str(share)), files, share), range(AT_ONCE)), Counter())
    return ", ".join(f"{found[what]} {what}" for what in ("whole", "mended", "refused"))


def spoil(folder, files, share):
    """A run is done, or tells the one fault of the base; it touches no file; and what `--strict` opens is read the same without it."""
    folder.mkdir()
    base, found = str(folder / "base"), Counter()
    write(base, files)
    paths = [Path(f"{base}.{ending}") for ending in ENDINGS]
    for path, content in zip(paths, files):
        for where, changed in itertools.islice(spoiled(content), share, None, AT_ONCE):
            path.write_bytes(changed)
            for it in paths:
                os.utime(it, (0, 0))
            before = [stands(it) for it in paths]
            strict, lenient = run(base, READING, ["--strict"]), run(base, READING)
            where = (path.name, where, strict, lenient)
            assert [stands(it) for it in paths] == before and path.read_bytes() == changed, where
            assert len(os.listdir(folder)) == len(paths), where
            mended, mended_now = ended(strict, where), ended(lenient, where)
            assert (mended is None and mended_now != 0) or (mended == 0 and strict == lenient), where
            found["refused" if mended_now is None else "mended" if mended_now else "whole"] += 1
        path.write_bytes(content)
    return found


def ended(ran, where):
    """How many games were mended by a run that was done, or none where the base was refused; there is no other end."""
    status, text, errors = ran
    if status == BAD_BASE:
        assert text == "" and re.fullmatch(r"bad base: (index|names|games) file: [^\n]+\n", errors), where
        return None
    assert (status, errors) == (DONE, ""), where
    lines = text.splitlines()
    opened = re.fullmatch(r"base (\d+) games (\d+) mended", lines[0])
    assert lines[-1].startswith(f"games {opened[1]} deleted "), where
    return int(opened[2])


def each_byte_of_one_game(folder):
    return each_byte_of(folder, VIENNA)


def each_byte_of_several_games(folder):
    return each_byte_of(folder, SHOWN)


# Disks and folders

LONG = "x" * 9_000
# What changes the files, and the answer that tells that it was done.
CHANGES = [
    ("tag 0 White C\nsave\n", "saved 5 games"),
    (f"index 2\nwatch 0 {START}\ndelete 1\ncompact\n", "compacted 5 to 3"),
    (f"import <<END\n1. e4 {{{LONG}}} *\nEND\nsave\n", "saved 6 games"),
    ("demo 1 100\nsave\n", "saved 105 games"),
]


def only_part_of_it(folder, base, before, ran, answer, why):
    """A run that was done or met this error of the system: the base is the one that it saved, or the old one, and nothing lies about."""
    status, text, errors = ran
    old, names = before
    assert status in (DONE, FILES_FAULT), ran
    assert sorted(contents(folder)) == names, (ran, sorted(contents(folder)))
    if status == DONE:
        assert answer in text and errors == "" and heads(base) != old, ran
    else:
        assert answer not in text and re.search(rf"{why}.*\nfiles fault\n$", errors) and heads(base) == old, (ran, heads(base), old)
    return status == FILES_FAULT


PAGE = os.sysconf("SC_PAGE_SIZE")
# Mounts a disk of so many bytes, runs the program over a base on it, and keeps what is there then.
ON_A_DISK = """
mount -t tmpfs -o size="$0" none disk && cp base.* disk || exit 99
"$1" disk/base
ended=$?
cp disk/* left
exit $ended
"""


def a_full_disk(folder):
    """A disk in memory that has room for the base and a few pages: each change is done, or fails and leaves the base as it was."""
    mount = ["unshare", "-rm", "sh", "-c"]
    if not shutil.which("unshare") or subprocess.run([*mount, "mount -t tmpfs none ."], cwd=folder, capture_output=True).returncode:
        return "left out: no tmpfs can be mounted here"
    write(Path(folder, "base"), SHOWN)
    Path(folder, "disk").mkdir()
    left = Path(folder, "left")
    base, failed, runs = str(left / "base"), 0, 0
    before = heads(str(Path(folder, "base"))), sorted(f"base.{ending}" for ending in ENDINGS)
    for (script, answer), pages in ((change, pages) for change in CHANGES for pages in range(3, 13)):
        left.mkdir()
        words = [*mount, ON_A_DISK, str(pages * PAGE), PROGRAM]
        ran = subprocess.run(words, cwd=folder, input=script, capture_output=True, text=True, timeout=60)
        failed += only_part_of_it(left, base, before, (ran.returncode, ran.stdout, ran.stderr), answer, "No space left on device")
        runs += 1
        shutil.rmtree(left)
    assert 0 < failed < runs, (failed, runs)
    return f"{failed} of {runs} runs did not fit"


def files_that_may_not_grow(folder):
    """A limit on the length of files: an error of the system where its signal is ignored, which is told, and else a run that is killed."""
    base, failed, runs = str(Path(folder, "base")), 0, 0
    write(base, SHOWN)
    before = old, names = heads(base), sorted(contents(folder))
    signal.signal(signal.SIGXFSZ, signal.SIG_IGN)
    for (script, answer), most in ((change, most) for change in CHANGES for most in [*range(0, 512, 32), 1 << 13, 1 << 14, 1 << 20]):
        limit = {"preexec_fn": lambda: resource.setrlimit(resource.RLIMIT_FSIZE, (most, most))}
        write(base, SHOWN)
        did_not_fit = only_part_of_it(folder, base, before, run(base, script, restore_signals=False, **limit), answer, "File too large")
        write(base, SHOWN)
        status, text, _ = run(base, script, **limit)
        assert status == (-signal.SIGXFSZ if did_not_fit else DONE), (script, most, status)
        if did_not_fit:
            assert answer not in text and run(base, "list\n", ["--strict"])[1].splitlines()[1:] == old, (script, most)
        for path in Path(folder).glob("*.new"):
            path.unlink()
        assert sorted(contents(folder)) == names, (script, most, contents(folder))
        failed += did_not_fit
        runs += 1
    assert 0 < failed < runs, (failed, runs)
    return f"{failed} of {runs} runs did not fit"


def a_folder_that_cannot_be_written(folder):
    """Everything is read there, and what makes or replaces a file is refused; where the games file can't be written either, nothing is added."""
    nobody = {"user": 65534, "group": 65534, "extra_groups": []} if os.geteuid() == 0 else {}
    os.chmod(folder, 0o755)
    room = Path(folder, "room")
    room.mkdir()
    base, program = str(room / "base"), str(Path(folder, "program"))
    shutil.copy(PROGRAM, program)

    def ask(script, *words):
        ran = subprocess.run([program, *words], input=script, capture_output=True, text=True, timeout=60, **nobody)
        return ran.returncode, ran.stdout, ran.stderr

    write(base, SHOWN)
    old, wanted = heads(base), run(base, READING)
    for path in (room, *room.iterdir()):
        if nobody:
            os.chown(path, nobody["user"], nobody["group"])
    try:
        assert ask("", "--version")[0] == DONE
    except (OSError, subprocess.SubprocessError):
        return "left out: root can't run a program as another user here"
    os.chmod(room, 0o555)
    denied = "Permission denied"
    try:
        assert ask(READING, base) == wanted
        for script, answer in CHANGES:
            status, text, errors = ask(script, base)
            assert status == FILES_FAULT and answer not in text and denied in errors and heads(base) == old, (script, status, errors)
        status, text, errors = ask("info\n", "--create", str(room / "other"))
        assert (status, text) == (FILES_FAULT, "") and denied in errors, (status, errors)
        for path in room.iterdir():
            os.chmod(path, 0o444)
        then = contents(room)
        assert ask(READING, base)[0] == DONE
        for script, _ in CHANGES:
            status, text, errors = ask(script, base)
            assert status == FILES_FAULT and denied in errors and contents(room) == then, (script, status, errors)
    finally:
        os.chmod(room, 0o755)
    return None


class Session:
    """A session that stays open between its commands."""

    def __init__(self, base):
        pipes = {"stdin": subprocess.PIPE, "stdout": subprocess.PIPE, "stderr": subprocess.PIPE}
        self.process = subprocess.Popen([PROGRAM, base], text=True, bufsize=1, **pipes)
        self.opened = self.process.stdout.readline()

    def end(self, script):
        text, errors = self.process.communicate(script, timeout=60)
        return self.process.returncode, text, errors


def a_file_that_vanishes(folder):
    """Between the opening and a command: what is read is read of the file that is held open, and what would change files is refused. Before
    the opening the run tells which file it is."""
    base = str(Path(folder, "base"))
    game = "<<END\n1. d4 *\nEND\n"
    changing = [f"import {game}", f"replace 0 {game}", "tag 0 White C\n", "demo 1 2\n", "save\n", "compact\n", "mark 0 W on\nsave\n"]
    write(base, SHOWN)
    old, then = heads(base), contents(folder)
    text = run(base, READING)[1].split("\n", 1)[1]
    aside = Path(folder, "aside")
    for path in [Path(f"{base}.{ending}") for ending in ENDINGS]:
        for script in (READING, *changing):
            session = Session(base)
            path.rename(aside)
            ran = session.end(script)
            if script == READING:
                assert ran == (DONE, text, ""), (path, ran)
            else:
                assert ran[0] == FILES_FAULT and re.search(rf"^{path}: .*\n(there is no base .*\n)?files fault\n$", ran[2], flags=re.M), (path, script, ran)
            status, written, errors = run(base, READING)
            assert (status, written) == (FILES_FAULT, "") and f"{path}: " in errors, (path, status, errors)
            aside.rename(path)
            assert contents(folder) == then and heads(base) == old, (path, script)


# Streams that break off

# The commands of a script, each with its answer.
SAID = [
    ("tag 0 White C\n", "tagged 0\n"),
    ("save\n", "saved 5 games\n"),
    ("import <<END\n1. e4 *\n\n1. d4 *\nEND\n", "added 5\nadded 6\nimported 2 refused 0\n"),
    ("save\n", "saved 7 games\n"),
    ("delete 0\n", "deleted 0\n"),
    ("compact\n", "compacted 7 to 5\n"),
    ("tag 0 White D\n", "tagged 0\n"),
]


def broken_off(script):
    """A stream of these bytes that then fails: the other end was closed before it had read what was sent to it."""
    ours, its = socket.socketpair()
    ours.sendall(script.encode())
    its.send(b"not read")
    ours.close()
    return open(its.detach(), "rb", buffering=0)


def a_script_that_breaks_off(folder):
    """Behind each byte of a script its source fails: what is written is the answers of the commands that were read whole, and of a body that is being
    read the lines of its games; the base is that of the last save or compaction."""
    base, script = str(Path(folder, "base")), "".join(line for line, _ in SAID)
    whole, saved = saved_bases(base, SHOWN, [], script)
    for length in range(len(script) + 1):
        write(base, SHOWN)
        with broken_off(script[:length]) as source:
            status, text, errors = run(base, source)
        assert (status, errors) == (READ_FAULT, "read fault\n"), (length, status, errors)
        told, read = "base 5 games 0 mended\n", 0
        for line, answer in SAID:
            if read + len(line) > length:
                break
            told, read = told + answer, read + len(line)
        rest = text.removeprefix(told)
        assert text.startswith(told) and whole.startswith(text), (length, text)
        assert rest == "" or line.startswith("import") and re.fullmatch(r"(added \d\n)+", rest), (length, rest)
        saves = len(re.findall("^(?:saved|compacted) ", text, flags=re.M))
        assert heads(base) == saved[saves], (length, text)
    return f"{len(script) + 1} bytes"


def an_output_that_takes_no_more(folder):
    """Behind each byte of what a script writes, at a desk too, its output fails: what is written is what comes before."""
    base, output = str(Path(folder, "base")), Path(folder, "output")
    write(base, SHOWN)
    script = f"info\nhits\nindex 2\nwatch 0 {START}\nclear\nview 0\nfaulty\nshow 0\n"
    desk = "".join(f"@{number % 2} {line}" for number, line in enumerate(script.splitlines(keepends=True)))
    signal.signal(signal.SIGXFSZ, signal.SIG_IGN)
    bytes_tried = 0
    for words, said in (([], script), (["--desk"], desk)):
        status, whole, errors = run(base, said, words)
        assert (status, errors) == (DONE, ""), (status, errors)
        for most in range(len(whole)):
            with output.open("wb") as file:
                limit = {"preexec_fn": lambda: resource.setrlimit(resource.RLIMIT_FSIZE, (most, most)), "restore_signals": False}
                ran = subprocess.run([PROGRAM, *words, base], input=said.encode(), stdout=file, stderr=subprocess.PIPE, timeout=60, **limit)
            assert (ran.returncode, ran.stderr) == (WRITE_FAULT, b"write fault\n"), (words, most, ran)
            assert output.read_bytes() == whole[:most].encode("latin-1"), (words, most)
        bytes_tried += len(whole)
    return f"{bytes_tried} bytes"


def what_stands_behind_quit_is_left(folder):
    """Of what stands far behind the line `quit` at most 32,768 bytes are read."""
    base, script = str(Path(folder, "base")), Path(folder, "script")
    write(base, VIENNA)
    for behind in (b"\n", b"x"):
        script.write_bytes(b"quit\n" + 65_536 * behind)
        with script.open("rb", buffering=0) as file:
            assert run(base, file) == (DONE, "base 1 games 0 mended\n", "")
            assert os.lseek(file.fileno(), 0, os.SEEK_CUR) <= len("quit\n") + 32_768


# Scripts of 1 GiB, and a million games

LONGEST_SCRIPT = 1 << 30
LITTLE_MEMORY = 64 * MIB


def with_memory(most):
    return {"preexec_fn": lambda: resource.setrlimit(resource.RLIMIT_AS, (most, most))}


def scripts_of_a_gibibyte(folder):
    """Zero bytes between a beginning and an end: in a comment, in a line, in the body of an import and in a table, which alone is held."""
    base, script = str(Path(folder, "base")), Path(folder, "script")
    told = "games 1 deleted 0 players 2 events 1 sites 1 rounds 1 unsaved no index off\n"
    edits, done = "mark 0 W on\nsave\nmark 0 B on\n", "marked 0\nsaved 1 games\nmarked 0\n"
    unsaved = told.replace("unsaved no", "unsaved yes")
    for length, begin, end, status, wanted in [
        (LONGEST_SCRIPT, f"{edits}#", "\ninfo\nquit\n", DONE, f"{done}{unsaved}unsaved\n"),
        (LONGEST_SCRIPT + 1, f"{edits}#", "\ninfo\nquit\n", INPUT_TOO_LONG, f"{done}{unsaved}"),
        (LONGEST_SCRIPT + 6, f"{edits}#", "\ninfo\nquit\n", INPUT_TOO_LONG, done),
        (LONGEST_SCRIPT, "info\n", "\nquit\n", DONE, f"{told}error: line too long\n"),
        (LONGEST_SCRIPT, "import <<END\n", "\nEND\n", DONE, "error: game 1 line 1 column 1: bad token\nimported 0 refused 1\n"),
        (LONGEST_SCRIPT, f"{edits}eco <<END\n", "\nEND\n", MEMORY, done),
    ]:
        write(base, VIENNA)
        with script.open("wb") as file:
            file.write(begin.encode())
            file.truncate(length - len(end))
            file.seek(0, os.SEEK_END)
            file.write(end.encode())
        with script.open("rb") as file:
            ran = run(base, file, **with_memory(LITTLE_MEMORY))
        errors = {DONE: "", INPUT_TOO_LONG: "input too long\n", MEMORY: "out of memory\n"}[status]
        assert ran == (status, f"base 1 games 0 mended\n{wanted}", errors), (begin, ran)
        found = run(base, "search ignore header mark=W\nsearch and header mark=B\n", ["--strict"])
        marked = int(begin.startswith(edits))
        assert found == (DONE, f"base 1 games 0 mended\nfilter {marked} of 1\nfilter 0 of 1\n", ""), (begin, found)


def of_many(count, record, **says):
    """A base of so many equal entries of one record."""
    header = made.index([])
    return header[:14] + count.to_bytes(3, "big") + header[17:] + made.entry(0, len(record), ids=(0, 1, 0, 0, 0), **says) * count, TWO, record


TWO = made.names_file([("A", 1), ("B", 1)], [("?", 1)], [("?", 1)], [("?", 1)])


def a_million_games(folder):
    """From a limit of memory in which the program can barely begin to one that is ample: out of memory, or done. What is written is a front
    part of the whole text, and the base is that of the last save or compaction."""
    base, count = str(Path(folder, "base")), 1_000_000
    files = of_many(count, made.game(made.E4), plies=1, home=(11,))
    script = f"find {NOWHERE}\nreset\ntwins 2\nsave\nindex 2\nwatch 0 {START}\nundelete 5\nsave\ncompact\nview 0\ninfo\n"
    counts = [(count, 0), (count, count - 1), (count, count - 2), (2, 0)]
    told = [f"games {games} deleted {deleted} players 2 events 1 sites 1 rounds 1 unsaved no index off" for games, deleted in counts]
    sharing = f"the games share records: the new games file takes up to {4 * count} bytes, and the old one has 4\n"
    whole, statuses = None, []
    for most in (1 << 12, 200, 160, 112, 60, 32, 8):
        if run("--version", "", **with_memory(most * MIB))[0] != DONE:
            continue
        write(base, files)
        status, text, errors = run(base, script, **with_memory(most * MIB))
        if whole is None:
            assert (status, errors) == (DONE, sharing) and text.endswith(f"{told[-1][:-3]}2\n"), (status, text[-200:], errors)
            whole = text
        assert (status, errors.removeprefix(sharing)) in ((DONE, ""), (MEMORY, "out of memory\n")), (most, status, errors)
        assert whole.startswith(text) and (status == MEMORY or text == whole), (most, text)
        saved = len(re.findall("^(?:saved|compacted) ", text, flags=re.M))
        status_again, again, errors_again = run(base, "info\n", ["--strict"])
        assert (status_again, errors_again) == (DONE, "") and again.splitlines()[1] in told[saved:saved + 2], (most, saved, again)
        statuses.append((status, saved))
    reached = sorted({saved for status, saved in statuses if status == MEMORY})
    assert len(reached) > 1, statuses
    return f"{sum(status == MEMORY for status, _ in statuses)} of {len(statuses)} runs out of memory, with {reached} of 3 saves done"


# Memory that is refused once

# A growth is an allocation, or one that becomes longer. The one of this number is refused, and a file made that says so.
REFUSING = """
#include <errno.h>
#include <fcntl.h>
#include <stddef.h>
#include <stdlib.h>
#include <unistd.h>

void *__libc_malloc(size_t);
void *__libc_calloc(size_t, size_t);
void *__libc_realloc(void *, size_t);
void *__libc_memalign(size_t, size_t);

static int refused(void) {
    static long left = -1;
    if (left < 0)
        left = atol(getenv("GROWTH"));
    if (left == 0 || --left)
        return 0;
    close(creat(getenv("REFUSED"), 0600));
    errno = ENOMEM;
    return 1;
}

void *malloc(size_t size) { return refused() ? NULL : __libc_malloc(size); }
void *calloc(size_t count, size_t size) { return refused() ? NULL : __libc_calloc(count, size); }
void *realloc(void *old, size_t size) { return refused() ? NULL : __libc_realloc(old, size); }
void *aligned_alloc(size_t alignment, size_t size) { return refused() ? NULL : __libc_memalign(alignment, size); }

int posix_memalign(void **place, size_t alignment, size_t size) {
    *place = refused() ? NULL : __libc_memalign(alignment, size);
    return *place ? 0 : ENOMEM;
}
"""
# The number of the growth for the list of the words on the command line, where the base is the only one; each other word has one before it.
# It alone is asked for again, with less.
LIST_OF_WORDS = 5
# The files before, the words, and a script: a game that comes in, one that takes the place of another, edits that a slot and an index follow.
GROWING = [
    (None, ["--create"], (TOP / "cases/import_vienna/script").read_text()),
    (VIENNA, [], f"replace 0 <<X\n1. d4 *\nX\nfind {START}\nreplace 0 <<X\nX\ninfo\ncompact\ninfo\n"),
    (PAWNS, [], f"watch 0 {START}\ntag 0 WhiteElo 2600\nsearch and header result=1-0\ndelete 0\ncompact\nview 0\nunwatch 0\nview 0\n"),
    (SHOWN, [], f"index 2\nwatch 0 {START}\nkeep a\nimport <<X\n1. d4 *\nX\nsave\ntag 1 White C\nshow 0\nuse a\nlist\ntree {START}\nview 0\n"),
]


def refusing_library(folder):
    """The library that refuses a growth, or none where there is no C compiler."""
    compiler = shutil.which("cc")
    if not compiler:
        return None
    refusing, source = str(Path(folder, "refusing.so")), Path(folder, "refusing.c")
    source.write_text(REFUSING)
    subprocess.run([compiler, "-shared", "-fPIC", "-O1", "-o", refusing, str(source)], check=True)
    return refusing


def each_growth_refused(folder):
    """Each growth of the program's memory is refused once, until none is: the run is out of memory, with a front part of the whole text, or is
    done where the list of its words asked again; and the base is that of the last save or compaction, or of the one that was at work."""
    refusing = refusing_library(folder)
    if not refusing:
        return "left out: there is no C compiler"
    statuses = Counter()
    with ThreadPoolExecutor(AT_ONCE) as pool:
        for number, (files, words, script) in enumerate(GROWING):
            room = Path(folder, str(number))
            room.mkdir()
            whole, saved = saved_bases(str(room / "base"), files, words, script)
            for first in itertools.count(1, AT_ONCE):
                tried = range(first, first + AT_ONCE)
                ended = [*pool.map(lambda growth: refuse(room / str(growth), files, words, script, whole, saved, refusing, growth), tried)]
                statuses.update(status for status in ended if status is not None)
                if None in ended:
                    break
    if not statuses:
        return "left out: the program does not take its memory from the C library"
    return f"{statuses[MEMORY]} growths that end a run, {statuses[DONE]} that were asked for again"


def each_growth_refused_to_other_programs(folder):
    """Each growth of the memory of scid_mend and of scid_page is refused once, until none is: the run is out of memory, or is done; what it reads
    stays as it was, and what it makes is whole, or is gone or says that it is not whole."""
    refusing = refusing_library(folder)
    if not refusing:
        return "left out: there is no C compiler"
    statuses = Counter()
    for name, others in (("scid_mend", lambda room: [room / f"new.{ending}" for ending in ENDINGS]), ("scid_page", lambda room: [room / "new"])):
        words = [other_program(name), *(["--least", "1", "--depth", "2"] if name == "scid_page" else [])]
        room, mark = Path(folder, name), Path(folder, "refused")
        for growth in itertools.count(1):
            room.mkdir()
            write(room / "old", SHOWN)
            then = contents(room)
            ran = subprocess.run([*words, str(room / "old"), str(room / "new")], capture_output=True, text=True, timeout=60,
                                 env={"LD_PRELOAD": refusing, "GROWTH": str(growth), "REFUSED": str(mark)})
            where = (name, growth, ran)
            assert ran.returncode in (DONE, MEMORY), where
            assert ran.stderr == "" if ran.returncode == DONE else ran.stderr.endswith("out of memory\n"), where
            assert {file: content for file, content in contents(room).items() if file in then} == then, where
            made = [path for path in others(room) if path.exists()]
            if ran.returncode == DONE:
                assert made == others(room), where
            elif made:
                # Memory may run out at the last line, where all pages are written: the first page is written last.
                there = [path.name for path in (room / "new").iterdir()] if name == "scid_page" else ["a new base"]
                assert there == [] or "INCOMPLETE" in there or "index.html" in there, (where, made)
            statuses[ran.returncode] += mark.exists()
            shutil.rmtree(room)
            if not mark.exists():
                break
            mark.unlink()
    return f"{statuses[MEMORY]} growths that end a run, {statuses[DONE]} that were asked for again"


def saved_bases(base, files, words, script):
    """The whole text of a script, and as `list` tells them the bases before it and behind each save of it."""
    lines, saved, text = script.splitlines(keepends=True), [], ""
    for count in [0, *(number for number, line in enumerate(lines, 1) if line in ("save\n", "compact\n")), len(lines)]:
        if files:
            write(base, files)
        status, text, errors = run(base, "".join(lines[:count]), words)
        assert (status, errors) == (DONE, ""), (script, status, errors)
        saved.append(heads(base) if files or count else None)
        for path in Path(base).parent.iterdir():
            path.unlink()
    return text, saved[:-1]


def refuse(room, files, words, script, whole, saved, refusing, growth):
    """How a run ended of which this growth was refused, or none where it has no such growth."""
    room.mkdir()
    base, mark = str(room / "base"), room / "refused"
    if files:
        write(base, files)
    status, text, errors = run(base, script, words, env={"LD_PRELOAD": refusing, "GROWTH": str(growth), "REFUSED": str(mark)})
    where = (script, growth, status, text, errors)
    assert (status, errors) in ((DONE, ""), (MEMORY, "out of memory\n")), where
    assert whole.startswith(text) and (status == MEMORY or text == whole), where
    refused = mark.exists()
    assert refused or status == DONE, where
    assert not refused or status == MEMORY or growth == LIST_OF_WORDS + len(words), where
    mark.unlink(missing_ok=True)
    there = contents(room)
    assert sorted(there) in ([], sorted(f"base.{ending}" for ending in ENDINGS)), (where, sorted(there))
    done = len(re.findall("^(?:saved|compacted) ", text, flags=re.M))
    if there.get("base.si4"):
        assert heads(base) in saved[done:done + 2], (where, heads(base), saved)
    else:
        # A base that was created and not saved is none.
        assert files is None and done == 0, where
    shutil.rmtree(room)
    return status if refused else None


# Time


def seconds(base, script):
    """The processor time of a run, the better of two, and how it ended."""
    times = []
    for _ in range(2):
        before = resource.getrusage(resource.RUSAGE_CHILDREN)
        ran = run(base, script)
        after = resource.getrusage(resource.RUSAGE_CHILDREN)
        times.append(after.ru_utime + after.ru_stime - before.ru_utime - before.ru_stime)
    return min(times), ran


def long_names(count):
    """A base of so many names of 255 bytes, of which each has the first 252 of the one before it, with falling ids, and of one that stands
    among them already."""
    ends = [bytes(1 + number // power % 255 for power in (65_025, 255, 1)) for number in range(count)] + [bytes([1, 1, 1])]
    id_width = 3 if count >= 65_535 else 2
    rows = [(count - number).to_bytes(id_width, "big") + bytes([1, 255, 252]) + end for number, end in enumerate(ends)]
    rows[0] = rows[0][:-4] + 252 * b"x" + ends[0]
    head = TWO[:12] + (count + 1).to_bytes(3, "big") + TWO[15:36]
    return made.index([]), head + b"".join(rows) + TWO[36:], b""


def equal_entries(count, record, **says):
    """So many equal entries of one record, and one more whose site has no name."""
    index, names, games = of_many(count + 1, record, **says)
    return index[:-47] + made.entry(0, len(record), ids=(0, 1, 0, 1, 0), **says), names, games


def records_of_their_own(records, **says):
    """A base of these records, none of which crosses a block."""
    entries, games = [], bytearray()
    for record in records:
        if len(games) % BLOCK + len(record) > BLOCK:
            games += bytes(-len(games) % BLOCK)
        entries.append(made.entry(len(games), len(record), ids=(0, 1, 0, 0, 0), **says))
        games += record
    return made.index(entries), TWO, bytes(games)


def nags(size):
    return made.game(made.E4 + b"\x0b\x01" * ((size - 4) // 2))


def nested(depth, times=1):
    """A move with so many variations, in each of which are variations one in the other."""
    return made.game(made.E4 + ((b"\x0d" + made.E4) * depth + b"\x0e" * depth) * times)


LAST = "the record ends too early"
NAGS = dict(plies=1, home=(11,), counts=(0, 0, 15))
NESTED = dict(plies=1, home=(11,), counts=(15, 0, 0))
# Two bases, the second with so many times the bytes of the first or with as many bytes in longer records, and the fault of both.
FAULTY = [
    ("long names, one of them twice", lambda: long_names(16_384), lambda: long_names(131_072), 8, "a name that stands twice"),
    ("equal entries of one record", lambda: equal_entries(2_000_000, made.game(made.E4), plies=1, home=(11,)),
     lambda: equal_entries(16_000_000, made.game(made.E4), plies=1, home=(11,)), 8, "no site has its id"),
    ("equal entries of the longest record", lambda: equal_entries(150, nags(LONGEST_RECORD), **NAGS),
     lambda: equal_entries(1_200, nags(LONGEST_RECORD), **NAGS), 8, "no site has its id"),
    ("records of NAGs", lambda: records_of_their_own([nags(8_191)] * 1023 + [nags(8_191)[:-1]], **NAGS),
     lambda: records_of_their_own([nags(LONGEST_RECORD)] * 63 + [nags(LONGEST_RECORD)[:-1]], **NAGS), 1, LAST),
    ("records of variations one in the other", lambda: records_of_their_own([nested(10)] * 20_000 + [nested(10)[:-1]], **NESTED),
     lambda: records_of_their_own([nested(200)] * 1_000 + [nested(200)[:-1]], **NESTED), 1, LAST),
    ("records of variations too deep", lambda: records_of_their_own([nested(10)] * 20_000 + [nested(201)], **NESTED),
     lambda: records_of_their_own([nested(200)] * 1_000 + [nested(201)], **NESTED), 1, "a variation too deep"),
    ("records of many such variations", lambda: records_of_their_own([nested(200, 12)] * 160 + [nested(200, 12)[:-1]], **NESTED),
     lambda: records_of_their_own([nested(200, 200)] * 10 + [nested(200, 200)[:-1]], **NESTED), 1, LAST),
]
READ = [
    ("records of NAGs", lambda: records_of_their_own([nags(8_191)] * 512, **NAGS),
     lambda: records_of_their_own([nags(LONGEST_RECORD)] * 32, **NAGS)),
    ("records of variations one in the other", lambda: records_of_their_own([nested(10)] * 10_000, **NESTED),
     lambda: records_of_their_own([nested(200)] * 500, **NESTED)),
    ("records of many such variations", lambda: records_of_their_own([nested(200, 12)] * 80, **NESTED),
     lambda: records_of_their_own([nested(200, 200)] * 5, **NESTED)),
]
# Scripts of so many parts, each refused by an error line.
SCRIPTS = [
    ("NAGs", lambda count: f"import <<END\n1. e4 {'$1 ' * count}*\nEND\n", 70_000),
    ("open variations", lambda count: f"import <<END\n1. e4 {'(1. e4 ' * count}\nEND\n", 40_000),
    ("an open comment", lambda count: f"import <<END\n1. e4 {'{;' * count}\nEND\n", 200_000),
    ("games with open comments", lambda count: "import <<END\n" + '[Event "x"]\n1. e9 {\n' * count + "END\n", 20_000),
    ("open tags", lambda count: "import <<END\n" + '[White "x ' * count + "\nEND\n", 40_000),
    ("lines of quotation marks", lambda count: ('"' * 60_000 + "\n") * count, 40),
    ("lines of items", lambda count: ("search ignore header " + "white=x " * 8_000 + "\n") * count, 40),
    ("a table with a fault in its last line", lambda count: "eco <<END\n" + "# B00 e4\n" * count + "Z00\nEND\n", 100_000),
]
TIMES = 8
# How much longer a run may take than its bytes tell, and the processor time below which nothing is measured.
SLACK, LEAST = 3, 0.01


def no_longer(title, short, long, factor):
    assert long <= SLACK * factor * max(short, LEAST), f"{title}: {short:.3f} s, and {factor} times the bytes take {long:.3f} s"


def refusals_in_linear_time(folder):
    base = str(Path(folder, "base"))
    for title, few, many, factor, fault in FAULTY:
        times = []
        for files in (few, many):
            write(base, files())
            took, (status, text, errors) = seconds(base, "info\n")
            assert (status, text) == (BAD_BASE, "") and errors.endswith(f": {fault}\n"), (title, status, errors)
            times.append(took)
        no_longer(title, *times, factor)
    return f"{len(FAULTY)} pairs of bases"


def long_records_in_linear_time(folder):
    base = str(Path(folder, "base"))
    for title, few, many in READ:
        times = []
        for files in (few, many):
            write(base, files())
            took, (status, text, errors) = seconds(base, READING.replace("quit", "twins 3"))
            assert (status, errors) == (DONE, "") and "\ntwins " in text, (title, status, errors, text[-200:])
            times.append(took)
        no_longer(title, *times, 1)
    return f"{len(READ)} pairs of bases"


def scripts_in_linear_time(folder):
    base = str(Path(folder, "base"))
    write(base, VIENNA)
    for title, script, count in SCRIPTS:
        times = []
        for parts in (count, TIMES * count):
            took, (status, text, errors) = seconds(base, script(parts))
            assert (status, errors) == (DONE, "") and text.splitlines()[1].startswith("error: "), (title, status, errors, text[:200])
            times.append(took)
        no_longer(title, *times, TIMES)
    return f"{len(SCRIPTS)} pairs of scripts"


PARTS = [
    each_byte_of_one_game,
    each_byte_of_several_games,
    a_full_disk,
    files_that_may_not_grow,
    a_folder_that_cannot_be_written,
    a_file_that_vanishes,
    a_script_that_breaks_off,
    an_output_that_takes_no_more,
    what_stands_behind_quit_is_left,
    scripts_of_a_gibibyte,
    a_million_games,
    each_growth_refused,
    each_growth_refused_to_other_programs,
]

# These look at a clock, and run where they are named alone, as `bench/refusals/run` does.
TIMED = [
    refusals_in_linear_time,
    long_records_in_linear_time,
    scripts_in_linear_time,
]


def main():
    only = sys.argv[2:]
    for part in PARTS if not only else [part for part in PARTS + TIMED if part.__name__ in only]:
        with tempfile.TemporaryDirectory() as folder:
            said = part(folder)
        print(f"{part.__name__}: " + (said if said and said.startswith("left out") else f"ok ({said})" if said else "ok"), flush=True)


if __name__ == "__main__":
    main()
