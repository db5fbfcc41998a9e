"""Shows of real_files.py: two runs at one base, locks that fail, files of others, descriptors that are closed, and what is no file."""
import fcntl
import itertools
import os
import pty
import random
import re
import resource
import shutil
import signal
import socket
import subprocess
import sys
import time
from concurrent.futures import ThreadPoolExecutor
from pathlib import Path

from over_files import (
    BAD_BASE, BUSY, CHANGED, ENDINGS, FILES_FAULT, IN_THE_WAY, MEND, PROGRAM, SET_ASIDE, TOP, Session, begin, clear, contents, fill, heads,
    held_back, make_base, other_program, put_right, run, traced, wait_for)

WRITE_FAULT = 4
# Every schedule of two runs, and not only a sample of them.
ALL = "--all" in sys.argv
SAMPLE = 240
AT_ONCE = 4
NO_LOCK = "no lock on its file system"
COMPACT = "delete 0\ndelete 1\ncompact\nlist\n"


def slowed(log, *inject):
    """The words that run a program under strace with these injections."""
    return ["strace", "-qq", "-f", "-o", str(log), *(word for it in inject for word in ("-e", f"inject={it}"))]


def start(base, script, before=()):
    """A run that is begun with its whole script."""
    pipes = {"stdin": subprocess.PIPE, "stdout": subprocess.PIPE, "stderr": subprocess.PIPE}
    process = subprocess.Popen([*before, PROGRAM, base], text=True, **pipes)
    give(process, script)
    return process


def give(process, script):
    """Hands a process its whole input, of which one that ends before it reads takes nothing."""
    try:
        process.stdin.write(script)
        process.stdin.close()
    except BrokenPipeError:
        pass
    process.stdin = None


def ended(process):
    output, errors = process.communicate(timeout=60)
    return process.returncode, output, errors


def three_files(base):
    """Whether the base's folder has its three files and no others."""
    return sorted(os.listdir(os.path.dirname(base))) == sorted(f"{os.path.basename(base)}.{ending}" for ending in ENDINGS)


# Two runs at one base


def an_opening_beside_a_compaction_at_work(folder):
    """A run opens the base between the renames of another one's compaction, and is held back before one of its own openings: it waits, or is told
    that another run is at work, and renames nothing."""
    whole, new = contents_of_a_base(folder)
    base = str(Path(folder, "mine"))
    for held in range(2, 9):
        fill(folder, whole)
        compacting = start(base, COMPACT, slowed("/dev/null", "rename:delay_exit=150000", "unlink:delay_enter=700000"))
        while Path(f"{base}.si4").exists() and compacting.poll() is None:
            time.sleep(0.002)
        log = Path(folder).with_name(f"{Path(folder).name}.log")
        looked = run(base, "list\n", before=["strace", "-qq", "-f", "-o", str(log), "-e", "trace=rename,unlink,openat", "-e",
                                             f"inject=openat:delay_enter=600000:when={held}"])
        status, output, errors = ended(compacting)
        calls = log.read_text()
        log.unlink()
        assert status == 0 and "compacted 4 to 2" in output and errors == "", (held, status, output, errors)
        assert "rename" not in calls and "unlink" not in calls, (held, calls)
        if looked[0] == 0:
            assert looked[1].splitlines()[1:] == new, (held, looked)
        else:
            assert looked[0] == FILES_FAULT and (BUSY in looked[2] or SET_ASIDE in looked[2]), (held, looked)
        assert heads(base) == new and three_files(base), held


def contents_of_a_base(folder):
    """What a base of four games holds, and what `list` shows of it once it was compacted."""
    base = make_base(folder)
    whole = contents(folder)
    assert run(base, COMPACT)[0] == 0
    new = heads(base)
    fill(folder, whole)
    return whole, new


def openings_after_a_compaction_that_was_killed(folder):
    """Of two runs that open the base then, one held back between its look and its opening, neither changes anything. Of two that put it right at
    once both are done, and nothing is lost."""
    whole, _ = contents_of_a_base(folder)
    base, old = str(Path(folder, "mine")), None
    old = heads(base)
    for killed, held in itertools.product(range(2, 7), (None, "flock:delay_enter=300000", "rename:delay_enter=300000:when=1", "rename:delay_exit=300000:when=2")):
        fill(folder, whole)
        ended(start(base, COMPACT, slowed("/dev/null", f"rename:signal=KILL:when={killed}")))
        then = contents(folder)
        if held is None:
            slow = start(base, "list\n", slowed("/dev/null", "openat:delay_enter=400000:when=3"))
            quick = run(base, "list\n")
            for status, output, errors in (quick, ended(slow)):
                assert (status, output) == (FILES_FAULT, "") and f"scid_mend --back {base} puts it right" in errors, (killed, errors)
            assert contents(folder) == then, killed
        pipes = {"stdout": subprocess.PIPE, "stderr": subprocess.PIPE, "text": True}
        words = slowed("/dev/null", held) if held else []
        first = subprocess.Popen([*words, MEND, "--back", base], **pipes)
        second = put_right(base)
        output, errors = first.communicate(timeout=60)
        for status, output, errors in ((first.returncode, output, errors), second):
            assert status == 0 or (status == FILES_FAULT and BUSY in errors), (killed, held, status, output, errors)
        assert heads(base) == old and three_files(base), (killed, held)


def files_whose_renames_reach_the_disk_alone(folder):
    """Each file's two renames of a compaction in any state, as where folders are not handed on: what opens is the old base or the new one, whole,
    and all others are put right."""
    whole, _ = contents_of_a_base(folder)
    base = str(Path(folder, "mine"))
    old = heads(base)
    # Names that are in both bases, under other ids, would open as something else.
    assert run(base, COMPACT)[0] == 0
    after, new, opened = contents(folder), heads(base), []
    for states in itertools.product(range(3), repeat=3):
        held = {}
        for ending, state in zip(ENDINGS, states):
            name = f"mine.{ending}"
            if state < 2:
                held[f"{name}.new"] = after[name]
            if state > 0:
                held[f"{name}.old"] = whole[name]
            if state != 1:
                held[name] = after[name] if state == 2 else whole[name]
        fill(folder, held)
        status, output, errors = run(base, "list\n", ["--create"])
        assert contents(folder) == held, states
        if status == 0:
            opened.append(states)
            assert output.splitlines()[1:] == (old if states == (0, 0, 0) else new), (states, output)
        else:
            assert (status, output) == (FILES_FAULT, "") and f"scid_mend --back {base} puts it right" in errors, (states, errors)
        assert put_right(base)[0] == 0 and three_files(base), states
        assert heads(base) == (new if states == (2, 2, 2) else old), states
    assert opened == [(0, 0, 0), (2, 2, 2)], opened
    return "27 states"


def a_lock_that_is_given_back(folder):
    """A lock that another program gives back within two seconds is waited for, which is told."""
    for change, answer in (("mark 0 W on\nsave\n", "saved"), ("delete 1\ncompact\n", "compacted"), ("tag 0 White C\n", "tagged")):
        base = make_base(folder)
        with open(f"{base}.sg4", "rb") as games:
            fcntl.flock(games, fcntl.LOCK_EX)
            process = start(base, change)
            time.sleep(0.7)
            fcntl.flock(games, fcntl.LOCK_UN)
            status, output, errors = ended(process)
        assert status == 0 and f"\n{answer} " in output, (change, status, output, errors)
        assert errors == f"{base}.sg4: another run is at work on this base; waiting for it\n", errors
        clear(folder)


def a_change_whose_time_is_put_back(folder):
    """A file that another program changes in its place, and whose time it puts back, is not saved over."""
    for ending, change in itertools.product(ENDINGS, ("tag 0 White C", "save", "compact")):
        base = make_base(folder)
        session = Session(base)
        session.ask("mark 0 W on")
        path = Path(f"{base}.{ending}")
        before, old = path.stat(), path.read_bytes()
        with path.open("r+b") as file:
            file.seek(len(old) - 1)
            file.write(bytes([old[-1] ^ 1]))
        os.utime(path, ns=(before.st_atime_ns, before.st_mtime_ns))
        then = contents(folder)
        assert session.ask(change) == "", (ending, change)
        status, errors = session.end()
        assert status == FILES_FAULT and f"{path}: {CHANGED}" in errors and contents(folder) == then, (ending, change, errors)
        clear(folder)


# Locks that fail

CHANGES = ("tag 0 White C\n", "mark 0 W on\nsave\n", "delete 0\ncompact\n", "demo 1 3\n")


def a_lock_that_fails_is_none(folder):
    """Where the file system answers a lock with an error, a base is opened and read, and the first change ends the run, which says why."""
    whole, _ = contents_of_a_base(folder)
    base = str(Path(folder, "mine"))
    old = heads(base)
    for error in ("EBADF", "ENOLCK", "EIO", "EOPNOTSUPP"):
        fails = slowed("/dev/null", f"flock:error={error}")
        assert run(base, "list\nshow 0\n", before=fails)[0] == 0
        for change in CHANGES:
            status, output, errors = run(base, change, before=fails)
            assert status == FILES_FAULT and f"{base}.sg4: {NO_LOCK}" in errors, (error, change, status, errors)
            assert contents(folder) == whole, (error, change)
        # Beside a compaction on another machine a run that looks changes nothing, and one that puts right is refused.
        compacting = start(base, COMPACT, slowed("/dev/null", "rename:delay_exit=100000"))
        while Path(f"{base}.si4").exists() and compacting.poll() is None:
            time.sleep(0.002)
        for before in (fails, fails):
            run(base, "list\n", before=before)
        status, _, errors = put_right(base, fails)
        assert status == FILES_FAULT and (NO_LOCK in errors or "No such file" in errors), (error, status, errors)
        assert ended(compacting)[0] == 0 and three_files(base), error
        fill(folder, whole)
        assert heads(base) == old


def two_mounts_of_one_folder(folder):
    """A base that one run compacts through a second mount, of which the locks need not meet, while others open it: no file is lost, and each sees
    one of the two bases, or is told why not."""
    far, near = Path(folder, "far"), Path(folder, "near")
    far.mkdir()
    near.mkdir()
    mounted = subprocess.run(["bindfs", str(far), str(near)], capture_output=True).returncode == 0 if shutil.which("bindfs") else False
    if not mounted:
        return "left out: bindfs is not there, or mounts nothing here"
    try:
        whole, new = contents_of_a_base(far)
        old = heads(str(far / "mine"))
        refused = 0
        for number in range(60 if ALL else 15):
            # A folder of its own, since a mount keeps for a moment what it told of files.
            room = far / str(number)
            room.mkdir()
            fill(room, whole)
            compacting = start(str(near / str(number) / "mine"), COMPACT)
            seen = [run(str(room / "mine"), "list\n") for _ in range(4)]
            status, output, errors = ended(compacting)
            assert status == 0 and "compacted 4 to 2" in output, (status, output, errors)
            for status, output, errors in seen:
                refused += status == FILES_FAULT
                assert status == FILES_FAULT or output.splitlines()[1:] in (old, new), (status, output, errors)
            # A file that is removed while it is open keeps another name on such a mount until it is closed.
            there = sorted(name for name in os.listdir(room) if not name.startswith(".fuse_hidden"))
            assert there == sorted(whole) and heads(str(room / "mine")) == new, (number, there)
        return f"{refused} openings told that a compact was at work"
    finally:
        subprocess.run(["fusermount", "-u", str(near)], check=True)


# Files of others


def a_new_file_whose_name_is_taken(folder):
    """As root, in a folder of another user who puts a link in the place of a new file before it has its owner: the link's file stays root's."""
    if os.geteuid() != 0:
        return "left out: not root"
    secret, room = Path(folder, "secret"), Path(folder, "room")
    os.chmod(folder, 0o755)
    secret.write_text("root only")
    secret.chmod(0o600)
    room.mkdir()
    base = make_base(room)
    for path in (room, *room.iterdir()):
        os.chown(path, 65534, 65534)
    process = start(base, "mark 0 W on\nsave\n", slowed("/dev/null", "fchown:delay_enter=700000", "chown:delay_enter=700000", "fchmod:delay_enter=300000"))
    new = Path(f"{base}.sn4.new")
    wait_for(new)
    new.rename(room / "stash")
    new.symlink_to(secret)
    status, _, errors = ended(process)
    assert secret.stat().st_uid == 0 and secret.stat().st_mode & 0o777 == 0o600 and secret.read_text() == "root only"
    assert status == FILES_FAULT and f"{new}: {CHANGED} while it was made" in errors, (status, errors)
    assert new.is_symlink() and (room / "stash").stat().st_uid == 65534 and not Path(f"{base}.sn4").is_symlink()
    return None


def links_where_a_file_is_made(folder):
    """A link that leads to no file is refused where a base is made or created, and its target is not made."""
    base, absent = str(Path(folder, "mine")), Path(folder, "absent")
    for ending in ENDINGS:
        link = Path(f"{base}.{ending}")
        link.symlink_to(absent)
        status, _, errors = run(base, "save\n", ["--create"])
        assert status == FILES_FAULT and f"{absent}: it is a link that leads to no file" in errors and not absent.exists(), (ending, errors)
        clear(folder)
        old = make_base(folder, "old")
        link.symlink_to(absent)
        ran = subprocess.run([MEND, old, base], capture_output=True, text=True, timeout=60)
        assert ran.returncode == FILES_FAULT and f"{link}: {IN_THE_WAY}" in ran.stderr and not absent.exists(), (ending, ran)
        assert sorted(os.listdir(folder)) == sorted([link.name, *(f"old.{it}" for it in ENDINGS)]), ending
        clear(folder)


def links_that_cannot_be_followed(folder):
    """A link whose target is no text, or that leads back to itself, is refused and stays."""
    far = Path(folder, "far")
    far.mkdir()
    make_base(far)
    for target in (b"far/\xff", b"mine.si4"):
        for ending in ENDINGS[1:]:
            shutil.copy(far / f"mine.{ending}", folder)
        os.symlink(target, os.fsencode(f"{folder}/mine.si4"))
        if target == b"far/\xff":
            shutil.copy(far / "mine.si4", os.fsencode(folder) + b"/far/\xff")
        then = sorted(os.listdir(folder))
        status, output, errors = run(str(Path(folder, "mine")), "mark 0 W on\nsave\n", ["--create"])
        assert (status, output) == (FILES_FAULT, "") and "mine.si4: " in errors, (target, status, errors)
        assert sorted(os.listdir(folder)) == then and os.readlink(os.fsencode(f"{folder}/mine.si4")) == target
        for path in Path(folder).glob("mine.*"):
            path.unlink()


def names_that_fit_without_their_ending(folder):
    """A base whose name fits, and those of its new files do not, is read, and refused before the first change."""
    base, made = str(Path(folder, "x" * (255 - len(".si4")))), make_base(folder)
    for ending in ENDINGS:
        os.rename(f"{made}.{ending}", f"{base}.{ending}")
    then = contents(folder)
    status, output, errors = run(base, "info\nlist\nshow 0\n")
    assert (status, errors) == (0, "") and output.count("[Event ") == 1, (status, errors)
    for change in CHANGES:
        status, _, errors = run(base, change)
        assert status == FILES_FAULT and "File name too long" in errors and contents(folder) == then, (change, status, errors)


# Descriptors, and what is no file


def streams_that_are_closed(folder):
    """A run whose standard streams are closed, one, two or all of them: what it writes there is in none of the files."""
    for closed in itertools.chain.from_iterable(itertools.combinations(range(3), count) for count in (1, 2, 3)):
        shut = " ".join(f"{stream}{'<' if stream == 0 else '>'}&-" for stream in closed)

        def ask(words, script):
            command = f'exec "$0" "$@" {shut}'
            return subprocess.run(["sh", "-c", command, *words], input=script, capture_output=True, text=True, timeout=60)

        base = str(Path(folder, "mine"))
        ask([PROGRAM, "--create", base], "demo 1 2\nsave\nno command\n")
        made = {name: content for name, content in contents(folder).items() if content}
        if 0 in closed:
            assert made == {} and run(base, "info\n", ["--create"])[0] == 0, closed
        else:
            assert len(heads(base)) == 3, closed
        clear(folder)
        make_base(folder)
        whole = contents(folder)
        for program, words in ((PROGRAM, [base]), (MEND, [base, base]), (MEND, ["--back", base]), (other_program("scid_page"), [base, f"{folder}/mine.si4"])):
            ask([program, *words], "info\nno command\n")
            assert contents(folder) == whole, (closed, program)
        ask([PROGRAM, base], "mark 0 W on\nsave\n")
        assert len(heads(base)) == 5, closed
        clear(folder)


def what_is_no_file(folder):
    """A device, a pipe, a folder or a socket in the place of each file is refused by what it is, at once and without its bytes."""
    def link_to(target):
        return lambda path: path.symlink_to(target)

    def bound(path):
        with socket.socket(socket.AF_UNIX) as it:
            it.bind(str(path))

    base = str(Path(folder, "b"))
    limit = {"preexec_fn": lambda: resource.setrlimit(resource.RLIMIT_AS, (1 << 28, 1 << 28))}
    for make in (os.mkfifo, Path.mkdir, bound, link_to("/dev/zero"), link_to("/dev/random"), link_to("/dev/tty")):
        for ending in ENDINGS:
            make_base(folder, "b")
            path = Path(f"{base}.{ending}")
            path.unlink()
            make(path)
            for words in ([], ["--create"]):
                status, output, errors = run(base, "info\n", words, **limit)
                assert (status, output) == (FILES_FAULT, "") and "it is a folder, a device, a pipe or a socket" in errors, (ending, errors)
            ran = subprocess.run([MEND, base, f"{folder}/new"], capture_output=True, text=True, timeout=60, **limit)
            assert ran.returncode == FILES_FAULT and "it is a folder" in ran.stderr, (ending, ran)
            if path.is_dir() and not path.is_symlink():
                path.rmdir()
            clear(folder)


def bytes_behind_the_last_entry(folder):
    """Files that go on for gigabytes behind what their headers count, with no bytes on the disk there: a base opens in little memory, and what is
    no base is refused as soon."""
    base = make_base(folder)
    old = heads(base)
    for ending in ENDINGS[:2]:
        os.truncate(f"{base}.{ending}", 1 << 40)
    limit = {"preexec_fn": lambda: resource.setrlimit(resource.RLIMIT_AS, (1 << 28, 1 << 28))}
    status, output, errors = run(base, "list\n", ["--strict"], **limit)
    assert (status, errors) == (0, "") and output.splitlines()[1:] == old, (status, errors)
    with open(f"{base}.si4", "wb") as index:
        index.truncate(1 << 40)
    status, output, errors = run(base, "list\n", **limit)
    assert (status, output) == (BAD_BASE, "") and errors.startswith("bad base: index file: "), (status, errors)


def names_of_files_on_a_terminal(folder):
    """Control bytes in the name of a base are shown as escapes on a terminal, and as they are elsewhere."""
    base = str(Path(folder, "a\x1b[31mb\x07"))
    _, _, errors = run(base, "info\n")
    assert f"{base}.si4: " in errors, errors
    terminal, other = pty.openpty()
    ran = subprocess.run([PROGRAM, base], stdin=subprocess.DEVNULL, stdout=subprocess.DEVNULL, stderr=other, timeout=60)
    os.close(other)
    shown = os.read(terminal, 4096).decode()
    os.close(terminal)
    assert ran.returncode == FILES_FAULT and "a\\u{1b}[31mb\\u{7}.si4: " in shown and "\x1b[31m" not in shown and "\x07" not in shown, shown


# The other programs

# Calls that are made to fail, each with an error that it can have. A system that refuses `brk` answers no error, but a place below the one asked for.
FAILING = {call: f"error={error}" for call, error in {
    "openat": "EIO", "read": "EIO", "write": "ENOSPC", "fsync": "EIO", "rename": "EIO", "fchmod": "EPERM", "flock": "ENOLCK", "unlink": "EACCES",
    "statx": "EIO", "mkdir": "EACCES", "lseek": "EIO", "mmap": "ENOMEM", "getdents64": "EIO"}.items()} | {"brk": "retval=0"}
# Every status but a signal's.
STATUSES = range(11)


def other_programs_at_each_call(folder):
    """scid_mend, which mends or puts right, and scid_page, killed and failing at each call of the system: what they read stays, no run ends by a
    signal of its own, and what they make is whole, is gone, or is refused and put right."""
    whole, _ = contents_of_a_base(folder)
    base, new = str(Path(folder, "mine")), str(Path(folder, "new"))
    old = heads(base)
    ended(start(base, COMPACT, slowed("/dev/null", "rename:signal=KILL:when=4")))
    halfway = contents(folder)
    page = other_program("scid_page")
    ways = {"mend": ([MEND, "mine", "new"], whole), "back": ([MEND, "--back", "mine"], halfway),
            "page": ([page, "--least", "1", "--depth", "2", "mine", "new"], whole)}
    tried = []
    for name, (words, before) in ways.items():
        clear_all(folder)
        fill(folder, before)
        calls = calls_of_words(Path(folder), words, "mine")
        tried += [(name, call, how) for call in calls for how in ("signal=KILL", FAILING.get(call[0])) if how]
    for name, (call, number), how in tried if ALL else random.Random(1).sample(tried, min(len(tried), SAMPLE)):
        words, before = ways[name]
        clear_all(folder)
        fill(folder, before)
        ran = subprocess.run([*slowed("/dev/null", f"{call}:{how}:when={number}"), *words], cwd=folder, capture_output=True, text=True, timeout=60)
        where = (name, call, number, how, ran)
        assert ran.returncode in STATUSES or (how == "signal=KILL" and ran.returncode == -signal.SIGKILL), where
        if name == "back":
            assert put_right(base)[0] == 0 and heads(base) == old and three_files(base), where
            continue
        assert {file: content for file, content in contents(folder).items() if file in whole} == whole, where
        if name == "page":
            made = Path(folder, "new")
            # The last line on standard output may fail where all pages are written.
            assert ran.returncode in (0, WRITE_FAULT) or how == "signal=KILL" or not (made / "index.html").exists() or (made / "INCOMPLETE").exists(), where
        elif how == "signal=KILL" or call in ("unlink", "statx"):
            # What can't be removed, or not be looked at, stays.
            put_right(new)
            assert listed(new) in (None, [], old), where
        elif ran.returncode in (0, WRITE_FAULT):
            # An old file that can't be removed stays, and is told of at the next opening.
            put_right(new)
            assert not Path(f"{new}.si4").exists() or heads(new) == old, where
        else:
            assert sorted(contents(folder)) == sorted(whole), where
    return f"{len(tried)} calls killed or failing"


def clear_all(folder):
    """Removes all that is in a folder, folders too."""
    for path in Path(folder).iterdir():
        shutil.rmtree(path) if path.is_dir() else path.unlink()


# Schedules of two runs

# What a run does over a base, by its name, where `who` is the run's own word. The last puts right what a compaction left that was killed.
RUNS = {
    "open": lambda who: "list\n",
    "save": lambda who: f"tag 0 White {who}\nsave\n",
    "compact": lambda who: "delete 1\ncompact\n",
    "add": lambda who: f"tag 0 White {who}\n",
    "back": None,
}
DONE = {"save": "\nsaved ", "compact": "\ncompacted "}


def every_schedule_of_two_runs(folder):
    """Two runs, each one that opens a base, saves, compacts, adds or puts right, of which one is stopped behind one of its calls of the system until
    the other has ended: the base is then the one that the runs which were done leave, and no file stands beside it."""
    whole, _ = contents_of_a_base(folder)
    base = str(Path(folder, "mine"))
    ended(start(base, COMPACT, slowed("/dev/null", "rename:signal=KILL:when=4")))
    killed = contents(folder)
    left, schedules = left_by(folder, base, whole), []
    for one, other in itertools.product(RUNS, repeat=2):
        fill(folder, killed if "back" in (one, other) else whole)
        schedules += [(one, other, call) for call in calls_of(Path(folder), base, one)]
    tried = schedules if ALL else random.Random(1).sample(schedules, SAMPLE)
    rooms = [Path(folder, f"room{number}") for number in range(AT_ONCE)]
    for room in rooms:
        room.mkdir()
    with ThreadPoolExecutor(AT_ONCE) as pool:
        shares = [tried[number::AT_ONCE] for number in range(AT_ONCE)]
        for _ in pool.map(lambda room, share: [one_schedule(room, it, whole, killed, left) for it in share], rooms, shares):
            pass
    return f"{len(tried)} of {len(schedules)} schedules"


def words_of(base, name):
    return [MEND, "--back", base] if name == "back" else [PROGRAM, base]


def alone(base, who, name):
    """One run: its status, its output and its errors."""
    script = RUNS[name](who) if RUNS[name] else ""
    ran = subprocess.run(words_of(base, name), input=script, capture_output=True, text=True, timeout=60)
    return ran.returncode, ran.stdout, ran.stderr


def listed(base):
    """The lines that `list` has for a base, or none where it does not open."""
    status, output, _ = run(base, "list\n", ["--strict"])
    return output.splitlines()[1:] if status == 0 else None


def calls_of(folder, base, name):
    """Each call of the system of a run from its first look at the base on, by its name and its number."""
    return calls_of_words(folder, words_of(base, name), base, RUNS[name]("P") if RUNS[name] else "")


def calls_of_words(folder, words, base, script=""):
    log = folder.with_name(f"{folder.name}.calls")
    subprocess.run(["strace", "-qq", "-f", "-o", str(log), *words], input=script, capture_output=True, text=True, timeout=60, cwd=folder)
    counts, found = {}, []
    for line in log.read_text(errors="replace").splitlines():
        call = re.match(r"\d+ +(\w+)\(", line)
        if not call or call[1] in ("execve", "exit_group", "clock_nanosleep"):
            continue
        counts[call[1]] = counts.get(call[1], 0) + 1
        if found or base in line:
            found.append((call[1], counts[call[1]]))
    log.unlink()
    return found


def left_by(folder, base, whole):
    """What `list` shows of the base behind no run, behind each that saves or compacts, and behind two of them in each order."""
    runs = [(who, name) for who in "PQ" for name in DONE]
    left = {}
    for order in [(), *((it,) for it in runs), *(pair for pair in itertools.permutations(runs, 2) if pair[0][0] != pair[1][0])]:
        fill(folder, whole)
        for who, name in order:
            assert DONE[name] in alone(base, who, name)[1], order
        left[order] = heads(base)
    return left


def one_schedule(room, schedule, whole, killed, left):
    one, other, (call, number) = schedule
    fill(room, killed if "back" in (one, other) else whole)
    base, log = str(room / "mine"), room.with_name(f"{room.name}.log")
    words = ["strace", "-qq", "-f", "-o", str(log), "-e", f"inject={call}:signal=STOP:when={number}", *words_of(base, one)]
    pipes = {"stdin": subprocess.PIPE, "stdout": subprocess.PIPE, "stderr": subprocess.PIPE, "text": True}
    log.write_text("")
    process = subprocess.Popen(words, **pipes)
    give(process, RUNS[one]("P") if RUNS[one] else "")
    while "--- stopped by SIGSTOP" not in log.read_text(errors="replace") and process.poll() is None:
        time.sleep(0.002)
    second = alone(base, "Q", other)
    if process.poll() is None:
        os.kill(int(log.read_text(errors="replace").split()[0]), signal.SIGCONT)
    first = ended(process)
    log.unlink()
    where = (schedule, first, second)
    assert first[0] in (0, FILES_FAULT) and second[0] in (0, FILES_FAULT), where
    # Who was not done was told of the other run, or of the compaction that was killed.
    for status, _, errors in (first, second):
        assert status == 0 or any(word in errors for word in (BUSY, CHANGED, SET_ASIDE, IN_THE_WAY)), where
    if listed(base) is None:
        assert "back" in (one, other) and put_right(base)[0] == 0, where
    done = [(who, name) for who, name, ran in (("P", one, first), ("Q", other, second)) if name in DONE and DONE[name] in ran[1]]
    assert heads(base) in [left[order] for order in itertools.permutations(done)], where
    assert three_files(base), (where, os.listdir(room))


SHOWS = [
    (a_lock_that_is_given_back,),
    (a_change_whose_time_is_put_back,),
    (files_whose_renames_reach_the_disk_alone,),
    (two_mounts_of_one_folder,),
    (links_where_a_file_is_made,),
    (links_that_cannot_be_followed,),
    (names_that_fit_without_their_ending,),
    (streams_that_are_closed,),
    (what_is_no_file,),
    (bytes_behind_the_last_entry,),
    (names_of_files_on_a_terminal,),
]
TRACED = [
    (an_opening_beside_a_compaction_at_work,),
    (openings_after_a_compaction_that_was_killed,),
    (a_lock_that_fails_is_none,),
    (a_new_file_whose_name_is_taken,),
    (other_programs_at_each_call,),
    (every_schedule_of_two_runs,),
]
