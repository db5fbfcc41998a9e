"""Sessions of the built program over real files: what real_files.py and its parts share."""
import os
import re
import subprocess
import sys
import threading
import time
from pathlib import Path

TOP = Path(__file__).resolve().parent.parent
PROGRAM = str(Path(sys.argv[1] if len(sys.argv) > 1 else TOP / "crates/scid_shell/out/scid_shell").resolve())
ENDINGS = ("si4", "sn4", "sg4")
USAGE = 1
BAD_BASE = 2
WRITE_FAULT = 4
FILES_FAULT = 5
CHANGED_GAME = 6
CHANGED = "another program changed it"
BUSY = "another run saves or compacts this base"
IN_THE_WAY = "it is in the way"
SET_ASIDE = "a compact was broken off"


def other_program(name):
    """Another program, which stands where the one that is tried does, or where `./build` makes it."""
    beside = Path(PROGRAM).with_name(name)
    if beside.exists():
        return str(beside)
    unproved = "unproved/" if Path(PROGRAM).parent.name == "unproved" else ""
    return str(TOP / f"crates/{name}/out/{unproved}{name}")


MEND = other_program("scid_mend")


def run(base, script, words=(), before=(), **more):
    """The status, the output and the errors of one session."""
    ran = subprocess.run([*before, PROGRAM, *words, base], input=script, capture_output=True, text=True, timeout=60, **more)
    return ran.returncode, ran.stdout, ran.stderr


def put_right(base, before=()):
    """The status, the output and the errors of `scid_mend --back`."""
    ran = subprocess.run([*before, MEND, "--back", base], capture_output=True, text=True, timeout=60)
    return ran.returncode, ran.stdout, ran.stderr


class Session:
    """A session that stays open between its commands, each of which answers one line."""

    def __init__(self, base, before=()):
        pipes = {"stdin": subprocess.PIPE, "stdout": subprocess.PIPE, "stderr": subprocess.PIPE}
        self.process = subprocess.Popen([*before, PROGRAM, base], text=True, bufsize=1, **pipes)
        self.opened = self.process.stdout.readline()

    def ask(self, line):
        too_long = threading.Timer(60, self.process.kill)
        too_long.start()
        self.process.stdin.write(line + "\n")
        self.process.stdin.flush()
        answer = self.process.stdout.readline()
        too_long.cancel()
        return answer

    def end(self):
        output, errors = self.process.communicate(timeout=60)
        return self.process.returncode, errors


def make_base(folder, name="mine"):
    """A base of four games, saved."""
    games = (TOP / "samples/classics.pgn").read_text()
    base = os.path.join(folder, name)
    status, _, errors = run(base, f"import <<END\n{games}END\nsave\n", ["--create"])
    assert status == 0, errors
    return base


def contents(folder):
    """What each file of the folder holds."""
    return {path.name: path.read_bytes() for path in Path(folder).iterdir() if path.is_file()}


def fill(folder, held):
    """Makes the folder hold these files and no others."""
    clear(folder)
    for name, content in held.items():
        Path(folder, name).write_bytes(content)


def clear(folder):
    for path in Path(folder).iterdir():
        path.unlink()


def heads(base, words=("--strict",)):
    """The lines that `list` has for a base, which has to open without a word on standard error."""
    status, output, errors = run(base, "list\n", words)
    assert (status, errors) == (0, ""), (status, errors)
    return output.splitlines()[1:]


def traced(base, script, *inject, log=None):
    """Runs a session under strace, and gives its calls."""
    log = log or f"{base}.calls"
    words = ["strace", "-qq", "-f", "-s", "64", "-o", log, *inject]
    status, output, errors = run(base, script, before=words)
    calls = Path(log).read_text(errors="replace").splitlines()
    os.unlink(log)
    return calls, status, output, errors


def calls_within(calls, first, last):
    """The name and the number of each call from the answer `first` to the answer `last`."""
    counts, within, found = {}, False, []
    for line in calls:
        call = re.match(r"\d+ +(\w+)\(", line)
        if not call:
            continue
        name = call[1]
        counts[name] = counts.get(name, 0) + 1
        if within:
            found.append((name, counts[name]))
        if name == "write" and 'write(1, "' in line:
            within = within or first in line
            if last in line:
                break
    return found


def held_back(base, call, when=""):
    """A session that strace holds back for half a second before each call of the system of this name, or before those that `when` tells."""
    return Session(base, ["strace", "-qq", "-f", "-o", "/dev/null", "-e", f"inject={call}:delay_enter=500000{when}"])


def begin(session, line):
    """Hands a command on, whose answer is not waited for."""
    session.process.stdin.write(line + "\n")
    session.process.stdin.flush()


def wait_for(path, has_bytes=True):
    """Waits until the file is there, and has bytes."""
    end = time.monotonic() + 30
    while not (path.exists() and (path.stat().st_size or not has_bytes)) and time.monotonic() < end:
        time.sleep(0.01)
