#!/usr/bin/env python3
"""Runs the built programs with their standard error on a pseudo-terminal, and looks at what that shows: how far a run is, on one line.

Usage: cases/progress.py [SCID_SHELL SCID_PAGE]
"""
import functools
import itertools
import os
import re
import subprocess
import sys
import tempfile
import threading
import time
import tty
from pathlib import Path

TOP = Path(__file__).resolve().parent.parent
PROGRAM = str(Path(sys.argv[1] if len(sys.argv) > 1 else TOP / "crates/scid_shell/out/scid_shell").resolve())
PAGES = str(Path(sys.argv[2] if len(sys.argv) > 2 else TOP / "crates/scid_page/out/scid_page").resolve())
GAMES = 300_000
SCRIPT = "info\nfind rnbqkbnr/pppppppp/8/8/8/8/PPPPPPPP/RNBQKBNR w\ninfo\n"
CLEAR = "\r\x1b[K"
QUIET = 1.0
LASTING = 1.5
MOST_A_SECOND = 10
FILES_FAULT = 5
SAYS = {
    "opening": r"opening: (\d+) of (\d+) games",
    "reading": r"reading: (\d+)% of the games file",
    "adding": r"adding: (\d+) games, (\d+) MB read",
    "compact": r"compact: (\d+) games, (\d+)% read",
    "saving": r"saving",
    "writing": r"writing: (\d+) of (\d+) pages",
}


class Terminal:
    """A pseudo-terminal, with all that was written to it and when, until it is closed."""

    def __init__(self):
        self.ours, self.theirs = os.openpty()
        tty.setraw(self.theirs)
        self.pieces, self.began = [], time.monotonic()
        self.reader = threading.Thread(target=self.read)
        self.reader.start()

    def read(self):
        while True:
            try:
                piece = os.read(self.ours, 65536)
            except OSError:
                return
            if not piece:
                return
            self.pieces.append((time.monotonic() - self.began, piece.decode()))

    def end(self):
        """All that was written, once the program has ended."""
        os.close(self.theirs)
        self.reader.join()
        os.close(self.ours)
        return "".join(text for _, text in self.pieces)


def picture(written):
    """What the terminal shows of this in the end, line by line."""
    lines, at = [""], 0
    for part in re.findall(r"\x1b\[K|[\r\n]|[^\x1b\r\n]+", written):
        if part == "\r":
            at = 0
        elif part == "\n":
            lines.append("")
            at = 0
        elif part == "\x1b[K":
            lines[-1] = lines[-1][:at]
        else:
            lines[-1] = lines[-1][:at] + part + lines[-1][at + len(part) :]
            at += len(part)
    return lines


def said(written):
    """The lines that were shown one after the other: each takes away what stood there, and leaves the cursor at its beginning."""
    shown = re.findall(r"\r\x1b\[K([^\r\n\x1b]+)\r", written)
    for line in shown:
        assert any(re.fullmatch(form, line) for form in SAYS.values()), line
        assert len(line) < 40, line
    return shown


class Session:
    """A session whose input and output are pipes, and whose errors go to a pseudo-terminal."""

    def __init__(self, base, words=()):
        self.terminal = Terminal()
        pipes = {"stdin": subprocess.PIPE, "stdout": subprocess.PIPE, "stderr": self.terminal.theirs}
        self.process = subprocess.Popen([PROGRAM, *words, base], **pipes)

    def ask(self, script, last):
        """Sends lines, and waits for a line of the text that begins so, and then until a line of the terminal may be told again."""
        self.process.stdin.write(script.encode())
        self.process.stdin.flush()
        while not (line := self.process.stdout.readline().decode()).startswith(last):
            assert line, (script[:40], last)
        time.sleep(1.5 / MOST_A_SECOND)

    def end(self, script=""):
        """The status, the rest of the text, what the terminal was told, and how long it took."""
        text, _ = self.process.communicate(script.encode(), timeout=600)
        took = time.monotonic() - self.terminal.began
        return self.process.returncode, text.decode(), self.terminal.end(), took


@functools.cache
def piped(base, script):
    """The status, the text and the errors where standard error is a pipe."""
    ran = subprocess.run([PROGRAM, base], input=script, capture_output=True, text=True, timeout=600)
    return ran.returncode, ran.stdout, ran.stderr


def make_large(folder):
    """A base whose opening takes more than a second."""
    games = subprocess.run([sys.executable, TOP / "bench/open/make_games.py", "40", "72"], capture_output=True, check=True).stdout
    (folder / "games.txt").write_bytes(games)
    large = folder / "large"
    subprocess.run([sys.executable, TOP / "bench/find/make_base.py", folder / "games.txt", large, str(GAMES)], check=True)
    return str(large)


def an_opening_is_counted(folder, large):
    """The games of an opening, of all; the text is the same as where nothing is shown, and nothing is left on the terminal."""
    status, text, written, took = Session(large).end(SCRIPT)
    shown = said(written)
    assert (status, piped(large, SCRIPT)) == (0, (0, text, "")), status
    counts = [re.fullmatch(SAYS["opening"], line) for line in shown if not re.fullmatch(SAYS["reading"], line)]
    assert all(counts) and {int(count[2]) for count in counts} <= {GAMES}, shown[:2]
    read = [int(count[1]) for count in counts]
    assert read == sorted(set(read)) and all(0 <= it <= GAMES for it in read), read
    assert len(shown) <= max(took - QUIET, 0) * MOST_A_SECOND + 1, (len(shown), took)
    assert picture(written) == [""], written[-80:]
    if took < LASTING:
        return f"it took {took:.1f} s"
    assert shown and written.endswith(CLEAR), written[-80:]
    return f"{len(shown)} lines in {took:.1f} s, as `{shown[len(shown) // 2]}`"


def a_short_run_says_nothing(folder, large):
    """Nothing at all is written where the run takes less than a second."""
    for _ in range(10):
        status, _, written, took = Session(str(TOP / "samples/openings")).end("list\nexport\n")
        if took < QUIET:
            assert (status, written) == (0, ""), written
            return
    raise AssertionError("no run took less than a second")


def each_work_has_its_words(folder, large):
    """What is said of games that come in, of texts, saving and compaction, in a run that lasts."""
    base = str(folder / "mine")
    games = (TOP / "samples/classics.pgn").read_text()
    session = Session(base, ["--create"])
    session.ask("", "base 0 games")
    time.sleep(QUIET)
    session.ask(f"import <<END\n{games}END\n", "imported 4")
    session.ask("export\ninfo\n", "games 4")
    session.ask("save\n", "saved")
    session.ask("delete 0\ncompact\n", "compacted")
    status, text, written, _ = session.end("quit\n")
    works = [work for work, _ in itertools.groupby(line.split(":")[0] for line in said(written))]
    assert (status, text, works[:4]) == (0, "", ["adding", "reading", "saving", "compact"]), (status, text, works)
    assert picture(written) == [""], written[-80:]


def text_is_not_mixed_with_it(folder, large):
    """Where the text goes to the same terminal, that shows the text alone in the end."""
    terminal = Terminal()
    process = subprocess.Popen([PROGRAM, large], stdin=subprocess.PIPE, stdout=terminal.theirs, stderr=terminal.theirs)
    process.communicate(SCRIPT.encode(), timeout=600)
    took = time.monotonic() - terminal.began
    written = terminal.end()
    assert process.returncode == 0 and (said(written) or took < LASTING), written[-80:]
    assert picture(written) == piped(large, SCRIPT)[1].split("\n"), written[-80:]


def a_fault_is_read_on_its_own_line(folder, large):
    """What is wrong with a file stands where the line stood, and no part of that behind it."""
    base = str(folder / "mine")
    session = Session(base)
    session.ask("", "base 3 games")
    time.sleep(QUIET)
    session.ask("export\ninfo\n", "games 3")
    os.utime(f"{base}.si4", (0, 0))
    status, _, written, _ = session.end("save\n")
    shows = picture(written)
    assert status == FILES_FAULT and len(said(written)) >= 1, (status, written)
    assert shows == [f"{base}.si4: another program changed it since it was loaded; it stays as it is", "files fault", ""], shows


def pages_are_told_too(folder, large):
    """The opening of a base whose pages are made, how far its records are read, and the pages that are written."""
    terminal = Terminal()
    words = [PAGES, "--depth", "40", "--least", "1", large, str(folder / "pages")]
    ran = subprocess.run(words, stdin=subprocess.DEVNULL, stdout=subprocess.PIPE, stderr=terminal.theirs, timeout=600)
    written = terminal.end()
    works = [work for work, _ in itertools.groupby(line.split(":")[0] for line in said(written))]
    assert ran.returncode == 0 and works[1:3] == ["reading", "writing"] and set(works[3:]) <= {"reading", "writing"}, (ran.returncode, works)
    assert picture(written) == [""], written[-80:]


def main():
    shows = [
        an_opening_is_counted,
        a_short_run_says_nothing,
        each_work_has_its_words,
        text_is_not_mixed_with_it,
        a_fault_is_read_on_its_own_line,
        pages_are_told_too,
    ]
    with tempfile.TemporaryDirectory() as name:
        folder = Path(name)
        large = make_large(folder)
        for show in shows:
            told = show(folder, large)
            print(f"{show.__name__}: ok" + (f" ({told})" if told else ""), flush=True)


if __name__ == "__main__":
    main()
