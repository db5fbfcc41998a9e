#!/usr/bin/env python3
"""Runs the bash programs beside scid_shell (scid_import ..), the launcher and ./install as people do, over files that are made here, and looks at what they say and what the
bases then hold.

PROGRAM is scid_shell. With --large a file of 1.2 GB goes through scid_import too, which takes some minutes.

Usage: cases/programs.py [--large] [PROGRAM]
"""
import bz2
import fcntl
import gzip
import lzma
import os
import pty
import random
import re
import resource
import select
import shutil
import signal
import struct
import subprocess
import sys
import tempfile
import termios
import time
import zipfile
from pathlib import Path

TOP = Path(__file__).resolve().parent.parent
WORDS = [it for it in sys.argv[1:] if it != "--large"]
PROGRAM = Path(WORDS[0] if WORDS else TOP / "crates/scid_shell/out/scid_shell").resolve()
BASH_PROGRAMS = ("scid_import", "scid_export", "scid_eco", "scid_run")
LAUNCHERS = ("scid_shell", "scid_mend", "scid_page", "scid_moves")
INSTALLED = (*BASH_PROGRAMS, *LAUNCHERS, "scid_board")
ALL_OF_BASH = (*BASH_PROGRAMS, *LAUNCHERS, "install", "uninstall", "common.bash", "completion.bash", "build")
AFTER_E4 = "rnbqkbnr/pppppppp/8/8/4P3/8/PPPP1PPP/RNBQKBNR b KQkq - 0 1"
LARGE = 1_200_000_000
REFUSED = 64
faults = []


def check(what, told):
    if not told:
        faults.append(what)
        print(f"programs: {what}")


def run(room, *words, given=b"", **more):
    ran = subprocess.run([str(it) for it in words], cwd=room, input=given, stdout=subprocess.PIPE, stderr=subprocess.PIPE, timeout=900, **more)
    return ran.returncode, ran.stdout.decode("latin-1"), ran.stderr.decode("latin-1")


def script(room, base, text, *options):
    """What scid_shell writes behind its opening line."""
    status, out, _ = run(room, "./real_shell", *options, base, given=text.encode("latin-1"))
    return status, out.split("\n", 1)[1] if "\n" in out else out


def games_of(room, base):
    """The base in PGN, or nothing where it does not open."""
    status, text = script(room, base, "export\n")
    return text if status == 0 else None


def game(number, moves="1. e4 e5 2. Nf3 1-0", *tags):
    lines = [f'[Event "Game {number}"]', *tags, "", moves, ""]
    return "".join(f"{line}\n" for line in lines).encode()


def imported(room, base, *words, given=b""):
    status, out, errors = run(room, "./scid_import", *words[:-1], base, words[-1], given=given)
    return status, out, errors.splitlines()


def check_traps(room):
    """A line of a comment that ends a body which END ends, and a file without a last line feed."""
    evil = b'[Event "x"]\n\n1. e4 { so it\nEND\ndelete 0\ndelete 1\ndelete 2\ndelete 3\ncompact\nsave } e5 1-0\n'
    (room / "evil.pgn").write_bytes(evil)
    (room / "nonl.pgn").write_bytes(b"".join(map(game, range(4))).rstrip(b"\n"))
    check("a file without a last line feed makes a base", imported(room, "trap", "--create", "nonl.pgn") == (0, "added 4 refused 0\n", []))
    check("a comment that ends a body is a comment", imported(room, "trap", "evil.pgn") == (0, "added 1 refused 0\n", []))
    text = games_of(room, "trap") or ""
    check("no game is lost to a comment", text.count("[Event ") == 5 and "delete 0" in text)


def check_forms(room):
    """Each packed form, both ends of lines, a mark at the beginning, and standard input make the same base."""
    plain = b"".join(game(it, f"1. e4 e5 2. {move} *") for it, move in enumerate(("Nf3", "Nc3", "Bc4", "f4")))
    (room / "plain.pgn").write_bytes(plain)
    (room / "plain.pgn.gz").write_bytes(gzip.compress(plain))
    (room / "plain.pgn.bz2").write_bytes(bz2.compress(plain))
    (room / "plain.pgn.xz").write_bytes(lzma.compress(plain))
    (room / "crlf.pgn").write_bytes(plain.replace(b"\n", b"\r\n"))
    (room / "mark.pgn").write_bytes(b"\xef\xbb\xbf" + plain)
    (room / "no end.pgn").write_bytes(plain.rstrip(b"\n"))
    with zipfile.ZipFile(room / "plain.zip", "w") as packed:
        packed.writestr("read me.txt", "no games")
        packed.writestr("first [1].pgn", plain[: plain.index(b'[Event "Game 2')].rstrip(b"\n"))
        packed.writestr("folder/rest.PGN", plain[plain.index(b'[Event "Game 2'):])
    forms = ["plain.pgn", "crlf.pgn", "mark.pgn", "no end.pgn"]
    for form, tool in (("plain.pgn.gz", "gzip"), ("plain.pgn.bz2", "bzip2"), ("plain.pgn.xz", "xz"), ("plain.zip", "unzip"), ("plain.pgn.zst", "zstd")):
        if not shutil.which(tool):
            print(f"programs: {tool} is not there: {form} was not tried")
            continue
        if tool == "zstd":
            subprocess.run(["zstd", "-q", "-k", "plain.pgn"], cwd=room, check=True)
        forms.append(form)
    for number, form in enumerate(forms):
        check(f"{form} is read", imported(room, f"form{number}", "--create", form) == (0, "added 4 refused 0\n", []))
        check(f"{form} makes the base", games_of(room, f"form{number}") == games_of(room, "form0"))
    for given in (plain, gzip.compress(plain)):
        base = f"given{len(given)}"
        check("standard input is read", imported(room, base, "--create", "-", given=given) == (0, "added 4 refused 0\n", []))
        check("standard input makes the base", games_of(room, base) == games_of(room, "form0"))
    check("a pipe is read", run(room, "bash", "-c", "./scid_import --create piped <(cat plain.pgn)")[:2] == (0, "added 4 refused 0\n"))
    check("a pipe makes the base", games_of(room, "piped") == games_of(room, "form0"))
    check("the base of the forms has the games", (games_of(room, "form0") or "").count("[Event ") == 4)


def check_places(room):
    """Each faulty game is told where its fault stands, through cuts too."""
    draw, text, places = random.Random(5), b"", []
    wrong = ("Ke4", "Qxx", "$400", "<", "O-O-O", ")")
    for number in range(300):
        if draw.random() < 0.8:
            text += game(number, "{ a comment\n\n[Event \"no game\"]\n\n} 1. e4 { and\n1-0\n\n[Event \"none\"] } e5 *")
        else:
            head, fault = b'[Event "Faulty"]\n\n1. e4 e5 ', draw.choice(wrong).encode()
            before = (text + head).split(b"\n")
            places.append(f"{len(before)}:{len(before[-1]) + 1}")
            text += head + fault + b" 1-0\n\n"
    text += b'[Event "Last"]\n\n1. e4 (1. d4'
    lines = text.split(b"\n")
    places.append(f"{len(lines)}:{len(lines[-1]) + 1}")
    (room / "faulty.pgn").write_bytes(text)
    sound = 301 - len(places)
    for base, words in (("places", ()), ("pieces", ("--piece", "2000"))):
        status, out, errors = imported(room, base, "--create", *words, "faulty.pgn")
        check(f"{base}: the counts of faulty games", (status, out) == (1, f"added {sound} refused {len(places)}\n"))
        check(f"{base}: the places of faulty games", [":".join(it.split(":")[:3]) for it in errors] == [f"faulty.pgn:{it}" for it in places])
    check("a text that is cut makes the same base", games_of(room, "places") == games_of(room, "pieces") is not None)
    status, out, errors = imported(room, "pieces", "--again", "--piece", "50", "faulty.pgn")
    check("a text that can't be cut is refused", status == REFUSED and not out and "can't be cut" in errors[0])


def check_numbered(room):
    """A game that the program tells by its number alone is told with the line that it begins at."""
    body = "1. e4 " + " ".join("{" + "y" * 65000 + "}" for _ in range(3)) + " e5 *"
    (room / "long.pgn").write_bytes(game(0) + game(1, body) + game(2))
    line = game(0).count(b"\n") + 1
    check("a record that is too long has its place", imported(room, "long", "--create", "long.pgn") ==
          (1, "added 2 refused 1\n", [f"long.pgn:{line}:1: record too long"]))


def check_again(room):
    """A file that was added is told, by whatever name, and added with --again."""
    (room / "first.pgn").write_bytes(game(0))
    shutil.copy(room / "first.pgn", room / "second.pgn")
    check("a file is added", imported(room, "again", "--create", "first.pgn") == (0, "added 1 refused 0\n", []))
    for name, given in (("first.pgn", b""), ("second.pgn", b""), ("-", game(0))):
        status, out, errors = imported(room, "again", name, given=given)
        check(f"{name} is told the second time", status == REFUSED and not out and "from first.pgn" in errors[0])
    status, _, errors = run(room, "./scid_import", "--create", "twice", "first.pgn", "second.pgn")
    check("the same text twice is told", status == REFUSED and "from first.pgn" in errors and not (room / "twice.si4").exists())
    check("--again adds it", imported(room, "again", "--again", "first.pgn") == (0, "added 1 refused 0\n", []))
    check("all that was added is there", (games_of(room, "again") or "").count("[Event ") == 2)
    for part in ("si4", "sn4", "sg4"):
        (room / f"again.{part}").unlink()
    check("a new base of the name knows nothing of it", imported(room, "again", "--create", "first.pgn")[0] == 0)


def check_refusals(room):
    """What can't be done is told before anything is done."""
    (room / "one.pgn").write_bytes(game(0))
    (room / "broken.gz").write_bytes(gzip.compress(os.urandom(5000))[:3000])
    (room / "broken.zip").write_bytes(b"PK\3\4 and no zip")
    (room / "folder").mkdir()
    for words in (("there", "one.pgn", "broken.gz"), ("there", "broken.zip"), ("there", "one.pgn", "folder"), ("there", "one.pgn", "none.pgn"),
                  ("there", ), ("--piece", "x", "there", "one.pgn"), ("", "one.pgn"), ("-x", "one.pgn"),
                  ("there", "--again", "one.pgn")):
        status, out, errors = run(room, "./scid_import", "--create", *words)
        check(f"scid_import {words} is refused", status == REFUSED and not out and errors and not (room / "there.si4").exists())
    status, _, errors = run(room, "./scid_import", "there", "one.pgn")
    check("an absent base is told", status == REFUSED and "--create" in errors)
    imported(room, "there", "--create", "one.pgn")
    status, _, errors = run(room, "./scid_import", "there.si4", "one.pgn")
    check("a base by its file is told", status == REFUSED and "ending" in errors)
    check("--help has the usage", run(room, "./scid_import", "--help")[1].startswith("usage: scid_import "))


def check_early_ends(room):
    """Each early end has its status, and what stands is told. Where nothing real gives a status, a program that ends so stands for scid_shell."""
    games = b"".join(game(it) for it in range(40))
    (room / "forty.pgn").write_bytes(games)
    shell = room / "scid_shell"
    kept = shell.read_bytes()
    ends = [(3, 'exec ./real_shell "$@" </', 0), (4, 'exec ./real_shell "$@" >/dev/full', 0)]
    ends += [(it, f'./real_shell "$@" | grep -v saved; exit {it}', 40) for it in (6, 7, 8)]
    ends += [(137, 'head -c 1500 | ./real_shell "$@"; kill -9 $$', 0)]
    for status, body, games_now in ends:
        base = f"end{status}"
        script(room, base, "save\n", "--create")
        shell.write_text("#!/bin/bash\n" + (f'[ ! -e once{status} ] || exec ./real_shell "$@"; : >once{status}\n') + body + "\n")
        ended, out, errors = imported(room, base, "forty.pgn")
        check(f"status {status} is handed on", ended == status and not out)
        told = "with all that were added" if games_now else "none from forty.pgn:1 on"
        check(f"status {status} tells what stands", f"scid_import: ended early; the base has {games_now} games, " in "\n".join(errors) and told in errors[-1])
        check(f"status {status} leaves what it tells", (games_of(room, base) or "").count("[Event ") == games_now)
    shell.write_text('#!/bin/bash\necho run >>runs\n[ "$(wc -l <runs)" != 3 ] || exec ./real_shell "$@" </\nexec ./real_shell "$@"\n')
    ended, out, errors = imported(room, "third", "--create", "--piece", "500", "forty.pgn")
    standing = (games_of(room, "third") or "").count("[Event ")
    begins = games[: games.index(f'[Event "Game {standing}"'.encode())].count(b"\n") + 1
    check("the third of many runs ends early", ended == 3 and 0 < standing < 40 and
          errors[-1] == f"scid_import: ended early; the base has {standing} games, and none from forty.pgn:{begins} on")
    shell.write_text('#!/bin/bash\n[ ! -e stopped ] || exec ./real_shell "$@"\n: >stopped\ncat >/dev/null\nsleep 60\n')
    script(room, "stop", "save\n", "--create")
    child = subprocess.Popen(["./scid_import", "stop", "forty.pgn"], cwd=room, stdout=subprocess.PIPE, stderr=subprocess.PIPE, text=True,
                             start_new_session=True, preexec_fn=lambda: signal.signal(signal.SIGINT, signal.SIG_DFL))
    while not (room / "stopped").exists():
        time.sleep(0.05)
    os.killpg(child.pid, signal.SIGINT)
    out, errors = child.communicate(timeout=60)
    check("Ctrl-C is told", (child.returncode, out) == (130, "") and errors.endswith("the base has 0 games, and none from forty.pgn:1 on\n"))
    shell.write_bytes(kept)
    for status, spoil in ((2, lambda: (room / "bad.si4").write_bytes(b"no index")), (5, lambda: (room / "bad.sg4").unlink())):
        shutil.rmtree(room / "bad", ignore_errors=True)
        imported(room, "bad", "--create", "--again", "forty.pgn")
        spoil()
        ended, out, errors = imported(room, "bad", "--again", "forty.pgn")
        check(f"status {status} is handed on", ended == status and not out and "the base does not open" in errors[-1])
        for part in ("si4", "sn4", "sg4"):
            (room / f"bad.{part}").unlink(missing_ok=True)


def check_large(room, size):
    """A large text goes through in several runs, with little memory."""
    moves = "1. e4 e5 2. Nf3 Nc6 3. Bb5 a6 4. Ba4 Nf6 5. O-O Be7 6. Re1 b5 7. Bb3 d6 8. c3 O-O 9. h3 Nb8 10. d4 Nbd7 1/2-1/2"
    block = b"".join(game(it, moves, f'[White "Player {it % 977}"]', f'[Date "{1900 + it % 100}.01.01"]') for it in range(5000))
    blocks = size // len(block) + 1
    with (room / "large.pgn").open("wb") as file:
        for _ in range(blocks):
            file.write(block)
    before = time.monotonic()
    words = () if size == LARGE else ("--piece", str(size // 5))
    status, out, errors = imported(room, "large", "--create", *words, "large.pgn")
    took = time.monotonic() - before
    check("a large file is added", (status, out, errors) == (0, f"added {5000 * blocks} refused 0\n", []))
    check("a large file is saved", script(room, "large", "info\n")[1].startswith(f"games {5000 * blocks} "))
    print(f"programs: {size * 1e-6:.0f} MB in {took:.1f} s, at most {resource.getrusage(resource.RUSAGE_CHILDREN).ru_maxrss // 1024} MB of memory a process")


def check_export(room):
    """What is written is PGN alone, of the games that are asked for; a base of a year is made of it."""
    moves = ("1. e4 e5 *", "1. d4 d5 *", "1. e4 c5 *")
    games = b"".join(game(it, moves[it % 3], f'[Date "{2009 + it % 2}.01.01"]', f'[White "Player {it % 4}"]') for it in range(12))
    (room / "years.pgn").write_bytes(games)
    imported(room, "years", "--create", "years.pgn")
    whole = games_of(room, "years")
    asks = [((), whole.count("[Event ")), (("year=2010..2010",), 6), (("white=Player 1", "year=2010..2010"), 3), (("white=Nobody",), 0),
            (("event=",), 12)]
    for words, count in asks:
        status, out, errors = run(room, "./scid_export", "years", *words)
        check(f"scid_export {words}", (status, errors) == (0, "") and out.count("[Event ") == count and (not out or out.startswith("[Event ")))
    check("all games are what export writes", run(room, "./scid_export", "years")[1] == whole)
    for words, count in (((), 8), (("year=2010..2010",), 4)):
        status, out, errors = run(room, "./scid_export", "--board", AFTER_E4, "years", *words)
        check(f"scid_export --board {words}", (status, errors, out.count("[Event "), out.count("1. e4")) == (0, "", count, count))
    for words in (("years", "yaer=2010..2010"), ("years", "year=2010"), ("--board", "no board", "years"), ("--board", "x y\nexport", "years"), ("none",),
                  ("years.si4",), (), ("--board",), ("years", 'white="')):
        status, out, errors = run(room, "./scid_export", *words)
        sought = words == ("years", 'white="')
        check(f"scid_export {words} is refused", not out and (status == 0 if sought else status == REFUSED and errors != ""))
    whole_way = "./scid_export years year=2010..2010 | ./scid_import --create 2010 -"
    check("a base of a year", run(room, "bash", "-c", whole_way)[:2] == (0, "added 6 refused 0\n"))
    check("a base of a year has its games", games_of(room, "2010") == run(room, "./scid_export", "years", "year=2010..2010")[1])
    (room / "headless.si4").write_bytes(b"no index")
    check("a bad base has its status", run(room, "./scid_export", "headless")[0] == 5)
    for output in (">/dev/full", ">&-"):
        check(f"games that find no way out are a write fault ({output})", subprocess.run(["bash", "-c", f"./scid_export years {output}"], cwd=room, capture_output=True).returncode == 4)


def check_eco(room):
    """A table of the command's form and one of Scid's give the same codes; what is wrong is told by its line."""
    (room / "plain.eco").write_text("# openings\nA00\n\nB00 e4\nC20 e4 e5\nD00 d4 d5\n")
    (room / "names.eco").write_text('# openings\nA00 "Start: a * b" *\nB00 "King\'s, 1.e4"  1.e4\n  * C20 "Open"\n1. e4 e5 *\n\nD00 "Queen\'s" 1.d4 d5 *\n'
                                    'D01 "the same" 1...d4 1.d5\n*\n')
    codes = {}
    for table, told in (("plain.eco", ""), ("names.eco", "names.eco:8: repeated position, left out\n")):
        script(room, "years", "".join(f'tag {it} ECO ""\n' for it in range(12)) + "save\n")
        check(f"scid_eco {table}", run(room, "./scid_eco", "years", table) == (0, "classified 12 of 12\n", told))
        codes[table] = re.findall(r'\[ECO "(.*)"\]', games_of(room, "years"))
    check("the codes of both tables", codes["plain.eco"] == codes["names.eco"] == ["C20", "D00", "B00"] * 4)
    then = games_of(room, "years")
    for text, line in (("B00 e4\nC20 e4 Ke3\n", ":2: no legal move"), ("X00 e4\n", ":1: bad code"), ('A00 "x" *\nB00 "y" 1.e4\n1...zz *\n', ":2: bad move text"),
                       ("", ": no opening")):
        (room / "wrong.eco").write_text(text)
        status, out, errors = run(room, "./scid_eco", "years", "wrong.eco")
        check(f"a table with {line}", (status, out) == (REFUSED, "") and f"wrong.eco{line}" in errors)
    (room / "end.eco").write_text("B00 e4\nEND\ndelete 0\nsave\n")
    check("a table that ends no body", run(room, "./scid_eco", "years", "end.eco")[0] == REFUSED)
    for words in (("years",), ("years", "none.eco"), ("none", "plain.eco")):
        check(f"scid_eco {words} is refused", run(room, "./scid_eco", *words)[0] == REFUSED)
    check("what is refused changes nothing", games_of(room, "years") == then)


def check_run(room):
    """A script stops behind its first error line; bodies, quotes and lines of comments are none of it."""
    body = '[Event "x"]\n\n1. e4 { so\nerror: no\nit is } e5 *\n'
    good = f'import <<"EN"D  \n{body}END\ntag 0 White "<<END"\n# import <<END\nshow 0\nsave\nhits'
    (room / "good.txt").write_text(good)
    for words, given in ((("good.txt",), b""), ((), good.encode())):
        base = f"run{len(words)}"
        status, out, errors = run(room, "./scid_run", "--create", base, *words, given=given)
        alone = subprocess.run(["./real_shell", "--create", f"alone{len(words)}"], cwd=room, input=good, capture_output=True, text=True).stdout
        check("a script without an error", (status, errors) == (0, "") and out == alone and "error: no\n" in out)
    stops = [("info\nfoo\ndelete 0\nsave\n", "2: error: unknown command"), ("tag 9 White x\ndelete 0\nsave\n", "1: error: no game 9"),
             (f"import <<A\n{body}\n[Event \"y\"]\n\n1. e5 *\nA\ndelete 0\nsave\n", "1: error: game 2 line 9 column 4: no legal move"),
             ("import <<A B\ndelete 0\nsave\n", "1: error: extra argument"), ("info\nimport <<A\n1. e5 *", "2: error: game 1 line 1 column 4: no legal move"),
             ("eco <<T\nX00\nT\nsave\n", "1: error: eco line 1: bad code")]
    then = games_of(room, "run1")
    for text, told in stops:
        (room / "stops.txt").write_text(text)
        status, out, errors = run(room, "./scid_run", "run1", "stops.txt")
        check(f"a script stops at {told}", (status, errors) == (1, f"stops.txt:{told}\n") and not re.search("^(saved|deleted) [0-9]", out, flags=re.M))
        check("what is behind an error is not done", games_of(room, "run1") == then)
    check("quit ends a script", run(room, "./scid_run", "run1", given=b"info\nquit\nfoo\n")[0::2] == (0, ""))
    (room / "spoilt.si4").write_bytes(b"no index")
    for part in ("sn4", "sg4"):
        (room / f"spoilt.{part}").write_bytes(b"")
    check("the status of a run", run(room, "./scid_run", "spoilt", given=b"info\n")[0] == 2)
    for words in ((), ("none",), ("run1.si4",), ("run1", "none.txt"), ("--desk", "run1")):
        check(f"scid_run {words} is refused", run(room, "./scid_run", *words)[0] == REFUSED)
    long = "".join(f"tag 0 Round {it}\nexport\n" for it in range(300)).encode()
    check("a longer script", run(room, "./scid_run", "run1", given=long)[1].count("tagged 0\n") == 300)


def typed(room, text, path):
    """What a terminal shows of scid_run while this is typed."""
    ours, theirs = pty.openpty()
    fcntl.ioctl(theirs, termios.TIOCSWINSZ, struct.pack("HHHH", 24, 80, 0, 0))
    child = subprocess.Popen(["./scid_run", "run1"], cwd=room, stdin=theirs, stdout=theirs, stderr=theirs, start_new_session=True,
                             env={**os.environ, "PATH": path, "TERM": "dumb", "HOME": str(room)})
    os.close(theirs)
    shown, until, waiting = b"", time.monotonic() + 120, [*text]
    while time.monotonic() < until:
        if not select.select([ours], [], [], 0.2)[0]:
            continue
        try:
            shown += os.read(ours, 65536)
        except OSError:
            break
        if waiting and shown.endswith(b"scid> "):
            os.write(ours, waiting.pop(0))
            shown += b"|"
    os.close(ours)
    return child.wait(), shown.decode("latin-1")


def check_typing(room):
    """At a terminal there is a prompt, with rlwrap and without, and an error stops nothing."""
    without = room / "tools"
    without.mkdir()
    for tool in "bash awk cat cp dirname env grep head mkfifo mktemp mv od readlink rm sed tail tr wc".split():
        (without / tool).symlink_to(shutil.which(tool))
    paths = [("a prompt", str(without))]
    if shutil.which("rlwrap"):
        paths.append(("a prompt of rlwrap", os.environ["PATH"]))
    else:
        print("programs: rlwrap is not there: it was not tried")
    for what, path in paths:
        status, shown = typed(room, (b"foo\n", b"info\n", b"quit\n"), path)
        check(f"{what}: {shown!r}", status == 0 and "scid> " in shown and "error: unknown command" in shown and "games 1 deleted 0" in shown)
        check(f"{what} says how to leave", "Ctrl-D" in shown or "rlwrap" in what)


def check_install(room):
    """Installed below DESTDIR the programs run, with pages and completion, and all of it goes again."""
    tree, dest = room / "tree", room / "dest"
    tree.mkdir()
    for name in ALL_OF_BASH:
        shutil.copy(TOP / name, tree)
    shutil.copy(TOP / "scid_board", tree)
    shutil.copytree(TOP / "board", tree / "board")
    more = {"env": {**os.environ, "DESTDIR": str(dest)}}
    unproved = {name: tree / "crates" / name / "out/unproved" / name for name in LAUNCHERS}
    for place in unproved.values():
        place.parent.mkdir(parents=True)
        shutil.copy(PROGRAM, place)
    status, out, errors = run(tree, "./install", "/usr/local", **more)
    check("unproved programs are refused", status == REFUSED and "--unproved" in errors and not dest.exists())
    check("unproved programs are installed", run(tree, "./install", "--unproved", "/usr/local", **more)[0] == 0)
    ran = run(room, dest / "usr/local/bin/scid_shell", "run1", given=b"info\n")
    check("an unproved program says so", ran[0] == 0 and "not proved" in ran[2])
    for name, place in unproved.items():
        shutil.copy(PROGRAM, place.parent.parent / name)
    check("proved programs are installed over them", run(tree, "./install", "/usr/local", **more)[0] == 0)
    bins = dest / "usr/local/bin"
    check("every program is there", sorted(it.name for it in bins.iterdir()) == sorted(INSTALLED))
    check("no unproved one stays", not [*dest.rglob("unproved")])
    ran = run(room, bins / "scid_shell", "run1", given=b"info\n")
    check("an installed program runs", ran[0] == 0 and ran[2] == "" and "games 1" in ran[1])
    check("it says that it is proved", run(room, bins / "scid_shell", "--version")[1].splitlines()[1:] == ["proved, of no known commit"])
    check("an installed bash program runs", run(room, bins / "scid_export", "run1")[1] == games_of(room, "run1"))
    for name in INSTALLED:
        page = (dest / f"usr/local/share/man/man1/{name}.1").read_text()
        said = run(room, bins / name, "--help")[1]
        lines = [it.replace("\\-", "-").replace("\\&", "").replace("\\e", "\\") for it in page.splitlines() if not it.startswith(".")]
        check(f"the page of {name} has its help", [it for it in said.splitlines() if it][1:] == [it for it in lines if it][-len([it for it in said.splitlines() if it]) + 1:])
    for words, wanted in ((("scid_import", "--pi"), ["--piece"]), (("scid_export", "years", "whi"), ["white="]), (("scid_shell", "yea"), ["years", "years.pgn"])):
        line = f'source {dest}/usr/local/share/bash-completion/completions/{words[0]}; COMP_WORDS=("$@") COMP_CWORD=$(($# - 1)); _pondlater; printf "%s\\n" "${{COMPREPLY[@]}}"'
        check(f"completion of {words}", run(room, "bash", "-c", line, "bash", *words)[1].splitlines() == wanted)
    (dest / "usr/local/bin/other").write_text("")
    check("it is taken away", run(tree, "./uninstall", "/usr/local", **more)[0] == 0)
    check("nothing of it stays", [it.relative_to(dest).as_posix() for it in dest.rglob("*") if it.is_file()] == ["usr/local/bin/other"])
    check("there is nothing to take away then", run(tree, "./uninstall", "/usr/local", **more)[0] == REFUSED)
    (bins / "scid_eco").write_text("mine")
    status, _, errors = run(tree, "./install", "/usr/local", **more)
    check("a file of another origin stays", status == REFUSED and "in the way" in errors and (bins / "scid_eco").read_text() == "mine")


def check_launcher(room):
    """The launcher runs the program of its own name, whatever the environment and PATH are, and says what is wrong with it."""
    tree = room / "launch"
    (tree / "crates/scid_shell/src").mkdir(parents=True)
    for name in (*LAUNCHERS, "build"):
        shutil.copy(TOP / name, tree)
    (tree / "crates.txt").write_text("")
    (tree / "crates/scid_shell/src/main.rt").write_text("")
    os.makedirs(tree / "crates/scid_shell/specs")
    for name in LAUNCHERS:
        for kind in ("out", "out/unproved"):
            place = tree / "crates" / name / kind / name
            place.parent.mkdir(parents=True, exist_ok=True)
            place.write_text(f'#!/bin/bash\necho {name} {kind} "$@"\n')
            place.chmod(0o755)
    no_tools = {"env": {"PATH": "/none", "scid_program": "scid_mend"}}
    for name in LAUNCHERS:
        check(f"{name} runs its program", run(tree, "/bin/bash", name, "a", **no_tools)[:2] == (0, f"{name} out a\n"))
    (room / "elsewhere").symlink_to(tree / "scid_page")
    check("a link to a launcher runs its program", run(room, "./elsewhere", "a")[:2] == (0, "scid_page out a\n"))
    os.utime(tree / "crates/scid_shell/src/main.rt", (2**32, 2**32))
    ran = run(tree, "./scid_shell")
    check("an old proved program runs with a word", ran[:2] == (0, "scid_shell out\n") and "newer than the proved program" in ran[2])
    check("an old proved program is told by --version", "older sources than" in run(tree, "./scid_shell", "--version")[1])
    shutil.copy(tree / "scid_shell", tree / "scid_else")
    check("a launcher of no program", run(tree, "./scid_else")[:2] == (70, ""))
    for name in LAUNCHERS:
        (tree / "crates" / name / "out" / name).unlink()
    ran = run(tree, "/bin/bash", "scid_shell", **no_tools)
    check("an old unproved program runs with a word where there is no toolchain",
          ran[:2] == (0, "scid_shell out/unproved\n") and "no toolchain" in ran[2] and "not proved" in ran[2])
    (tree / "crates/scid_shell/out/unproved/scid_shell").unlink()
    ran = run(tree, "/bin/bash", "scid_shell", **no_tools)
    check("no program and no toolchain", ran[:2] == (70, "") and "no toolchain" in ran[2])


def main():
    with tempfile.TemporaryDirectory() as name:
        room = Path(name)
        for program in (*BASH_PROGRAMS, "common.bash"):
            shutil.copy(TOP / program, room)
        for program in ("scid_shell", "real_shell"):
            shutil.copy(PROGRAM, room / program)
        checks = [check_traps, check_forms, check_places, check_numbered, check_again, check_refusals, check_early_ends, check_export, check_eco,
                  check_run, check_typing, check_install, check_launcher]
        for each in checks:
            each(room)
        check_large(room, LARGE if "--large" in sys.argv else 20_000_000)
        if shutil.which("shellcheck"):
            check("shellcheck", run(TOP, "shellcheck", "-x", *ALL_OF_BASH, "cases/run") == (0, "", ""))
        else:
            print("programs: shellcheck is not there: it did not run")
    print(f"programs: {len(checks) + 2} groups, {len(faults)} faults")
    return 1 if faults else 0


if __name__ == "__main__":
    sys.exit(main())
