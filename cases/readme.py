#!/usr/bin/env python3
"""Runs the commands of README.md as they stand, in a fresh clone of what is committed, and compares what they write with what stands behind them.

A command stands behind `$ ` in an indented line, and its text in the indented lines that follow, which end with `..` where it is shown in part.
Commands that take long are only looked for. The program is PROGRAM, with the other programs from the places beside it where they are built, or what the launchers
build without proofs.

Usage: cases/readme.py [PROGRAM [PAGE]]
"""
import os
import re
import shutil
import subprocess
import sys
import tempfile
from pathlib import Path

TOP = Path(__file__).resolve().parent.parent
PROGRAMS = ("scid_shell", "scid_mend", "scid_page", "scid_moves")
LONG = ("./build", "cases/run --quick", ".ci/run")


def commands(page):
    """Each command of the page with the number of its line, and the lines that are shown behind it."""
    found, shown = [], None
    for number, line in enumerate(page.splitlines(), 1):
        if line.startswith("    $ "):
            shown = []
            found.append((number, line[6:], shown))
        elif line.startswith("    ") and shown is not None:
            shown.append(line[4:])
        else:
            shown = None
    return found


def make_clone(folder, program):
    clone = folder / "clone"
    subprocess.run(["git", "clone", "-q", TOP, clone], check=True)
    for name in PROGRAMS if program else ():
        built = Path(str(program).replace(PROGRAMS[0], name))
        if built.exists():
            place = clone / "crates" / name / "out/unproved" / name
            place.parent.mkdir(parents=True)
            shutil.copyfile(built, place)
            place.chmod(0o755)
    return clone


def fault(clone, command, shown):
    """What is wrong with a command, or nothing."""
    if command in LONG:
        return None if os.access(clone / command.split()[0], os.X_OK) else "there is no such file"
    ran = subprocess.run(["bash", "-c", command], cwd=clone, stdout=subprocess.PIPE, stderr=subprocess.PIPE, text=True, timeout=900)
    lines = ran.stdout.splitlines()
    if ran.returncode:
        return f"it ends with {ran.returncode}: {ran.stderr}"
    if shown and shown[-1] == "..":
        lines, shown = lines[: len(shown) - 1], shown[:-1]
    return None if not shown or lines == shown else "it writes:\n" + "\n".join(lines)


def main():
    program = Path(sys.argv[1]).resolve() if len(sys.argv) > 1 else None
    page = Path(sys.argv[2]) if len(sys.argv) > 2 else TOP / "README.md"
    with tempfile.TemporaryDirectory() as name:
        clone = make_clone(Path(name), program)
        found = commands(page.read_text())
        assert found, f"{page} has no command"
        wrong = [(number, command, why) for number, command, shown in found if (why := fault(clone, command, shown))]
        left = subprocess.run(["git", "status", "--porcelain"], cwd=clone, capture_output=True, text=True, check=True).stdout
    for number, command, why in wrong:
        print(f"{page.name}:{number}: {command}: {why}")
    if left:
        print(f"{page.name}: its commands leave files that git sees:\n{left}")
    print(f"{page.name}: {len(found)} commands, {len(wrong)} faults")
    return 1 if wrong or left else 0


if __name__ == "__main__":
    sys.exit(main())
