#!/usr/bin/env python3
"""functions.py CLONE CRATE..: the ten functions of these crates whose proofs take longest, each crate checked once more over the libraries that a
whole check has left in CLONE, one function after the other. Seconds by the clock, so for a machine that has nothing else to do."""
import os
import subprocess
import sys
import time


def below(crates, crate, found):
    """Adds the crates that stand below one, those of the toolchain apart."""
    for name in crates[crate]:
        if name in crates and name not in found:
            found.append(name)
            below(crates, name, found)
    return found


def command(clone, crates, crate):
    """The check of a crate, which prints a line behind each function."""
    rt = subprocess.run(["which", "rt"], capture_output=True, text=True, check=True).stdout.strip()
    kit = os.path.dirname(os.path.dirname(os.path.realpath(rt)))
    rlibs = {name: f"{clone}/crates/{name}/out/rlib/{name}.rlib" for name in crates}
    main = next(it for it in ("src/lib.rt", "src/main.rt") if os.path.exists(f"{clone}/crates/{crate}/{it}"))
    words = [f"{kit}/bin/rattle", "check", "--crate-name", crate, main, "--progress", "--jobs", "1", "--links", f"{crate}="]
    words += ["--antt-project", f"{kit}/rattle/logic/antt-project.json", "--logic-built", f"{kit}/logic_built"]
    for name in ["std", *crates[crate]]:
        words += ["--extern", f"{name}={rlibs.get(name, f'{kit}/rlibs/{name}.rlib')}"]
    for folder in [f"{kit}/rlibs", *(os.path.dirname(rlibs[name]) for name in below(crates, crate, []))]:
        words += ["-L", f"dependency={folder}"]
    return words


def seconds(clone, crates, crate):
    """Yields each function of the crate with the seconds that its proof took."""
    with subprocess.Popen(command(clone, crates, crate), cwd=f"{clone}/crates/{crate}", stdout=subprocess.PIPE, stderr=subprocess.STDOUT, text=True) as run:
        last = time.monotonic()
        for line in run.stdout:
            if line.startswith("checked "):
                now = time.monotonic()
                yield now - last, line.removeprefix("checked ").rsplit(",", 1)[0]
                last = now


def main(clone, *names):
    crates = {}
    with open(f"{clone}/crates.txt") as it:
        for line in it:
            name, _, deps = line.partition("#")[0].partition(":")
            if name.strip():
                crates[name.strip()] = deps.split()
    found = [it for name in names for it in seconds(clone, crates, name)]
    print(f"\nthe ten dearest functions of {', '.join(names)}")
    for took, name in sorted(found, reverse=True)[:10]:
        print(f"{took:6.1f} s  {name}")


main(*sys.argv[1:])
