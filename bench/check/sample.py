#!/usr/bin/env python3
"""sample.py OUT FOLDER..: until it is ended, notes each second what each check below one of the folders has taken, and writes to OUT, for each crate
and part (proofs, tests, second, edits, builds), the processor seconds of all that it saw, and the seconds by the clock of the longest. It reads /proc
alone, so it can run beside any check. A check is several processes with the same words, of which each is seen by itself. A second proof is what the
wrong bodies of a crate begin with."""
import collections
import os
import signal
import sys
import time

TICKS = os.sysconf("SC_CLK_TCK")


def part_of(words, folder):
    """What a process of the prover does, by its words and its folder."""
    if "--crate-checked" in words:
        return "builds"
    if "--test" in words:
        return "tests"
    if "/rt-edit-" not in folder:
        return "proofs"
    kept = words[words.index("--incremental") + 1] if "--incremental" in words else ""
    return "second" if kept.endswith("/seed") else "edits"


def running(folders):
    """Yields each process of the prover that works below one of the folders: its number and start, its crate, its part, its processor seconds and
    those since its start."""
    with open("/proc/uptime") as it:
        uptime = float(it.read().split()[0])
    for pid in filter(str.isdigit, os.listdir("/proc")):
        try:
            with open(f"/proc/{pid}/cmdline", "rb") as it:
                words = it.read().decode(errors="replace").split("\0")
            if not words[0].endswith("/rattle") or "--crate-name" not in words:
                continue
            folder = os.readlink(f"/proc/{pid}/cwd")
            if not folder.startswith(folders):
                continue
            with open(f"/proc/{pid}/stat") as it:
                times = it.read().rsplit(")", 1)[1].split()
        except (OSError, IndexError):
            continue
        crate, begun = words[words.index("--crate-name") + 1], int(times[19])
        yield (pid, begun), crate, part_of(words, folder), sum(map(int, times[11:13])) / TICKS, uptime - begun / TICKS


def main(out, folders):
    seen = {}
    ended = []
    signal.signal(signal.SIGTERM, lambda *_: ended.append(True))
    signal.signal(signal.SIGINT, lambda *_: ended.append(True))
    while not ended:
        for key, *found in running(folders):
            seen[key] = found
        time.sleep(1)
        taken, longest = collections.Counter(), collections.Counter()
        for crate, part, seconds, since in seen.values():
            taken[crate, part] += seconds
            longest[crate, part] = max(longest[crate, part], since)
        with open(f"{out}.new", "w") as it:
            for (crate, part), seconds in taken.most_common():
                print(f"{crate}\t{part}\t{seconds:.0f}\t{longest[crate, part]:.0f}", file=it)
        os.replace(f"{out}.new", out)


main(sys.argv[1], tuple(sys.argv[2:]))
