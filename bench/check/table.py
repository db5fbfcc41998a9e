#!/usr/bin/env python3
"""table.py PARTS CRATES: of what sample.py wrote of a check of the crates that CRATES (crates.txt) lists, the processor minutes of all crates and of each
by part, the longest chain of proofs that wait for one another, and the ten dearest parts."""
import collections
import functools
import sys

PARTS = ("proofs", "second", "edits", "tests", "builds")


def read(path):
    """The processor minutes of each crate by part, and the minutes by the clock of each crate's proof."""
    minutes, clock = collections.defaultdict(collections.Counter), collections.Counter()
    with open(path) as it:
        for line in it:
            crate, part, seconds, longest = line.rstrip("\n").split("\t")
            minutes[crate][part] += int(seconds) / 60
            if part == "proofs":
                clock[crate] = int(longest) / 60
    return minutes, clock


def chain_of(path, clock):
    """The minutes and the crates of the longest chain, lowest first."""
    below = {}
    with open(path) as it:
        for line in it:
            crate, _, deps = line.partition("#")[0].partition(":")
            below[crate.strip()] = deps.split()

    @functools.cache
    def longest(crate):
        took, chain = max(map(longest, below.get(crate, ())), default=(0, ()))
        return took + clock[crate], (*chain, crate)

    return max(map(longest, below))


def main(path, crates_path):
    crates, clock = read(path)
    print(f"{'crate':16}" + "".join(f"{part:>8}" for part in PARTS) + "     all")
    all_of = lambda part: sum(of[part] for of in crates.values())
    print(f"{'all':16}" + "".join(f"{all_of(part):8.1f}" for part in PARTS) + f"{sum(map(all_of, PARTS)):8.1f}")
    for crate, of in sorted(crates.items(), key=lambda it: -sum(it[1].values())):
        print(f"{crate:16}" + "".join(f"{of[part]:8.1f}" for part in PARTS) + f"{sum(of.values()):8.1f}")
    took, chain = chain_of(crates_path, clock)
    print(f"\nthe longest chain takes {took:.0f} minutes: {', '.join(chain)}")
    print("\nthe ten dearest parts")
    for minutes, crate, part in sorted(((of[part], crate, part) for crate, of in crates.items() for part in of), reverse=True)[:10]:
        print(f"{minutes:6.1f}  {crate}: {part}")


main(*sys.argv[1:])
