#!/usr/bin/env python3
"""docs/check.py: looks whether the documents name what is there, and whether what scripts print of them is current.

- docs/CLAIMS.md and docs/TRUSTED.md are what docs/claims.py and docs/trusted.py print. Each call that can answer an error other than want of
  memory has a clause that holds behind it.
- Each clause that the table of the session names in docs/CLAIMS.md is one of its own, and each definition is one of the repository.
- A word of a page is defined in the file of specs/ that stands in brackets behind it.
- Each case, test and script that docs/TESTED.md names is there, and so is each page, folder and file that a page names or links to.
- The wrong bodies that docs/MAINTAINING.md names are there, and all are within its numbers.
- Of each crate that crates.txt gives a crate, some file of it names something.
- docs/DESIGN.md has a row for each crate, on a floor above all that it names, as docs/house.py finds.
- No page and no comment of a source file has more long sentences, long lines and turns of phrase than docs/prose.py leaves it, and all pages
  have no more lines than it says.
- Each file of specs/ that a public clause rests on names its source in its first comment."""
import collections
import re
import sys

import claims
import house
import prose
import trusted
from trusted import TOP, sources

# What a line of specs/ defines.
DEFINITION = r"^\s*(?:(?:unfoldable|abbrev|pub|record|data|mutual) )*([^\s:(){}]+) ?[:({]"


def names_there():
    """Every name that a row may give."""
    found = set()
    for path in sources("src", ".rt"):
        text = path.read_text()
        found.update(re.findall(r"\b(?:fn|struct|enum|trait|mod|const|ensures|requires|ghost) (\w+)", text))
        found.update(re.findall(r"^\s+(?:pub )?(\w+)\b[ ,:({]", text, flags=re.M))
    for path in sources("specs", ".antt"):
        text = path.read_text()
        found.update(re.findall(DEFINITION, text, flags=re.M))
        found.update(re.findall(r"^\s*\| (\w+)", text, flags=re.M))
    found.update(it.parent.name for it in (TOP / "crates").glob("*/src"))
    found.update(it.stem for it in sources("src", ".rt"))
    found.update(it.name for it in (TOP / "cases").iterdir())
    return found


def unknown_claims():
    """What the table of the session in docs/CLAIMS.md names: clauses of `session` outside of brackets, definitions in them."""
    there, calls = names_there(), claims.handed_out()
    own = {clause for call in calls["shell_session"] for clause, *_ in call.clauses}
    others = {clause for of_crate in calls.values() for call in of_crate for clause, *_ in call.clauses} - own
    for number, line in enumerate((TOP / claims.PAGE).read_text().partition(claims.MARK)[0].splitlines(), 1):
        cells = line.strip("|").split("|") if line.startswith("|") else ["", ""]
        brackets = " ".join(re.findall(r"\([^)]*\)", cells[1]))
        for word in re.findall(r"`(\w+)`", re.sub(r"\([^)]*\)", "", cells[1])):
            if word not in own | there:
                yield f"{claims.PAGE}:{number}: nothing is named {word}"
            elif word in others - {"lines_without_files"}:
                yield f"{claims.PAGE}:{number}: session has no clause {word}"
        for word in re.findall(r"`(\w+)`", brackets):
            if word not in there:
                yield f"{claims.PAGE}:{number}: nothing is named {word}"


def unknown_tests():
    """What docs/TESTED.md names in the second column and is not there: a case, a script, a crate."""
    for number, line in enumerate((TOP / "docs/TESTED.md").read_text().splitlines(), 1):
        cells = line.strip("|").split("|") if line.startswith("|") else ["", ""]
        for word in re.findall(r"`([^`]+)`", cells[1]):
            places = [word, f"cases/{word}", f"crates/{word}"]
            if not word.startswith("-") and not any((TOP / it).exists() for it in places):
                yield f"docs/TESTED.md:{number}: there is no {word}"


def broken_links():
    """Links of the pages that lead to no file, or to no heading of a page."""
    for page in prose.pages():
        for number, line in enumerate(page.read_text().splitlines(), 1):
            for target in re.findall(r"\]\(([^)\s]+)\)", re.sub(r"`[^`]*`", "", line)):
                path, _, heading = target.partition("#")
                if re.match(r"\w+:", target):
                    continue
                other = page.parent / path if path else page
                if not other.exists():
                    yield f"{prose.name_of(page)}:{number}: there is no {target}"
                elif heading and heading not in headings(other):
                    yield f"{prose.name_of(page)}:{number}: {other.name} has no heading {heading}"


def absent_paths():
    """Files and folders of the repository that a page names in code, from its top, and that are not there. What a build makes is not looked for."""
    for page in prose.pages():
        for number, line in prose.own_lines(page):
            for word in re.findall(r"`(?:\./)?((?:bench|board|cases|crates|docs|samples)/[\w./*+-]+)", line):
                if "/out" not in word and "*" not in word and not re.search(r"/[A-Z]+\b", word.removesuffix(".md")) and not (TOP / word.rstrip("/.")).exists():
                    yield f"{prose.name_of(page)}:{number}: there is no {word}"


def headings(page):
    """The headings of a page, as links name them."""
    found = re.findall(r"^#+ (.*)$", page.read_text(), flags=re.M)
    return {re.sub(r"[^\w\- ]", "", it.lower()).replace(" ", "-") for it in found}


def misplaced_words():
    """Words of the pages that are not defined in the file of specs/ which stands in brackets behind them."""
    defined = {}
    for path in sources("specs", ".antt"):
        defined.setdefault(path.name, set()).update(re.findall(DEFINITION, path.read_text(), flags=re.M))
    for page in sorted((TOP / "docs").glob("*.md")):
        for number, line in enumerate(page.read_text().splitlines(), 1):
            for before, file in re.findall(r"([^|()]*)\(`(\w+\.antt)`\)", line):
                for word in re.findall(r"`(\w+)`", before):
                    if word not in defined.get(file, ()):
                        yield f"docs/{page.name}:{number}: {file} does not define {word}"


MOST_EDITS, MOST_CRATES_WITH_EDITS, MOST_EDITS_OF_A_CRATE = 90, 28, 5


def wrong_bodies():
    """Wrong bodies that docs/MAINTAINING.md names and that are not there, and numbers of wrong bodies that are too large."""
    there = {f"{it.parent.parent.name}/{it.stem}" for it in (TOP / "crates").glob("*/must-fail/*.edit")}
    table = (TOP / "docs/MAINTAINING.md").read_text().partition("## The wrong bodies that stay")[2]
    named = set(re.findall(r"`(\w+/\w+)`", table))
    for name in sorted(named - there):
        yield f"docs/MAINTAINING.md: there is no wrong body {name}"
    crates = collections.Counter(it.split("/")[0] for it in there)
    if len(there) > MOST_EDITS or len(crates) > MOST_CRATES_WITH_EDITS:
        yield f"crates/*/must-fail: {len(there)} wrong bodies in {len(crates)} crates, where at most {MOST_EDITS} in {MOST_CRATES_WITH_EDITS} are meant"
    of_table = collections.Counter(it.split("/")[0] for it in named)
    for crate, count in sorted(crates.items()):
        if count > max(MOST_EDITS_OF_A_CRATE, of_table[crate]):
            yield f"crates/{crate}/must-fail: {count} wrong bodies"


def unnamed_crates():
    """Crates that crates.txt gives a crate and that no file of it names."""
    for line in (TOP / "crates.txt").read_text().splitlines():
        crate, _, below = line.partition("#")[0].partition(":")
        files = [path for part in ("src", "specs", "proofs") for path in (TOP / "crates" / crate / part).rglob("*.*t")]
        text = "\n".join(path.read_text() for path in files)
        for name in below.split():
            if not re.search(rf"\b{name}(?:::|\.)", text):
                yield f"crates.txt: no file of {crate} names {name}"


def main():
    faults = [*unknown_claims(), *unknown_tests(), *broken_links(), *absent_paths(), *misplaced_words(), *claims.faults(), *trusted.faults()]
    faults += [*wrong_bodies(), *unnamed_crates(), *house.faults(), *prose.faults()]
    for fault in faults:
        print(fault)
    return 1 if faults else 0


sys.exit(main())
