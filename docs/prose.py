#!/usr/bin/env python3
"""docs/prose.py: counts what makes a page or a comment hard to read.

Counted are sentences of more than 40 words, lines of more than 200 characters outside of tables and code, and some turns of phrase.
A word is what stands between spaces, and a piece of code is one word. Of a source file (crates/*/src, crates/*/specs) the comments are counted.

Usage: docs/prose.py [FILE..]         the numbers of each page and source file that has any, and where each stands for the files that are named
       docs/prose.py --wrap PAGE..    breaks the long lines of these pages, at the end of a sentence if there is one

LEFT has what a file may have for a reason: sentences, lines, turns. A file that is not in it has none; docs/check.py fails above that.
CHANGELOG.md is a history, and is not counted; nor is what scripts print on a page."""
import pathlib
import re
import sys

TOP = pathlib.Path(__file__).resolve().parent.parent
MOST_WORDS, MOST_CHARACTERS, MOST_LINES = 40, 200, 3500
TURNS = re.compile(
    r"\bit says so\b|\bthat is said\b|\bwhat comes over\b|\bwhere (?:it|they|one|that|these) (?:is|are|does|do) not\b"
    r"|\b(?:only|exactly|also) where\b|\b[Ww]here there (?:is|are)\b|\bwhere that can't be\b|\bOf what (?:stands|stood|is)\b|\b[Hh](?:e|im|is)\b"
)
LEFT = {}

# What begins a block of its own: an item of a list, a heading, a quotation.
ITEM = re.compile(r"\s*(?:[-*>#]|\d+\.) ?")
COMMENT = re.compile(r"\s*(?://[/!]?|--)(?: (.*))?$")


def pages():
    return [it for it in [TOP / "README.md", TOP / "CONTRIBUTING.md", *sorted(TOP.glob("docs/**/*.md"))] if it.exists()]


def sources():
    return [*sorted(TOP.glob("crates/*/src/**/*.rt")), *sorted(TOP.glob("crates/*/specs/**/*.antt"))]


def plain(text):
    """A text with each piece of code and each link as its words."""
    text = re.sub(r"``.*?``|`[^`]*`", "code", text)
    return re.sub(r"!?\[([^\]]*)\]\([^)]*\)", r"\1", text)


def own_lines(page):
    """The lines of a page that no script prints, each with its number."""
    printed = False
    for number, line in enumerate(page.read_text().splitlines(), 1):
        printed = (printed or line.startswith("<!-- Printed")) and not line.startswith("<!-- End")
        if not printed:
            yield number, line


def blocks(page):
    """The texts of a page, each with the number of its first line: a paragraph, an item of a list, a heading, a cell of a table."""
    found, code = [], False
    for number, line in own_lines(page):
        if line.lstrip().startswith("```"):
            code = not code
        elif code or line.startswith("    "):
            continue
        elif line.startswith("|"):
            found += [(number, it) for it in line.strip("|").split("|")] + [(number, "")]
        elif not line.strip() or ITEM.match(line) or not found or not found[-1][1].strip():
            found.append((number, line))
        else:
            found[-1] = (found[-1][0], found[-1][1] + " " + line.strip())
    return found


def comments(path):
    """The texts of the comments of a source file, each with the number of its first line: a paragraph, an item of a list, a heading."""
    found = []
    for number, line in enumerate(path.read_text().splitlines(), 1):
        comment = COMMENT.match(line)
        text = comment[1] or "" if comment else ""
        if not text or ITEM.match(text) or not found or not found[-1][1]:
            found.append((number, text))
        else:
            found[-1] = (found[-1][0], f"{found[-1][1]} {text}")
    return found


def texts(path):
    return blocks(path) if path.suffix == ".md" else comments(path)


def long_sentences(path):
    for number, text in texts(path):
        for sentence in re.split(r"(?<=[.!?])\**\s+", plain(text)):
            if len(sentence.split()) > MOST_WORDS:
                yield number, sentence.strip()


def long_lines(path):
    code, is_page = False, path.suffix == ".md"
    for number, line in own_lines(path):
        code ^= line.lstrip().startswith("```")
        is_prose = not code and not line.startswith(("|", "    ")) if is_page else COMMENT.match(line)
        if len(line) > MOST_CHARACTERS and is_prose:
            yield number, line


def turns(path):
    for number, text in texts(path):
        for found in TURNS.findall(plain(text)):
            yield number, found


COUNTED = [("sentences of more than 40 words", long_sentences), ("lines of more than 200 characters", long_lines), ("turns of phrase", turns)]


def name_of(page):
    return str(page.relative_to(TOP))


def faults():
    for path in [*pages(), *sources()]:
        for (what, count), left in zip(COUNTED, LEFT.get(name_of(path), (0, 0, 0))):
            if len(there := [*count(path)]) > left:
                yield f"{name_of(path)}: {len(there)} {what}, where {left} may be left (docs/prose.py {name_of(path)})"
    if (lines := sum(len([*own_lines(it)]) for it in pages())) > MOST_LINES:
        yield f"docs: the pages have {lines} lines that no script prints, where at most {MOST_LINES} are meant"


def wrapped(line):
    """A long line as several: each ends with a sentence, or else with a part of one. No code and no link is cut."""
    lead, text = re.match(r"(\s*(?:(?:[-*]|\d+\.) )?)(.*)", line).groups()
    kept = []

    def keep(found):
        kept.append(found[0])
        return f"\0{len(kept) - 1}\0"

    def shown(part):
        return re.sub(r"\0(\d+)\0", lambda it: kept[int(it[1])], part)

    sentences = re.split(r"(?<=[.!?:;])\s+", re.sub(r"``.*?``|`[^`]*`|!?\[[^\]]*\]\([^)]*\)", keep, text))
    lines = [""]
    for sentence in sentences:
        parts = [sentence] if len(shown(sentence)) <= MOST_CHARACTERS - 20 else re.split(r"(?<=,)\s+", sentence)
        for part in map(shown, parts):
            if lines[-1] and len(lead) + len(lines[-1]) + 1 + len(part) > MOST_CHARACTERS - 15:
                lines.append("")
            lines[-1] += " " * bool(lines[-1]) + part
    return [lead + lines[0], *(" " * len(lead) + it for it in lines[1:])]


def wrap(page):
    """Breaks the long lines of a page."""
    long = {number for number, _ in long_lines(page)}
    lines = page.read_text().splitlines()
    page.write_text("".join(f"{it}\n" for number, line in enumerate(lines, 1) for it in (wrapped(line) if number in long else [line])))


def main():
    if sys.argv[1:2] == ["--wrap"]:
        for name in sys.argv[2:]:
            wrap(TOP / name)
        return
    for path in [*pages(), *sources()]:
        there = [[*count(path)] for _, count in COUNTED]
        if any(there):
            print(f'    "{name_of(path)}": ({", ".join(str(len(it)) for it in there)}),')
        if name_of(path) in sys.argv[1:]:
            for number, text in (it for them in there for it in them):
                print(f"{name_of(path)}:{number}: {text[:160]}")


if __name__ == "__main__":
    main()
