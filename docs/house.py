#!/usr/bin/env python3
"""docs/house.py: the crates as floors of a house, as docs/DESIGN.md lists them.

docs/house.txt has the floors from the roof down, their rooms, and what each room must not know. A room is a crate. What it is for is the first
sentence of its crate's root.

Usage: docs/house.py            prints what is wrong (docs/check.py prints it too)
       docs/house.py --write    prints the tables of docs/DESIGN.md anew, and draws docs/house.svg

Wrong is: a crate of crates.txt without a room or with two, a crate that names one of a floor above or a crate that it "must not know",
a row that --write would print in other words, a number of lines that is off by more than a tenth, and a picture that is not current."""
import html
import pathlib
import re
import sys

TOP = pathlib.Path(__file__).resolve().parent.parent
PAGE, PICTURE, FLOORS = TOP / "docs/DESIGN.md", TOP / "docs/house.svg", TOP / "docs/house.txt"
MARK = "<!-- Printed by docs/house.py --write from docs/house.txt and the roots of the crates. -->"
END = "<!-- End of what is printed. -->"
HEAD = ["| Crate | What it is for | What it must not know | Source | Definitions | Proofs | Minutes |", "|---|---|---|---|---|---|---|"]
PARTS = [("src", ".rt"), ("specs", ".antt"), ("proofs", ".antt")]
NAME, PURPOSE, UNKNOWN, FIRST_SIZE, MINUTES = 0, 1, 2, 3, 6
COLOURS = ["#ece7f5", "#fbe3d6", "#fdf1d0", "#e9f3d5", "#d9f0e3", "#d8eef5", "#dbe5f7", "#e6e0f4", "#f4dfec", "#e8e8e8"]


def below():
    """The crates of the repository that each of its crates names."""
    lines = (it.partition("#")[0].partition(":") for it in (TOP / "crates.txt").read_text().splitlines())
    named = {crate.strip(): names.split() for crate, _, names in lines if crate.strip()}
    return {crate: [it for it in names if it in named] for crate, names in named.items()}


def reached(crate, named):
    """All crates that stand below one."""
    found, open_ones = set(), [crate]
    while open_ones:
        new = set(named[open_ones.pop()]) - found
        found |= new
        open_ones += new
    return found


def sizes(crate):
    """The lines of the sources, of the definitions and of the proofs of a crate."""
    return [
        sum(len(it.read_text().splitlines()) for it in (TOP / "crates" / crate / folder).rglob("*" + ending))
        for folder, ending in PARTS
    ]


def cells_of(line):
    return [it.strip() for it in line.strip().strip("|").split("|")]


def is_room(line):
    return line.startswith("| `")


def floors():
    """The floors from the roof down: the title of each, and the cells of its rooms."""
    found = []
    for part in PAGE.read_text().partition("\n## The crates\n")[2].partition("\n## ")[0].split("\n### ")[1:]:
        title, *lines = part.splitlines()
        found.append((title, [cells_of(it) for it in lines if is_room(it)]))
    return found


def purpose(crate):
    """The first sentence of a crate's root."""
    source = TOP / "crates" / crate / "src"
    root = next(it for it in (source / "lib.rt", source / "main.rt") if it.exists())
    lines = [it.removeprefix("//!").strip() for it in root.read_text().splitlines() if it.startswith("//!")]
    text = re.split(r"(?<=[.])\s+(?=[A-Z])|  ", " ".join(lines))[0]
    return re.sub(r"\[(`[^`]*`)\]", r"\1", text).strip().removesuffix(".").replace("|", "\\|")


def plan():
    """The floors of docs/house.txt: the title of each, its sentence, and its rooms with what they must not know."""
    found = []
    for line in FLOORS.read_text().splitlines():
        crate, colon, unknown = line.partition(": ")
        if line.startswith("== "):
            found.append((line[3:], [], []))
        elif colon and re.fullmatch(r"\w+", crate):
            found[-1][2].append((crate, unknown))
        elif line.strip() and not line.startswith("#"):
            found[-1][1].append(line)
    return found


def printed():
    """The tables of the page."""
    times = minutes()
    yield MARK
    for title, sentence, rooms in plan():
        yield from ["", f"### {title}", "", *sentence, *([""] if sentence else []), *HEAD]
        for crate, unknown in rooms:
            cells = [f"`{crate}`", purpose(crate), unknown, *(f"{it:,}" for it in sizes(crate)), times.get(crate, "")]
            yield "| " + " | ".join(cells).rstrip() + " |"
    yield from ["", END]


def words_of(line):
    """A line of the tables without its numbers of lines."""
    cells = cells_of(line)
    return cells[:FIRST_SIZE] + cells[MINUTES:] if is_room(line) else line


def crate_of(room):
    return room[NAME].strip("`")


def is_near(told, counted):
    """Whether a number of lines is off by at most a tenth, or by a few lines."""
    return abs(told - counted) <= max(counted / 10, 5)


def minutes():
    """The minutes that docs/MAINTAINING.md gives some crates."""
    table = (TOP / "docs/MAINTAINING.md").read_text().partition("| Minutes | Crates |")[2].partition("\n\n")[0]
    rows = [cells_of(it) for it in table.splitlines() if "`" in it]
    return {crate: told for told, crates in rows for crate in re.findall(r"`(\w+)`", crates)}


def room_faults(room, heights, named):
    crate = crate_of(room)
    for other in named[crate]:
        if heights.get(other, 0) > heights[crate]:
            yield f"docs/DESIGN.md: {crate} names {other}, which stands on a floor above"
    for other in set(re.findall(r"`(\w+)`", room[UNKNOWN])) & reached(crate, named):
        yield f"docs/DESIGN.md: {crate} stands on {other}, which it must not know"
    for other in set(re.findall(r"`(\w+)`", room[UNKNOWN])) - set(named):
        yield f"docs/DESIGN.md: the row of {crate} names {other}, which is no crate"
    for (folder, _), told, counted in zip(PARTS, room[FIRST_SIZE:], sizes(crate)):
        if not is_near(int(told.replace(",", "")), counted):
            yield f"docs/DESIGN.md: {folder} of {crate} has {counted} lines and not {told} (docs/house.py --write)"


def faults():
    named, house = below(), floors()
    rooms = [room for _, its_rooms in house for room in its_rooms]
    listed = [crate_of(it) for it in rooms]
    for crate in sorted(set(named) | set(listed)):
        if listed.count(crate) != (crate in named):
            yield f"docs/DESIGN.md: {listed.count(crate)} rows of {crate}"
            return
    heights = {crate_of(room): -number for number, (_, its_rooms) in enumerate(house) for room in its_rooms}
    there = PAGE.read_text().partition(MARK)[2].partition(END)[0].strip().splitlines()
    if [words_of(it) for it in there] != [words_of(it) for it in [*printed()][2:-2]]:
        yield "docs/DESIGN.md: its tables are not what docs/house.py --write prints"
    for room in rooms:
        yield from room_faults(room, heights, named)
    if not PICTURE.exists() or PICTURE.read_text() != picture(house, named):
        yield "docs/house.svg is not what docs/house.py --write draws"


def steps(crates, named):
    """The crates of a floor in rows from the top down: each names only those of the rows below it."""
    height = {}

    def height_of(crate):
        if crate not in height:
            height[crate] = 1 + max((height_of(it) for it in named[crate] if it in crates), default=-1)
        return height[crate]

    rows = {}
    for crate in crates:
        rows.setdefault(height_of(crate), []).append(crate)
    return [rows[it] for it in sorted(rows, reverse=True)]


LEFT, ROOM_WIDTH, ROOM_HEIGHT, GAP, PER_ROW = 150, 142, 40, 8, 7
WIDTH = LEFT + PER_ROW * (ROOM_WIDTH + GAP) + GAP


def room_picture(x, y, room):
    crate = crate_of(room)
    told = html.escape(room[PURPOSE].replace("`", ""))
    return [
        f'<g><title>{crate}: {told}</title><rect x="{x}" y="{y}" width="{ROOM_WIDTH}" height="{ROOM_HEIGHT}" rx="4" fill="#fff" stroke="#777"/>',
        f'<text x="{x + ROOM_WIDTH // 2}" y="{y + 17}" text-anchor="middle" font-size="13">{crate}</text>',
        f'<text x="{x + ROOM_WIDTH // 2}" y="{y + 32}" text-anchor="middle" font-size="10" fill="#555">'
        f"{room[FIRST_SIZE]} + {room[FIRST_SIZE + 2]}</text></g>",
    ]


def picture(house, named):
    y, parts = 34, []
    for number, (title, rooms) in enumerate(house):
        by_name = {crate_of(it): it for it in rooms}
        rows = [row[at : at + PER_ROW] for row in steps([*by_name], named) for at in range(0, len(row), PER_ROW)]
        height = len(rows) * (ROOM_HEIGHT + GAP) + GAP
        parts.append(f'<rect x="0" y="{y}" width="{WIDTH}" height="{height}" fill="{COLOURS[number % len(COLOURS)]}"/>')
        parts.append(f'<text x="10" y="{y + height // 2 + 5}" font-size="14" font-weight="bold">{html.escape(title)}</text>')
        for row_number, row in enumerate(rows):
            top = y + GAP + row_number * (ROOM_HEIGHT + GAP)
            for place, crate in enumerate(row):
                parts += room_picture(LEFT + place * (ROOM_WIDTH + GAP), top, by_name[crate])
        y += height + 4
    head = f'<svg xmlns="http://www.w3.org/2000/svg" viewBox="0 0 {WIDTH} {y}" width="{WIDTH}" height="{y}" font-family="sans-serif">'
    note = "Each crate names only crates that are drawn below it. Numbers: lines of source + lines of proofs."
    return "\n".join([head, f'<rect width="{WIDTH}" height="{y}" fill="#fff"/>', f'<text x="10" y="22" font-size="13">{note}</text>', *parts, "</svg>\n"])


def write():
    text = PAGE.read_text()
    PAGE.write_text(text.partition(MARK)[0] + "\n".join(printed()) + text.partition(END)[2])
    PICTURE.write_text(picture(floors(), below()))


def main():
    if sys.argv[1:] == ["--write"]:
        write()
    found = [*faults()]
    for fault in found:
        print(fault)
    return 1 if found else 0


if __name__ == "__main__":
    sys.exit(main())
