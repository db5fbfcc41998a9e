#!/usr/bin/env python3
"""Runs scid_page over bases whose games are known, and looks at every page: its numbers are those of `tree` as scid_shell writes them, the
positions that have a page and the games of a page are those that a count in Python finds, every link leads somewhere, the way that leads to
a page goes along links of other pages by their moves, and scid_shell, which plays it, comes to the page's position with its last move; and
names are shown as they are, whatever HTML means by them. A book of some of the games has the numbers of `tree` behind `search and header`.
Then it looks at how runs end that can't be done.

usage: cases/pages.py [SCID_PAGE SCID_SHELL]
"""
import os
import random
import resource
import shutil
import signal
import subprocess
import sys
import tempfile
from html.parser import HTMLParser

HERE = os.path.dirname(os.path.abspath(__file__))
CRATES = os.path.join(HERE, "..", "crates")
BENCH = os.path.join(HERE, "..", "bench")
NAMES_FILE = os.path.join(HERE, "..", "samples", "openings.names")
sys.path[:0] = [HERE, os.path.join(BENCH, "find")]
import browser  # noqa: E402
from make_base import Game  # noqa: E402

GAMES = 1000
# Which programs looked at the pages of all books.
SEEN = {"tidy": True, "Chromium": True}
# Names as they stand in a base, in UTF-8, in Latin-1 and with control characters.
NAMES = [
    b"Anderssen, Adolf", b"<script>alert(1)</script>", b"Smith & Sons", b'Tal "the wizard"', b"a < b > c", b"</td></table>",
    b"&lt;b&gt;", b"O'Kelly", b"&", b"<!--", "Dvořák".encode(), b"\"><img src=x onerror=alert(2)>", b"&amp;amp;", b"x",
    "Réti, Richard".encode("latin-1"), "Müller".encode("latin-1") + "ß".encode(), b"Tab\there\x7f\x01", b"Caf\xe9\x85\xc2\x85", b"&#60;b&#62;",
    "Алехин".encode(), b"\xf0\x9f\x99", b"\xed\xa0\x80",
]


class Player:
    """What is known of a game: its players, its result, its ratings, its year and its event."""

    def __init__(self, white, black, event, result, ratings, year):
        self.white, self.black, self.event = shown(white), shown(black), shown(event)
        self.result, self.ratings, self.year = result, ratings, year

    @property
    def rating(self):
        return sum(self.ratings)

    def cells(self):
        white, black = (str(rating or "-") for rating in self.ratings)
        return self.white, white, self.black, black, self.result, self.event, str(self.year or "-")


def shown(name):
    """The characters that a page shows of a name: those of UTF-8, and bytes that are of none as Latin-1, with signs for control characters."""
    characters, place = "", 0
    while place < len(name):
        for length in range(1, 5):
            try:
                character = name[place:place + length].decode()
                break
            except UnicodeDecodeError:
                character = None
        if character is None:
            character, length = chr(name[place]), 1
        place += length
        code = ord(character)
        characters += chr(0x2400 + code) if code < 32 else "\u2421" if code == 127 else "\ufffd" if 127 < code < 160 else character
    return characters


def fail(words):
    sys.exit(f"cases/pages.py: {words}")


def run(words, script=b"", **more):
    done = subprocess.run(words, input=script, stdout=subprocess.PIPE, stderr=subprocess.PIPE, **more)
    return done.returncode, done.stdout.decode(errors="surrogateescape"), done.stderr.decode(errors="surrogateescape")


def packed(game):
    return "".join(game.board), "wb"[game.side]


def fen(board):
    rows = []
    for rank in range(7, -1, -1):
        row, empty = "", 0
        for cell in board[8 * rank:8 * rank + 8]:
            if cell == ".":
                empty += 1
                continue
            row += (str(empty) if empty else "") + cell
            empty = 0
        rows.append(row + (str(empty) if empty else ""))
    return "/".join(rows)


def replay(line):
    """The boards of a game with the sides to move, from its start on."""
    game, boards = Game(), []
    boards.append(packed(game))
    for move in line.split():
        game.packed(move)
        boards.append(packed(game))
    return boards


def file_name(board, side):
    """The name of the file of a position: a digit for each square, and the side to move."""
    return "".join("0" if cell == "." else "%x" % ("KQRBNP".find(cell) + 1 or "kqrbnp".find(cell) + 9) for cell in board) + side + ".html"


class Page(HTMLParser):
    """What a page shows."""

    def __init__(self, text):
        super().__init__(convert_charrefs=True)
        self.links, self.ids, self.rows, self.games, self.way, self.title, self.side = [], set(), [], [], [], "", None
        self.board, self.place, self.table, self.cell, self.facing, self.where = {}, [], None, None, False, None
        self.flipped, self.inner, self.numbers, self.last, self.fields, self.labels = False, None, {}, set(), [], []
        self.opening, self.heading, self.facts, self.pgn, self.line, self.start, self.text = "", "", "", "", [], None, text
        self.feed(text)
        self.close()

    def handle_starttag(self, tag, attributes):
        given = dict(attributes)
        if tag in ("iframe", "object", "embed", "img", "style") or (tag == "script" and given.get("src") != "book.js"):
            fail(f"a page has an element {tag}")
        if any(name.startswith("on") for name in given):
            fail("a page has a handler")
        if "id" in given:
            self.ids.add(given["id"])
        if tag == "div" and given.get("class", "").startswith("board "):
            self.facing = given["class"] == "board facing"
        if tag in ("a", "link", "use"):
            self.links.append(given["href"])
        if tag == "script":
            self.links.append(given["src"])
        if tag == "svg" and given.get("role") == "img":
            self.labels.append(given["aria-label"])
            if self.facing:
                self.flipped = given["data-below"] == "b"
        if tag == "use" and self.facing:
            man = given["href"][1:]
            man = man if given["class"] == "white" else man.lower()
            self.board[self.square(given)] = man
        if tag == "rect" and self.facing and given.get("class") == "last":
            self.last.add(self.square(given))
        if tag == "table":
            self.table = given["class"]
        if tag in ("td", "th"):
            self.cell = ["", None]
        if tag == "a" and self.cell is not None:
            self.cell[1] = given["href"]
        if tag == "tr":
            self.place = []
        if tag == "nav" and given.get("class") == "way":
            self.where = "way"
        if tag in ("a", "span", "b") and self.where == "way":
            self.inner = tag, given.get("href")
        if tag == "p" and given.get("class") in ("opening", "facts"):
            self.where = given["class"]
        if tag == "p" and given.get("class") == "line":
            self.start = given["data-start"]
        if tag == "a" and "data-go" in given:
            self.line.append((given["data-go"].split(), given["href"], given["id"]))
        if tag == "input":
            self.fields.append(given["value"])
        if tag in ("h1", "title", "pre"):
            self.where = tag

    def handle_endtag(self, tag):
        if tag == "div":
            self.facing = False
        if tag in ("td", "th"):
            self.place.append(tuple(self.cell))
            self.cell = None
        if tag == "tr":
            (self.rows if self.table == "moves" else self.games).append(self.place)
        if tag in ("a", "span", "b"):
            self.inner = None
        if tag in ("p", "h1", "title", "nav", "pre"):
            self.where = None

    def handle_data(self, data):
        if self.cell is not None:
            self.cell[0] += data
        if self.where == "way":
            self.take_step(data)
        if self.where == "title":
            self.title += data
        if self.where == "h1":
            self.heading += data
            self.side = "w" if self.heading.startswith("White to move") else "b"
        if self.where == "opening":
            self.opening += data
        if self.where == "facts":
            self.facts += data
        if self.where == "pre":
            self.pgn += data

    def take_step(self, data):
        """A part of the way: a link with its text, the number of the move behind it, or moves that are no links."""
        tag, link = self.inner or (None, None)
        if tag == "span":
            self.numbers[len(self.way)] = data
        elif tag in ("a", "b"):
            self.way.append((link, data))
        else:
            self.way += [(None, word) for word in data.split()]

    def square(self, given):
        """The number of the square that stands where this is drawn."""
        left, above = int(given["x"]) // 45, int(given["y"]) // 45
        return 8 * above + 7 - left if self.flipped else 8 * (7 - above) + left

    def position(self):
        return "".join(self.board.get(square, ".") for square in range(64)), self.side

    def tree(self):
        """The lines of the tree as words."""
        lines, whole = [], int(self.rows[-1][1][0])
        for cells in self.rows[1:]:
            name, games, share, results, score, rating, other, year = (text for text, _ in cells)
            if share != (hundredths(int(games), whole) if whole else "-"):
                fail(f"{games} of {whole} games are shown as {share}")
            parts = dict((part[0], part[1:]) for part in results.split())
            score = "-" if score == "-" else str(int(score[:-1].replace(".", "")))
            lines.append([name.replace("Total", "total"), games, parts["+"], parts["="], parts["-"], parts.get("*", "0"), score, rating, other, year])
        return lines


def hundredths(part, whole):
    tenths = 1000 * part // whole
    return f"{tenths // 10}.{tenths % 10}%"


def men_told(board):
    """The men of a board as words."""
    sides = []
    for side, kinds in (("White", "KQRBNP"), ("Black", "kqrbnp")):
        squares = [
            ("" if kind in "Pp" else kind.upper()) + "abcdefgh"[place % 8] + str(place // 8 + 1)
            for kind in kinds for place in range(64) if board[place] == kind
        ]
        sides.append(" ".join([side, *squares]))
    return "; ".join(sides)


def read_pages(folder):
    """The pages of positions, that of the start as index.html alone, and the pages of games."""
    pages, played, texts = {}, {}, {}
    for name in os.listdir(folder):
        if name.endswith(".html"):
            with open(os.path.join(folder, name), encoding="ascii") as file:
                texts[name] = file.read()
    for name, text in texts.items():
        if name == "index.html" or text != texts["index.html"]:
            (played if name[0] == "g" else pages)[name] = Page(text)
    for name, page in pages.items():
        own = file_name(*page.position())
        if name != "others.html" and (own not in texts or name not in ("index.html", own)):
            fail(f"{name} is the page of the position {own}")
    return pages, played


def look_at_links(pages, played, folder):
    every = {**pages, **played}
    every[file_name(*pages["index.html"].position())] = pages["index.html"]
    reached, due = set(), ["index.html"]
    while due:
        name = due.pop()
        if name in reached:
            continue
        reached.add(name)
        for link in every[name].links:
            file, _, anchor = link.partition("#")
            if ":" in link or not os.path.exists(os.path.join(folder, file or name)):
                fail(f"{name} has a link to {link}")
            if anchor and anchor not in every[file or name].ids:
                fail(f"{name} has a link to {link}")
            if file.endswith(".html"):
                due.append(file)
    if not {*pages, *played} <= reached:
        fail(f"{len({*pages, *played} - reached)} pages are not reached")


def found_in_order(pages):
    """The pages in the order in which they are found, from the start on by the moves of each; with the page before it and the move that leads
    from there, or None for the start and for a page that no page leads to."""
    start = file_name(*pages["index.html"].position())
    others = iter(pages["others.html"].links if "others.html" in pages else [])
    left = [link for link in others if link not in ("style.css", "book.js", "index.html")]
    came, order = {"index.html": None}, ["index.html"]
    for place in range(len(pages) - ("others.html" in pages)):
        if place == len(order):
            came[left.pop(0)] = None
            order = list(came)
        name = order[place]
        for (move, to), *_ in pages[name].rows[1:]:
            if to and to != start:
                came.setdefault(to, (name, move))
        order = list(came)
    if left:
        fail(f"others.html has {len(left)} pages that another leads to")
    return came


def numbered(moves, side):
    """Moves with their numbers."""
    words = []
    for ply, move in enumerate(moves, side == "b"):
        if ply % 2 == 0:
            words.append(f"{ply // 2 + 1}.")
        elif not words:
            words.append(f"{ply // 2 + 1}...")
        words.append(move)
    return " ".join(words)


def look_at_ways(pages, first, side, deepest, title):
    """Looks whether the way to each page is that by which it is found. Gives the moves to each page, and how many pages no page leads to."""
    came, moves, left, start = found_in_order(pages), {}, 0, ("index.html", "Start")
    for name, link in came.items():
        page = pages[name]
        if link:
            before, move = link
            wanted = [*([start] if before == "index.html" else [*pages[before].way[:-1], (before, pages[before].way[-1][1])]), (None, move)]
        elif name == "index.html":
            wanted = [(None, "Start")]
        else:
            left += 1
            wanted = [start, *((None, word) for _, word in page.way[1:])]
            plies = len(wanted) - 1
            if plies != first.get(page.position(), 0) or plies > deepest:
                fail(f"the first game comes to {name} after {first.get(page.position())} half-moves, and not {plies}")
        if page.way != wanted:
            fail(f"the way to {name} is {page.way}, and not {wanted}")
        moves[name] = [word for _, word in page.way[1:]]
        told = numbered(moves[name], side)
        plies = list(enumerate(range(side == "b", len(moves[name]) + (side == "b")), 1))
        if page.numbers != {place: f"{ply // 2 + 1}" + (".." if ply % 2 else "") + "." for place, ply in plies if ply % 2 == 0 or place == 1}:
            fail(f"the moves on the way to {name} have the numbers {page.numbers}")
        if page.title != (f"{told} - {title}" if told else title) or page.fields[1:] != ([told] if told else []):
            fail(f"{name} has the title {page.title} and tells {page.fields}")
    return moves, left


def look_at_boards(pages, side):
    """Each page has its board from this side below, with its name and the marks of the last move, and its FEN."""
    for name, page in pages.items():
        if name == "others.html":
            continue
        board, mover = page.position()
        if page.flipped != (side == "black") or page.labels != 2 * [men_told(board)]:
            fail(f"the board of {name} is {page.labels}")
        if not page.fields or page.fields[0].split()[:2] != [fen(board), mover] or len(page.fields[0].split()) != 6:
            fail(f"{name} has the FEN {page.fields}")
        marked = sorted(page.last, key=lambda square: board[square] != ".")
        if page.last and (board[marked[0]] != "." or (board[marked[1]].isupper() == (mover == "w"))):
            fail(f"{name} marks {page.last}")
        if (name == "index.html") != (not page.last):
            fail(f"{name} marks {page.last}")


def look_at_names(pages, moves, names):
    """A page has the name of the line that is its way, or that of the last page on it which has one."""
    lines = {}
    with open(names, encoding="utf-8") as file:
        for line in file:
            if not line.startswith("#"):
                words, name = line.rstrip("\n").split("\t")
                lines.setdefault(words.split(" ", 1)[1], f"{words.split()[0]} {name}")
    at = {pages[name].position(): lines[" ".join(way)] for name, way in moves.items() if " ".join(way) in lines}
    if len(at) < 10:
        fail(f"{len(at)} pages have a name")
    for name, way in moves.items():
        wanted = at.get(pages[name].position())
        if wanted and pages[name].opening != wanted:
            fail(f"{name} is called {pages[name].opening}, and not {wanted}")
        if not wanted and pages[name].opening not in ("", *lines.values()):
            fail(f"{name} is called {pages[name].opening}")


def look_at_moves(pages, moves, shell, work, start):
    """Plays the ways by scid_shell: each comes to the position of its page with its last move."""
    tag = f'[FEN "{fen(start[0])} {start[1]} KQkq - 0 1"]\n\n' if start else ""
    games = "".join(f"{tag}{' '.join(way)} *\n\n" for way in moves.values())
    finds = "".join(
        f"reset\nrestrict {number} {number}\nsearch and position exact {fen(pages[name].position()[0])} {pages[name].side}\nhits\n"
        for number, name in enumerate(moves)
    )
    played = os.path.join(work, "played")
    status, text, _ = run([shell, "--create", played], f"import <<END\n{games}END\n{finds}".encode())
    lines = text.splitlines()
    if status or f"imported {len(moves)} refused 0" not in lines:
        fail(f"the ways are no games: {[line for line in lines if 'error' in line][:3]}")
    hits = [line for line in lines[len(moves) + 2:] if line[0].isdigit()]
    wanted = [f"{number} {len(way)}" for number, way in enumerate(moves.values())]
    if hits != wanted:
        fail(f"the ways come to other positions: {[pair for pair in zip(hits, wanted) if pair[0] != pair[1]][:3]}")
    for end in ("si4", "sn4", "sg4"):
        os.remove(f"{played}.{end}")


def look_at_numbers(pages, shell, base, items):
    order = [name for name in sorted(pages) if name != "others.html"]
    script = f"search and header {items}\n" if items else ""
    script += "".join(f"tree {fen(pages[name].position()[0])} {pages[name].side}\n" for name in order)
    status, text, _ = run([shell, base], script.encode())
    if status:
        fail(f"scid_shell ended with {status}")
    trees, lines = [], []
    for line in text.splitlines()[2 if items else 1:]:
        lines.append(line.split())
        if line.startswith("total"):
            trees.append(lines)
            lines = []
    for name, tree in zip(order, trees, strict=True):
        if pages[name].tree() != tree:
            fail(f"{name} shows {pages[name].tree()}, and the tree is {tree}")


def reaching(games, chosen, first, depth):
    """Of each board the games that have it, and how many have it at most so many half-moves behind the start; and after how many half-moves the
    first of these comes there."""
    reached, counts, plies = {}, {}, {}
    for number in chosen:
        boards = games[number]
        for board in dict.fromkeys(boards):
            reached.setdefault(board, []).append(number)
        if first in boards:
            start = boards.index(first)
            for ply, board in enumerate(dict.fromkeys(boards[start:start + depth + 1])):
                counts[board] = counts.get(board, 0) + 1
                plies.setdefault(board, boards[start:].index(board))
    return reached, counts, plies


def look_at_leading(pages, games, chosen):
    """The rows of a page lead to each page that a game which stands there reaches by its next move, and to no other."""
    paged = {page.position(): name for name, page in pages.items() if name != "others.html"}
    led = {board: set() for board in paged}
    for number in chosen:
        boards = games[number]
        for board in dict.fromkeys(boards[:-1]):
            behind = boards[boards.index(board) + 1]
            if board in paged and behind in paged:
                led[board].add(file_name(*behind))
    for board, name in paged.items():
        links = [link for (_, link), *_ in pages[name].rows[1:] if link]
        if sorted(links) != sorted(led[board]):
            fail(f"the moves of {name} lead to {links}, and not to {sorted(led[board])}")


def look_at_games(pages, played, reached, players, games):
    """Each page lists the best rated games, and of those of equal ratings the newest; and each of them has a page."""
    listed = set()
    for name, page in pages.items():
        if name == "others.html":
            continue
        best = sorted(reached.get(page.position(), []), key=lambda i: (-players[i].rating, -players[i].year, i))[:10]
        numbers = [int(cells[0][0]) for cells in page.games[1:]]
        if numbers != best:
            fail(f"{name} shows the games {numbers}, and not {best}")
        for number, cells in zip(numbers, page.games[1:]):
            ply = games[number].index(page.position())
            if tuple(text for text, _ in cells[1:]) != players[number].cells() or cells[1][1] != f"g{number}.html" + (f"#m{ply}" if ply else ""):
                fail(f"{name} shows the game {cells}, and not {players[number].cells()}")
        listed.update(numbers)
    if {f"g{number}.html" for number in listed} != set(played):
        fail(f"{len(played)} games have a page, and {len(listed)} are listed")


def look_at_played(pages, played, games, players, shell, base):
    """The page of each game plays its main line, with links to the pages of positions, and has the text that `show` writes."""
    paged = {page.position(): name for name, page in pages.items() if name != "others.html"}
    first = pages["index.html"].position()
    paged[first] = file_name(*first)
    numbers = sorted(int(name[1:-5]) for name in played)
    _, text, _ = run([shell, base], "".join(f"show {number}\n" for number in numbers).encode())
    texts = "\n".join(shown(line.encode(errors="surrogateescape")) for line in text.split("\n"))
    for number in numbers:
        page, board = played[f"g{number}.html"], list(games[number][0][0])
        if page.start.split()[0] != fen("".join(board)) or len(page.line) != len(games[number]) - 1:
            fail(f"the page of game {number} begins at {page.start}")
        for ply, (changes, link, name) in enumerate(page.line, 1):
            for change in changes[1:]:
                square = "abcdefgh".index(change[0]) + 8 * int(change[1]) - 8
                board[square] = change[2:] or "."
            if ("".join(board), "wb"[ply % 2]) != games[number][ply] or name != f"m{ply}" or link != paged.get(games[number][ply], f"#m{ply}"):
                fail(f"the page of game {number} is wrong at half-move {ply}")
        if not page.heading.startswith(f"{players[number].white} - {players[number].black}") or players[number].result not in page.facts:
            fail(f"the page of game {number} tells of {page.heading}")
        if page.pgn not in texts or not page.pgn.endswith(players[number].result + "\n\n"):
            fail(f"the page of game {number} has another text than show")


def look_at_book(program, shell, base, games, players, depth, least, start=None, items=None, side=None, names=None):
    """Makes the pages, of all games or of those that `search and header` finds by some items, and looks at all of them. Gives how many they are,
    how many games reach each, and how many of them no page leads to."""
    folder = base + "_pages"
    words = [program, "--depth", str(depth), "--least", str(least)]
    words += ["--from", fen(start[0]), start[1]] if start else []
    words += ["--only", items] if items else []
    words += ["--side", side] if side else []
    words += ["--names", names] if names else []
    status, text, errors = run(words + [base, folder])
    if status:
        fail(f"scid_page ended with {status}: {errors}")
    pages, played = read_pages(folder)
    if os.path.exists(os.path.join(folder, "INCOMPLETE")):
        fail("a whole folder says that it is not")
    told, first = text.splitlines()[-1].split(), start or games[0][0]
    chosen = chosen_by(shell, base, items) if items else range(len(games))
    lines = [f"base {len(games)} games 0 mended", *([f"filter {len(chosen)} of {len(games)}"] if items else [])]
    if text.splitlines()[:-1] != lines:
        fail(f"scid_page writes {text.splitlines()}")
    title = os.path.basename(base) + (f": {items}" if items else "")
    reached, counts, plies = reaching(games, chosen, first, depth)
    wanted = {board for board, count in counts.items() if count >= int(told[3])} | {first}
    shown = {page.position(): name for name, page in pages.items() if name != "others.html"}
    if set(shown) != wanted or len(shown) != int(told[1]):
        fail(f"{len(shown)} positions have a page, and {len(wanted)} should have one")
    if shown[first] != "index.html":
        fail("the start is not the first page")
    moves, left = look_at_ways(pages, plies, first[1], depth, title)
    if (left > 0) != ("others.html" in pages):
        fail("others.html is there without a page, or is not")
    look_at_boards(pages, side or "white")
    look_at_leading(pages, games, chosen)
    look_at_games(pages, played, reached, players, games)
    look_at_played(pages, played, games, players, shell, base)
    look_at_links(pages, played, folder)
    look_at_moves(pages, moves, shell, os.path.dirname(base), start)
    look_at_numbers(pages, shell, base, items)
    if names:
        look_at_names(pages, moves, names)
    SEEN["tidy"] &= browser.look_by_tidy(folder)
    SEEN["Chromium"] &= look_in_browser(folder, pages, played, games)
    shutil.rmtree(folder)
    return len(shown), int(told[3]), left


def look_in_browser(folder, pages, played, games):
    """Looks at the start, at a page of many moves, at one far from the start, and at two games. Answers whether a browser was there."""
    driver = browser.opened()
    if driver is None:
        return False
    try:
        names = sorted((name for name in pages if name != "others.html"), key=lambda name: len(pages[name].way))
        first = sorted(played, key=lambda name: int(name[1:-5]))[:2]
        for name in dict.fromkeys(["index.html", names[-1], names[len(names) // 2], *first, *(["others.html"] if "others.html" in pages else [])]):
            browser.look_at_page(driver, "file://" + os.path.join(folder, name))
        if any(link for (_, link), *_ in pages["index.html"].rows[1:]):
            browser.look_at_turning(driver, "file://" + os.path.join(folder, "index.html"))
        for name in first:
            board = games[int(name[1:-5])][-1][0]
            browser.look_at_playing(driver, "file://" + os.path.join(folder, name) + "#m7", men_told(board))
    finally:
        driver.quit()
    return True


def chosen_by(shell, base, items):
    """The games that scid_shell finds."""
    status, text, _ = run([shell, base], f"search and header {items}\nhits\n".encode())
    if status:
        fail(f"scid_shell ended with {status}")
    return [int(line.split()[0]) for line in text.splitlines() if line[0].isdigit()]


def make_base(shell, work):
    """A base of games that begin with openings, with players, results, ratings and years that are drawn."""
    lines = subprocess.run(
        [sys.executable, os.path.join(BENCH, "positions", "make_openings.py"), str(GAMES), "40"], stdout=subprocess.PIPE, check=True
    ).stdout.decode().splitlines()
    with open(os.path.join(work, "lines"), "w", encoding="ascii") as file:
        file.write("\n".join(lines) + "\n")
    base = os.path.join(work, "games")
    subprocess.run([sys.executable, os.path.join(BENCH, "find", "make_base.py"), os.path.join(work, "lines"), base], check=True)
    draws, script, players = random.Random(7), [], []
    for game in range(GAMES):
        white, black, event = (draws.choice(NAMES) for _ in range(3))
        result, ratings, year = draws.choice(["1-0", "0-1", "1/2-1/2", "*"]), [0, 0], 0
        tags = {"White": white, "Black": black, "Event": event, "Result": result.encode()}
        if draws.random() < 0.8:
            year = draws.randint(1850, 2020)
            tags["Date"] = b"%d.??.??" % year
        for place, name in enumerate(("WhiteElo", "BlackElo")):
            if draws.random() < 0.7:
                ratings[place] = 100 * draws.randint(12, 28)
                tags[name] = b"%d" % ratings[place]
        players.append(Player(white, black, event, result, ratings, year))
        for name, value in tags.items():
            quoted = value.replace(b"\\", b"\\\\").replace(b'"', b'\\"')
            script.append(b'tag %d %s "%s"' % (game, name.encode(), quoted))
    status, text, _ = run([shell, base], b"\n".join(script) + b"\nsave\n")
    if status or "error" in text:
        fail(f"the base was not made: {[line for line in text.splitlines() if 'error' in line][:3]}")
    return base, [replay(line) for line in lines], players


def look_at_replacing(program, base, folder):
    """A folder that the program made is replaced all at once, and no other."""
    before = sorted(os.listdir(folder))
    status, text, errors = run([program, "--least", "200", base, folder])
    if status != 4 or text or "--replace" not in errors or sorted(os.listdir(folder)) != before:
        fail(f"a folder of pages ended with {status}")
    if run([program, "--least", "200", "--replace", base, folder + "/"])[0]:
        fail("a folder was not replaced")
    after = sorted(os.listdir(folder))
    if not set(before) < set(after) or "INCOMPLETE" in after or any(os.path.exists(folder + end) for end in (".new", ".old")):
        fail(f"a folder was replaced by {len(after)} files in the place of {len(before)}")
    os.mkdir(folder + ".new")
    with open(os.path.join(folder + ".new", "scid_page.txt"), "w", encoding="ascii") as file:
        file.write("mine")
    for change in ("a file beside it", "a file of its own", "another mark", "a link"):
        if change == "a file of its own":
            shutil.rmtree(folder + ".new")
            with open(os.path.join(folder, "notes.html"), "w", encoding="ascii") as file:
                file.write("mine")
        if change == "another mark":
            os.remove(os.path.join(folder, "notes.html"))
            with open(os.path.join(folder, "scid_page.txt"), "a", encoding="ascii") as file:
                file.write("mine")
        if change == "a link":
            os.rename(folder, folder + "_linked")
            os.symlink(folder + "_linked", folder)
        kept = sorted(os.listdir(folder))
        status, text, _ = run([program, "--least", "400", "--replace", base, folder])
        if status != 4 or text or sorted(os.listdir(folder)) != kept:
            fail(f"a folder with {change} ended with {status}")
    os.remove(folder)
    os.rename(folder + "_linked", folder)


def look_at_ends(program, base, work):
    folder = os.path.join(work, "there")
    for words in ([], ["x"], ["--depth", "41", base, folder], ["--depth", "01", base, folder], ["--least", "0", base, folder],
                  ["--from", "8/8", "w", base, folder], ["--what", base, folder], [base, folder, folder],
                  ["--least", "5", "--least", "5", base, folder], ["--depth"], ["--only"], ["--only", "", base, folder],
                  ["--only", "result=2-0", base, folder], ["--only", "ply=1..2", base, folder], ["--only", 'white="x', base, folder],
                  ["--only", "white=x", "--only", "black=x", base, folder], ["--side", "red", base, folder], ["--side"], ["--names"],
                  ["--side", "white", "--side", "white", base, folder], ["--replace", "--replace", base, folder]):
        status, text, errors = run([program] + words)
        if status != 1 or text or not errors.startswith("usage: ") or os.path.exists(folder):
            fail(f"{words} ended with {status}")
    names = os.path.join(work, "names")
    for text, line in (("C60 e4 e5\tx\nZ00 e4\ty\n", 2), ("# x\n\nC60 e5\tx\n", 3), ("C60 e4 e4\n", 1)):
        with open(names, "w", encoding="ascii") as file:
            file.write(text)
        status, text, errors = run([program, "--names", names, base, folder])
        if status != 3 or text or not errors.endswith(f"line {line}\n") or os.path.exists(folder):
            fail(f"a bad line of names ended with {status}: {errors}")
    status, text, errors = run([program, "--names", os.path.join(work, "none"), base, folder])
    if status != 3 or text or not errors.endswith("read fault\n") or os.path.exists(folder):
        fail(f"no file of names ended with {status}")
    status, text, _ = run([program, os.path.join(work, "none"), folder])
    if status != 5 or text or os.path.exists(folder):
        fail(f"no base ended with {status}")
    with open(os.path.join(work, "bad.si4"), "wb") as file:
        file.write(b"bad")
    for end in ("sn4", "sg4"):
        open(os.path.join(work, f"bad.{end}"), "wb").close()
    status, text, errors = run([program, os.path.join(work, "bad"), folder])
    if status != 2 or text or not errors.startswith("bad base: ") or os.path.exists(folder):
        fail(f"a bad base ended with {status}")
    os.mkdir(folder)
    with open(os.path.join(folder, "mine"), "w", encoding="ascii") as file:
        file.write("mine")
    for words in ([base, folder], ["--replace", base, folder], [os.path.join(work, "none"), folder]):
        status, text, errors = run([program] + words)
        if status != 4 or text or os.listdir(folder) != ["mine"] or "not empty" not in errors:
            fail(f"a folder that is not empty ended with {status}")
    os.remove(os.path.join(folder, "mine"))
    if run([program, "--least", "400", base, folder])[0] or "INCOMPLETE" in os.listdir(folder):
        fail("an empty folder was not taken")
    look_at_replacing(program, base, folder)
    shutil.rmtree(folder)

    def small_files():
        signal.signal(signal.SIGXFSZ, signal.SIG_IGN)
        resource.setrlimit(resource.RLIMIT_FSIZE, (4096, 4096))

    status, _, errors = run([program, base, folder], preexec_fn=small_files)
    left = os.listdir(folder)
    if status != 4 or "INCOMPLETE" not in left or "index.html" in left or not errors.endswith("write fault\n"):
        fail(f"a full disk ended with {status} and {left}")
    with open("/dev/full", "wb") as full:
        done = subprocess.run([program, base, os.path.join(work, "full")], stdout=full, stderr=subprocess.PIPE)
    if done.returncode != 4:
        fail(f"a full output ended with {done.returncode}")


def main():
    programs = sys.argv[1:3] if len(sys.argv) > 2 else [os.path.join(CRATES, name, "out", name) for name in ("scid_page", "scid_shell")]
    program, shell = (os.path.abspath(name) for name in programs)
    with tempfile.TemporaryDirectory() as work:
        base, games, players = make_base(shell, work)
        books = [
            look_at_book(program, shell, base, games, players, 16, 10, names=NAMES_FILE),
            look_at_book(program, shell, base, games, players, 12, 3, side="black"),
            look_at_book(program, shell, base, games, players, 10, 5, games[0][3]),
            look_at_book(program, shell, base, games, players, 0, 1),
            look_at_book(program, shell, base, games, players, 12, 3, items='player="<" year=1850..1990'),
            look_at_book(program, shell, base, games, players, 8, 2, games[0][2], 'result=1-0'),
            look_at_book(program, shell, base, games, players, 16, 1, items='white=Nobody'),
        ]
        books.append(look_at_book(program, shell, base, games, players, 40, 1))
        many, least, left = books[-1]
        if many > 20_000 or least == 1 or left == 0:
            fail(f"there are {many} pages, of {least} games at least, and no page leads to {left}")
        look_at_ends(program, base, work)
    for name, seen in SEEN.items():
        if not seen:
            print(f"{name} is not here: what it looks at was not looked at")
    print(f"{sum(book[0] for book in books)} pages passed, of which no page leads to {sum(book[2] for book in books)}")


main()
