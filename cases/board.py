#!/usr/bin/env python3
"""cases/board.py: scid_board as its pages use it.

Over HTTP: each way of the page, beside what scid_shell writes of the same base; names that are HTML; two windows, of which one changes what
the other shows; addresses, hosts, origins, sizes and lines that are refused; a fifth window; the program killed in the middle; and how it
ends. Where Chromium, its driver and selenium are there, a browser plays moves by clicks, by dragging and by keys, searches, drops a file, and
opens two windows; where they are not, it says so.

usage: cases/board.py
"""
import contextlib
import http.client
import importlib.machinery
import importlib.util
import io
import json
import os
import pathlib
import re
import shutil
import signal
import socket
import subprocess
import sys
import tempfile
import threading
import time
import types

TOP = pathlib.Path(__file__).resolve().parent.parent
START = "rnbqkbnr/pppppppp/8/8/8/8/PPPPPPPP/RNBQKBNR w KQkq - 0 1"
NAMES = ["<script>document.title='broken'</script>", 'Tal "the wizard"', "O'Kelly & Sons", "a < b > c", "\\back\\slash", "Dvořák", "</td>", "&amp;", "@1 delete 0"]
# How many seconds anything may take: much more than it does, since the machine may be busy.
PATIENCE = 120
FIELDS = ("games", "white", "draws", "black", "unfinished", "score", "mover", "other", "year")


def fail(words):
    sys.exit(f"cases/board.py: {words}")


def same(what, got, wanted):
    if got != wanted:
        fail(f"{what}: {got!r}\nand not\n{wanted!r}")


def patiently():
    """Goes on, with pauses, for as long as anything may take."""
    end = time.monotonic() + PATIENCE
    while time.monotonic() < end:
        yield
        time.sleep(0.02)


def escaped(name):
    return name.replace("\\", "\\\\").replace('"', '\\"')


def pgn_of(white, black, moves, result="*", **tags):
    tags = {"Event": "?", "White": white, "Black": black, **tags}
    lines = [f'[{name} "{escaped(value)}"]' for name, value in tags.items()]
    return "\n".join(lines) + f"\n\n{moves} {result}\n\n"


GAMES = "".join(
    pgn_of(name, NAMES[k - 1], ["1. e4 e5 2. Nf3", "1. e4 c5", "1. d4 d5 2. c4"][k % 3], ["1-0", "0-1", "1/2-1/2"][k % 3], Event="Hostile", WhiteElo=str(2400 + k))
    for k, name in enumerate(NAMES))
NOTES = pgn_of("Note", "Taker", "1. e4 {A <b>bold</b> move} e5 (1... c5 $1 2. Nf3 (2. c3)) 2. Nf3 -- 3. d4")


def shell(base, script):
    """What scid_shell writes of a base."""
    run = subprocess.run([TOP / "scid_shell", base], input=script, capture_output=True, text=True)
    if run.returncode:
        fail(f"scid_shell ended with {run.returncode}: {run.stderr}")
    return run.stdout.split("\n", 1)[1]


def rows_of(tree):
    return [dict(zip(("move",) + FIELDS, [line.split()[0], *(None if it == "-" else int(it) for it in line.split()[1:])])) for line in tree.splitlines()]


class Program:
    """A scid_board that runs, without a browser."""

    def __init__(self, *words):
        env = {name: value for name, value in os.environ.items() if name not in ("BROWSER", "DISPLAY", "WAYLAND_DISPLAY")}
        self.process = subprocess.Popen([TOP / "scid_board", *words], stdout=subprocess.PIPE, stderr=subprocess.PIPE, text=True, env=env)
        self.opened = self.process.stdout.readline().strip()
        self.address = self.process.stdout.readline().strip()
        found = re.fullmatch(r"http://127\.0\.0\.1:(\d+)/([\w-]{32})/", self.address)
        if not found:
            fail(f"no address: {self.opened} {self.address} {self.process.stderr.read()}")
        self.port, self.token = int(found[1]), found[2]

    def ask(self, path, what=None, data=None, method="POST", headers=(), token=None):
        """The status of an answer, its headers and its bytes."""
        link = http.client.HTTPConnection("127.0.0.1", self.port, timeout=PATIENCE)
        if data is None and method == "POST":
            data = json.dumps(what or {}).encode()
        link.putrequest(method, f"/{self.token if token is None else token}/{path}", skip_host=True)
        for name, value in {"Host": f"127.0.0.1:{self.port}", "Content-Length": str(len(data or b"")), **dict(headers)}.items():
            link.putheader(name, value)
        link.endheaders(data)
        answer = link.getresponse()
        body = answer.read()
        link.close()
        return answer.status, answer.headers, body

    def status(self, *args, **more):
        return self.ask(*args, **more)[0]

    def shell_id(self):
        """The process of its scid_shell."""
        children = pathlib.Path(f"/proc/{self.process.pid}/task/{self.process.pid}/children").read_text().split()
        return next(int(child) for child in children if b"--desk" in pathlib.Path(f"/proc/{child}/cmdline").read_bytes())

    def end(self, wanted=0):
        """What stands on standard error, once it has ended."""
        told = self.process.communicate(timeout=PATIENCE)[1]
        same("the exit status", self.process.returncode, wanted)
        return told


class Window:
    """A window as a page has it: it asks, and hears events."""

    def __init__(self, program, key=None):
        self.program = program
        status, _, body = program.ask("join", {"key": key})
        same("joining", status, 200)
        self.joined = json.loads(body)
        self.key = self.joined["key"]
        self.events = []
        self.link = socket.create_connection(("127.0.0.1", program.port))
        self.link.sendall(f"GET /{program.token}/events?key={self.key} HTTP/1.1\r\nHost: 127.0.0.1:{program.port}\r\n\r\n".encode())
        threading.Thread(target=self.hear, daemon=True).start()

    def hear(self):
        for line in self.link.makefile(encoding="utf-8"):
            if line.startswith("event: "):
                event = line.removeprefix("event: ").strip()
            elif line.startswith("data: "):
                self.events.append((event, json.loads(line.removeprefix("data: "))))

    def wait(self, event, test=lambda what: True):
        """The first event of this kind that passes the test."""
        for _ in patiently():
            found = [what for name, what in self.events if name == event and test(what)]
            if found:
                return found[0]
        fail(f"no event {event}: {self.events[-5:]}")

    def ask(self, path, **what):
        status, _, body = self.program.ask(path, {"key": self.key, **what})
        answer = json.loads(body)
        if status != 200:
            fail(f"{path} {what}: {status} {answer}")
        return answer

    def say(self, *words):
        return self.ask("say", words=list(words))["text"]

    def send(self, command, text):
        status, _, body = self.program.ask(f"body?key={self.key}&command={command}", data=text.encode())
        same("the status of a body", status, 200)
        return json.loads(body)

    def close(self):
        self.link.shutdown(socket.SHUT_RDWR)
        self.link.close()


def check_ways(program, base):
    """Each way of the page, beside scid_shell."""
    window = Window(program)
    same("a new window", (window.joined["client"], window.joined["info"]["games"], window.joined["filters"]), (0, "0", []))
    taken = window.send("import", GAMES + '[White "x"]\n\n1. e5 *\n\n' + NOTES.strip())
    line = len(GAMES.splitlines()) + 3
    same("an import", (taken["text"], taken["faults"]), (f"imported {len(NAMES) + 1} refused 1", [f"error: game {len(NAMES) + 1} line {line} column 4: no legal move"]))
    window.wait("info", lambda info: info["unsaved"] == "yes")
    window.wait("changed", lambda changed: changed["command"] == "import")
    same("save", window.say("save"), f"saved {len(NAMES) + 1} games\n")
    window.wait("info", lambda info: info["unsaved"] == "no")

    # the board, the tree and the games
    look = window.ask("look", fen=START)
    same("the moves of the start", (len(look["moves"]), look["state"]), (20, ""))
    same("the tree", look["rows"], rows_of(shell(base, f"tree {' '.join(START.split()[:2])}\n")))
    after = next(move["fen"] for move in look["moves"] if move["san"] == "e4")
    same("the tree behind a move", window.ask("look", fen=after)["rows"], rows_of(shell(base, f"tree {' '.join(after.split()[:2])}\n")))
    same("no position", window.ask("look", fen="8/8/8/8/8/8/8/8 w - -"), {"error": "kings"})
    same("games of the board", [game["game"] for game in window.ask("games", first=0, only=True)["games"]],
         [int(line.split()[0]) for line in shell(base, f"find {' '.join(after.split()[:2])}\n").splitlines()[:-1]])
    games = window.ask("games", first=0, only=False)
    same("all games", (games["count"], games["all"]), (len(NAMES) + 1, len(NAMES) + 1))
    same("names", [game["white"] for game in games["games"]], [*NAMES, "Note"])
    same("ratings and results", [(game["white_rating"], game["result"]) for game in games["games"][:2]], [("2400", "1-0"), ("2401", "0-1")])
    same("a later page", window.ask("games", first=8, only=False)["games"], games["games"][8:])

    # a game with comments and variations
    game = window.ask("game", game=len(NAMES))
    same("tokens", [token.get("san") or token["kind"] for token in game["tokens"]],
         ["e4", "comment", "e5", "open", "c5", "nag", "Nf3", "open", "c3", "close", "close", "Nf3", "--", "d4"])
    same("a comment", game["tokens"][1]["text"], "A <b>bold</b> move")
    same("a variation's position", game["tokens"][8]["fen"], "rnbqkbnr/pp1ppppp/8/2p5/4P3/2P5/PP1P1PPP/RNBQKBNR b KQkq - 0 1")
    same("behind a null move", [token["fen"] for token in game["tokens"][-2:]], [None, None])
    same("no game", window.ask("game", game=99), {"error": "no game 99"})

    # searches and filters
    same("a search", window.say("search", "ignore", "header", f"white={NAMES[1]}"), f"filter 1 of {len(NAMES) + 1}\n")
    same("what it found", [game["white"] for game in window.ask("games", first=0, only=False)["games"]], [NAMES[1]])
    same("a filter that is kept", window.ask("say", words=["keep", "one"]), {"text": "kept one\n", "filters": ["one"]})
    same("negate", window.say("negate"), f"filter {len(NAMES)} of {len(NAMES) + 1}\n")
    same("or", window.say("or", "one"), f"filter {len(NAMES) + 1} of {len(NAMES) + 1}\n")
    same("and", window.say("and", "one"), f"filter 1 of {len(NAMES) + 1}\n")
    same("drop", window.ask("say", words=["drop", "one"])["filters"], [])
    same("a position", window.say("search", "ignore", "position", "pawns", *after.split()[:2]), shell(base, f"search ignore position pawns {' '.join(after.split()[:2])}\n"))
    same("with variations", window.say("search", "ignore", "position", "exact", *game["tokens"][8]["fen"].split()[:2], "vars"), f"filter 1 of {len(NAMES) + 1}\n")
    same("all", window.say("reset"), f"filter {len(NAMES) + 1} of {len(NAMES) + 1}\n")
    for k in range(7):
        window.say("keep", f"f{k}")
    same("an eighth filter", program.status("say", {"key": window.key, "words": ["keep", "f7"]}), 409)
    same("games beside seven filters", window.ask("games", first=0, only=True)["count"], window.ask("look", fen=after)["rows"][-1]["games"])
    for k in range(7):
        window.say("drop", f"f{k}")

    # changes
    same("delete", window.say("delete", "1"), "deleted 1\n")
    same("a mark", window.say("mark", "2", "!", "on"), "marked 2\n")
    rows = window.ask("games", first=0, only=False)["games"]
    same("what is marked", [(row["deleted"], row["marks"]) for row in rows[:3]], [(False, ""), (True, ""), (False, "!")])
    same("undelete", window.say("undelete", "1"), "undeleted 1\n")
    window.send("import", pgn_of("Twin", "Other", "1. e4", Event="Hostile") * 2)
    same("twins", window.say("twins", "40"), "twins 1\n")
    same("compaction", window.say("compact"), f"compacted {len(NAMES) + 3} to {len(NAMES) + 2}\n")
    taken = window.ask("openings")
    if not re.fullmatch(r"classified \d+ of \d+", taken["text"]) or taken["text"].split()[1] == "0":
        fail(f"opening codes: {taken}")
    same("a table that is none", window.send("eco", "A00 e5\n")["text"], "error: eco line 1: no legal move")
    cross = window.say("cross", "Hostile")
    window.say("save")
    same("a crosstable", cross, shell(base, "cross Hostile\n"))
    status, headers, body = program.ask(f"export?key={window.key}", method="GET")
    same("an export", (status, headers["Content-Type"], body.decode()), (200, "application/x-chess-pgn", shell(base, "export\n")))
    return window


def check_live(program, base, first):
    """Two windows: what one does, the other shows."""
    second = Window(program)
    same("a second client", second.joined["client"], 1)
    first.ask("look", fen=START)
    second.ask("look", fen=START)
    first.events.clear()
    second.send("import", pgn_of("Live", "Game", "1. b3", "1-0"))
    tree = first.wait("tree", lambda tree: any(row["move"] == "b3" for row in tree["rows"]))
    first.wait("changed", lambda changed: changed["by"] == 1)
    second.say("save")
    same("the tree of the other window", tree["rows"], rows_of(shell(base, f"tree {' '.join(START.split()[:2])}\n")))
    # A filter of the other is its own.
    second.say("search", "ignore", "header", "white=Live")
    same("the filter of the first", first.ask("games", first=0, only=False)["count"], first.ask("games", first=0, only=False)["all"])
    same("a slot follows its filter", second.ask("look", fen=START)["rows"][-1]["games"], 1)
    first.events.clear()
    first.send("import", pgn_of("Live too", "Game", "1. b3", "0-1"))
    same("the filtered window", second.ask("look", fen=START)["rows"][-1]["games"], 1)
    first.say("save")
    # A window that is loaded again has its place and its filters again.
    second.say("keep", "mine")
    second.close()
    again = Window(program, second.key)
    same("a window that came back", (again.joined["client"], again.joined["filters"], again.ask("games", first=0, only=False)["count"]), (1, ["mine"], 1))
    return again


def check_safety(program, window):
    """What is refused."""
    said = {"key": window.key, "words": ["info"]}
    same("a question", program.status("say", said), 200)
    for token in ("", "x" * 32, program.token[:-1], program.token + "x"):
        for method, path in (("GET", ""), ("GET", "board.js"), ("GET", f"events?key={window.key}"), ("POST", "say"), ("POST", "stop"), ("POST", "join")):
            same(f"the token {token!r} at {path}", program.status(path, said, token=token, method=method), 403)
    for name, value in (("Host", "localhost"), ("Host", f"localhost:{program.port}"), ("Host", "127.0.0.1"), ("Host", "evil.example"), ("Origin", "http://evil.example"),
                        ("Origin", "null"), ("Origin", f"http://localhost:{program.port}"), ("Origin", f"https://127.0.0.1:{program.port}")):
        same(f"{name} {value}", program.status("say", said, headers=[(name, value)]), 403)
    same("the own origin", program.status("say", said, headers=[("Origin", f"http://127.0.0.1:{program.port}")]), 200)
    same("a body above 64 MiB", program.status(f"body?key={window.key}&command=import", data=b"", headers=[("Content-Length", str(64 * 2**20 + 1))]), 413)
    same("a long question", program.status("say", data=b"", headers=[("Content-Length", str(2**20 + 1))]), 413)
    same("no length", program.status("say", data=b"", headers=[("Content-Length", "x")]), 411)
    same("another key", program.status("say", {"key": "0" * 32, "words": ["info"]}), 403)
    for words in (["quit"], ["view", "0"], ["watch", "0"], ["import"], ["eco"], ["replace", "0"], ["import <<x"], ["Save"], [""], [], ["delete", "0\n@1 quit"], ["delete", "0\r"],
                  ["cross", "\0"], "save", [1], ["keep", "_board"]):
        same(f"the words {words}", program.status("say", {"key": window.key, "words": words}), 400)
    for what in (b"", b"[]", b"{", b'{"key": 1}'):
        if program.status("say", data=what) not in (400, 403):
            fail(f"{what} was taken")
    for fen in (START + "\n" + START, "x" * 2000, 7, "é"):
        same(f"the FEN {fen!r}", program.status("look", {"key": window.key, "fen": fen}), 400)
    for path in ("../scid_board", "server.py", "desk.py", "%2e%2e/README.md"):
        same(path, program.status(path, method="GET"), 404)
    status, headers, _ = program.ask("", method="GET")
    same("the page", (status, "default-src 'none'; script-src 'self'" in headers["Content-Security-Policy"]), (200, True))
    # A body can't close itself, and its lines are no lines of the desk.
    games = window.ask("games", first=0, only=False)["all"]
    taken = window.send("import", "{\n@0 delete 0\n@1 quit\nEND\n} 1. e4 *\n")
    same("a body of lines", (taken["text"], window.ask("games", first=0, only=False)["all"], window.say("delete", "0")), ("imported 1 refused 0", games + 1, "deleted 0\n"))
    with socket.socket() as link:
        if link.connect_ex(("127.0.0.2", program.port)) == 0:
            fail("it listens on other addresses too")


def check_windows(program):
    others = [Window(program), Window(program)]
    same("a fifth window", json.loads(program.ask("join", {})[2]), {"error": "Four windows are open. Close one of them first."})
    for other in others:
        other.close()


def check_killed(base):
    """The program is killed in the middle: every page is told, and nothing more is asked."""
    program = Program(base)
    first, second = Window(program), Window(program)
    first.say("save")
    first.say("delete", "0")
    os.kill(program.shell_id(), signal.SIGKILL)
    status, _, body = program.ask("say", {"key": first.key, "words": ["info"]})
    told = json.loads(body)["ended"]
    games = first.joined["info"]["games"]
    same("what is told", (status, told), (503, f"scid_shell ended with status 137. The last save had {games} games. What was changed after that is lost."))
    same("the other window", second.wait("ended"), told)
    same("a later question", second.ask("look", fen=START), {"ended": told})
    same("a new window", Window(program).joined["ended"], told)
    program.status("stop", {"key": first.key})
    program.end(137)


def check_ends(base):
    program = Program(base)
    window = Window(program)
    program.status("stop", {"key": window.key})
    if "unsaved" in program.end():
        fail("the end by the button tells of changes")
    for sign in (signal.SIGINT, signal.SIGTERM):
        program = Program(base)
        Window(program).say("delete", "0")
        program.process.send_signal(sign)
        if "unsaved changes are left behind" not in program.end():
            fail("the end by a signal tells of no changes")
    same("no words", subprocess.run([TOP / "scid_board"], capture_output=True).returncode, 1)
    same("a base that is none", subprocess.run([TOP / "scid_board", base + ".none"], capture_output=True).returncode, 5)
    check_alone()


def check_alone():
    """How it waits when no window is open, at a second in place of a minute."""
    loader = importlib.machinery.SourceFileLoader("scid_board", str(TOP / "scid_board"))
    board_of = importlib.util.module_from_spec(importlib.util.spec_from_loader("scid_board", loader))
    loader.exec_module(board_of)
    board_of.ALONE = 1
    unsaved = [True]
    began = time.monotonic()
    board = types.SimpleNamespace(
        stopping=threading.Event(), ended=None, is_unsaved=lambda: unsaved[0], windows=types.SimpleNamespace(away=lambda: time.monotonic() - began))
    waiting = threading.Thread(target=board_of.serve, args=(board, "the address"))
    with contextlib.redirect_stderr(io.StringIO()) as told:
        waiting.start()
        for _ in patiently():
            if told.getvalue():
                break
        waiting.join(1)
        same("with something unsaved it waits", (waiting.is_alive(), told.getvalue()), (True, "scid_board: no window is open, and changes are unsaved: the address\n"))
        unsaved[0] = False
        waiting.join(PATIENCE)
        same("with nothing unsaved it ends", waiting.is_alive(), False)


# ---- in a browser

def browser_python():
    """A python3 that has selenium, where Chromium and its driver are there too."""
    if not (shutil.which("chromium") and shutil.which("chromedriver")):
        return None
    for python in (sys.executable, "/usr/bin/python3"):
        if subprocess.run([python, "-c", "import selenium"], capture_output=True).returncode == 0:
            return python
    return None


def check_browser(base):
    python = browser_python()
    if not python:
        print("cases/board.py: no Chromium, driver and selenium are here, so the page was not tried in a browser")
        return
    program = Program(base)
    with tempfile.TemporaryDirectory(ignore_cleanup_errors=True) as room:
        run = subprocess.run([python, __file__, "--browser", program.address, room])
    program.process.send_signal(signal.SIGINT)
    program.end()
    if run.returncode:
        fail("the page in a browser")


class Browser:
    """A headless Chromium that plays on the page."""

    def __init__(self, room):
        from selenium import webdriver
        options = webdriver.ChromeOptions()
        for word in ("--headless=new", "--no-sandbox", "--disable-gpu", "--window-size=1440,900", f"--user-data-dir={room}/chromium"):
            options.add_argument(word)
        options.set_capability("goog:loggingPrefs", {"browser": "ALL"})
        self.driver = webdriver.Chrome(options=options)

    def all(self, what):
        return self.driver.find_elements("css selector", what)

    def one(self, what):
        return self.driver.find_element("css selector", what)

    def until(self, what, test):
        for _ in patiently():
            try:
                if test():
                    return
            except Exception:  # the page may be drawing it anew
                pass
        fail(f"{what} does not come; the page has {self.one('main').text[:2000]}")

    def square(self, name):
        return self.one(f'[data-square="{name}"]')

    def man(self, name):
        return self.square(name).get_attribute("aria-label").removeprefix(name).removeprefix(", ")

    def text(self, what):
        return self.one(what).text

    def keys(self, *keys):
        self.one("body").send_keys(*keys)


def play_in_browser(address, room):
    browser = Browser(room)
    try:
        play_on_page(browser, address)
    finally:
        browser.driver.quit()


def play_on_page(browser, address):
    from selenium.webdriver import ActionChains
    from selenium.webdriver.common.keys import Keys
    driver = browser.driver
    driver.get(address)
    browser.until("the tree", lambda: "total" in browser.text("#tree"))

    # two clicks, a drag, keys, and the tree's own button
    browser.square("e2").click()
    browser.square("e4").click()
    browser.until("1. e4", lambda: browser.man("e4") == "white pawn" and "e4" in browser.text("#moves"))
    browser.until("the tree behind it", lambda: "c5" in browser.text("#tree"))
    ActionChains(driver).click_and_hold(browser.square("e7")).move_to_element(browser.square("e6")).move_to_element(browser.square("e5")).release().perform()
    browser.until("1... e5", lambda: browser.man("e5") == "black pawn" and browser.man("e7") == "")
    browser.until("the games", lambda: browser.text("#filter").startswith("4 of"))
    browser.keys(Keys.ARROW_LEFT)
    browser.until("back", lambda: browser.man("e7") == "black pawn")
    browser.keys(Keys.ARROW_RIGHT)
    browser.until("forward", lambda: browser.man("e5") == "black pawn")
    browser.keys("f")
    browser.until("turned", lambda: browser.one("#board").find_elements("css selector", ".square")[0].get_attribute("data-square") == "h1")
    browser.keys("f")
    browser.until("a button of the tree", lambda: [it for it in browser.all("#tree tbody button") if it.text == "Nf3"][0].click() or True)
    browser.until("2. Nf3", lambda: browser.man("f3") == "white knight")
    browser.one("#san").send_keys("Nc6", Keys.ENTER)
    browser.until("2... Nc6", lambda: browser.man("c6") == "black knight")
    browser.keys(Keys.HOME)

    # names are text, whatever they say
    browser.until("all games", lambda: NAMES[0] in browser.text("#games"))
    if "broken" in driver.title or browser.all("#games script, #games b"):
        fail("a name became HTML")

    # a search, and a game with its variations
    browser.one("#find summary").click()
    browser.one('#search [name="player"]').send_keys("Note")
    browser.one("#search button.main").click()
    browser.until("the search", lambda: browser.text("#filter").startswith("1 of"))
    browser.one("#games tbody tr").click()
    browser.until("the game", lambda: "A <b>bold</b> move" in browser.text("#moves"))
    if len(browser.all("#moves .variation")) != 2:
        fail("the variations of a game")
    browser.keys(Keys.ARROW_RIGHT)
    browser.until("its first move", lambda: browser.man("e4") == "white pawn")
    browser.one("#all").click()
    browser.until("all games again", lambda: not browser.text("#filter").startswith("1 of"))

    # two windows: a file is dropped on one, and the tree of the other follows
    driver.switch_to.new_window("tab")
    driver.get(address)
    browser.until("the second window", lambda: "total" in browser.text("#tree"))
    driver.execute_script("""
        const files = new DataTransfer();
        files.items.add(new File([arguments[0]], "new.pgn"));
        document.dispatchEvent(new DragEvent("drop", { dataTransfer: files, bubbles: true, cancelable: true }));""", pgn_of("Dropped", "File", "1. a4", "1-0"))
    browser.until("the dropped game", lambda: "a4" in browser.text("#tree") and browser.one("#unsaved").is_displayed())
    driver.switch_to.window(driver.window_handles[0])
    browser.keys(Keys.HOME)
    browser.until("the first window's tree", lambda: "a4" in browser.text("#tree") and browser.one("#unsaved").is_displayed())
    browser.one("#save").click()
    browser.until("the save", lambda: not browser.one("#unsaved").is_displayed())
    said = [line for line in driver.get_log("browser") if line["level"] == "SEVERE"]
    if said:
        fail(f"the browser says {said}")


def main():
    if sys.argv[1:2] == ["--browser"]:
        return play_in_browser(*sys.argv[2:4])
    with tempfile.TemporaryDirectory() as room:
        base = f"{room}/hostile"
        program = Program("--create", base)
        first = check_ways(program, base)
        second = check_live(program, base, first)
        check_windows(program)
        check_safety(program, second)
        second.say("save")
        program.process.send_signal(signal.SIGINT)
        program.end()
        check_killed(base)
        check_ends(base)
        sample = f"{room}/sample"
        for ending in ("si4", "sn4", "sg4"):
            shutil.copy(TOP / f"samples/openings.{ending}", f"{sample}.{ending}")
        program = Program(sample)
        same("the sample", program.opened, "base 5 games 5 mended")
        same("its tree", Window(program).ask("look", fen=START)["rows"], rows_of(shell(sample, f"tree {' '.join(START.split()[:2])}\n")))
        program.process.send_signal(signal.SIGINT)
        program.end()
        check_browser(base)


if __name__ == "__main__":
    main()
