"""The board in a browser: what a page may ask over HTTP, on this machine alone."""
import http.server
import json
import pathlib
import secrets
import select
import shutil
import tempfile
import threading
import urllib.parse

from desk import ERRORS, Ended, Full
from game import game_of, row_of, START
from windows import CLIENTS, Windows

HERE = pathlib.Path(__file__).resolve().parent
FILES = {"": ("board.html", "text/html"), "board.css": ("board.css", "text/css"), "board.js": ("board.js", "text/javascript")}
POLICY = ("default-src 'none'; script-src 'self'; style-src 'self'; img-src 'self' data:; connect-src 'self'; "
          "base-uri 'none'; form-action 'none'; frame-ancestors 'none'")

LONGEST_BODY = 64 * 2**20
LONGEST_QUESTION = 2**20
PAGE = 100

# What a page may say: the commands that change the base, which all see, and those that do not. `quit`, the slots and the closing words of
# bodies are the board's own.
PUBLIC = {"delete", "undelete", "mark", "tag", "twins", "index", "save", "compact"}
PRIVATE = {"search", "reset", "clear", "negate", "restrict", "keep", "use", "and", "or", "drop", "info", "cross"}
BODIES = {"import", "eco"}

# The filter of a window stands aside under this name while the games on its board are looked for, so that seven of its eight are for names.
ASIDE = "_board"
FILTERS = 7

TREE = ("games", "white", "draws", "black", "unfinished", "score", "mover", "other", "year")


class Refused(Exception):
    """A question that is refused, with a status of HTTP."""

    def __init__(self, status, why):
        super().__init__(why)
        self.status = status


def text_of(told):
    return told.decode(errors=ERRORS)


def rows_of(told):
    """The rows of a tree."""
    rows = []
    for line in text_of(told).splitlines():
        move, *numbers = line.split()
        rows.append({"move": move, **dict(zip(TREE, (None if it == "-" else int(it) for it in numbers)))})
    return rows


class Board:
    """The desk, the Laws, and the windows that use them. Whoever asks it holds its lock."""

    def __init__(self, base, desk, moves):
        self.base = base
        self.desk = desk
        self.moves = moves
        self.windows = Windows()
        self.lock = threading.RLock()
        self.stopping = threading.Event()
        self.ended = None
        self.status = 0
        self.names = [[] for _ in range(CLIENTS)]
        self.kept = "Nothing was saved."
        self.info = None
        self.read_info(0)

    # ---- what is asked

    def welcome(self, window, is_new):
        """What a page has to know that begins. A new window begins with all games."""
        names = self.names[window.client]
        if is_new and not self.ended:
            self.desk.say_all(window.client, [["reset"], *(["drop", name] for name in names)])
            names.clear()
            window.has_all = True
        window.board = None
        return {"client": window.client, "key": window.key, "start": START, "base": self.base, "info": self.info,
                "filters": names, "ended": self.ended}

    def look(self, window, fen):
        """Shows a position: its moves, and the tree of its board, which its slot follows from then on."""
        moves, state = self.moves.answer(fen)
        if state.startswith("error: "):
            return {"error": state.removeprefix("error: ")}
        board = fen.split()[:2]
        if board != window.board:
            self.desk.say(window.client, ["watch", "0", *board])
            window.board = board
        window.shown = self.desk.say(window.client, ["view", "0"])
        return {"moves": [move._asdict() for move in moves], "state": state, "rows": rows_of(window.shown)}

    def say(self, window, words):
        names = self.names[window.client]
        if words[1:2] == [ASIDE]:
            raise Refused(400, "This name is the board's own.")
        if words[0] == "keep" and len(names) == FILTERS and words[1:2] and words[1] not in names:
            raise Refused(409, "Seven filters are kept. Drop one of them first.")
        told = self.desk.say(window.client, words)
        if told.startswith(b"kept ") and words[1] not in names:
            names.append(words[1])
        if told.startswith(b"dropped "):
            names.remove(words[1])
        self.follow(window, words[0] in PUBLIC, words[0], told)
        return {"text": text_of(told), "filters": names}

    def say_body(self, window, command, body):
        told = self.desk.say_body(window.client, command, body)
        self.follow(window, True, command, told)
        lines = text_of(told).splitlines()
        faults = [line for line in lines if line.startswith("error: ")]
        return {"text": lines[-1] if lines else "", "faults": faults[:PAGE], "more": max(0, len(faults) - PAGE)}

    def games(self, window, first, only):
        """A hundred games of the window's filter, or of those of them that reach its board."""
        wanted = window.board if only else None
        if window.hits is None or window.hits[0] != wanted:
            window.hits = wanted, self.hits_of(window, wanted)
        hits, last = window.hits[1][:-1], window.hits[1][-1]
        part = [tuple(map(int, line.split())) for line in hits[first:first + PAGE]]
        told = self.desk.say_all(window.client, [["show", str(game)] for game, _ in part])
        rows = [row_of(game, ply, text_of(text)) for (game, ply), text in zip(part, told)]
        return {"first": first, "count": len(hits), "all": int(last.split()[-1]), "games": rows}

    def hits_of(self, window, board):
        """The lines of `hits`. Where a board is asked for, the filter stands aside meanwhile."""
        if not board:
            return self.desk.say(window.client, ["hits"]).splitlines()
        told = self.desk.say_all(window.client, [
            ["keep", ASIDE], ["search", "and", "position", "exact", *board], ["hits"], ["use", ASIDE], ["drop", ASIDE]])
        return told[2].splitlines()

    def game(self, window, game):
        text = text_of(self.desk.say(window.client, ["show", str(game)]))
        if text.startswith("error: "):
            return {"error": text.strip().removeprefix("error: ")}
        return game_of(text, self.moves)

    # ---- what follows

    def follow(self, window, is_public, command, told):
        """After a line of a window the page of each shows its view; a change of the base is told to all."""
        window.hits = None
        last = told.splitlines()[-1:]
        if last and last[0].startswith(b"filter "):
            _, count, _, games = last[0].split()
            window.has_all = count == games
        if command == "save" and told.startswith(b"saved "):
            self.kept = f"The last save had {text_of(told).split()[1]} games."
        if command == "compact" and told.startswith(b"compacted "):
            self.kept = f"The last save was a compaction to {text_of(told).split()[-1]} games."
        if is_public:
            self.read_info(window.client)
        for other in self.windows.all():
            if is_public:
                other.hits = None
                # An added game is in the filter of its own window alone. One that shows all games goes on doing so.
                if command == "import" and other.has_all and other is not window:
                    self.desk.say(other.client, ["reset"])
                other.tell("changed", {"by": window.client, "command": command})
            if other.board:
                shown = self.desk.say(other.client, ["view", "0"])
                if shown != other.shown:
                    other.shown = shown
                    other.tell("tree", {"board": other.board, "rows": rows_of(shown)})

    def read_info(self, client):
        words = text_of(self.desk.say(client, ["info"])).split()
        if words[:1] == ["games"]:
            self.info = {words[k]: words[k + 1] for k in range(0, len(words) - 1, 2)}
        for window in self.windows.all():
            window.tell("info", self.info)

    def is_unsaved(self):
        return self.info["unsaved"] == "yes"

    def tell_windows(self):
        """Every page knows which windows are open."""
        here = [window.client for window in self.windows.all() if window.open]
        for window in self.windows.all():
            window.tell("windows", here)

    def end(self, ended):
        """A program has ended: every page says so, and nothing more is asked."""
        if not self.ended:
            self.ended = f"{ended}. {self.kept}" + (" What was changed after that is lost." if self.is_unsaved() else "")
            self.status = ended.status
            for window in self.windows.all():
                window.tell("ended", self.ended)


class Handler(http.server.BaseHTTPRequestHandler):
    """What is asked over HTTP: every path begins with the token."""

    protocol_version = "HTTP/1.1"
    server_version = "scid_board"
    sys_version = ""

    def log_message(self, *_):
        pass

    @property
    def board(self):
        return self.server.board

    def do_GET(self):
        self.answered(self.get)

    def do_POST(self):
        self.answered(self.post)

    def answered(self, ask):
        try:
            path, query = self.checked()
            ask(path, query)
        except Refused as refused:
            # The body may be unread, and must not be taken for the next question.
            self.close_connection = True
            self.send_json({"error": str(refused)}, refused.status)
        except Full:
            self.send_json({"error": "The session has read as much as it may. Save, end the board and start it anew."}, 409)
        except Ended as ended:
            self.board.end(ended)
            self.send_json({"ended": self.board.ended}, 503)
        except (BrokenPipeError, ConnectionResetError):
            self.close_connection = True

    def checked(self):
        """The path behind the token, and the query."""
        here = f"127.0.0.1:{self.server.server_port}"
        if self.headers.get_all("Host") != [here]:
            raise Refused(403, "This host is not served.")
        if self.headers.get_all("Origin", [f"http://{here}"]) != [f"http://{here}"]:
            raise Refused(403, "This origin is not served.")
        url = urllib.parse.urlsplit(self.path)
        _, token, *path = url.path.split("/")
        if not path or not secrets.compare_digest(token.encode(), self.server.token.encode()):
            raise Refused(403, "The address lacks its token.")
        return "/".join(path), dict(urllib.parse.parse_qsl(url.query))

    def get(self, path, query):
        if path in FILES:
            name, kind = FILES[path]
            self.send(200, (HERE / name).read_bytes(), kind + "; charset=utf-8")
        elif path == "events":
            self.stream(self.window(query))
        elif path == "export":
            self.send_export(self.window(query))
        else:
            raise Refused(404, "There is no such page.")

    def post(self, path, query):
        if path == "body":
            window, command = self.window(query), query.get("command")
            if command not in BODIES:
                raise Refused(400, "This is no command with a body.")
            answer = self.asked(lambda: self.board.say_body(window, command, self.body(LONGEST_BODY)))
        else:
            answer = self.question(path, self.json())
        self.send_json(answer)

    def question(self, path, asked):
        if path == "join":
            return self.join(asked)
        window = self.window(asked)
        board = self.board
        if path == "look":
            fen = self.text(asked, "fen", 1000)
            return self.asked(lambda: board.look(window, fen))
        if path == "say":
            words = self.words(asked)
            return self.asked(lambda: board.say(window, words))
        if path == "games":
            first = self.number(asked, "first")
            return self.asked(lambda: board.games(window, first, asked.get("only") is True))
        if path == "game":
            game = self.number(asked, "game")
            return self.asked(lambda: board.game(window, game))
        if path == "openings":
            table = (HERE.parent / "samples" / "openings.eco").read_bytes()
            return self.asked(lambda: board.say_body(window, "eco", table))
        if path == "stop":
            board.stopping.set()
            return {}
        raise Refused(404, "There is no such question.")

    def join(self, asked):
        key = asked.get("key")
        window, is_new = self.board.windows.join(key if isinstance(key, str) else None)
        if not window:
            raise Refused(409, "Four windows are open. Close one of them first.")
        with self.board.lock:
            return self.board.welcome(window, is_new)

    def asked(self, ask):
        """Asks the board, unless a program has ended."""
        with self.board.lock:
            if self.board.ended:
                return {"ended": self.board.ended}
            return ask()

    # ---- what is sent

    def window(self, asked):
        key = asked.get("key")
        window = self.board.windows.of(key) if isinstance(key, str) else None
        if not window:
            raise Refused(403, "This window has lost its place. Load the page again.")
        return window

    def body(self, longest):
        size = self.headers.get("Content-Length", "")
        if not (size.isascii() and size.isdigit()) or "Transfer-Encoding" in self.headers:
            raise Refused(411, "The length is missing.")
        if int(size) > longest:
            raise Refused(413, f"More than {longest} bytes.")
        return self.rfile.read(int(size))

    def json(self):
        try:
            asked = json.loads(self.body(LONGEST_QUESTION))
        except ValueError:
            raise Refused(400, "This is no question.") from None
        if not isinstance(asked, dict):
            raise Refused(400, "This is no question.")
        return asked

    @staticmethod
    def text(asked, name, longest):
        text = asked.get(name)
        if not isinstance(text, str) or len(text) > longest or not text.isascii() or not text.isprintable():
            raise Refused(400, f"{name} is no text of one line.")
        return text

    @staticmethod
    def number(asked, name):
        number = asked.get(name)
        if not isinstance(number, int) or isinstance(number, bool) or not 0 <= number < 2**32:
            raise Refused(400, f"{name} is no number.")
        return number

    @staticmethod
    def words(asked):
        words = asked.get("words")
        if not (isinstance(words, list) and words and all(isinstance(word, str) for word in words)):
            raise Refused(400, "These are no words.")
        if words[0] not in PUBLIC | PRIVATE or any(c in word for word in words for c in "\n\r\0"):
            raise Refused(400, "This is no command.")
        return words

    def send(self, status, body, kind):
        self.send_response(status)
        self.send_headers(kind)
        self.send_header("Content-Length", str(len(body)))
        if self.close_connection:
            self.send_header("Connection", "close")
        self.end_headers()
        self.wfile.write(body)

    def send_headers(self, kind):
        self.send_header("Content-Type", kind)
        self.send_header("Cache-Control", "no-store")
        self.send_header("Content-Security-Policy", POLICY)
        self.send_header("X-Content-Type-Options", "nosniff")
        self.send_header("Referrer-Policy", "no-referrer")
        self.send_header("Cross-Origin-Resource-Policy", "same-origin")

    def send_json(self, what, status=200):
        self.send(status, json.dumps(what).encode(), "application/json")

    def send_export(self, window):
        with tempfile.TemporaryFile() as file:
            with self.board.lock:
                if self.board.ended:
                    raise Refused(503, self.board.ended)
                self.board.desk.say_into(window.client, ["export"], file)
            self.send_response(200)
            self.send_headers("application/x-chess-pgn")
            self.send_header("Content-Disposition", 'attachment; filename="games.pgn"')
            self.send_header("Content-Length", str(file.tell()))
            self.end_headers()
            file.seek(0)
            shutil.copyfileobj(file, self.wfile)

    def stream(self, window):
        """The events of a window, until it closes its stream or opens another one."""
        self.close_connection = True
        self.send_response(200)
        self.send_headers("text/event-stream")
        self.send_header("Connection", "close")
        self.end_headers()
        stream = window.enter()
        self.board.tell_windows()
        try:
            while (event := window.next_event(stream, 0.25)) is not False and not self.board.stopping.is_set():
                if event:
                    self.wfile.write(f"event: {event[0]}\ndata: {event[1]}\n\n".encode())
                elif select.select([self.connection], [], [], 0)[0]:
                    break
        finally:
            window.leave(stream)
            self.board.tell_windows()


class Server(http.server.ThreadingHTTPServer):
    """Serves the board on a free port of this machine, behind a token that is drawn."""

    daemon_threads = True

    def __init__(self, board):
        super().__init__(("127.0.0.1", 0), Handler)
        self.board = board
        self.token = secrets.token_urlsafe(24)
        self.address = f"http://127.0.0.1:{self.server_port}/{self.token}/"
