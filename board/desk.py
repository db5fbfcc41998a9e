"""The two programs that do all work: `scid_shell --desk`, on whose base four clients work, and `scid_moves`, which knows the Laws."""
import collections
import functools
import secrets
import subprocess
import sys
import threading

# The most bytes that the script of a desk may have.
LONGEST_SCRIPT = 1_073_741_824

# Bytes of names and comments that are no UTF-8 come back as they were.
ERRORS = "surrogateescape"


class Ended(Exception):
    """A program has ended: its status, and what it said of that."""

    def __init__(self, name, status, said):
        super().__init__(f"{name} ended with status {status}" + (f": {said}" if said else ""))
        self.status = status


class Full(Exception):
    """The script would have more bytes than it may."""


class Program:
    """A program that is asked by lines. Its standard error is handed on, and its last line kept."""

    def __init__(self, name, words):
        self.name = name
        self.said = ""
        self.lock = threading.RLock()
        # Ctrl-C on the terminal is for the board alone.
        self.process = subprocess.Popen(
            words, stdin=subprocess.PIPE, stdout=subprocess.PIPE, stderr=subprocess.PIPE, start_new_session=True)
        self.teller = threading.Thread(target=self._tell, daemon=True)
        self.teller.start()

    def _tell(self):
        for line in self.process.stderr:
            self.said = line.decode(errors="replace").strip()
            print(self.said, file=sys.stderr, flush=True)

    def write(self, data):
        try:
            self.process.stdin.write(data)
            self.process.stdin.flush()
        except (OSError, ValueError):
            self._gone()

    def line(self):
        line = self.process.stdout.readline()
        if not line.endswith(b"\n"):
            self._gone()
        return line

    def _gone(self):
        status = self.process.wait()
        self.teller.join(1)
        # A program that a signal killed has said nothing of that.
        raise Ended(self.name, status, self.said) if status > 0 else Ended(self.name, 128 - status, "")

    def close(self):
        """Ends the input, and answers the status of the program."""
        try:
            self.process.stdin.close()
        except OSError:
            pass
        while self.process.stdout.read(65536):
            pass
        status = self.process.wait()
        return status if status >= 0 else 128 - status


def spelled(word):
    """A word of a script in quotes, as each word can be spelled."""
    return b'"' + word.encode(errors=ERRORS).replace(b"\\", b"\\\\").replace(b'"', b'\\"') + b'"'


class Desk(Program):
    """The desk of a base. `opened` is its opening line."""

    def __init__(self, words):
        super().__init__("scid_shell", words)
        self.used = 0
        self.opened = self.line().decode(errors=ERRORS).strip()

    def say(self, client, words):
        """What the client is told of a command."""
        return self.say_all(client, [words])[0]

    def say_all(self, client, commands):
        """What the client is told of each of these commands, which have no body."""
        with self.lock:
            end = secrets.randbits(48) + 8
            tag = b"@%d " % client
            text = b"".join(
                tag + b" ".join(map(spelled, words)) + b"\n" + tag + b"view %d\n" % end for words in commands)
            self._count(text)
            self.write(text)
            return [b"".join(self._told(tag, end)) for _ in commands]

    def say_body(self, client, command, body):
        """What the client is told of a command with this body. Its closing word is drawn, so that no line of the body is it."""
        with self.lock:
            end = secrets.randbits(48) + 8
            tag = b"@%d " % client
            word = secrets.token_hex(16).encode()
            while word in body:
                word = secrets.token_hex(16).encode()
            last = b"" if body.endswith(b"\n") or not body else b"\n"
            text = tag + command.encode() + b" <<" + word + b"\n" + body + last + word + b"\n" + tag + b"view %d\n" % end
            self._count(text)
            # The program answers while it reads, so that somebody else has to write.
            writer = threading.Thread(target=self._write_quietly, args=(text,), daemon=True)
            writer.start()
            told = b"".join(self._told(tag, end))
            writer.join()
            return told

    def say_into(self, client, words, file):
        """Writes what the client is told of a command into a file."""
        with self.lock:
            end = secrets.randbits(48) + 8
            tag = b"@%d " % client
            text = tag + b" ".join(map(spelled, words)) + b"\n" + tag + b"view %d\n" % end
            self._count(text)
            self.write(text)
            for line in self._told(tag, end):
                file.write(line)

    def _count(self, text):
        if self.used + len(text) > LONGEST_SCRIPT:
            raise Full
        self.used += len(text)

    def _write_quietly(self, text):
        try:
            self.write(text)
        except Ended:
            pass

    def _told(self, tag, end):
        # No slot has this number, which was drawn: the line that says so ends what was told.
        last = tag + b"error: no view %d\n" % end
        while (line := self.line()) != last:
            yield line[len(tag):]


Move = collections.namedtuple("Move", "squares san fen")


class Moves(Program):
    """The legal moves of positions."""

    def __init__(self, words):
        super().__init__("scid_moves", words)
        self.answer = functools.lru_cache(maxsize=10_000)(self._answer)

    def _answer(self, fen):
        """The legal moves of a position, and how it stands; or none, and its fault."""
        with self.lock:
            self.write(fen.encode() + b"\n")
            moves, state = [], ""
            while (line := self.line().decode().rstrip("\n")):
                if " " in line and not line.startswith("error: "):
                    moves.append(Move(*line.split(" ", 2)))
                else:
                    state = line
            return tuple(moves), state
