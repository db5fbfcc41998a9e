"""A game as `show` writes it, cut into its tokens; each move with the position behind it, which `scid_moves` tells."""
import re

START = "rnbqkbnr/pppppppp/8/8/8/8/PPPPPPPP/RNBQKBNR w KQkq - 0 1"
RESULTS = ("1-0", "0-1", "1/2-1/2", "*")

TAG = re.compile(r'\[(\S+) "((?:[^"\\]|\\.)*)"\]\n', re.DOTALL)
TOKEN = re.compile(r"\{([^}]*)\}|\$(\d+)|([()])|(\d+\.+)|([^\s()]+)", re.DOTALL)


def tags_of(text):
    """The tags of a game, and where its movetext begins."""
    tags, place = [], 0
    while (tag := TAG.match(text, place)):
        tags.append((tag[1], re.sub(r"\\(.)", r"\1", tag[2], flags=re.DOTALL)))
        place = tag.end()
    return tags, place


def tokens_of(text, place, start, moves):
    """The tokens of a movetext. Where `scid_moves` has no such move (the null move is none), the line goes on without positions."""
    # The position before the last move of each open line, and the one behind it.
    tokens, lines = [], [(None, start)]
    for token in TOKEN.finditer(text, place):
        comment, nag, bracket, number, word = token.groups()
        if comment is not None:
            tokens.append({"kind": "comment", "text": comment})
        elif nag:
            tokens.append({"kind": "nag", "number": int(nag)})
        elif bracket == "(":
            tokens.append({"kind": "open"})
            lines.append((None, lines[-1][0]))
        elif bracket:
            tokens.append({"kind": "close"})
            lines.pop()
        elif word and not (word in RESULTS and len(lines) == 1):
            before = lines[-1][1]
            move = next((it for it in moves.answer(before)[0] if it.san == word), None) if before else None
            tokens.append({"kind": "move", "san": word, "squares": move and move.squares, "fen": move and move.fen})
            lines[-1] = (before, move and move.fen)
    return tokens


def game_of(text, moves):
    """A game for the page: its tags, its start, and its tokens."""
    tags, place = tags_of(text)
    named = dict(reversed(tags))
    start = named["FEN"] if named.get("SetUp") == "1" and "FEN" in named else START
    return {"tags": tags, "start": start, "tokens": tokens_of(text, place, start, moves)}


def row_of(game, ply, text):
    """The line of a game in a list."""
    named = dict(reversed(tags_of(text)[0]))
    flags = named.get("ScidFlags", "")
    return {
        "game": game, "ply": ply, "white": named.get("White", "?"), "black": named.get("Black", "?"),
        "white_rating": rating_of(named, "White"), "black_rating": rating_of(named, "Black"),
        "result": named.get("Result", "*"), "date": named.get("Date", ""), "event": named.get("Event", "?"),
        "eco": named.get("ECO", ""), "deleted": "D" in flags, "marks": flags.replace("D", ""),
    }


def rating_of(named, side):
    kinds = ("Elo", "Rating", "Rapid", "ICCF", "USCF", "DWZ", "ECF")
    return next((named[side + kind] for kind in kinds if side + kind in named), "")
