#!/usr/bin/env python3
"""docs/claims.py: what each call that a crate hands out promises, as docs/CLAIMS.md lists it.

A row has a call, the comment of its source, and the names of its clauses with their comments. A call without a clause has no row.
The crates are those of docs/DESIGN.md, from the roof down.

Usage: docs/claims.py            how many calls and clauses of each crate are handed out
       docs/claims.py --write    prints the list of docs/CLAIMS.md anew

docs/check.py fails if the page is not what --write prints, or if a call of a library that can answer another error than want of memory has no
clause that holds behind it. A method of a trait has the trait's clauses. The errors of the calls in TESTED are only tested."""
import re
import sys

import house
import trusted
from trusted import TOP, sources

PAGE = "docs/CLAIMS.md"
MARK = "<!-- Printed by docs/claims.py --write from the comments in crates/*/src. -->"
END = "<!-- End of what is printed. -->"
FUNCTION = re.compile(r"^\s*(pub(?:\(\w+\))? )?(?:const )?fn (\w+)")
CLAUSE = re.compile(r"^\s*(ensures|requires) (\w+) \{ ?(.*)")
TESTED = {"put_right", "Openings::read"}
OK, ERROR = re.compile(r"(?:IfOk|OnOk|IfSome|OnSome) result\b"), re.compile(r"(?:IfErr|OnErr|IsErrOf|IsErr) result\b")


class Call:
    """A function of the code: its crate, the type or trait that it belongs to, its name, its comment, its answer and its clauses."""

    def __init__(self, crate, owner, of_trait, name, is_out, comment):
        self.crate, self.owner, self.of_trait, self.name, self.is_out = crate, owner, of_trait, name, is_out
        self.comment, self.head, self.clauses, self.needs = comment, "", [], []

    def path(self):
        return f"{self.owner}::{self.name}" if self.owner else self.name

    def refuses(self):
        """Whether it can answer an error other than want of memory."""
        answer = re.search(r"-> Result<((?:[^<>]|<(?:[^<>]|<[^<>]*>)*>)*)>", self.head)
        return bool(answer) and not answer[1].endswith(", AllocError")


def is_handed_out(names, owner, of_trait, head):
    """Whether a crate hands a function out. All of a program's functions count."""
    return names is None or ((owner or head[2]) in names and (head[1] == "pub " or of_trait))


def calls_of(path):
    """The functions of a source file."""
    crate = trusted.crate_of(path)
    names, owner, of_trait, call, doc, remark, note = trusted.exported(crate), None, None, None, [], [], []
    for line in path.read_text().splitlines():
        text = line.strip()
        if block := trusted.OWNER.match(line):
            owner, of_trait = block[3], block[1] or block[2]
        elif line == "}":
            owner, of_trait = None, None
        elif text.startswith("///"):
            doc.append(text[3:].strip())
        elif head := FUNCTION.match(line):
            call = Call(crate, owner, of_trait, head[2], is_handed_out(names, owner, of_trait, head), doc or remark)
            yield call
            doc, note = [], []
        elif call and (clause := CLAUSE.match(line)):
            (call.clauses if clause[1] == "ensures" else call.needs).append((clause[2], " ".join(note), clause[3]))
            note = []
        elif call and text.startswith("// "):
            note.append(text[3:])
        if call and not call.clauses and not call.needs:
            call.head += " " + text
        if text == "{" or (text.endswith("{") and not CLAUSE.match(line)):
            call, note = (call, note) if text.startswith(("pub fn", "fn")) and not text.endswith("{") else (None, [])
        if not text.startswith("#["):
            remark = [*remark, text[3:]] if text.startswith("// ") else []
        if not text.startswith(("///", "#[")):
            doc = []


def handed_out():
    """The calls that the crates hand out, by crate."""
    found = {}
    for path in sources("src", ".rt"):
        for call in [*calls_of(path)]:
            if call.is_out and call.clauses:
                found.setdefault(call.crate, []).append(call)
    return found


def says(call):
    """The comment of a call as one line, without the signs of lists."""
    if not call.comment:
        return f"As `{call.of_trait.removesuffix(' for ').split('<')[0]}` says." if call.of_trait and call.of_trait.endswith(" for ") else ""
    text = re.sub(r"# Errors\s+", "Errors: ", " ".join(it.removeprefix("- ") for it in call.comment if it))
    return re.sub(r"\s+", " ", text).replace("|", "\\|")


def named(clauses):
    return ", ".join(f"`{name}`" + (f" ({note})" if note else "") for name, note, _ in clauses).replace("|", "\\|")


def promises(call):
    """The clauses of a call: those of every answer, of a good one, of an error, and what the caller owes."""
    good = [it for it in call.clauses if OK.match(it[2])]
    errors = [it for it in call.clauses if ERROR.match(it[2])]
    always = [it for it in call.clauses if it not in good and it not in errors]
    parts = [named(always)] if always else []
    parts += [f"{what}: {named(clauses)}" for what, clauses in (("good", good), ("error", errors), ("needs", call.needs)) if clauses]
    return "; ".join(parts)


def printed():
    by_crate = handed_out()
    yield from [MARK, ""]
    for title, rooms in house.floors():
        listed = [house.crate_of(it) for it in rooms if house.crate_of(it) in by_crate]
        yield f"- {title}: {', '.join(f'[{it}](#{it})' for it in listed)}"
    for _, rooms in house.floors():
        for room in rooms:
            if crate_calls := by_crate.get(house.crate_of(room)):
                yield from ["", f"### `{house.crate_of(room)}`", "", room[house.PURPOSE][:1].upper() + room[house.PURPOSE][1:] + ".", ""]
                yield from ["| Call | What its comment says | Clauses |", "|---|---|---|"]
                yield from (f"| `{it.path()}` | {says(it)} | {promises(it)} |" for it in crate_calls)
    yield from ["", END]


def page():
    text = (TOP / PAGE).read_text()
    return text.partition(MARK)[0] + "\n".join(printed()) + text.partition(END)[2]


def faults():
    if (TOP / PAGE).read_text() != page():
        yield f"{PAGE} is not what docs/claims.py --write prints"
    for path in sources("src", ".rt"):
        for call in [*calls_of(path)] if trusted.exported(trusted.crate_of(path)) is not None else []:
            in_trait = call.of_trait and call.of_trait.endswith(" for ")
            silent = call.is_out and call.refuses() and not in_trait and not [it for it in call.clauses if not OK.match(it[2])]
            if silent and call.path() not in TESTED:
                yield f"{trusted.crate_of(path)}: no clause of {call.path()} holds behind an error"


def main():
    if sys.argv[1:] == ["--write"]:
        (TOP / PAGE).write_text(page())
        return
    for crate, calls in handed_out().items():
        print(f"{crate:16} {len(calls):4} calls, {sum(len(it.clauses) for it in calls):5} clauses, {sum(not it.comment for it in calls):3} without a comment")


if __name__ == "__main__":
    main()
