#!/usr/bin/env python3
"""docs/trusted.py: what the theorem of the program rests on, and the lists of docs/TRUSTED.md.

It follows the contract of `session`, and those of the traits that it is over, through the definitions of specs/: each that their clauses name,
each that these name, and so on. A name of the toolchain's library or of a type of the code ends a path.

Usage: docs/trusted.py            how many definitions of each crate, and how many lines they have
       docs/trusted.py --files    the same of each file, with the names
       docs/trusted.py --write    prints the lists of docs/TRUSTED.md anew, from the comments of the files

A list has the crates from the lowest up, and in a crate each file behind those that it names. What a file says is its first comment, and its
source is what its comments name. docs/check.py fails if the page is not what --write prints, and if a first comment names no source."""
import itertools
import pathlib
import re
import sys

import house

TOP = pathlib.Path(__file__).resolve().parent.parent
PAGE = "docs/TRUSTED.md"
PRIVATE = re.compile(r"no public contract cites|only private functions cite", flags=re.I)
FIRST, SECOND = "What the theorem of `session` rests on", "What the crates' other clauses cite"
THIRD = "What no public clause cites"
MARK, END = "<!-- Printed by docs/trusted.py --write from the comments in crates/*/specs. -->", "<!-- End of what is printed. -->"
STANDARDS = [("FIDE Laws", "FIDE Laws"), ("PGN standard", "PGN standard"), ("HTML standard", "HTML standard")]
OTHER_SOURCES = [("Encyclopaedia", "Encyclopaedia of Chess Openings"), ("Scid", "Scid"), ("[Tt]his project's own", "this project's own")]
THEOREM = [
    ("shell_session", "run.rt", "pub fn session"),
    ("base_files", "files.rt", "pub trait Files"),
    ("base_files", "source.rt", "pub trait Source"),
    ("base_files", "sink.rt", "pub trait Sink"),
    ("tree_live", "view.rt", "pub trait TreeView"),
]
WORD = re.compile(r"[^\W\d][\w'-]*(?:\.[^\W\d][\w'-]*)*")
USE = re.compile(r"^\s*(?:ghost )?use (Rattle\.[\w.+]+?)(?:\.\{([^}]*)\})?(?: as (\w+))?;?$", flags=re.M)
HEAD = re.compile(r"(?:(?:pub|abbrev|unfoldable|record|data) )*(mutual$|(?:◌\S+|[^\s:={}()]+)(?= [^=]*: ))")
FORM = re.compile(r"(?:(?:pub|abbrev|unfoldable) )*\S+ : [^=]*$|.* where$|mutual$|\s*(?:record )?[{}()]+$")
INNER = re.compile(r"^\s+(?:pub )?([^\s:={}()]+) : ", flags=re.M)
OWNER = re.compile(r"(?:impl(?:<[^>]*>)? ([\w<>, ]+ for )?|(pub trait ))(\w+)")
SEEN = re.compile(r"\s+ghost (?:view|Value|from_gives)\b")
FUNCTION = re.compile(r"^\s*(pub(?:\(\w+\))? )?(?:const )?fn (\w+)")


def sources(folder, ending):
    return sorted(it for it in (TOP / "crates").glob(f"*/{folder}/**/*{ending}"))


def crate_of(path):
    return path.parts[path.parts.index("crates") + 1]


def taken(text):
    """What a file names of others: each word that it takes, as module and name, and each module that it has a short name for."""
    words, modules = {}, {}
    for module, items, short in USE.findall(text):
        if not items:
            modules[short or module.split(".")[-1]] = module
        for item in filter(None, (it.strip() for it in items.split(","))):
            name, _, other = item.partition(" as ")
            words[other.strip() or name] = (module, name.strip())
    return words, modules


class Definitions:
    """A file of specs/: its definitions by name, each as its lines without comments. Those of one `mutual` are one, and so are a type and
    its constructors."""

    def __init__(self, path):
        self.path, self.text = path, path.read_text()
        self.words, self.modules = taken(self.text)
        self.blocks, self.block_of = [], {}
        for line in self.text.splitlines():
            if not line.strip() or re.match(r"\s*--|use ", line):
                continue
            head = HEAD.match(line)
            if head and not line[0].isspace():
                self.blocks.append([])
                self.block_of.setdefault(head[1], len(self.blocks) - 1)
            if self.blocks:
                self.blocks[-1].append(line)
        for number, lines in enumerate(self.blocks):
            if " record " in f" {lines[0]}":
                continue
            for name in INNER.findall("\n".join(lines[1:])):
                self.block_of.setdefault(name, number)


def read_all():
    """Every file of specs/, by its module."""
    return {f"Rattle.{crate_of(it)}.specs.{it.stem}": Definitions(it) for it in sources("specs", ".antt")}


def applies(text, operator):
    """Whether a text applies an operator; each line of a `do` applies that of its answers."""
    return f" {operator} " in text or (operator == ">>=" and re.search(r"\bdo\b", text))


def named(text, words, modules, files, own=None):
    """The definitions that a text names, as module and number. The name of a clause is none of them."""
    operators = [it for it in [*words, *(files[own].block_of if own else [])] if it.startswith("◌") and applies(text, it.strip("◌"))]
    for word in {*WORD.findall(re.sub(r"\b(ensures|requires) \w+ \{", "{", text)), *operators}:
        first, _, rest = word.partition(".")
        if own and first in files[own].block_of:
            yield own, files[own].block_of[first]
            continue
        module, name = words.get(first, (modules.get(first), rest.split(".")[0]))
        if module in files and name in files[module].block_of:
            yield module, files[module].block_of[name]


def reached(roots, files):
    """All that these definitions rest on, themselves among them, each with the one that led to it."""
    found, ahead = dict(roots), list(roots)
    while ahead:
        module, number = at = ahead.pop()
        here = files[module]
        for further in named("\n".join(here.blocks[number]), here.words, here.modules, files, module):
            if further not in found:
                found[further] = at
                ahead.append(further)
    return found


def clauses_of(text, head):
    """The clauses of a function or of a trait's functions."""
    begin = text.index(head)
    return text[begin : text.index("\n{" if " fn " in head else "\n}", begin)]


def of_theorem(files):
    """All that the theorem rests on."""
    roots = {}
    for crate, name, head in THEOREM:
        path = TOP / "crates" / crate / "src" / name
        text = path.read_text()
        roots.update({it: path for it in named(clauses_of(text, head), *taken(text), files)})
    return reached(roots, files)


def exported(crate):
    """The names that a crate hands out: what its root brings out of its modules. None is a program, of which all counts."""
    root = TOP / "crates" / crate / "src/lib.rt"
    if not root.exists():
        return None
    return {word for words in re.findall(r"pub use \w+::\{?([^;}]+)", root.read_text()) for word in re.findall(r"\w+", words)}


def public_clauses(path):
    """The clauses of the functions of a source file that the crate hands out, of the methods of such types, and what such types are seen as."""
    out, owner, of_trait, inside, clauses = exported(crate_of(path)), None, False, False, []
    for line in path.read_text().splitlines():
        block = OWNER.match(line)
        if block:
            owner, of_trait = block[3], bool(block[1] or block[2])
        elif line == "}":
            owner, of_trait = None, False
        head = FUNCTION.match(line)
        if head:
            inside = out is None or ((owner or head[2]) in out and (head[1] == "pub " or of_trait))
        if line.rstrip().endswith("{") and (head or line.strip() == "{"):
            inside = False
        elif inside and not head or (out and owner in out and SEEN.match(line)):
            clauses.append(line)
    return "\n".join(clauses)


def of_clauses(files):
    """All that public clauses rest on."""
    roots = {}
    for path in sources("src", ".rt"):
        roots.update({it: path for it in named(public_clauses(path), *taken(path.read_text()), files)})
    return reached(roots, files)


def lowest_first(crates):
    """These crates, each behind those that it names; else in the order of docs/DESIGN.md, from the ground up."""
    named_by, order = house.below(), []

    def put(crate):
        if crate not in order:
            for other in sorted(named_by.get(crate, ()), key=rooms.index):
                put(other)
            order.append(crate)

    rooms = [house.crate_of(it) for _, its_rooms in house.floors() for it in its_rooms][::-1]
    for crate in rooms:
        put(crate)
    return [it for it in order if it in crates]


def readable(modules, cited, files):
    """The files of a crate that a list has, each behind those that its cited definitions name."""
    order, begun = [], set()

    def put(module):
        if module in begun:
            return
        begun.add(module)
        here = files[module]
        further = {
            other
            for at, number in cited
            if at == module
            for other, _ in named("\n".join(here.blocks[number]), here.words, here.modules, files, module)
        }
        for other in sorted(further & modules):
            put(other)
        order.append(module)

    for module in sorted(modules):
        put(module)
    return order


def heading(file):
    """The comment that a file begins with, as one line, without the signs of lists."""
    lines = itertools.takewhile(lambda it: it.startswith("--"), file.text.splitlines())
    return " ".join(it.removeprefix("--").strip().removeprefix("- ") for it in lines)


def sources_in(text):
    """What a text names as sources: the sections of each standard, Scid, this project."""
    found = []
    for standard, short in STANDARDS:
        told = [it[1] for it in re.finditer(rf"{standard}(?:, (?:Articles? |section )?(\d[\d.]*(?:(?:, and |, | and | to )\d[\d.]*)*))?", text)]
        if told:
            parts = {it.rstrip(".") for numbers in told if numbers for it in re.split(r", and |, | and ", numbers)}
            found.append(short + "".join(f" {', '.join(sorted(parts, key=section))}" for _ in [0] if parts))
    return found + [short for words, short in OTHER_SOURCES if re.search(words, text)]


def source_of(file):
    """What all comments of a file name as its source."""
    return "; ".join(sources_in(" ".join(it.strip().removeprefix("--").strip() for it in file.text.splitlines() if it.strip().startswith("--"))))


def section(numbers):
    return [int(it) for it in re.findall(r"\d+", numbers)]


def says(file):
    """The first comment of a file, without its source."""
    text = re.sub(r" ?\([^()]*(?:this project's own|FIDE Laws|PGN standard|Scid|HTML standard)[^()]*\)", "", heading(file))
    text = re.sub(r" This project's own[^.]*\.$", "", text)
    return text.replace("|", "\\|").strip()


def names_of(module, cited, files):
    """The cited definitions of a file, in its order: all, or their names."""
    file, numbers = files[module], {number for at, number in cited if at == module}
    first_of = {}
    for name, block in file.block_of.items():
        if name != "mutual":
            first_of.setdefault(block, name)
    if len(numbers) == len(file.blocks):
        return "all"
    return ", ".join(f"`{first_of[it]}`" for it in sorted(numbers) if it in first_of)


def printed_list(modules, cited, files):
    for crate in lowest_first({it.split(".")[1] for it in modules}):
        yield from ["", f"### `{crate}`", "", "| File | What it says | Source | Definitions |", "|---|---|---|---|"]
        for module in readable({it for it in modules if it.split(".")[1] == crate}, cited, files):
            file = files[module]
            yield f"| `{module.split('.')[3]}.antt` | {says(file)} | {source_of(file)} | {names_of(module, cited, files)} |"


def printed():
    """The part of the page that is printed."""
    files = read_all()
    theorem, clauses = of_theorem(files), of_clauses(files)
    first = {module for module, _ in theorem}
    second = {module for module, _ in clauses} - first
    private = sorted(set(files) - first - second)
    by_crate = {crate: [it.split(".")[3] for it in private if it.split(".")[1] == crate and files[it].blocks] for crate in {it.split(".")[1] for it in private}}
    yield from [MARK, "", f"## {FIRST}", *printed_list(first, theorem, files), "", f"## {SECOND}", *printed_list(second, clauses, files)]
    yield from ["", f"## {THIRD}", "", "| Crate | Files |", "|---|---|"]
    for crate in lowest_first(by_crate):
        if by_crate[crate]:
            yield f"| `{crate}` | {', '.join(f'`{it}`' for it in by_crate[crate])} |"
    yield from ["", END]


def page():
    """The page as it has to be: its own words around what is printed."""
    text = (TOP / PAGE).read_text()
    return text.partition(MARK)[0] + "\n".join(printed()) + text.partition(END)[2]


def faults():
    """Whether docs/TRUSTED.md is not current, which cited files name no source, and which say that nobody cites them, and somebody does."""
    files = read_all()
    if (TOP / PAGE).read_text() != page():
        yield f"{PAGE} is not what docs/trusted.py --write prints"
    cited = {**of_clauses(files), **of_theorem(files)}
    for module in sorted({module for module, _ in cited}):
        if not sources_in(heading(files[module])):
            yield f"{files[module].path.relative_to(TOP)}: its first comment names no source"
    yield from cited_private_words(files, cited)


def cited_private_words(files, cited):
    private = {module for module, file in files.items() if PRIVATE.search(heading(file))}
    for module, number in sorted(cited, key=str):
        if module in private:
            name = next(name for name, block in files[module].block_of.items() if block == number)
            yield f"{module} says that no public contract cites its words, and one rests on {name}"


def main():
    if "--write" in sys.argv[1:]:
        (TOP / PAGE).write_text(page())
        return
    files = read_all()
    theorem = of_theorem(files)
    by_file = {}
    for module, number in theorem:
        by_file.setdefault(module, set()).add(number)
    lines = {module: sum(len(files[module].blocks[it]) for it in numbers) for module, numbers in by_file.items()}
    order = [it for crate in lowest_first({it.split('.')[1] for it in by_file}) for it in readable({m for m in by_file if m.split('.')[1] == crate}, theorem, files)]
    if "--files" in sys.argv[1:]:
        for module in [*order, *sorted(set(by_file) - set(order))]:
            names = [name for name, block in files[module].block_of.items() if block in by_file[module]]
            print(f"{lines[module]:5} lines, {len(by_file[module])} of {len(files[module].blocks)} definitions: {module[7:]}: {' '.join(names)}")
    else:
        for crate in sorted({module.split(".")[1] for module in by_file}):
            own = [module for module in by_file if module.split(".")[1] == crate]
            print(f"{crate:16} {sum(len(by_file[it]) for it in own):5} definitions, {sum(lines[it] for it in own):5} lines, {len(own):3} files")
    every = sum(len(block) for file in files.values() for block in file.blocks)
    form = sum(bool(FORM.match(line)) for module, number in theorem for line in files[module].blocks[number])
    print(f"session: {len(theorem)} definitions, {sum(lines.values())} lines of {every} in specs/, in {len(by_file)} of {len(files)} files")
    print(f"{form} of these lines are signatures, headers and brackets, and {sum(lines.values()) - form} say what holds")


if __name__ == "__main__":
    main()
