#!/usr/bin/env python3
"""Compares the documents with the sources, and writes what is generated.

    tools/docs.py               writes the definitions into the pages of docs/reference, and then checks
    tools/docs.py --check       only checks
    tools/docs.py --self-test   plants faults into copies of the documents, and checks that each is found
    tools/docs.py reference     writes a page for each library, and the index of words, into out/reference

The check refuses
- a page of docs/reference whose definitions are not those of the sources;
- a link between documents to a file or a heading that is not there;
- a line of prose that has more than 100 columns and could be broken;
- a program or a script in a document that no file of the crates has; a program in another language
  that no file of docs/trace has; a recorded run that is none of crates/trace_program/runs, and an
  answer to it that its row there does not have;
- rows that a document shows of a program's output, if the file `stdout` of the program lacks them;
- a quotation that no doc comment of the sources has;
- a word that a document says is defined in a file, if the file does not define it;
- a picture of docs/ARCHITECTURE.md that disagrees with the imports, and modules that import each
  other in a circle;
- the number of an example that no test has, and one that is not due.

Sources are laid out by `rt fmt`: an item begins at the indentation of the items beside it, and ends
at a line of that indentation, or with a semicolon.
"""
import collections
import dataclasses
import functools
import itertools
import pathlib
import re
import sys

ROOT = pathlib.Path(__file__).resolve().parent.parent
CRATES = ROOT / "crates"
PAGES = ROOT / "docs" / "reference"
MAP = ROOT / "docs" / "ARCHITECTURE.md"
RECORDED = CRATES / "trace_program" / "runs"
# How the names of the crates of tests begin.
OF_TESTS = "tests_"

# ---- Reading the modules of the crates.

HEAD = re.compile(r"(pub(?:\([a-z]+\))? )?(?:(?:final|unsafe|const) )*(fn|struct|enum|trait|type|const|static|mod|use|impl)\b ?(\w*)")
NOT_CODE = re.compile(r'"(?:\\.|[^"\\])*"|\'(?:\\.|[^\'\\])\'|//.*')


@dataclasses.dataclass
class Item:
    """An item: its comments and attributes, its lines without these, and the items inside it."""

    kind: str
    name: str
    is_public: bool
    above: list
    lines: list
    members: list


class Module:
    """A module: its items, the paths that it imports by name, some for others alone, and the names that others see."""

    def __init__(self):
        self.items, self.imports, self.passed_on, self.public = [], {}, set(), set()


def indent_of(line):
    """Returns how far a line is indented."""
    return len(line) - len(line.lstrip())


def split(lines, indent, ends=";"):
    """Returns the parts of a text at an indentation, which end with a mark of `ends` or with a block."""
    parts, part, depth = [], [], 0
    for line in lines:
        if not part and not line.strip():
            continue
        part.append(line)
        code = NOT_CODE.sub("", line).strip()
        depth += sum(code.count(mark) for mark in "([{") - sum(code.count(mark) for mark in ")]}")
        if depth == 0 and (code.endswith(ends) or code.endswith("}") and indent_of(line) == indent):
            parts.append(part)
            part = []
    return parts


def body_of(lines):
    """Returns the lines between the braces of an item."""
    begins = (at for at, line in enumerate(lines) if NOT_CODE.sub("", line).rstrip().endswith("{"))
    return lines[next(begins, len(lines)) + 1 : -1]


def items_of(lines, indent=0):
    """Returns the items of a text, with the items inside traits and impls."""
    items = []
    for part in split(lines, indent):
        first = next(at for at, line in enumerate(part) if not line.lstrip().startswith(("//", "#[")))
        above, lines = [line.strip() for line in part[:first]], part[first:]
        head = lines[0].strip()
        if ghost := re.match(r"ghost (\w+)", head):
            kind, name, is_public = "use" if ghost[1] == "use" else "ghost", ghost[1], False
        elif found := HEAD.match(head):
            kind, name, is_public = found[2], found[3] if found[2] != "impl" else "", found[1] == "pub "
        else:
            raise SystemExit(f"docs: no item: {head}")
        inside = items_of(body_of(lines), indent + 4) if kind in ("impl", "trait") else []
        items.append(Item(kind, name, is_public, above, lines, inside))
    return items


def imports_of(item):
    """Yields each name that a `use` item imports, with its path."""
    text = " ".join(line.strip() for line in item.lines)
    place, _, names = re.sub(r".*?\buse ", "", text).rstrip(";").partition("{")
    for name in names.rstrip("}").split(",") if names else [""]:
        path, _, other = (place + name.strip()).partition(" as ")
        path = path.removesuffix("::self").split("::")
        if path[-1]:
            yield other or path[-1], path


def read_module(modules, folder, place, path):
    """Reads a module and the modules that it declares, each under its path."""
    module = modules[place] = Module()
    for item in items_of([line for line in path.read_text().splitlines() if not line.startswith(("//!", "#!["))]):
        names = {item.name}
        if item.kind == "use":
            imported = {} if item.name == "use" else dict(imports_of(item))
            names = set(imported)
            module.imports |= imported
            module.passed_on |= names if item.lines[0].startswith("pub") else set()
        elif item.kind != "mod":
            module.items.append(item)
        elif not any("cfg(test)" in line for line in item.above):
            file = (folder / item.name).with_suffix(".rt")
            file = file if file.exists() else folder / item.name / "mod.rt"
            read_module(modules, folder / item.name, (*place, item.name), file)
        module.public |= names if item.is_public else set()


def read_modules(with_tests=False):
    """Returns the modules of the libraries and the programs, each by its crate and path."""
    modules = {}
    for path in sorted(path for root in ("lib.rt", "main.rt") for path in CRATES.glob(f"*/src/{root}")):
        if with_tests or not path.parts[-3].startswith(OF_TESTS):
            read_module(modules, path.parent, path.parts[-3:-2], path)
    return modules


def is_there(modules, place):
    """Whether a path is the path of a module, or of an item in the module that declares it."""
    module = modules.get(place[:-1])
    return place in modules or bool(module) and any(item.name == place[-1] for item in module.items)


def step(modules, place, name):
    """Returns where a name of a module is declared, or `None` outside the crates."""
    if is_there(modules, (*place, name)):
        return (*place, name)
    path = modules[place].imports.get(name) if place in modules else None
    return path and resolve(modules, place, path)


def resolve(modules, place, path):
    """Returns where the item of a path in a module is declared."""
    head, *rest = path
    known = {"crate": place[:1], "self": place, "super": place[:-1]}
    target = known.get(head) or step(modules, place, head) or ((head,) if (head,) in modules else None)
    for name in rest:
        target = target and step(modules, target, name)
    return target


def public_paths(modules, crate):
    """Returns for each public item of a crate, by where it is declared, its public paths."""
    paths, open_modules = {}, [((crate,), (), ())]
    while open_modules:
        place, seen_as, above = open_modules.pop(0)
        for name in sorted(modules[place].public):
            target = step(modules, place, name)
            if target in modules and target not in above:
                open_modules.append((target, (*seen_as, name), (*above, place)))
            elif target and target not in modules:
                paths.setdefault(target, []).append((*seen_as, name))
    return paths


# ---- The public items of a library.

Impl = collections.namedtuple("Impl", "trait_text type_text trait target")
REFERENCE = """# The public items of `{crate}`

Each block has the public items of a module: their comments, their signatures with preconditions
(`requires`) and postconditions (`ensures`), and for each `impl` of a trait its head. The line above
an item has its shortest path. [words.md](words.md) says what each word of a clause means, and
[DEFINITIONS.md](../../docs/DEFINITIONS.md#how-a-clause-reads) how a clause is read.
"""


def dedented(lines, by=0):
    """Returns lines moved to the left, up to an indentation."""
    least = min((indent_of(line) for line in lines if line.strip()), default=0)
    return [(" " * by + line[least:]).rstrip() for line in lines]


def header(item):
    """Returns the lines of an item before its body."""
    lines = []
    for line in dedented(item.lines):
        code = NOT_CODE.sub("", line)
        if "{" in code and (not line.startswith(" ") or item.kind == "impl" and code.endswith("{")):
            rest = line[: line.index("{")].rstrip()
            return [*lines, rest] if rest else lines
        lines.append(line)
    return lines


def flat_header(item):
    """Returns the header of an item as one line."""
    text = " ".join(line.strip() for line in header(item))
    return re.sub(r",? (?=>(?!=))", "", text.replace("< ", "<"))


def read_impl(modules, place, item):
    """Returns the trait of an impl, if any, and its type, with where these are declared."""
    text = flat_header(item).removeprefix("impl")
    marks, depth = "", 0
    for mark in text.replace("->", "  "):
        depth += mark == "<"
        marks += " " if depth else mark
        depth -= mark == ">"
    begin, at = indent_of(marks), marks.rfind(" for ")
    texts = (text[begin:at].strip(), text[at + 5 :].strip()) if at >= 0 else ("", text[begin:].strip())
    paths = [re.match(r"(?:\w+::)*\w*", text)[0] for text in texts]
    return Impl(*texts, *[resolve(modules, place, path.split("::")) if path else None for path in paths])


def shown(item, members):
    """Returns an item with its comments, without bodies, private fields and other members."""
    lines = [line for line in item.above if line.startswith(("///", "#[derive"))]
    if item.kind == "fn":
        return lines + header(item)
    if item.kind not in ("struct", "trait", "impl") or item.lines[-1].endswith((";", "{}")):
        return lines + dedented(item.lines)
    inside = []
    if item.kind == "struct":
        fields = split(body_of(item.lines), 4, (",", ";"))
        public = [field for field in fields if any(line.lstrip().startswith("pub ") for line in field)]
        inside = [line for field in public for line in field]
        inside += ["    // Further fields are private."] if len(public) < len(fields) else []
    for member in members:
        inside += dedented(shown(member, ()), 4)
    head = header(item)
    return [*lines, *head[:-1], head[-1] + " {", *inside, "}"]


def reference(modules, crate):
    """Returns the page of the public items of a library."""
    paths, text = public_paths(modules, crate), REFERENCE.format(crate=crate)
    for place, module in modules.items():
        blocks = []
        for item in module.items if place[0] == crate else ():
            if item.kind == "impl":
                impl = read_impl(modules, place, item)
                calls = [member for member in item.members if member.kind == "fn" and member.is_public]
                if impl.trait_text and {impl.trait, impl.target} & paths.keys():
                    blocks.append([flat_header(item) + " { .. }"])
                elif calls and impl.target in paths:
                    blocks.append(shown(item, calls))
            elif (*place, item.name) in paths:
                path = min(paths[*place, item.name], key=len)
                blocks.append([f"// {'::'.join((crate, *path))}", *shown(item, item.members)])
        if blocks:
            code = "\n\n".join("\n".join(block) for block in blocks)
            text += f"\n## `{'::'.join(place)}`\n\n```rust\n{code}\n```\n"
    return text


# ---- The definitions: the pages of the theorems, and the index of words.

# The pages of theorems in docs/reference. Each has a text by hand, and below a mark the clauses of a function that make
# the claim, with the definitions that they use: those of one crate, or "" for those of all crates.
THEOREMS = {
    "theorem": ("raft_progress", "replay", ("granted", "quorums", "changed_quorums", "ready"), ""),
    "run": ("steps_safety", "runs_are_safe", ("",), "steps_safety"),
    "safe": ("trace_judge", "run", ("ended", "waits", "safe", "so_far", "whole", "alone"), "trace_judge"),
}
MARK = "<!-- tools/docs.py writes from here -->\n"
IMPORT = re.compile(r"^(?:pub |ghost )*use ([\w.]+)\.\{(.*?)\}", re.M | re.S)
RENAMED = re.compile(r"^(?:pub |ghost )*use ([\w.]+) as (\w+)", re.M)
DEFINED = re.compile(r"( *)(?:abbrev pub|pub record|pub data|pub) (?!mod |use )(\S+)")
WORDS = """# The words of contracts

On this page you can look up a word of a contract that is defined in this repository: what it means,
in the words of its definition's comment, and the file that defines it. Definitions that only
private functions use are not here.

| word | meaning | file |
|---|---|---|
"""


@dataclasses.dataclass(frozen=True)
class Definition:
    """A definition: its file, name, comment and lines, and the head of the module that it is in."""

    path: pathlib.Path
    name: str
    comment: tuple
    lines: tuple
    module: str

    def code(self):
        """Returns its lines without comments."""
        return [line for line in self.lines if not line.lstrip().startswith("-- ")]

    def anchor(self):
        """Returns the anchor of its heading, which names the file, because names may differ only in case."""
        return re.sub(r"[^\w-]", "", f"{self.name}-{self.path.name}".lower())


def words_of(text):
    """Returns the words of a text, each once: names, names with a field, and operators as declared."""
    found = re.findall(r"(?<![\w.'])([\w']+)(\.\w+)?|(?<= )([^\w\s(){}.,;]+)(?= )", text)
    parts = [(name, name + field) if name else (f"◌{sign}◌",) for name, field, sign in found]
    return dict.fromkeys(word for part in parts for word in part)


def imported_words(text):
    """Yields each name that a file imports, with its path and its name there, "" for a renamed module."""
    yield from ((name, (place, "")) for place, name in RENAMED.findall(text))
    for place, names in IMPORT.findall(text):
        for name in filter(None, (name.strip() for name in names.split(","))):
            there, _, here = name.partition(" as ")
            yield here or there, (place, there)


class Definitions:
    """The definitions of the crates, and the imports of their files."""

    def __init__(self):
        self.imports, self.all = {}, {}
        for path in sorted(CRATES.glob("*/specs/**/*.antt")):
            text = path.read_text()
            self.imports[path] = dict(imported_words(text))
            self.read(path, text.splitlines())

    def read(self, path, lines):
        """Reads the definitions of a file. Each ends at an empty line."""
        at, module = 0, ""
        while at < len(lines):
            end = next((end for end in range(at, len(lines)) if not lines[end].strip()), len(lines))
            if lines[at].startswith("module "):
                module = re.match(r"module _ .*?where$", "\n".join(lines[at:]), re.M | re.S)[0]
            elif head := DEFINED.match(lines[at]):
                first = at
                while lines[first - 1].lstrip().startswith("-- "):
                    first -= 1
                parts = tuple(lines[first:at]), tuple(lines[at:end]), module if head[1] else ""
                self.all[path, head[2]] = Definition(path, head[2], *parts)
                at = end
            at += 1

    def resolve(self, imports, path, name):
        """Returns the definition that a name means in a file with these imports, if it is in the crates."""
        while (path, name) not in self.all and name.partition(".")[0] in imports:
            name, _, field = name.partition(".")
            place, there = imports[name]
            name = there or field
            _, crate, folder, *rest = [*place.split("."), "", ""]
            path = (CRATES / crate / folder).joinpath(*rest[:-2]).with_suffix(".antt")
            imports = self.imports.get(path, {})
        return self.all.get((path, name))

    def used_in(self, text, imports, path):
        """Returns the definitions that a text uses, in the order of its words."""
        found = [self.resolve(imports, path, word) for word in words_of(text)]
        return [one for one in dict.fromkeys(found) if one]

    def used_by(self, one):
        """Returns the other definitions that a definition uses."""
        return [used for used in self.used_in("\n".join(one.code()), self.imports[one.path], one.path) if used != one]

    def reading_order(self, first, seen, folder=CRATES):
        """Returns a definition and those below it, each before those that it uses, without those in `seen`.

        Definitions outside a folder are left out.
        """
        if first in seen or folder not in first.path.parents:
            return []
        seen.add(first)
        return [first, *(one for used in self.used_by(first) for one in self.reading_order(used, seen, folder))]

    def shown(self, one, folder=CRATES):
        """Returns what a page says about a definition. Those outside a folder are linked to their files."""
        path = one.path.relative_to(ROOT)
        used = self.used_by(one)
        here = [f"[`{other.name}`](#{other.anchor()})" for other in used if folder in other.path.parents]
        there = [f"[`{other.name}`](../../{other.path.relative_to(ROOT)})" for other in used if folder not in other.path.parents]
        lines = [one.module] * bool(one.module) + [*one.comment, *one.lines]
        head = ["", f"### `{one.name}` (`{path.name}`)", "", f"File: [{path.relative_to('crates')}](../../{path})."]
        said = [f"Uses: {', '.join(here)}."] * bool(here) + [f"Of other crates: {', '.join(there)}."] * bool(there)
        return [*head, *said, "", "```agda", *lines, "```"]

    def page(self, name):
        """Returns what the page of a theorem has below its mark."""

        def counted(ones):
            lines, files = sum(len(one.code()) for one in ones), {one.path for one in ones}
            return f"{len(ones)} definitions, with {lines:,} lines without comments in {len(files)} files"

        crate, call, names, within = THEOREMS[name]
        sources = sorted((CRATES / crate / "src").rglob("*.rt"))
        path, text = next((path, path.read_text()) for path in sources if f"pub fn {call}<" in path.read_text())
        head = re.search(rf"^pub fn {call}<.*?^\{{", text, re.M | re.S)[0]
        imports, seen, below, order, lines = dict(imported_words(text)), set(), set(), [], []
        for clause in names:
            code = re.search(rf"^    ensures {clause}\s*\{{.*?\}}$", head, re.M | re.S)[0]
            begun = self.used_in(code, imports, path)
            found = [one for start in begun for one in self.reading_order(start, seen, CRATES / within)]
            for start in begun:
                self.reading_order(start, below)
            order += found
            lines += ["", f"## The clause `{clause or call}`", "", "```rust", code, "```"]
            lines += [line for one in found for line in self.shown(one, CRATES / within)]
        said = [f"The page has {counted(order)}."]
        said += [f"With those of other crates that these use, there are {counted(below)}."] * bool(within)
        return "\n".join(["", *said, *lines]) + "\n"

    def words(self):
        """Returns the index of the definitions, without those for private functions and tests."""
        text = WORDS
        for (path, name), one in sorted(self.all.items(), key=lambda item: (item[0][1].lower(), item[0])):
            place = path.relative_to(CRATES)
            if "Inner" not in place.parts and not place.parts[0].startswith(OF_TESTS) and path.stem[-6:] != "Lawful":
                said = " ".join(line.strip()[3:] for line in one.comment) or f"`{one.lines[-1].strip()}`"
                said = said.replace("|", "\\|")
                text += f"| `{name}` | {said} | [{place}](../../crates/{place}) |\n"
        return text


# ---- The pictures of docs/ARCHITECTURE.md.


def imports_among(modules):
    """Returns the pairs of modules of which the second imports something of the first, not only for others."""
    found = set()
    for place, module in modules.items():
        for name, path in module.imports.items():
            below = resolve(modules, place, path) or ()
            while below and below not in modules:
                below = below[:-1]
            if below not in ((), place) and name not in module.passed_on:
                found.add((below, place))
    return found


def reached(arrows, start):
    """Returns what can be reached along arrows."""
    found, open_places = set(), [start]
    while open_places:
        place = open_places.pop()
        new = {to for origin, to in arrows if origin == place} - found
        found |= new
        open_places.extend(new)
    return found


def pictures(text):
    """Yields the pictures of the map: the line of each, its boxes with their crates and modules, and its arrows."""
    crate, picture = None, None
    for number, line in enumerate(text.splitlines(), 1):
        if heading := re.match(r"## (?:Inside `(\w+)`)?", line):
            crate = heading[1]
        elif line == "```mermaid":
            picture = (number, {}, [])
        elif line == "```" and picture:
            if picture[1] and all(box[0] for box in picture[1].values()):
                yield picture
            picture = None
        elif picture and (part := re.match(r"\s*subgraph \w+ \[(\w+)\]", line)):
            crate = part[1]
        elif picture and (arrow := re.match(r'\s*(\w+) --(?: "[^"]*" --)?> (\w+)', line)):
            picture[2].append(arrow.groups())
        elif picture and (box := re.match(r'\s*(\w+)\["([^"<]*)', line)):
            picture[1][box[1]] = (crate, box[2].split(", "))


def picture_faults(modules, text):
    """Yields circles of imports, and what is wrong in the pictures of the map.

    A box begins with the names of modules. It means these modules and all below them. An arrow points
    from a box to one that is built on it.
    """
    imports = imports_among(modules)
    yield from (f"{'::'.join(place)} imports what imports it" for place in sorted(modules) if place in reached(imports, place))
    for number, boxes, arrows in pictures(text):
        named, at = {}, {}
        for box, (crate, names) in boxes.items():
            for name in names:
                places = [place for place in modules if place[0] == crate and place[-1] == name and len(place) > 1]
                if len(places) != 1:
                    yield f"line {number}: `{name}` of box `{box}` is {len(places)} modules of {crate}"
                named |= dict.fromkeys(places, box)
        for place in modules:
            above = [named[place[:length]] for length in range(len(place), 0, -1) if place[:length] in named]
            at |= {place: above[0]} if above else {}
        between = {(at[one], at[other]) for one, other in imports if one in at and other in at and at[one] != at[other]}
        yield from (f"line {number}: {a} --> {b}: no such import" for a, b in arrows if (a, b) not in between)
        yield from (f"line {number}: no path of arrows from {a} to {b}" for a, b in sorted(between) if b not in reached(arrows, a))
        yield from (f"line {number}: {box} reaches itself" for box in boxes if box in reached(arrows, box))


# ---- Programs, scripts and examples.

USE = re.compile(r"\s*(?:pub )?((?:ghost )?use) (.*);")


def uses_of(text):
    """Returns all names that a text uses, each with its path, also those of a `use` over several lines."""
    joined = re.sub(r"\{[^{}]*\}", lambda names: re.sub(r"\s+", " ", names.group()).replace(", }", "}"), text)
    found = set()
    for use in filter(None, map(USE.match, joined.splitlines())):
        place, _, names = use[2].partition("{")
        found |= {place + name.strip() for name in names.rstrip("}").split(",")}
    return found


@functools.cache
def sources():
    """Returns the text of each file of the crates, with the names that it uses."""
    texts = {path: path.read_text() for path in sorted(CRATES.glob("*/src/**/*.rt"))}
    return {path: (text, uses_of(text)) for path, text in texts.items()}


def has_program(source, block):
    """Whether a file uses what a program uses, and has each part of it: a clause, or what has no empty line."""
    rest = "\n".join(line for line in block.splitlines() if not USE.match(line)).strip("\n")
    parts = re.split(r"\n\n+|\n(?=    (?:requires|ensures)\b|\{\n)", rest)
    return uses_of(block) <= source[1] and all(f"\n{part}\n" in "\n" + source[0] for part in parts)


def scripts_of(text):
    """Yields the scripts in the tables of a document, each as its lines and its replies."""
    for table in re.findall(r"^\| line \| reply \| why \|\n\|[-|]+\n((?:\|.*\n)+)", text, re.M):
        rows = [[cell.strip().strip("`") for cell in row.split("|")[1:3]] for row in table.splitlines()]
        yield [line for line, _ in rows], [reply for _, reply in rows if reply]


RUST = re.compile(r"^```rust\n(.*?)^```", re.M | re.S)
# Programs in other languages, and recorded runs, with the files that have them.
OTHER = re.compile(r"^```(go|java|cpp|json)\n(.*?)^```", re.M | re.S)
OTHERS = {"go": "docs/trace/**/*.go", "java": "docs/trace/*.java", "cpp": "docs/trace/*.hpp", "json": "crates/trace_program/runs/*.jsonl"}
# A recorded run, and the first line of the next block of text, which is the answer.
ANSWERED = re.compile(r"^```json\n(.*?)^```(?:(?!^```).)*^```text\n(.*?)\n", re.M | re.S)
RUN_ROW = re.compile(r"^\| \[`(\w+)`\]\(\w+\.jsonl\) \|[^|]*\| 1 \| (\d+) \| (.*) \|$", re.M)


def program_faults(documents):
    """Yields the programs, scripts and recorded runs of documents that no file has."""
    scripts = [
        [name.read_text().splitlines() for name in (path, path.with_name(path.name.replace("stdin", "stdout")))]
        for path in CRATES.glob("*/*stdin*")
    ]
    rows = RUN_ROW.findall((RECORDED / "README.md").read_text())
    answers = {(RECORDED / f"{name}.jsonl").read_text(): (f"line {line}: ", f": {rule}") for name, line, rule in rows}
    for path, text in documents.items():
        for place, block in enumerate(RUST.findall(text), 1):
            if not any(has_program(source, block) for source in sources().values()):
                yield f"{path.relative_to(ROOT)}: no file has the program {place}"
        for place, (language, block) in enumerate(OTHER.findall(text), 1):
            if not any(block in file.read_text() for file in ROOT.glob(OTHERS[language])):
                yield f"{path.relative_to(ROOT)}: no file has the program {place} in another language"
        for run, answer in ANSWERED.findall(text):
            begin, end = answers.get(run, ("no run", ""))
            if not answer.startswith(begin) or not answer.endswith(end):
                yield f"{path.relative_to(ROOT)}: the table of recorded runs does not answer: {answer}"
        for place, script in enumerate(scripts_of(text), 1):
            if list(script) not in scripts:
                yield f"{path.relative_to(ROOT)}: no file has the script {place}"


EXAMPLE = re.compile(r"/// Example (\w+) (\d+)\. ")
# How many examples each crate has: `raft_base` and so on, without `raft_`.
EXAMPLES = {"base": 6, "members": 10, "progress": 22, "state": 8, "script": 6}


def example_faults():
    """Yields numbers of examples that no test has, and those that are not among the numbers of EXAMPLES."""
    due = {(crate, str(number)) for crate, count in EXAMPLES.items() for number in range(1, count + 1)}
    tests = [*CRATES.glob("tests_*/src/**/*.rt"), *CRATES.glob("raft_*/src/tests/**/*.rt")]
    for crate, number in sorted(due ^ {one for path in tests for one in EXAMPLE.findall(path.read_text())}):
        yield f"example {crate} {number} is in no test, or not among the numbers of EXAMPLES"


# ---- What documents show and quote.


def place_of(path, text, at):
    """Returns the file and the line of a place in a document."""
    return f"{path.relative_to(ROOT)}:{text.count(chr(10), 0, at) + 1}"


TEXT = re.compile(r"^```text\n(.*?)^```", re.M | re.S)


def shown_outputs(documents):
    """Yields the blocks that have a line of a program's output: the document, where, and whether all lines are in order."""
    outputs = collections.defaultdict(list)
    for path in sorted(CRATES.glob("*/*stdout")):
        outputs[path.parent] += [line.rstrip() for line in path.read_text().splitlines()]
    for path, text in documents.items():
        for block in TEXT.finditer(text):
            shown = [line.rstrip() for line in block[1].splitlines()]
            rests = [iter(lines) for lines in outputs.values() if set(filter(None, shown)) & set(lines)]
            if rests:
                yield path, block.span(1), any(all(line in rest for line in shown) for rest in rests)


def output_faults(documents):
    """Yields the blocks that show a program's output and are not in it."""
    for path, (begin, _), is_right in shown_outputs(documents):
        if not is_right:
            yield f"{place_of(path, documents[path], begin)}: not what a file stdout has"


def words_alone(text):
    """Returns the words of a text, without the marks of emphasis and code."""
    return " ".join(re.sub("[*`]", "", text).split())


@functools.cache
def doc_comments():
    """Returns the words of the doc comments of the libraries."""
    runs = [re.findall(r"(?:^ *///.*\n)+", text, re.M) for text, _ in sources().values()]
    return [words_alone(run.replace("///", "")) for run in itertools.chain(*runs)]


def quotations(documents):
    """Yields the quotations of guides: the document, where, and the words."""
    for path, text in documents.items():
        for block in re.finditer(r"^(?:> .*\n)+", text, re.M):
            yield path, block.span(), words_alone(re.sub(r"^> ", "", block[0], flags=re.M))


def quotation_faults(documents):
    """Yields the quotations that no doc comment has."""
    for path, (begin, _), words in quotations(documents):
        if not any(words in comment for comment in doc_comments()):
            yield f"{place_of(path, documents[path], begin)}: no doc comment has this quotation"


# Words with the file that defines them, as in: `reached`, `AtMost` (`CountedValue.antt`).
PLACED = re.compile(r"((?:`[\w.]+`,?\s+(?:and\s+)?)+)\(`([\w/]+\.antt)`\)")


def place_faults(documents, definitions):
    """Yields the words that a document says are defined in a file that does not define them."""
    defined = {(path.name, name) for path, name in definitions.all}
    for path, text in documents.items():
        for words, file in PLACED.findall(text):
            for word in re.findall(r"`([\w.]+)`", words):
                if (file.rpartition("/")[2], word) not in defined:
                    yield f"{path.relative_to(ROOT)}: {file} does not define `{word}`"


# ---- All documents.


def anchor(heading):
    """Returns the anchor of a heading."""
    return re.sub(r"[^\w\- ]", "", heading.strip().lower()).replace(" ", "-")


def without_code(text):
    """Returns a text with spaces in place of its blocks of code, so that what follows stays where it is."""
    return re.sub(r"^```.*?^```", lambda block: re.sub(r"[^\n]", " ", block[0]), text, flags=re.M | re.S)


@functools.cache
def links_and_anchors(text):
    """Returns the links of a document, and the anchors of its headings."""
    plain = without_code(text)
    return re.findall(r"\]\(([^)\s]+)\)", plain), {anchor(head) for head in re.findall(r"^#+(.*)", plain, re.M)}


def link_faults(documents):
    """Yields the links between documents that lead nowhere."""
    anchors = {path: links_and_anchors(text)[1] for path, text in documents.items()}
    for path, text in documents.items():
        for link in links_and_anchors(text)[0]:
            file, _, place = link.partition("#")
            target = (path.parent / file).resolve() if file else path
            if "://" not in link and (not target.exists() or place and place not in anchors.get(target, {place})):
                yield f"{path.relative_to(ROOT)}: a link leads nowhere: {link}"


def width_faults(documents):
    """Yields the lines of prose that have more than 100 columns, and a space at which they could be broken."""
    for path, text in documents.items():
        for number, line in enumerate(without_code(text.partition(MARK)[0]).splitlines(), 1):
            prose = re.sub(r"^ *(?:- |\d+\. )?", "", line)
            if len(line) > 100 and not line.startswith("|") and " " in prose.strip():
                yield f"{path.relative_to(ROOT)}:{number}: the line has {len(line)} columns"


def page_faults(documents, pages):
    """Yields the pages of theorems that are not what the sources give, and those of no theorem."""
    for path, text in documents.items():
        if path.parent == PAGES and text.partition(MARK)[2] != pages.get(path):
            yield f"{path.relative_to(ROOT)}: not what the sources give; run tools/docs.py"


def checks(modules, definitions, pages):
    """Returns the checks of documents by their names, each as a function of the documents."""
    return {
        "pages": lambda documents: page_faults(documents, pages),
        "links": link_faults,
        "widths": width_faults,
        "programs": program_faults,
        "outputs": output_faults,
        "quotations": quotation_faults,
        "places": lambda documents: place_faults(documents, definitions),
        "map": lambda documents: picture_faults(modules, documents[MAP]),
    }


LINK = re.compile(r"\]\([\w./]+\.md()(?:#[\w-]+())?\)")


def planted(documents):
    """Yields faults to plant: the check that has to find it, the document, where, and the text to put there."""
    for path, (_, end), _ in shown_outputs(documents):
        yield "outputs", path, (end, end), "x\n"
    for path, (_, end), _ in quotations(documents):
        yield "quotations", path, (end, end), "> again\n"
    for path, text in documents.items():
        if link := LINK.search(without_code(text)):
            yield from (("links", path, link.span(group), "x") for group in (1, 2) if link[group] is not None)
        if path.parent == PAGES:
            yield "pages", path, (len(text), len(text)), "more\n"
        yield "widths", path, (text.index("\n"),) * 2, " wide" * 25
        yield from (("programs", path, (block.end(1), block.end(1)), "fn more() {}\n") for block in RUST.finditer(text))
        yield from (("programs", path, (block.end(2), block.end(2)), "more\n") for block in OTHER.finditer(text))
        yield from (("programs", path, (found.end(2), found.end(2)), "x") for found in ANSWERED.finditer(text))
        if place := PLACED.search(text):
            yield "places", path, (place.start(2),) * 2, "No"
    yield "map", MAP, re.search(r"^ *node -- .*()", documents[MAP], re.M).span(1), "x"


def missed_faults(documents, tests):
    """Plants faults into copies of single documents, which have none, and yields those that are not found."""
    count = collections.Counter()
    for name, path, (begin, end), new in planted(documents):
        text = documents[path]
        count[name] += 1
        # A link needs the headings of other documents. Every other check takes a document by itself.
        others = documents if name == "links" else {}
        if not list(tests[name](others | {path: text[:begin] + new + text[end:]})):
            yield f"{place_of(path, text, begin)}: a planted fault of {name} is not found"
    yield from (f"no fault of {name} was planted" for name in tests if not count[name])
    print(f"docs: {sum(count.values())} planted faults: {', '.join(f'{number} of {name}' for name, number in count.items())}")


def write_reference(modules, definitions):
    """Writes a page for each library, and the index of words."""
    folder = ROOT / "out" / "reference"
    folder.mkdir(parents=True, exist_ok=True)
    (folder / "words.md").write_text(definitions.words())
    crates = [place[0] for place in modules if len(place) == 1 and (CRATES / place[0] / "src" / "lib.rt").exists()]
    for crate in crates:
        (folder / f"{crate}.md").write_text(reference(modules, crate))
    print(f"docs: {len(crates)} libraries are in {folder.relative_to(ROOT)}")


def main():
    """Writes what is generated, if the documents are not only to be checked, and prints what is wrong."""
    if sys.argv[1:] not in ([], ["--check"], ["--self-test"], ["reference"]):
        return print(__doc__) or 2
    modules, definitions = read_modules(), Definitions()
    if sys.argv[1:] == ["reference"]:
        return write_reference(modules, definitions)
    pages = {PAGES / f"{name}.md": definitions.page(name) for name in THEOREMS}
    for path, text in pages.items() if not sys.argv[1:] else ():
        path.write_text(path.read_text().partition(MARK)[0] + MARK + text)
    paths = [*ROOT.glob("*.md"), *ROOT.glob("docs/**/*.md"), *CRATES.glob("*/*.md"), RECORDED / "README.md"]
    documents = {path: path.read_text() for path in sorted(paths)}
    tests = checks(modules, definitions, pages)
    if sys.argv[1:] == ["--self-test"]:
        faults = list(missed_faults(documents, tests))
    else:
        faults = [*itertools.chain.from_iterable(check(documents) for check in tests.values()), *example_faults()]
    for fault in faults:
        print(f"docs: {fault}")
    print(f"docs: {len(documents)} documents, {len(faults)} faults")
    return len(faults) > 0


if __name__ == "__main__":
    sys.exit(main())
