"""Holds docs/ASSURANCE.md against the repository.

    assurance.py [--log FOLDER] [--renew]
    assurance.py --lines

What the page may say, and what is looked at:

    [name](../FILE)                 FILE, a source, declares name exactly once; 'A.b' is a field of a record, 'c::f' a
                                    function of the crate c
    #### [title](../FILE)           the same of each name in backticks below, in the list of definitions
    [text](FILE.md#section) "words" FILE has this section, and the section has the words
    `folder/file`                   exists, unless a run makes it
    `rt ci demands`                 a command, also in a block of 'sh': its program, files and crates exist
    figures                         see RULES

Besides: the page has no line numbers of sources; every definition that a statement named on the page rests on is in its
list of definitions, and no other is; every public function of the crates in CALLS is named, and no function that is
named asks anything of its caller; no reader is behind the rules on files; the table of refusals has each number once,
with definitions that give it; the table of answers has each field of each type that a public call answers, and the
table of replies each member of each struct of the header.

With --log, FOLDER has what the prover said of each crate (tools/said): which crates rest on axioms, how many functions were proved.
With --renew, figures are written anew. With --lines, nothing is tested: it prints 'path:line  name' for each statement
that the page names.

The last line of a test is 'N passed, M failed', and the exit status is 0 only where M is 0.
"""

import argparse
import functools
import glob
import os
import re
import shlex
import sys

import definitions
from definitions import ROOT, closure, declarations, line_of, lines_of
from report import Report

PAGE = "docs/ASSURANCE.md"
LIST = "The definitions"
FIELDS = "every-field-of-every-answer"
HEADER = "c/include/nerupazhil.h"
REFUSALS = [*range(1, 22), 29]
MADE = ("target/", ".ci/log/")  # by a run
SHELLS = ("rt", "bash", "python3")
CALLS = ("index", "index_write", "walk", "nerupazhil", "nerupazhil_c")
RULE_OF_FILES = ("crates/format/specs/Layout.antt", "Spells")
WORDS = ("hash_words", 16)  # the crate that loads a block's message words, and how many may be held at a time
READERS = ("crates/format/specs/Reading.antt", "crates/format/specs/Reader.antt")

REFERENCE = re.compile(r"(?<!^#### )\[(?P<name>[^\]]+)\]\(\.\./(?P<path>[^)#]+\.(?:antt|rt))\)", re.M)
LINE_NUMBER = re.compile(r"\.(?:antt|rt)(?:#L|:)\d+")
LINK = re.compile(r"\]\((?P<path>[^)#]+)(?P<anchor>#[^)]*)?\)")
SECTION = re.compile(r"\]\((?P<path>[^)#]+\.md)#(?P<anchor>[^)]+)\)(?P<quotes>(?:;? \"[^\"]+\")*)")
BLOCK = re.compile(r"^```sh\n(.*?)^```$", re.M | re.S)
FILE = re.compile(r"^#### \[[^\]]+\]\(\.\./(?P<path>[^)]+)\)$", re.M)
ARRAY = re.compile(r"\[(?!\w*u8;|b'.';)[^\[\];]+; (\w+)\]")  # its type, or its first value; none of bytes
AXIOMS = re.compile(r"`axioms=\d+` on the line of `(?P<crate>\w+)`")


class Page:
    """The text of the page, and what the prover said where that is known."""

    def __init__(self, text: str, log: str = None):
        self.text = text
        self.log = verdicts(log) if log else None

    @functools.cached_property
    def parts(self) -> tuple:
        """The list of definitions, and all the rest."""
        found = re.search(rf"^## {LIST}\n.*?(?=^## )", self.text, re.M | re.S)
        if not found:
            raise LookupError(f"the page has no section '{LIST}'")
        return found[0], self.text[: found.start()] + self.text[found.end() :]

    @functools.cached_property
    def statements(self) -> set:
        """The declarations that the page names outside its list of definitions."""
        return set(filter(is_declared, map(declaration, links(self.parts[1]))))

    @functools.cached_property
    def behind(self) -> set:
        """All that these rest on."""
        return closure(self.statements)

    @functools.cached_property
    def needed(self) -> set:
        """Of that, the definitions in specs and the types; proofs and functions are not believed but checked."""
        rest = {one for one in self.behind if one[0] and "/proofs/" not in one[0]}
        return {one for one in rest if not definitions.FUNCTION.match(declarations(one[0])[one[1]][0])}

    @functools.cached_property
    def tables(self) -> list:
        """The names below each file's heading in the list of definitions: those in backticks, and those linked."""
        text, found = self.parts[0], []
        headings = list(FILE.finditer(text))
        for heading, end in zip(headings, [one.start() for one in headings[1:]] + [len(text)]):
            part = text[heading.end() : end]
            found += [(heading["path"], name) for name in codes(part)] + links(part)
        return found

    @functools.cached_property
    def references(self) -> list:
        """Every file and name of a statement, once: those of the text, then those of the list of definitions."""
        return list(dict.fromkeys(links(self.parts[1]) + links(self.parts[0]) + self.tables))


def links(text: str) -> list:
    """The files and names that references link."""
    return [(match["path"], match["name"]) for match in REFERENCE.finditer(text)]


def declaration(reference: tuple) -> tuple:
    """The file and the name of the declaration that a reference is in."""
    return reference[0], definitions.parts_of(reference[1])[1]


def codes(text: str) -> list:
    """The words in backticks; blocks of commands are left out."""
    return re.findall(r"`([^`\n]+)`", BLOCK.sub("", text))


def exists(path: str) -> bool:
    return os.path.exists(os.path.join(ROOT, path))


def is_declared(one: tuple) -> bool:
    return exists(one[0]) and one[1] in declarations(one[0])


def rows_of_crates() -> dict:
    """The crates, and of each those that it depends on."""
    rows = filter(None, (re.match(r"(\w+)(?: staticlib)?:([^#]*)", line) for line in lines_of("crates.txt")))
    return {row[1]: row[2].split() for row in rows}


def crates() -> set:
    return set(rows_of_crates())


def over(crate: str) -> set:
    """The crate and those that depend on it."""
    return {name for name, below in rows_of_crates().items() if crate in (name, *below)}


def verdicts(folder: str) -> dict:
    """The prover's last words on each crate."""
    found = {}
    for path in glob.glob(os.path.join(folder, "*.say")):
        with open(path, encoding="utf-8") as stream:
            said = [line for line in stream if line.startswith("logic=")]
        found[os.path.basename(path)[: -len(".say")]] = said[-1] if said else ""
    return found


# ---- statements


def located(page: Page):
    """Each statement that the page names: its file, its name, and its line, or 0 and what is wrong."""
    for path, name in page.references:
        try:
            yield path, name, line_of(path, name), ""
        except LookupError as error:
            yield path, name, 0, str(error)


def names(page: Page):
    for path, name, line, wrong in located(page):
        yield f"{name} of {path}", line > 0, wrong
    for match in LINE_NUMBER.finditer(page.text):
        yield f"line number {match[0]}", False, "a name is enough: --lines prints its line"


def print_lines(page: Page) -> int:
    """Prints where each statement is declared; the exit status is 0 only where all are found."""
    rows = list(located(page))
    print("\n".join(f"{path}:{line}  {name}" for path, name, line, _ in rows if line))
    missing = [wrong for *_, line, wrong in rows if not line]
    if missing:
        print("\n".join(missing), file=sys.stderr)
    return 1 if missing else 0


# ---- figures: each rule has a pattern of the page, and what its text should be


def counted(number: int, word: str) -> str:
    return f"{number} {word}" if number == 1 else f"{number} {word}s"


def extent(found) -> str:
    """How many definitions these are, and how many lines they have."""
    return f"{counted(len(found), 'definition')}, {counted(definitions.size(found), 'line')}"


def right_whole(page: Page, match: re.Match) -> str:
    return f"In all: {extent(page.needed)}."


def right_closure(page: Page, match: re.Match) -> str:
    found = {one for one in closure([declaration((match["path"], match["name"]))]) if one[0]}
    return f"{match['link']} rests on {extent(found)}"


def right_edits(page: Page, match: re.Match) -> str:
    return f"{len(glob.glob('crates/*/must-fail/*.edit', root_dir=ROOT))} must-fail edits"


def right_functions(page: Page, match: re.Match) -> str:
    numbers = re.findall(r" functions=(\d+)", " ".join((page.log or {}).values()))
    return f"{sum(map(int, numbers))} functions proved in all" if page.log is not None else match[0]


def right_axioms(page: Page, match: re.Match) -> str:
    if page.log is None:
        return match[0]
    said = re.search(r" axioms=(\d+)", page.log.get(match["crate"], ""))
    return f"`axioms={said[1] if said else 0}` on the line of `{match['crate']}`"


def right_slowest(page: Page, match: re.Match) -> str:
    """Rounded to five seconds, so that it does not change with each run of the benchmark."""
    row = re.compile(r"^\|[^|]+\| +[\d.]+ \| +\d+ \| +(\d+\.\d+) \| +[\d.]+ \|$", re.M)
    seconds = [float(one) for one in row.findall(section("docs/SPEED.md", "files-that-were-made-to-be-slow"))]
    if not seconds:
        raise LookupError("docs/SPEED.md has no table of seconds")
    return f"took some {5 * round(max(seconds) / 5)} seconds"


def right_words(page: Page, match: re.Match) -> str:
    """Of all crates that can hold message words. An array that is too long, or whose length is no numeral, has no figure."""
    loads, most = WORDS
    sizes = []
    for crate in over(loads):
        for path in glob.glob(f"crates/{crate}/src/**/*.rt", root_dir=ROOT, recursive=True):
            sizes += ARRAY.findall("\n".join(definitions.lines_of(path)))
    for size in sizes:
        if not size.isdecimal() or int(size) > most:
            raise LookupError(f"a hash has an array of {size} words")
    return f"the longest array of words has {max(map(int, sizes), default=0)}"


RULES = (
    (re.compile(r"In all: \d+ definitions?, \d+ lines?\."), right_whole),
    (re.compile(rf"(?P<link>{REFERENCE.pattern}) rests on \d+ definitions?, \d+ lines?"), right_closure),
    (re.compile(r"\d+ must-fail edits"), right_edits),
    (re.compile(r"\d+ functions proved in all"), right_functions),
    (re.compile(r"took some \d+ seconds"), right_slowest),
    (re.compile(r"the longest array of words has \d+"), right_words),
    (AXIOMS, right_axioms),
)


def figures(page: Page):
    """A test for each figure; a rule that the page has no use for is a fault of the page."""
    for pattern, right in RULES:
        yield f"the page has {pattern.pattern[:40]}", bool(pattern.search(page.text)), "nothing like it"
        for match in pattern.finditer(page.text):
            try:
                yield match[0], match[0] == right(page, match), f"should be {right(page, match)}"
            except LookupError as error:
                yield match[0], False, str(error)


def renewed(page: Page) -> str:
    """The text with right figures; one that can't be computed stays as it is."""

    def text_for(match: re.Match) -> str:
        try:
            return right(page, match)
        except LookupError:
            return match[0]

    text = page.text
    for pattern, right in RULES:
        text = pattern.sub(text_for, text)
    return text


# ---- files, sections and commands


def files(page: Page):
    for match in LINK.finditer(page.text):
        path, anchor = os.path.normpath(os.path.join("docs", match["path"])), match["anchor"] or ""
        yield f"link to {path}", exists(path), "not there"
        yield f"link to {path}{anchor}", not anchor or path.endswith(".md"), "only Markdown files have sections"
    for word in codes(page.text):
        if "/" in word and " " not in word and not word.startswith(MADE):
            yield f"file {word}", exists(word), "not there"


def section(path: str, anchor: str) -> str:
    """The text of a section of a Markdown file; LookupError where there is none."""
    return section_in("\n".join(lines_of(path)), anchor, path)


def section_in(text: str, anchor: str, path: str) -> str:
    parts = re.split(r"^#+ (.*)$", text, flags=re.M)
    for title, body in zip(parts[1::2], parts[2::2]):
        if re.sub(r"[^a-z0-9 -]", "", title.lower()).replace(" ", "-") == anchor:
            return body
    raise LookupError(f"{path} has no section {anchor}")


def quotes(page: Page):
    for match in SECTION.finditer(page.text):
        path = os.path.normpath(os.path.join("docs", match["path"]))
        try:
            body = section(path, match["anchor"])
        except LookupError as error:
            yield f"section {match['anchor']}", False, str(error)
            continue
        yield f"section {match['anchor']}", True, ""
        for words in re.findall(r"\"([^\"]+)\"", match["quotes"]):
            there = re.search(rf"{re.escape(words)}(?!\w)", body)
            yield f"{path}, {match['anchor']}: {words}", bool(there), "these words are not there"


def commands(page: Page):
    lines = [line for block in BLOCK.findall(page.text) for line in block.splitlines()]
    lines += [word for word in codes(page.text) if word.split(" ")[0] in SHELLS and " " in word]
    yield "the page has commands", len(lines) > 3, f"{len(lines)} of them"
    for line in lines:
        program, *rest = shlex.split(line)
        known = program in SHELLS or exists(program)
        if program == "rt":
            good = rest == ["version"] or rest[:1] == ["ci"] and set(rest[1:]) <= crates() | {"--anew"}
        else:
            good = known and all(exists(word) for word in rest if not word.startswith("-"))
        yield f"command {line}", good, "its program, a file or a crate is not there"


# ---- what is complete


def complete(page: Page):
    needed, listed = page.needed, set(map(declaration, page.tables))
    for path, name in sorted(needed | listed):
        yield f"{name} of {path} is listed", (path, name) in listed, f"a statement rests on it, and '{LIST}' has it not"
        yield f"{name} of {path} is needed", (path, name) in needed, f"'{LIST}' has it, and no statement rests on it"
    modules = {module for path, module in page.behind if path is None}
    front = page.parts[0].partition("\n#### ")[0]
    named_modules = {word for word in codes(front) if "." in word and "/" not in word}
    yield "modules of the kit", modules == named_modules, f"should be {sorted(modules)}"
    proofs = {path for path, _ in page.behind if path and "/proofs/" in path}
    for path in sorted(proofs):
        yield f"{path} is named", path in page.text, "a statement rests on it"


def public_calls():
    for path in (f"crates/{crate}/src/lib.rt" for crate in CALLS):
        first = ((name, text[0]) for name, text in declarations(path).items())
        public = [name for name, line in first if definitions.FUNCTION.match(line) and line.startswith("pub ")]
        yield from ((path, name) for name in public)


def calls(page: Page):
    """Every public call is named, and none that is named asks anything of its caller."""
    functions = {(path, name) for path, name in page.statements if path.endswith(".rt")}
    for path, name in public_calls():
        yield f"{name} of {path} is named", (path, name) in functions, "it is a public call"
    for path, name in sorted(functions):
        text = "\n".join(definitions.statement(path, name))
        yield f"{name} of {path} asks nothing", "requires" not in text, "it has a requires"


def types_in(text: str) -> list:
    """The names of types in a piece of Rattle."""
    return re.findall(r"\b[A-Z]\w*", text)


def answered_types() -> dict:
    """The types that the public calls answer, and those within them: the fields or variants of each."""
    found, wanted = {}, []
    for path, name in public_calls():
        head = " ".join(definitions.statement(path, name)).partition(" ensures ")[0]
        wanted += [(path, kind) for kind in types_in(head.rpartition("->")[2])] if "->" in head else []
    while wanted:
        path, name = wanted.pop()
        one = (path, name) if name in declarations(path) else definitions.imports(path)[0].get(name)
        if one and one not in found:
            parts = [re.match(r" +(?:pub )?(\w+)(.*),$", line) for line in declarations(one[0])[one[1]][1:-1]]
            found[one] = [part[1] for part in parts]
            wanted += [(one[0], kind) for part in parts for kind in types_in(part[2])]
    return found


def number_calls():
    """The public calls that answer a number or a refusal: they have no type of their own."""
    for path, name in public_calls():
        if re.search(r"-> Result<[a-z]\w*, Fault>", " ".join(definitions.statement(path, name))):
            yield path, name


def fields(page: Page):
    """The table of answers has each type that a public call answers, each field of it once, each call that answers a
    number, and what pins them."""
    body = section_in(page.text, FIELDS, PAGE)
    told, numbers = {}, set(number_calls())
    for answer, names, pinned, value in re.findall(r"^\| (\[.*?) \| (.*?) \| (.*?) \| (.*?) \|$", body, re.M):
        linked = links(answer)
        are_calls = bool(linked) and {declaration(one) for one in linked} <= numbers
        yield f"{answer} is a link", are_calls or len(linked) == 1, "no declaration"
        for one in linked:
            told.setdefault(declaration(one), []).extend(codes(names))
        cited = links(pinned) or pinned.startswith("the same")
        yield f"what pins {answer} is named", bool(cited), "no promise"
        yield f"the value of {answer} is named", "[" in value or value.startswith("as "), "no definition"
    right = answered_types() | {one: [] for one in numbers}
    for one in sorted(set(told) | set(right)):
        names = right.get(one, [])
        is_told = one in told and sorted(told[one]) == sorted(names)
        yield f"{one[1]} of {one[0]} and its fields", is_told, f"should be {names}"


def replies(page: Page):
    """The table of replies has each struct of the header, its members in their order, and what pins them."""
    body = section_in(page.text, FIELDS, PAGE)
    rows = re.findall(r"^\| `nerupazhil_(\w+)` \| (.*?) \| (.*?) \| (.*?) \|$", body, re.M)
    right = dict(header_structs())
    yield "the structs of the header", [row[0] for row in rows] == list(right), f"should be {list(right)}"
    for name, members, pinned, value in rows:
        yield f"{name} and its members", codes(members) == right.get(name), f"should be {right.get(name)}"
        yield f"what pins {name} is named", bool(links(pinned)) or pinned.startswith("as "), "no promise"
        yield f"the value of {name} is named", bool(links(value)), "no definition"


def header_structs():
    """The structs of the header for C, each with the names of its members."""
    text = re.sub(r"/\*.*?\*/", "", "\n".join(lines_of(HEADER)), flags=re.S)
    for name, body in re.findall(r"^struct nerupazhil_(\w+) \{(.*?)^\};", text, re.M | re.S):
        yield name, re.findall(r"(\w+)(?:\[\d+\])?;", body)


def no_reader(page: Page):
    behind = {path for path, _ in closure([RULE_OF_FILES])} & set(READERS)
    yield f"{RULE_OF_FILES[1]} rests on no reader", not behind, f"it rests on {sorted(behind)}"


def refusals(page: Page):
    numbers = [int(number) for number in re.findall(r"^\| (\d+) \|", page.text, re.M)]
    yield "refusals", numbers == REFUSALS, f"the table has {numbers}"
    for number, row in re.findall(r"^\| (\d+) \|(.*)$", page.text, re.M):
        yield f"{number} has a definition", bool(links(row)), "none is linked"
        for one in map(declaration, links(row)):
            given = is_declared(one) and number in definitions.words(declarations(one[0])[one[1]])
            yield f"{number} in {one[1]}", given, "the definition has no such number"


def axioms(page: Page):
    """Which crates rest on axioms, where the prover's words are known."""
    if page.log is None:
        return
    for crate in sorted(crates()):
        proved = page.log.get(crate, "").startswith("logic=proved ")
        yield f"{crate} is proved", proved, "the log does not say so"
    resting = {crate for crate in crates() if re.search(r" (axioms|foreign)=", page.log.get(crate, ""))}
    told = {match["crate"] for match in AXIOMS.finditer(page.text)}
    yield "crates with axioms", resting == told, f"should be {sorted(resting)}"


def tests(page: Page):
    """Every test of the page: its name, whether it passed, and what is wrong."""
    groups = (names, figures, files, quotes, commands, complete, calls, fields, replies, no_reader, refusals, axioms)
    for group in groups:
        try:
            yield from group(page)
        except LookupError as error:
            yield group.__name__, False, str(error)


def main() -> int:
    parser = argparse.ArgumentParser(description="Holds the assurance page against the repository.")
    parser.add_argument("--log", metavar="FOLDER", help="what the prover said of each crate, as target/log")
    parser.add_argument("--renew", action="store_true", help="write figures anew")
    parser.add_argument("--lines", action="store_true", help="print where each statement of the page is declared")
    options = parser.parse_args()
    if options.log and not glob.glob(os.path.join(options.log, "*.say")):
        parser.error(f"{options.log} has no log of a crate")
    path = os.path.join(ROOT, PAGE)
    with open(path, encoding="utf-8") as stream:
        page = Page(stream.read(), options.log)
    if options.lines:
        return print_lines(page)
    if options.renew:
        page = Page(renewed(page), options.log)
        with open(path, "w", encoding="utf-8") as stream:
            stream.write(page.text)
    report = Report()
    for name, good, detail in tests(page):
        report.test(name, good, detail)
    return report.finish()


if __name__ == "__main__":
    sys.exit(main())
