"""Wrong assurance pages, wrong sources and wrong logs of the prover: assurance.py must notice them.

Each is made from what is right by one edit. A row says what is wrong, a pattern of the text that is there, and the text
in its place; 'said' is a part of what the failure says.
"""

import contextlib
import os
import re
import tempfile
from unittest import mock

import assurance
import definitions
from report import Report

# Figures, which --renew mends.
WRONG_FIGURES = (
    ("a wrong number of definitions in all", r"In all: (\d+)", r"In all: 1\1"),
    ("a wrong number of lines in all", r"(In all: \d+ definitions, )(\d+)", r"\g<1>1\2"),
    ("a wrong number of definitions of a statement", r"rests on (\d+)", r"rests on 1\1"),
    ("a wrong number of lines of a statement", r"(rests on \d+ definitions, )(\d+)", r"\g<1>1\2"),
    ("a wrong number of edits", r"(\d+) must-fail edits", r"1\1 must-fail edits"),
    ("a wrong number of seconds", r"took some (\d+) seconds", r"took some 1\1 seconds"),
    ("a wrong number of words", r"array of words has (\d+)", r"array of words has 1\1"),
)

# Names of statements: what, old, new, said.
WRONG_NAMES = (
    ("a field that is not declared", r"\[Demand3\.cuts\]", "[Demand3.cut]",
     "Statements.antt declares Demand3.cut 0 times"),
    ("a theorem that is not declared", r"\[sha1-demands\]", "[sha1-demand]",
     "Demands.antt declares sha1-demand 0 times"),
    ("a function that is not declared", r"\[index::check\]", "[index::checks]", "lib.rt declares checks 0 times"),
    ("a definition that is not declared", r"`be64`, ", "`be64`, `be65`, ", "Padding.antt declares be65 0 times"),
    ("a statement of another file", r"(\[Spells\]\(.*?/)Layout", r"\1Reader", "Reader.antt declares Spells 0 times"),
    ("a definition below another file", r"`length_field`", "`length_field`, `ok_mode`",
     "Names.antt declares ok_mode 0 times"),
    ("a function of another crate", r"\[index::check\]", "[walk::check]", "no file of the crate of walk::check"),
    ("a missing source", r"specs/Layout\.antt\)", "specs/Layouts.antt)", "Layouts.antt is not there"),
    ("a line number in a link", r"Statements\.antt\)", "Statements.antt#L12)", "a name is enough"),
    ("a line number after a file", r"Witness\.antt`", "Witness.antt:12`", "a name is enough"),
)

WRONG_PAGES = (
    ("a missing file", r"proofs/Witness\.antt`", "Witness.antt`"),
    ("a section of a source", r"Statements\.antt\)", "Statements.antt#here)"),
    ("a missing file in backticks", r"`crates/format/must-fail/checksum_as_entry\.edit`",
     "`crates/format/must-fail/none.edit`"),
    ("no number of definitions in all", r"In all: ", "All: "),
    ("a definition that is missing in the list", r"`be16`, ", ""),
    ("a row of the list that has no definition", r"`length_field`", "length_field"),
    ("a linked definition that is missing in the list", r"\[Hasher\]\([^)]+\)", "Hasher"),
    ("a definition that no statement rests on", r"`be64`, ", "`be64`, `ending`, "),
    ("a module of the kit that is missing", r"`lib\.Dec`, ", ""),
    ("a file of statements without a link", r"walk/proofs/Statements\.antt", "walk/proofs/Steps.antt"),
    ("a missing section", r"DECISIONS\.md#format", "DECISIONS.md#formats"),
    ("a missing open point", r'"OP 9"', '"OP 99"'),
    ("a missing figure of the README", r'"a thread with 64 KiB"', '"a thread with 63 KiB"'),
    ("a command on a missing crate", r"`rt ci nerupazhil_c`", "`rt ci nerupazil_c`"),
    ("a command of another kind", r"`rt ci nerupazhil_c`", "`rt ic nerupazhil_c`"),
    ("a missing program", r"(?m)^bash \.ci/run$", "bash .ci/runs"),
    ("a public call that is not named", r"\[index::undo_record\]\([^)]+\)", "undo_record"),
    ("a function that asks something", r"\[index::check\]\([^)]+\)", "[entries::object_at](../crates/entries/src/record.rt)"),
    ("a refusal that is missing", r"(?m)^\| 14 \|.*\n", ""),
    ("a refusal twice", r"(?m)^\| 14 \|", "| 13 |"),
    ("a refusal with another's definition", r"(?m)^(\| 14 \|.*)\[read_data\]\([^)]+\)",
     r"\1[read_undo](../crates/format/specs/Reader.antt)"),
    ("a refusal without a definition", r"(?m)^(\| 14 \|.*)\[read_data\]\([^)]+\)", r"\1read_data"),
    ("a field that is missing", r"`subtrees`, `object` \|", "`object` |"),
    ("a field that is not there", r"`subtrees`, `object` \|", "`subtrees`, `object`, `mode` |"),
    ("a field twice", r"`subtrees`, `object` \|", "`subtrees`, `subtrees`, `object` |"),
    ("an answer that is missing", r"(?m)^\| \[NodeAnswer\].*\n", ""),
    ("a number of a reply that is missing", r"`checksum_left_out`, `later`", "`later`"),
    ("numbers of a reply that are exchanged", r"`has_tree`, `nodes`", "`nodes`, `has_tree`"),
    ("a reply that is missing", r"(?m)^\| `nerupazhil_node_reply` .*\n", ""),
    ("a reply that nothing pins", r"(?m)^(\| `nerupazhil_node_reply`.*?\|.*?\|) .*? (\|.*)$", r"\1 nothing \2"),
    ("a reply without a definition", r"(?m)^(\| `nerupazhil_node_reply`.*\| )\[node_reply\]\([^)]+\)", r"\1node_reply"),
    ("a variant that is missing", r"`InFile`, `InWorkspace`", "`InFile`"),
    ("fields that nothing pins", r"(?m)^(\| \[NodeAnswer\].*?\|.*?\|) .*? (\|.*)$", r"\1 nothing \2"),
    ("a call that answers a number and is missing", r"(?m)^\| \[rewrite\].*\n", ""),
    ("a number that nothing pins", r"(?m)^(\| \[start\].*?\|.*?\|) .*? (\|.*)$", r"\1 nothing \2"),
    ("a number without a value", r"(?m)^(\| \[start\].*\| )\[start_answer\]\([^)]+\)", r"\1no value"),
    ("no table of fields", r"## Every field of every answer", "## Fields"),
    ("no list of definitions", r"## The definitions", "## Definitions"),
)

# Edits of one source: where, what, old, new, said. Where nothing is said, the page is still right.
LAYOUT, HASH = assurance.RULE_OF_FILES[0], "crates/hash/src/lib.rt"
WRONG_SOURCES = (
    (LAYOUT, "lines that moved", r"\A", "-- one\n-- two\n", None),
    (LAYOUT, "a definition that is gone", r"(?m)^(.*\b)ok_mode( : .*)$", r"\1good_mode\2", "declares ok_mode 0 times"),
    (LAYOUT, "a definition that is declared twice", r"(?m)^(.*\bok_mode : .*)$", r"\1\n\1", "declares ok_mode 2 times"),
    (LAYOUT, "a new definition that a statement rests on", r"(?m)^(ok_mode .*)$", r"\1 new_mode\nnew_mode : Bool",
     "a statement rests on it"),
    (HASH, "an array of words that is too long", r"let mut w = load", "let v = [0u32; 80];\n    let mut w = load",
     "an array of 80 words"),
    (HASH, "an array of words of a length with a name", r"let mut w = load", "let v = [0; ROOM];\n    let mut w = load",
     "an array of ROOM words"),
)

# What the log of a crate says in place of what is right.
WRONG_LOGS = (
    ("a crate that is not proved", "format", "logic=not-proved"),
    ("a crate without a verdict", "format", ""),
    ("an axiom that the page does not tell", "index", "logic=proved functions=1 axioms=1"),
    ("a C function that the page does not tell", "index", "logic=proved functions=1 foreign=read"),
    ("another number of axioms", "list", "logic=proved functions=1 axioms=3"),
    ("an axiom that is gone", "list", "logic=proved functions=1"),
    ("another number of functions", "format", "logic=proved functions=2"),
)


def failures(page: assurance.Page) -> dict:
    """What is wrong, by the name of the test."""
    return {name: detail for name, good, detail in assurance.tests(page) if not good}


def load() -> str:
    with open(os.path.join(definitions.ROOT, assurance.PAGE), encoding="utf-8") as stream:
        return stream.read()


def pages(report: Report) -> None:
    text = load()
    known = failures(assurance.Page(text))
    rows = [(*row, "") for row in WRONG_FIGURES + WRONG_PAGES]
    for what, old, new, said in rows + list(WRONG_NAMES):
        wrong, edits = re.subn(old, new, text)
        noticed = failures(assurance.Page(wrong)).items() - known.items()
        good = edits > 0 and any(said in detail for _, detail in noticed)
        report.test(f"wrong page is noticed: {what}", good, f"{edits} edits", noticed)


def figures(report: Report) -> None:
    text = load()
    right = assurance.renewed(assurance.Page(text))
    for what, old, new in WRONG_FIGURES:
        again = assurance.renewed(assurance.Page(re.sub(old, new, text)))
        report.test(f"written anew: {what}", again == right)


@contextlib.contextmanager
def edited(path: str, text: str):
    """The repository with another text of one source."""
    read = definitions.lines_of
    cached = (definitions.declarations, definitions.owner, definitions.imports, definitions.headers, definitions.cited)

    def lines_of(one: str) -> tuple:
        return tuple(text.split("\n")) if one == path else read(one)

    with mock.patch.object(definitions, "lines_of", lines_of):
        for function in cached:
            function.cache_clear()
        yield
    for function in cached:
        function.cache_clear()


def sources(report: Report) -> None:
    page = load()
    known = failures(assurance.Page(page))
    for path, what, old, new, said in WRONG_SOURCES:
        text, edits = re.subn(old, new, "\n".join(definitions.lines_of(path)))
        with edited(path, text):
            noticed = failures(assurance.Page(page)).items() - known.items()
        good = any(said in detail for _, detail in noticed) if said else not noticed
        report.test(f"source: {what}", edits == 1 and good, f"{edits} edits", noticed)


def write_logs(folder: str, said: dict) -> None:
    """A log for each crate: what is said of it, else that it is proved and rests on what the page tells."""
    for crate in assurance.crates():
        line = {"list": "logic=proved functions=1 axioms=5", "hash_examples": "logic=proved functions=1 axioms=3"}
        with open(os.path.join(folder, f"{crate}.say"), "w", encoding="utf-8") as stream:
            stream.write(said.get(crate, line.get(crate, "logic=proved functions=1")) + "\n")


def logs(report: Report) -> None:
    text = re.sub(r"\d+ functions proved", f"{len(assurance.crates())} functions proved", load())
    known = failures(assurance.Page(text))
    rows = (("nothing", "format", "logic=proved functions=1"),) + WRONG_LOGS
    for what, crate, line in rows:
        with tempfile.TemporaryDirectory() as folder:
            write_logs(folder, {crate: line})
            noticed = failures(assurance.Page(text, folder)).items() - known.items()
        report.same(f"wrong log is noticed: {what}", what != "nothing", bool(noticed))


def citing(report: Report) -> None:
    """What is known of the repository's definitions."""
    layout, reader = assurance.RULE_OF_FILES[0], "crates/format/specs/Reader.antt"
    statements = "crates/demands/proofs/Statements.antt"
    behind = definitions.closure([(statements, "Demand3")])
    for one in ((layout, "Spells"), (reader, "read_file"), (layout, "IsEntry"), ("crates/answers/src/lib.rt", "Summary")):
        report.test(f"Demand3 rests on {one[1]}", one in behind)
    spelling = definitions.closure([(layout, "Spells")])
    report.test("Spells does not rest on read_file", (reader, "read_file") not in spelling)
    records = "crates/format/specs/Records.antt"
    report.same("a constructor is its type's", "Count", definitions.owner(records, "invalid"))
    demands = "crates/demands/proofs/Demands.antt"
    cited = definitions.cited(demands, "sha1-demands")
    report.test("a theorem cites its type", (demands, "Demands") in cited)
    report.test("a theorem does not cite its proof", not any(name == "every-kind" for _, name in cited))
    for path, name in ((layout, "Spell"), (statements, "Demand3.cut"), ("crates/none/src/lib.rt", "none")):
        try:
            report.test(f"{name} is not there", False, definitions.line_of(path, name))
        except LookupError:
            report.test(f"{name} is not there", True)


def noticed(report: Report) -> None:
    for group in (pages, figures, sources, logs, citing):
        group(report)
