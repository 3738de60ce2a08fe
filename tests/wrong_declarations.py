"""Wrong declarations: edits of the boundary in Rattle, Rust and C that run_c.py must notice.

    edits(language, text)    the rows (what is wrong, the edited source)

Of each function, and of each struct of C, each parameter or member is left out, changes its place with the next, or
gets another type or name. The array that ends a struct is shorter or longer, or has the member before it as its first
number, as it had before this number was given a name.
"""

import re

import declarations

MISTAKES = {  # what is replaced by what in a parameter
    "Rattle": (
        (r"&mut ", "&"), (r"&(?=\[)", "&mut "), (r"\[u8\]", "[u8; 20]"), (r"; \d+\]", "]"), (r"; (\d+)\]", r"; 1\1]"),
        (r"u64", "u32"), (r"u32", "u64"), (r"u8", "u32"), (r"usize", "u32"), (r": ", "s: "),
    ),
    "Rust": (
        (r"\*mut", "*const"), (r"\*const", "*mut"), (r" u8", " [u8; 20]"), (r"\[(u\d+);.*", r"\1"),
        (r"; \w+\]", "; 21]"), (r"u64", "u32"), (r"u32", "u64"), (r"u8", "u32"), (r"usize", "u32"), (r": ", "s: "),
    ),
    "C": (
        (r"const ", ""), (r"(?<!const )(uint8_t|struct \w+) \*", r"const \1 *"), (r"\*", ""), (r"\*", "**"),
        (r"uint32_t", "uint64_t"), (r"uint32_t", "size_t"), (r"uint8_t", "uint32_t"), (r"size_t", "uint32_t"),
        (r"\w+_reply", "nerupazhil_fields"), (r"struct \w+", "uint64_t"), (r"(\w)$", r"\1s"),
    ),
}
RESULTS = {"Rattle": (r"\)\n", ") -> u32\n"), "Rust": (r"\);", ") -> u32;"), "C": (r"\nvoid", r"\nuint32_t")}
MEMBERS = (
    (r"uint64_t", "uint32_t"), (r"uint32_t", "uint64_t"), (r"\[6\]", "[5]"), (r"\[6\]", "[7]"),
    (r"struct \w+", "uint64_t"),
)


def edits(language: str, text: str):
    for found in re.finditer(declarations.FUNCTION[language], text):
        name = found["name"]
        yield f"{name} is missing", text[: found.start()] + "\n" + text[found.end() :]
        yield f"{name} has a result", text[: found.start()] + with_result(language, found[0]) + text[found.end() :]
        rows = declarations.split(found["rows"])
        for what, wrong in wrong_rows(rows, MISTAKES[language]):
            yield f"{name}: {what}", text[: found.start("rows")] + ", ".join(wrong) + text[found.end("rows") :]
    for name in declarations.SHARED[language]:
        before = rf"(\bconst {name}: \w+ = |#define NERUPAZHIL_{name} )"
        yield f"{name} is another number", re.sub(before, r"\g<1>1", text, count=1)
    if language == "C":
        yield from wrong_structs(text)


def with_result(language: str, function: str) -> str:
    old, new = RESULTS[language]
    return re.sub(old, new, function, count=1)


def wrong_rows(rows: list, mistakes: tuple):
    """Parameters or members, with one mistake."""
    for k, row in enumerate(rows):
        yield f"no '{row}'", rows[:k] + rows[k + 1 :]
        if k + 1 < len(rows):
            yield f"'{row}' and '{rows[k + 1]}' exchanged", rows[:k] + [rows[k + 1], row] + rows[k + 2 :]
        for old, new in mistakes:
            wrong = re.sub(old, new, row, count=1)
            if wrong != row:
                yield f"'{wrong}' for '{row}'", rows[:k] + [wrong] + rows[k + 1 :]


def wrong_structs(text: str):
    for found in re.finditer(declarations.STRUCT, text, re.DOTALL):
        members = re.findall(r"\n +(\w.*?;)", found[2])
        rows = list(wrong_rows(members, MEMBERS))
        rows += [("one more member", members[:k] + ["uint64_t more;"] + members[k:]) for k in range(len(members) + 1)]
        if "[6]" in members[-1]:
            rows.append((f"no name for '{members[-2]}'", members[:-2] + [members[-1].replace("[6]", "[7]")]))
        for what, wrong in rows:
            yield f"{found[1]}: {what}", text[: found.start(2)] + "\n".join(["", *wrong]) + text[found.end(2) :]
