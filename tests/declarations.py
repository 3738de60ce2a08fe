"""The declarations of the library's boundary in Rattle, Rust and C, brought to one form so that they can be compared.

    texts()                     the sources, by language
    read(language, text)        what a source declares
    differences(left, right)    rows of what should be equal: (what, of the one, of the other)

The form is that of Rust: a function is its result and a list of (parameter, type), and a slice of Rattle is two
parameters. A struct of C is the array of its numbers. A pointer to bytes of C that no length follows is an array: of
a digest's bytes in a hash function, else of NERUPAZHIL_OBJECT.
"""

import glob
import os
import re
from typing import NamedTuple

ROOT = os.path.join(os.path.dirname(os.path.abspath(__file__)), "..")
SOURCES = {
    "Rattle": ("crates/nerupazhil_c/src/*.rt", "crates/kinds/src/lib.rt"),
    "Rust": ("rust/src/raw.rs",),
    "C": ("c/include/nerupazhil.h",),
}

CALL = r"(?P<name>nerupazhil_\w+)\((?P<rows>[^)]*)\)"
FUNCTION = {
    "Rattle": rf'#\[unsafe\(no_mangle\)\]\npub extern "C" fn {CALL}(?: -> (?P<result>\w+))?\n',
    "Rust": rf"\n    pub fn {CALL}(?: -> (?P<result>\w+))?;",
    "C": rf"\n(?P<result>\w[\w ]*?) {CALL};",
}
CONSTANT = {
    "Rattle": r"\n(?:pub )?const (\w+): \w+ = (\d+);",
    "Rust": r"\npub const (\w+): \w+ = (\d+);",
    "C": r"\n#define NERUPAZHIL_(\w+) (\d+)u\b",
}
SHARED = {  # the constants of each that are compared
    "Rattle": ("SHA1", "SHA256"),
    "Rust": ("SHA1", "SHA256", "DIGEST", "DIGEST_SHA256", "OBJECT", "WORKSPACE", "VERSION_DEFAULT", "VERSION_LOWEST"),
    "C": ("SHA1", "SHA256", "DIGEST", "DIGEST_SHA256", "OBJECT", "WORKSPACE", "VERSION_DEFAULT", "VERSION_LOWEST"),
}
DIGESTS = {"nerupazhil_sha1": "DIGEST", "nerupazhil_sha256": "DIGEST_SHA256"}  # the length of what each writes
STRUCT = r"\nstruct nerupazhil_(\w+) \{(.*?)\n\};"
TYPES = {"uint64_t": "u64", "uint32_t": "u32", "uint8_t": "u8", "size_t": "usize", "void": "()"}
LENGTHS = {"bytes": "length"}  # the length of a slice is called NAME_length, but for this one


class Declared(NamedTuple):
    constants: dict  # name: number
    functions: dict  # name: (result, [(parameter, type), ...])


def texts() -> dict:
    result = {}
    for language, patterns in SOURCES.items():
        result[language] = ""
        for path in sorted(path for pattern in patterns for path in glob.glob(os.path.join(ROOT, pattern))):
            with open(path, encoding="utf-8") as stream:
                result[language] += stream.read()
    return result


def read(language: str, text: str) -> Declared:
    text = without_comments(language, text)
    found = {name: int(number) for name, number in re.findall(CONSTANT[language], text)}
    constants = {name: found.get(name) for name in SHARED[language]}
    structs = structs_of(text)
    functions = {}
    for one in re.finditer(FUNCTION[language], text):
        rows = PARAMETERS[language](one, constants, structs)
        functions[one["name"]] = (TYPES.get(one["result"] or "void", one["result"]), rows)
    return Declared(constants, functions)


def without_comments(language: str, text: str) -> str:
    return re.sub(r"/\*.*?\*/" if language == "C" else r" *//[^\n]*", "", text, flags=re.DOTALL)


def split(rows: str) -> list:
    """Parameters as they are spelled, with single blanks."""
    return [part for part in (" ".join(row.split()) for row in rows.split(",")) if part]


def differences(left: Declared, right: Declared):
    yield "the names of the functions", sorted(left.functions), sorted(right.functions)
    for name, declared in left.functions.items():
        yield name, declared, right.functions.get(name)
    for name, number in left.constants.items():
        if name in right.constants:
            yield name, number, right.constants[name]


# ---- Rattle and Rust


def rattle_parameters(function: re.Match, _constants: dict, _structs: dict) -> list:
    result = []
    for row in split(function["rows"]):
        name, kind = row.split(": ", 1)
        kind = re.sub(r"^&(?=\[)", "*const ", re.sub(r"^&mut (?=\[)", "*mut ", kind))
        part = re.fullmatch(r"(\*\w+ )\[(\w+)\]", kind)
        if part:
            result += [(name, part[1] + part[2]), (LENGTHS.get(name, f"{name}_length"), "usize")]
        else:
            result.append((name, kind))
    return result


def rust_parameters(function: re.Match, constants: dict, _structs: dict) -> list:
    rows = (row.split(": ", 1) for row in split(function["rows"]))
    return [(name, re.sub(r"\b[A-Z]\w+\b", lambda one: str(constants.get(one[0])), kind)) for name, kind in rows]


# ---- C


def structs_of(text: str) -> dict:
    """The structs of a header without comments, as lists of numbers: (the members that lead to one, its type). A struct
    stands after those that it has as members."""
    structs = {}
    for name, members in re.findall(STRUCT, text, re.DOTALL):
        structs[name] = [number for member in members.split(";")[:-1] for number in numbers_of(member, structs)]
    return structs


def numbers_of(member: str, structs: dict) -> list:
    kind, name, count = re.fullmatch(r"(.*?) ?(\w+)(?:\[(\d+)\])?", " ".join(member.split())).groups()
    if count:
        return [(f"{name}[{k}]", kind) for k in range(int(count))]
    inner = structs.get(kind.removeprefix("struct nerupazhil_"))
    return [(f"{name}.{number}", one) for number, one in inner] if inner else [(name, kind)]


def spelled(text: str) -> dict:
    """The types of the parameters of each function of a header without comments."""
    found = re.finditer(FUNCTION["C"], text)
    return {one["name"]: [re.sub(r" ?\w+$", "", row) for row in split(one["rows"])] for one in found}


def array(numbers: list) -> str:
    """The array that a struct is; all of its types where these differ."""
    kinds = [TYPES.get(kind, kind) for _, kind in numbers]
    return f"[{kinds[0]}; {len(kinds)}]" if len(set(kinds)) == 1 else str(kinds)


def c_parameters(function: re.Match, constants: dict, structs: dict) -> list:
    result, rows = [], split(function["rows"])
    for row, following in zip(rows, rows[1:] + [""]):
        kind, name = re.fullmatch(r"(.*\W)(\w+)", row).groups()
        pointer = re.fullmatch(r"(const )?(uint8_t|struct nerupazhil_(\w+)) \*", kind)
        if not pointer:
            result.append((name, TYPES.get(kind.strip(), kind)))
            continue
        if pointer[3]:
            target = array(structs[pointer[3]])
        elif following == f"size_t {LENGTHS.get(name, f'{name}_length')}":
            target = "u8"
        else:
            target = f"[u8; {constants[DIGESTS.get(function['name'], 'OBJECT')]}]"
        result.append((name, f"*{'const' if pointer[1] else 'mut'} {target}"))
    return result


PARAMETERS = {"Rattle": rattle_parameters, "Rust": rust_parameters, "C": c_parameters}
