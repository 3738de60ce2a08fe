"""What the sources declare, and which definitions a statement rests on.

Reads antt (`*.antt`) and Rattle (`*.rt`) files of the repository as text. A declaration is the lines from its name to
the next one. It cites every name in it that its file declares or imports; a variable that is spelled like a definition
counts as that definition, so what is said to be cited is never too little.

A definition is a pair of its file and its name; what comes from the kit is a pair of None and the kit's module. A library
of the kit and a crate of the repository are named in one way: what crates/ has is the repository's.
"""

import functools
import glob
import os
import re

ROOT = os.path.dirname(os.path.dirname(os.path.abspath(__file__)))

WORDS = r"(?:(?:abbrev|unfoldable|pub)\s+)*"
SIGNATURE = re.compile(rf"^( *){WORDS}(?:(?:record|data)\s+)?([^\s(){{}}:]+)(?:\s*[({{].*[)}}])*\s*:(?:\s|$)")
DEFINITION = re.compile(r"^ *(?:pub\s+)?(?:abbrev|unfoldable|record|data)\b")
MODULE = re.compile(r"^( *)module\s+_\s.*\bwhere$")
ITEM = re.compile(r"^(?:pub )?(?:extern \"C\" )?(?:fn|struct|enum|const|trait|type) ([A-Za-z_0-9]+)")
FUNCTION = re.compile(r"^(?:pub )?(?:extern \"C\" )?fn ")
IMPORT = re.compile(r"^(?:ghost )?use (\S+?)(?:\.\{(.*)\}| as (\S+?))?;?$")
PROVED_MODULE = re.compile(r"^Rattle\.([a-z0-9_]+)\.(specs|proofs)\.(.+)$")
RATTLE_ITEMS = re.compile(r"^use ([a-z0-9_]+)::(?:[a-z0-9_]+::)*(?:([A-Za-z0-9_]+)|\{([^{}]*)\});", re.M)


@functools.lru_cache(maxsize=None)
def lines_of(path: str) -> tuple:
    """The lines of a file of the repository; LookupError where there is none."""
    try:
        with open(os.path.join(ROOT, path), encoding="utf-8") as stream:
            return tuple(stream.read().splitlines())
    except OSError:
        raise LookupError(f"{path} is not there") from None


# ---- declarations


def starts(path: str) -> list:
    """Where the declarations of a file begin: the number of lines before each, and its name."""
    if path.endswith(".rt"):
        return [(at, match[1]) for at, match in enumerate(map(ITEM.match, lines_of(path))) if match]
    found, depths = [], {0}
    for at, line in enumerate(lines_of(path)):
        opened, signature = MODULE.match(line), SIGNATURE.match(line)
        if opened:
            depths.add(len(opened[1]) + 2)
        elif signature and len(signature[1]) in depths and not line.startswith(("use ", "--")):
            found.append((at, signature[2]))
    return found


@functools.lru_cache(maxsize=None)
def declarations(path: str) -> dict:
    """The lines of each declaration of a file, by its name, without comments and what is blank."""
    lines, begins = lines_of(path), starts(path)
    ends = [at for at, _ in begins[1:]] + [len(lines)]
    return {name: kept(path, lines[at:end]) for (at, name), end in zip(begins, ends)}


def kept(path: str, lines: tuple) -> list:
    """The lines that belong to a declaration, of those up to the next one."""
    if path.endswith(".rt") and "}" in lines:
        lines = lines[: lines.index("}") + 1]
    bare = [re.sub(r"(^|\s)(--|//)(\s.*)?$", "", line).rstrip() for line in lines]
    return [line for line in bare if line and not MODULE.match(line)]


def parts_of(name: str) -> tuple:
    """The crate, the declaration and the field of a name: 'c::f' has no field, 'A.b' no crate."""
    path, _, last = name.rpartition("::")
    whole, _, field = last.partition(".")
    return path.partition("::")[0], whole, field


def line_of(path: str, name: str) -> int:
    """The line, from 1, that declares a name; LookupError where not exactly one does."""
    crate, whole, field = parts_of(name)
    if crate and not path.startswith(f"crates/{crate}/"):
        raise LookupError(f"{path} is no file of the crate of {name}")
    begins = starts(path)
    found = [at for at, declared in begins if declared == whole]
    if len(found) != 1:
        raise LookupError(f"{path} declares {whole} {len(found)} times")
    if not field:
        return found[0] + 1
    end = min((at for at, _ in begins if at > found[0]), default=len(lines_of(path)))
    declares = re.compile(rf"^ +(?:pub )?{re.escape(field)} :")
    fields = [at for at in range(found[0] + 1, end) if declares.match(lines_of(path)[at])]
    if len(fields) != 1:
        raise LookupError(f"{path} declares {name} {len(fields)} times")
    return fields[0] + 1


def statement(path: str, name: str) -> list:
    """What a declaration says: a function its contract, a theorem its type, a definition all of it."""
    text = declarations(path)[name]
    if path.endswith(".rt"):
        return text[: text.index("{")] if FUNCTION.match(text[0]) else text
    if DEFINITION.match(text[0]) or "/specs/" in path:
        return text
    proof = re.compile(rf"^ *(?:unfolding\b|{re.escape(name)}(?:\s.*)?\s=)")
    return text[: next((at for at, line in enumerate(text) if proof.match(line)), len(text))]


# ---- imports


def place_of(module: str) -> tuple:
    """The file of a module and, for a type that Rattle declares, its name; no file for a module of the kit."""
    match = PROVED_MODULE.match(module)
    if not match or not is_crate(match[1]):
        return None, None
    crate, folder, rest = match.groups()
    if rest.startswith("declared."):
        name = next(part for part in rest.split(".")[1:] if part[0].isupper())
        return item_file(crate, name), name
    return f"crates/{crate}/{folder}/{rest.replace('.', '/')}.antt", None


def is_crate(name: str) -> bool:
    """Whether a library is a crate of the repository, and not one of the kit."""
    return os.path.isdir(os.path.join(ROOT, "crates", name))


def item_file(crate: str, name: str) -> str:
    """The Rattle file of a crate that declares this type or function."""
    files = glob.glob("**/*.rt", root_dir=os.path.join(ROOT, "crates", crate, "src"), recursive=True)
    paths = [f"crates/{crate}/src/{file}" for file in sorted(files)]
    found = next((path for path in paths if name in declarations(path)), None)
    if found is None:
        raise LookupError(f"crate {crate} declares no {name}")
    return found


def target(module: str, name: str) -> tuple:
    """The definition that a name of a module means."""
    path, item = place_of(module)
    if path is None:
        return None, module
    return path, item or owner(path, name)


@functools.lru_cache(maxsize=None)
def owner(path: str, name: str) -> str:
    """The declaration of a file to which a name belongs: a constructor to its type, any other to itself."""
    constructor = re.compile(rf"^ +{re.escape(name)} :")
    types = (one for one, text in declarations(path).items() if any(map(constructor.match, text[1:])))
    return name if name in declarations(path) else next(types, name)


@functools.lru_cache(maxsize=None)
def imports(path: str) -> tuple:
    """What a file imports: definitions by their names there, and modules by their aliases."""
    names, aliases = {}, {}
    for match in filter(None, map(IMPORT.match, lines_of(path))):
        module, listed, alias = match.groups()
        if alias:
            aliases[alias] = module
        for part in filter(None, (listed or "").split(", ")):
            name, _, other = part.partition(" as ")
            names[other or name] = target(module, name)
    for crate, one, several in items(path):
        for name in filter(None, re.split(r"[\s,]+", one or several)):
            names[name] = (item_file(crate, name), name)
    return names, aliases


def items(path: str):
    """What a Rattle file imports of the repository's crates: the crate, and a name or a list of names."""
    for crate, one, several in RATTLE_ITEMS.findall("\n".join(lines_of(path)) if path.endswith(".rt") else ""):
        crate = path.split("/")[1] if crate == "crate" else crate
        if is_crate(crate):
            yield crate, one, several


# ---- what is cited


def words(text: list) -> set:
    """The names in some lines, operators as they are imported. A field of a record, '.name', is none; what it is of is one."""
    found = re.split(r"[\s(){};,⌜⌝&<>\[\]]+", " ".join(text))
    found = {word.rstrip(".:") for word in found if not word.startswith(".")} - {""}
    return found | {f"◌{word}◌" for word in found} | {word.partition(".")[0] for word in found}


@functools.lru_cache(maxsize=None)
def headers(path: str) -> list:
    """The lines that give the declarations of an antt file their common parameters."""
    return [line for line in lines_of(path) if MODULE.match(line)]


@functools.lru_cache(maxsize=None)
def cited(path: str, name: str) -> set:
    """The definitions that the statement of a declaration names."""
    names, aliases = imports(path)
    found = set()
    for word in words(statement(path, name) + headers(path)):
        alias, _, rest = word.partition(".")
        if rest and alias in aliases:
            found.add(target(aliases[alias], rest))
        elif owner(path, word) in declarations(path):
            found.add((path, owner(path, word)))
        elif word in names:
            found.add(names[word])
    return found - {(path, name)}


def closure(roots) -> set:
    """All that some declarations rest on, themselves included."""
    found, wanted = set(), list(roots)
    while wanted:
        one = wanted.pop()
        if one not in found:
            found.add(one)
            wanted.extend(cited(*one) if one[0] else ())
    return found


def size(definitions) -> int:
    """How many lines some definitions have."""
    return sum(len(declarations(path)[name]) for path, name in definitions if path)
