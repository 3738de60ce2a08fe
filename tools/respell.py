#!/usr/bin/env python3
"""Brings the repository's own definitions and lemmas to snake case, once, after the kit's port.py.

usage: python3 tools/respell.py      at the top of the repository

- A word that begins in lower case and has a capital, as okTreeCounts, becomes ok_tree_counts, also as a part of a name with dashes.
- A field or a constructor with dashes, as two-to-four, gets underscores.
- A lemma that would have the new name of a definition gets _lem behind its name. Two local names that would hide one get another.

It goes over the .antt and .rt files of crates/. Functions, strings, inputs and outputs have no such words and stay.
It prints each pair of names that fall together, and ends with 1 if there is one that is not told here.
"""

import glob
import re
import sys

WORD = re.compile(r"[A-Za-z_][\w'?]*(?:-[\w'?]+)*")
CAMEL = re.compile(r"^[a-z][a-z0-9]*[A-Z]")
# lemmas that a definition's new name would hide
LEMMAS = ["node_at", "part_in", "read_count", "read_name", "read_plain", "read_one", "same_key"]
# fields of a record that is local to one file, where a definition of that name is used beside them
LOCAL = {
    "crates/entries_edit/proofs/Rests.antt": {"any_word": "word_known"},
    "crates/file_write/proofs/Files.antt": {"version_of": "version_known"},
}
# fields whose new name a definition beside them has
FIELDS = {"is-valid": "says_valid"}
# definitions whose new name a function, a variable or a field of another type has too: they stand in different scopes
TOLD = set(LEMMAS) | {n for it in LOCAL.values() for n in it} | set(
    """assume_valid by_length cache_tree check_reply checksum_in count_after count_in entry_length field_numbers given_fields
    has_name intent_to_add is_below is_left_out is_present is_wrong last_key length_below length_field mode_in next_slot no_fields
    node_reply object_length place_after plain_length put_record read_entry read_extension read_extensions read_fixed read_mode
    read_modes read_n read_nodes read_stages read_subtrees read_tree read_undo read_undos record_number refused_entry refused_node
    refused_undo resolve_undo shown_reply skip_worktree slash_below start_reply step_key step_reply undo_reply version_for
    write_reply is_file undo_at""".split()
)


def snake(part):
    return re.sub(r"([a-z0-9])([A-Z])", r"\1_\2", part).lower() if CAMEL.match(part) else part


def respelled(word):
    return "-".join(snake(it) for it in word.split("-"))


def files():
    return sorted(
        glob.glob("crates/*/specs/**/*.antt", recursive=True)
        + glob.glob("crates/*/proofs/**/*.antt", recursive=True)
        + glob.glob("crates/*/src/**/*.rt", recursive=True)
    )


def renamed(text, old, new, fields=False):
    before = r"(?<![\w'-])" if fields else r"(?<![\w'.-])"
    return re.sub(before + re.escape(old) + r"(?![\w'-])", new, text)


def fields_with_dashes(texts):
    found = set()
    for path, text in texts.items():
        if not path.endswith(".antt"):
            continue
        for block in re.finditer(r"(?m)^(?:pub )?(?:record|data) .*\n(?:(?:[ \t]+.*)?\n)*", text):
            for line in re.finditer(r"(?m)^  (?:pub )?([a-z][\w'?]*(?:-[\w'?]+)+) :", block.group()):
                found.add(line.group(1))
    return found


def main():
    texts = {p: open(p, encoding="utf-8").read() for p in files()}
    for path, names in LOCAL.items():
        for old, new in names.items():
            texts[path] = renamed(texts[path], old, new, fields=True)
    for name in LEMMAS:
        declares = re.compile(rf"(?m)^(?:pub )?{name} :")
        imports = re.compile(rf"(?m)^(?:pub )?use [^\n]*\{{(?:[^}}\n]*, )?{name}(?:, [^}}\n]*)?\}}")
        for path, text in texts.items():
            if path.endswith(".antt") and "/proofs/" in path and (declares.search(text) or imports.search(text)):
                texts[path] = renamed(text, name, name + "_lem")
    dashed = {it: FIELDS.get(it) or respelled(it).replace("-", "_") for it in fields_with_dashes(texts)}
    words = {w for t in texts.values() for w in WORD.findall(t)}
    new = {w: respelled(w) for w in words if respelled(w) != w} | dashed
    status = 0
    by_new = {}
    for old in sorted(new):
        by_new.setdefault(new[old], []).append(old)
    for name, olds in sorted(by_new.items()):
        if len(olds) > 1 or (name in words and name not in TOLD):
            print("fall together:", name, olds)
            status = 1
    for path, text in texts.items():
        turned = WORD.sub(lambda m: new.get(m.group(), m.group()), text)
        old = open(path, encoding="utf-8").read()
        if turned != old:
            with open(path, "w", encoding="utf-8") as f:
                f.write(turned)
    print(len(new), "names respelled")
    return status


if __name__ == "__main__":
    sys.exit(main())
