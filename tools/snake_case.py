#!/usr/bin/env python3
"""Brings the repository's own names in specs/ and proofs/ to snake case, as the installed Rattle spells words: `nodeFrom` and `node-from`
become `node_from`. Types, modules, constructors of the source, functions of src/, strings and names of the library keep their spelling.

usage: tools/snake_case.py [--say]      at the top of the repository, once, after the kit's port.py; --say only lists what would be renamed
"""

import collections
import glob
import os
import re
import sys

TOKEN = re.compile(r"(?<![\w'≢-])[A-Za-z][\w'≢-]*(?<!-)")
IMPORT = re.compile(r"\s*(?:ghost |pub )*use ([\w.+-]+)\.\{(.*)\};?$")
DEFINED = re.compile(r"\s*(?:(?:pub|abbrev|unfoldable|data|record)\s+)*([^\s:(){}]+)(?:\s+[({][^:]*)?\s*:\s")
OWN = re.compile(r"Rattle\.(?!std\b|core\b|logic\b|libc\b|io\b)")

# Lemmas and fields whose names would fall together with the definition's that they speak of.
LEMMAS = {
    "call-at": "run_call_at",
    "starts-at": "run_starts_at",
    "wait-at": "run_wait_at",
    "waits-of": "all_waits",
    "entry-at": "entry_at_lem",
    "four-held": "four_held_lem",
    "good-counts": "good_counts_lem",
    "has-point": "has_point_lem",
    "refused-text": "refused_text_lem",
    "start-arena": "start_arena_lem",
    "turn-arena": "turn_arena_lem",
    "turn-event": "turn_event_lem",
    "wait-words": "wait_words_lem",
}

# The same for names that are in snake case already, by file.
FELL_TOGETHER = {
    "crates/lazy/proofs/FreeLaws.antt": {"not_free": "not_free_lem"},
    "crates/linear/proofs/LentLaws.antt": {"in_order": "begins_sound"},
    "crates/linear/proofs/Openings.antt": {"in_order": "in_order_lem"},
    "crates/linear/proofs/Timeline.antt": {"in_order": "begins_sound"},
    "crates/linear/proofs/TrueSnapshots.antt": {"is_key": "good_key"},
}


def snake(name):
    return re.sub(r"(?<=[a-z0-9])[A-Z]", lambda m: "_" + m[0].lower(), name.replace("-", "_"))


def is_odd(name):
    """Not in snake case, and not the name of a type."""
    return "-" in name or (name[0].islower() and re.search("[a-z0-9][A-Z]", name) is not None)


def uncommented(line):
    return "" if line.lstrip().startswith("--") else line.split(" -- ")[0]


def lines_of(path):
    with open(path, encoding="utf-8") as file:
        return file.read().split("\n")


def imported(path):
    """The names that a file takes from the library."""
    found = set()
    for line in lines_of(path):
        m = IMPORT.match(line)
        if m and not OWN.match(m[1] + "."):
            found.update(name.split(" as ")[-1].strip() for name in m[2].split(","))
    return found


def own_files():
    return sorted(glob.glob("crates/*/specs/*.antt") + glob.glob("crates/*/proofs/*.antt"))


def names():
    """Every odd name of the files of definitions and lemmas that is not the library's, with its new spelling."""
    found = set()
    for path in own_files():
        library = imported(path)
        for line in lines_of(path):
            if not IMPORT.match(line):
                found.update(n for n in TOKEN.findall(uncommented(line)) if is_odd(n) and n not in library)
    return {name: LEMMAS.get(name, snake(name)) for name in found}


def renamed(path, new):
    """The text of a file with its names renamed: in code, and in comments between backticks."""
    new = new | FELL_TOGETHER.get(path, {})
    library = imported(path)
    swap = lambda m: new[m[0]] if m[0] in new and m[0] not in library else m[0]
    quoted = lambda m: TOKEN.sub(swap, m[0])
    out = []
    for line in lines_of(path):
        m = IMPORT.match(line)
        mark = "//" if path.endswith(".rt") else "--"
        if m and not OWN.match(m[1] + "."):
            out.append(line)
        elif line.lstrip().startswith(mark):
            out.append(re.sub(r"`[^`]*`", quoted, line))
        else:
            out.append(TOKEN.sub(swap, line))
    return "\n".join(out)


def main(argv):
    new = names()
    functions = [p for p in glob.glob("crates/*/proofs/**/*.antt", recursive=True) if p not in set(own_files())]
    paths = own_files() + sorted(functions) + sorted(glob.glob("crates/*/src/*.rt"))
    if argv == ["--say"]:
        for name in sorted(new):
            print(name, new[name])
        return 0
    for path in paths:
        text = renamed(path, new)
        with open(path, "w", encoding="utf-8") as file:
            file.write(text)
    return 0


if __name__ == "__main__":
    raise SystemExit(main(sys.argv[1:]))
