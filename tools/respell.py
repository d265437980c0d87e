#!/usr/bin/env python3
"""Brings the repository's own definitions and lemmas to the spelling of the newer toolchain.

usage: python3 tools/respell.py        at the top of the repository, once, after the toolchain's own script

Words are joined by `_`; a dash stays only between the names of two functions, as in `length-put`. A fact, which is
a type, is in camel case. Names in src/, exported names, strings and must-fail edits keep their spelling, but for the
clauses in src/ that name a definition. Refuses, and changes nothing, where two names of one file would become one.
"""

import glob
import re
import sys

# Functions of specs/ and of the standard library that lemmas are named after.
FUNCTIONS = {
    "length", "map", "take", "drop", "append", "get_or", "lookup", "put", "remove", "canon", "sorted", "distinct",
    "below", "flat", "written", "insert", "total", "replicate",
}
# Where two names would become one: the lemma gives way.
CLASHES = {"rule-of": "rule_of_lem", "row-of": "row_of_lem", "first-digit": "first_digit_lem"}
# The same, where the toolchain's own script had respelled the lemma; these stand in proofs/ of the crate alone.
GIVEN_WAY = {"crates/grammar/proofs/": {"digit_value": "digit_value_lem"}}

TOKEN = re.compile(r"[^\s(){}\[\].,;\"]+")
DEFINED = re.compile(
    r"^ *(?:abbrev |unfoldable )?(?:pub )?(?:abbrev |unfoldable )?([^\s(){}:.,;@\"\u03bb]+)(?= : )(.*)$", re.M
)
HEAD = re.compile(r"^ *(?:abbrev |unfoldable )?(?:pub )?(?:abbrev |unfoldable )?(?:record|data) ([^\s(){}:]+)", re.M)


def files():
    found = []
    for folder in ("specs", "proofs"):
        found += glob.glob(f"crates/*/{folder}/**/*.antt", recursive=True)
    return sorted(found)


def respelled(name):
    """The name in today's spelling, or the name itself."""
    if name in CLASHES:
        return CLASHES[name]
    if not re.fullmatch(r"[A-Za-z_][A-Za-z0-9_'-]*", name):
        return name
    parts = name.split("-")
    if name[0].isupper():
        return parts[0] + "".join(p[:1].upper() + p[1:] for p in parts[1:])
    parts = [re.sub(r"(?<=[a-z0-9])([A-Z])", lambda m: "_" + m.group(1).lower(), p) for p in parts]
    text = parts[0]
    for before, part in zip(parts, parts[1:]):
        text += ("-" if before in FUNCTIONS and part in FUNCTIONS else "_") + part
    return text


def definitions():
    """Each name that the repository defines and that changes, with its new spelling."""
    changed = {}
    for path in files():
        with open(path, encoding="utf-8") as f:
            text = f.read()
        for match in DEFINED.finditer(text):
            name, rest = match.group(1), match.group(2)
            if "goal." in rest or name in ("use", "unfolding", "module"):
                continue
            new = respelled(name)
            if new != name:
                changed[name] = new
        for match in HEAD.finditer(text):
            new = respelled(match.group(1))
            if new != match.group(1):
                changed[match.group(1)] = new
    return changed


def functions():
    """The names of the functions of src/. A definition may have a function's name: a clause can't call the function."""
    found = set()
    for path in glob.glob("crates/*/src/**/*.rt", recursive=True):
        with open(path, encoding="utf-8") as f:
            found |= set(re.findall(r"\bfn (\w+)", f.read()))
    return found


def turned(text, changed):
    return TOKEN.sub(lambda m: changed.get(m.group(0), m.group(0)), text)


def main():
    everywhere = definitions()
    called = functions()
    sources = sorted(glob.glob("crates/*/src/**/*.rt", recursive=True))
    after = {}
    clashes = 0
    for path in files() + sources:
        with open(path, encoding="utf-8") as f:
            text = f.read()
        changed = dict(everywhere)
        for folder, names in GIVEN_WAY.items():
            if path.startswith(folder):
                changed.update(names)
        # A file of src/, or of the proof of one function, names functions beside definitions.
        beside = path.endswith((".rt", "/Answers.antt", "/Invariants.antt"))
        tokens = set(TOKEN.findall(text))
        made = {}
        for token in tokens:
            made.setdefault(changed.get(token, token), set()).add(token)
        for new, old in sorted(made.items()):
            if len(old) > 1 and not (beside and new in called):
                print(f"{path}: {' and '.join(sorted(old))} would both be {new}", file=sys.stderr)
                clashes += 1
        new_text = turned(text, changed)
        if new_text != text:
            after[path] = new_text
    if clashes:
        return 1
    for path, text in after.items():
        with open(path, "w", encoding="utf-8") as f:
            f.write(text)
    for old, new in sorted(everywhere.items()):
        print(f"{old} {new}")
    print(f"{len(everywhere)} names, {len(after)} files")
    return 0


if __name__ == "__main__":
    sys.exit(main())
