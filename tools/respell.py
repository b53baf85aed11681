#!/usr/bin/env python3
"""Spells the repository's own definitions and lemmas as today's Rattle does.

Run once, at the top, after the kit's port.py: `python3 tools/respell.py`. With `--list` it prints what it would
rename, old and new, and changes nothing.
What specs/ and proofs/ define goes from camelCase and dash-names to snake_case, and facts (capital first) from
Fixed-examples to FixedExamples; a prime becomes an apostrophe. It renames wherever such a word stands as a whole:
in specs/, in proofs/, and in src/, where the clauses cite it. Names of functions and types stay, as do the names of
RFC 3629's grammar (UTF8-1 ..) and what only a function's own proof files define in the form of a goal's name.
It goes by text: a step of a function that is spelled as a renamed lemma is renamed too, and is mended by hand.
"""
import glob
import re
import sys

# Names that would fall together with a definition or a function's name get another.
APART = {
    "added-slots": "added_slots_lem",
    "append-answer": "append_answer_lem",
    "decode-answer": "decode_answer_lem",
    "entry-after": "entry_after_lem",
    "entry-answer": "entry_answer_lem",
    "free-left": "free_left_lem",
    "heap-left": "heap_left_lem",
    "request-after": "request_after_lem",
    "request-answer": "request_answer_lem",
    "space-checks": "space_checks_lem",
    "row-flags": "row_flags_lem",
    "with-bit": "with_bit_lem",
}
# Made by Rattle, not by us.
MADE = re.compile(
    r"^(returns|invariant|decreases|loop|slice-bounds|overflow|underflow|bounds|cast|divisor|step|some|ok|err|in|then|else|if)-"
    r"|-(requires|ensures)(-|$)"
)
KEPT = re.compile(r"^UTF8")
TOKEN = re.compile(r"[^\s(){}\[\];,.«»:]+")
DEFINES = re.compile(
    r"^\s*(?:(?:pub|abbrev|unfoldable|record|data|mod)\s+)*([^\s(){}\[\];,.:λ⌜⌝-][^\s(){}\[\];,.:]*)\s*(?:\{[^}]*\}\s*|\([^)]*\)\s*)*:(?!:)"
)


def own_names(paths):
    """What each .antt file defines: definitions, lemmas, fields and constructors, and answers to goals."""
    names = {}
    for path in paths:
        for line in open(path, encoding="utf-8"):
            match = DEFINES.match(line)
            if match:
                names.setdefault(match.group(1), set()).add(path)
    return names


def respelt(name):
    if name in APART:
        return APART[name]
    if name[0].isupper():
        head, *rest = name.split("-")
        return head + "".join(word[:1].upper() + word[1:] for word in rest)
    name = re.sub(r"(?<=[a-z0-9])([A-Z])", lambda m: "_" + m.group(1).lower(), name)
    return name.replace("-", "_").replace("′", "'")


def is_answer(path):
    return bool(re.search(r"/proofs/.+/(Answers|Invariants|Proof|Choices|Given|Goals)\.antt$", path))


def main():
    specs = sorted(glob.glob("crates/*/specs/**/*.antt", recursive=True))
    proofs = sorted(glob.glob("crates/*/proofs/**/*.antt", recursive=True))
    sources = sorted(glob.glob("crates/*/src/**/*.rt", recursive=True))
    names = own_names(specs + proofs)
    table = {}
    for name, where in names.items():
        made = MADE.search(name) and all(is_answer(path) for path in where)
        if made or KEPT.match(name) or respelt(name) == name:
            continue
        table[name] = respelt(name)
    new_to_old = {}
    for old, new in table.items():
        new_to_old.setdefault(new, set()).add(old)
    for new, olds in sorted(new_to_old.items()):
        if new in names:
            olds = olds | {new}
        if len(olds) > 1:
            print("fall together:", new, sorted(olds), [sorted(names[o])[:2] for o in sorted(olds)], file=sys.stderr)
    if "--list" in sys.argv:
        for old, new in sorted(table.items()):
            print(old, new)
        return
    for path in specs + proofs + sources:
        text = open(path, encoding="utf-8").read()
        done = TOKEN.sub(lambda m: table.get(m.group(0), m.group(0)), text)
        if done != text:
            open(path, "w", encoding="utf-8").write(done)


main()
