#!/usr/bin/env python3
"""Brings the repository's own definitions and lemmas to snake case.

usage: python3 tools/respell.py [--list]     at the top of the repository, once, after port.py

Every name that crates/*/specs and crates/*/proofs declare and that begins with a small letter is written in snake case:
`refusalNumber` as `refusal_number`, `resolve-local` as `resolve_local`. Types, modules and facts keep their capital; names of
src/ and names that the check makes keep their spelling. Where a lemma would fall together with another name, it gets `_lem`.
Must-fail edits follow where they quote a clause or a definition. --list prints the names and writes nothing.
"""

import collections
import os
import re
import sys

TOKEN = re.compile(r"[^\s(){}\[\];,.\"⌜⌝«»`]+")
SIGNATURE = re.compile(
    r"^\s*(?:pub |abbrev |unfoldable )*([^\s(){}\[\];,.:λ=]+(?: [^\s(){}\[\];,.:λ=]+)*?)(?: \{[^}]*\})*\s:(?:\s|$)"
)
WORDS = {"use", "let", "in", "where", "record", "data", "module", "pub", "abbrev", "unfoldable", "mod"}
# Names already in snake case that a definition's new name would meet.
APART = {"in_order": "in_order_lem", "part_bytes": "part_bytes_lem"}
# The same for names of one file: a local lemma, a constructor, another name of a module.
APART_IN = {
    "lookup/proofs/WholeMap.antt": {"map_read": "map_read_lem"},
    "walk/proofs/Narrow.antt": {"too_wide": "frame_too_wide"},
}
# Modules of an enum's variants, in the files that bring them in under a name.
ALIASES = {
    "header_read": "header_told",
    "fields_read": "fields_told",
    "runs_read": "runs_told",
    "run-read": "run_told",
    "mode-read": "mode_told",
    "sheet-read": "sheet_told",
    "narrow-end": "narrow_ends",
    "filled-as": "filled_as",
    "reserved-bits": "reserved_bits",
    "short-number": "short_number",
    "entry_IsPlace": "entry_place",
}


def files(root, suffix):
    for folder, dirs, names in os.walk(os.path.join(root, "crates")):
        dirs[:] = sorted(d for d in dirs if d != "out")
        for name in sorted(names):
            if name.endswith(suffix):
                yield os.path.join(folder, name)


def is_walk(path):
    """A proof of one function: its goals have names of the check."""
    return path.endswith("/Proof.antt")


def snake(name):
    name = re.sub(r"([a-z0-9])([A-Z])", lambda m: m.group(1) + "_" + m.group(2).lower(), name)
    return name.replace("-", "_")


def declared(root):
    found = set()
    for path in files(root, ".antt"):
        if is_walk(path):
            continue
        with open(path, encoding="utf-8") as f:
            for line in f:
                m = SIGNATURE.match(line)
                if m:
                    found.update(n for n in m.group(1).split() if n not in WORDS)
    return found


def renames(root):
    names = declared(root)
    old = sorted(n for n in names if n[0].islower() and "◌" not in n and snake(n) != n)
    taken = set()
    for path in [*files(root, ".antt"), *files(root, ".rt")]:
        with open(path, encoding="utf-8") as f:
            taken.update(TOKEN.findall(f.read()))
    taken -= set(old)
    by_new = collections.defaultdict(list)
    for n in old:
        by_new[snake(n)].append(n)
    to = {}
    for new, olds in sorted(by_new.items()):
        # a definition before a lemma, so that the lemma gets the ending
        olds.sort(key=lambda n: ("-" in n, n))
        for n in olds:
            name = new
            if "-" in n and (name in taken or name in to.values()):
                name += "_lem"
            to[n] = name
    to.update(APART)
    return to, taken


def main():
    root = os.getcwd()
    to, taken = renames(root)
    if "--list" in sys.argv:
        for a, b in sorted(to.items()):
            print(a, b, "TAKEN" if b in taken else "", "TWICE" if list(to.values()).count(b) > 1 else "")
        return
    turn = lambda m: to.get(m.group(0), m.group(0))
    for path in files(root, ".antt"):
        here = to | APART_IN.get(os.path.relpath(path, os.path.join(root, "crates")), {})
        with open(path, encoding="utf-8") as f:
            brought = re.findall(r"TheVariants as (\S+)", f.read())
        here |= {a: ALIASES[a] for a in brought if a in ALIASES}
        if is_walk(path):
            # behind a dot stand steps of the walked function, which the check names
            rewrite(path, lambda t: re.sub(r"(?<!\w)use .*|" + TOKEN.pattern, lambda m: use_line(m, here), t))
        else:
            rewrite(path, lambda t: TOKEN.sub(lambda m: here.get(m.group(0), m.group(0)), t))
    for path in files(root, ".rt"):
        rewrite(path, lambda t: clauses(t, turn))
    for path in files(root, ".edit"):
        rewrite(path, lambda t: edit(t, turn))


def use_line(m, here):
    if m.group(0).startswith("use "):
        return TOKEN.sub(lambda k: here.get(k.group(0), k.group(0)), m.group(0))
    if m.string[m.start() - 1 : m.start()] == ".":
        return m.group(0)
    return here.get(m.group(0), m.group(0))


def rewrite(path, change):
    with open(path, encoding="utf-8") as f:
        text = f.read()
    new = change(text)
    if new != text:
        with open(path, "w", encoding="utf-8") as f:
            f.write(new)


CLAUSE = re.compile(r"(\b(?:requires|ensures)\*?(?: \w+)? \{|^ghost use |\bghost \w+: \{)")


def clauses(text, turn):
    """Names in clauses and in `ghost use` lines; code keeps its own."""
    out, inside, depth = [], False, 0
    for line in text.splitlines(keepends=True):
        if not inside and CLAUSE.search(line):
            inside, depth = True, 0
        if inside:
            out.append(TOKEN.sub(turn, line))
            depth += line.count("{") - line.count("}")
            inside = depth > 0
        else:
            out.append(line)
    return "".join(out)


def edit(text, turn):
    out = []
    proof = re.search(r"^file: (specs|proofs)/", text, re.M)
    for line in text.splitlines(keepends=True):
        if line.startswith(("old: ", "new: ")) and (proof or CLAUSE.search(line[5:])):
            line = line[:5] + TOKEN.sub(turn, line[5:])
        out.append(line)
    return "".join(out)


if __name__ == "__main__":
    main()
