#!/usr/bin/env python3
"""Lists the places of docs/DESIGN-PASS.md in the sources of a commit, or of the work tree without one: tools/places.py [COMMIT]"""
import collections
import re
import subprocess
import sys

def sources(commit):
    def git(*words):
        return subprocess.run(("git", *words), capture_output=True, text=True, check=True).stdout
    if commit is None:
        names = git("ls-files", "crates/*/src/*.rt").split()
        return {n: open(n, encoding="utf-8").read() for n in names}
    names = [n for n in git("ls-tree", "-r", "--name-only", commit, "crates").split() if re.match(r"crates/\w+/src/.*\.rt$", n)]
    return {n: git("show", f"{commit}:{n}") for n in names}

def crate(name):
    return name.split("/")[1]

def without_comments(text):
    return re.sub(r"//[^\n]*", "", text)

def block(text, start):
    """What stands between the brace at `start` and the one that closes it."""
    depth = 0
    for at in range(start, len(text)):
        if text[at] == "{":
            depth += 1
        if text[at] == "}":
            depth -= 1
            if depth == 0:
                return text[start + 1:at]
    return text[start + 1:]

def functions(text):
    """Name, parameters, `requires` clauses and body of each function."""
    for m in re.finditer(r"\bfn (\w+)(?:<[^(]*>)?\(", text):
        depth, at = 1, m.end()
        while depth:
            depth += {"(": 1, ")": -1}.get(text[at], 0)
            at += 1
        params = text[m.end():at - 1]
        rest, clauses = text[at:], []
        head = re.match(r"[^{;]*", rest).group()
        place = at + len(head)
        while place < len(text) and re.search(r"\b(requires|ensures|ghost)\b[^{}]*$", text[at:place]):
            inside = block(text, place)
            word = re.findall(r"\b(requires|ensures|ghost)\b", text[at:place])[-1]
            if word == "requires":
                clauses.append(" ".join(inside.split()))
            after = place + len(inside) + 2
            at = after
            place = after + len(re.match(r"[^{;]*", text[after:]).group())
        yield m.group(1), params, clauses, block(text, place) if place < len(text) and text[place] == "{" else ""

def split_facts(clause):
    out, depth, part = [], 0, ""
    for ch in clause:
        depth += {"(": 1, ")": -1}.get(ch, 0)
        if ch == "×" and depth == 0:
            out.append(part)
            part = ""
        else:
            part += ch
    out.append(part)
    facts = []
    for fact in (" ".join(p.split()) for p in out):
        if fact.startswith("(") and fact.endswith(")") and "×" in fact:
            facts += split_facts(fact[1:-1])
        else:
            facts.append(fact.strip("()"))
    return facts

def main():
    files = {n: without_comments(t) for n, t in sources(sys.argv[1] if len(sys.argv) > 1 else None).items()}
    points = collections.defaultdict(list)
    facts, groups, bodies = collections.defaultdict(set), collections.defaultdict(set), collections.defaultdict(list)
    for name, text in sorted(files.items()):
        c = crate(name)
        for m in re.finditer(r"\benum (\w+) \{", text):
            inside = block(text, m.end() - 1)
            variants = [v for v in re.split(r",\s*\n", inside.strip().rstrip(",")) if v.strip()]
            plain = [v for v in variants if "(" not in v and "=" not in v]
            told = [v for v in variants if re.search(r"\((Refusal|Fault)\)", v)]
            if told or (len(variants) == 2 and plain):
                points[f"1 own enum with an error or an absent case, {len(variants)} variants"].append(f"{c}::{m.group(1)}")
        for m in re.finditer(r"\bstruct (\w+)(?:<[^>]*>)? \{", text):
            for field in re.findall(r"(\w+): bool", block(text, m.end() - 1)):
                points["1 flag beside values"].append(f"{c}::{m.group(1)}.{field}")
            c_struct = "repr(C)" in text[max(0, m.start() - 80):m.start()]
            for field in re.findall(r"\b(number|code|mode|file|zeros): u64", block(text, m.end() - 1)):
                points["1 number for a kind or a refusal, in a struct" + (" that C reads" if c_struct else "")].append(f"{c}::{m.group(1)}.{field}")
        for f, params, clauses, body in functions(text):
            where = f"{c}::{f}"
            for p in re.findall(r"\b(\w+): bool\b", params):
                points["1 flag beside values"].append(f"{where}({p})")
            for p in re.findall(r"\b(number|code|mode|edition): u64", params):
                points["1 number for a kind or a refusal, a parameter"].append(f"{where}({p})")
            for m in re.finditer(r"\b(while) ([^{]*)\{", body):
                inside = block(body, m.end() - 1)
                cond = " ".join(m.group(2).split())
                counted = re.search(r"\b(\w+) (?:\+= \d+|\+= \w+|-= 1|= \1 \+ \w+);", inside) or re.search(r"\b(\w+) = next_\w+\(", inside)
                points["3 while, an index counted by hand" if counted else "3 while, other"].append(f"{where}: while {cond}")
            if re.search(r"\b(return true;|return false;)", body):
                points["4 a test spelled out by returns of true and false"].append(where)
            if re.match(r"(number|numbered|shown|unplaced|not_written|fault_\w+|refuse|no_\w+|done|answer_of|mode_number|place_of|paging_mode|byte_value|smaller|any_of|saturating_sub|is_refused|is_at|copy|clear|is_code|mapped_page|image_offset|part_of|runs_added|of_entry|of_address)$", f):
                points["4 and 2 conversion, comparison or copy by hand"].append(where)
            for clause in clauses:
                for fact in split_facts(clause):
                    facts[re.sub(r"\b(out|rows|head|address|node|prev|e|last|run)\b", "x", fact)].add(where)
            names = [" ".join(p.split()) for p in re.split(r",(?![^<]*>)", params) if ":" in p]
            names = [re.sub(r"'\w+ ", "", p.replace("mut ", "mut ")) for p in names]
            for size in (3, 4, 5):
                for at in range(len(names) - size + 1):
                    groups[tuple(names[at:at + size])].add(where)
            if re.search(r"\b(at|from|next): usize", params) and "&" in params:
                points["6 buffer with a place beside it"].append(where)
            if re.search(r"starts: &\[u64\]", params):
                points["6 parallel arrays"].append(where)
            shape = re.sub(r"\b(?:0x)?[0-9A-Fa-f_]*\d[0-9A-Fa-f_]*\b", "N", " ".join(body.split()))
            shape = re.sub(r"\b[a-z_]+::", "", shape)
            if len(shape) > 60:
                bodies[shape].append(where)
    for fact, who in facts.items():
        if len(who) >= 3:
            points["5 fact in three or more contracts"].append(f"{fact}: {', '.join(sorted(who))}")
    kept = []
    for group, who in sorted(groups.items(), key=lambda g: -len(g[0])):
        if len(who) >= 3 and not any(set(group) <= set(k) and who <= w for k, w in kept):
            kept.append((group, who))
            points["5 parameters that travel together"].append(f"{', '.join(group)}: {len(who)} functions: {', '.join(sorted(who))}")
    for shape, who in bodies.items():
        if len(who) > 1:
            points["2 functions of one text but for numbers and paths"].append(", ".join(who))
    for point in sorted(points):
        print(f"{point}: {len(points[point])}")
        for place in points[point]:
            print(f"    {place}")

main()
