#!/usr/bin/env python3
"""Brings the repository's own definitions and lemmas to the spelling of this Rattle: words in snake case.

usage: python3 tools/respell.py [--list]      at the top of the repository, once, after port.py

What it renames: names that specs/ and proofs/ define (definitions, lemmas, constructors, fields of records), where they have
a capital inside, as withPoint, or a dash between words that are no names, as in at-end. A dash between two names stays, as in
length-selections, and so does the dash behind a fact, as in Are-push. Types and facts keep their capitals. What the toolchain
makes (goals, steps, labels), functions and fields of src/, strings and comments keep their names.
With --list it prints the renamings and the names that would fall together, and changes nothing.
"""

import os
import re
import sys

NAME = r"[A-Za-z_][\w']*(?:[-+*][\w']+)*"
DEFINED = re.compile(r"^\s*(?:abbrev |unfoldable |pub |ruleset )*(" + NAME + r")\s*:(?!:)")
RECORD = re.compile(r"^\s*(?:abbrev |pub )*(?:record|data)\s+(" + NAME + r")")
INSIDE = re.compile(r"^\s+(?:pub )?(" + NAME + r")\s*:\s")
GOAL = re.compile(r"^(?:abbrev |pub )*(" + NAME + r")\s*:\s*(?:goal|Goals|Given)\.")
TOKEN = re.compile(r"(?<![\w'·«-])" + NAME + r"(?![\w'·»])")
# facts and types: a definition that answers Type 0
FACT = re.compile(r"^\s*(?:abbrev |unfoldable |pub )*(" + NAME + r")\s*:.*\bType 0$")
# the names of functions, fields and definitions that a plain respelling would fall on
APART = {
    "byNumbers": "front_of_numbers",
    "byRow": "front_of_row",
    "itemBy": "item_of",
    "byCode": "cost_of_code",
    "costAt": "cost_of_block",
    "allCostsFit": "costs_fit",
    "in-range": "within_range",
    "costItem": "item_cost",
    "costRun": "run_cost",
    "cap-item": "cap_item_lem",
    "cap-run": "cap_run_lem",
    "clock-fits": "clock_fits_lem",
    "task-head": "task_head_lem",
}
# names of the logic and of std that lemmas of ours join by a dash
KNOWN = {"length", "take", "drop", "append", "map", "cond", "sum", "min", "max", "add", "sub", "mul", "suc", "zero", "get_or", "set", "slice_index"}


def files(root, ends):
    for folder, dirs, names in os.walk(os.path.join(root, "crates")):
        dirs[:] = sorted(d for d in dirs if d != "out")
        for n in sorted(names):
            if n.endswith(ends):
                yield os.path.join(folder, n)


def read(p):
    with open(p, encoding="utf-8") as f:
        return f.read()


def definitions(root):
    """Every name that specs/ or proofs/ define, and every goal's name."""
    found, goals, facts = {}, set(), set()
    for p in files(root, ".antt"):
        block = False
        for line in read(p).split("\n"):
            g = GOAL.match(line)
            if g:
                goals.add(g.group(1))
                continue
            r = RECORD.match(line)
            if r:
                found.setdefault(r.group(1), set()).add(p)
                facts.add(r.group(1))
                block = line.rstrip().endswith("where")
                continue
            if line and not line[0].isspace():
                block = False
            if FACT.match(line) and not block:
                facts.add(FACT.match(line).group(1))
            m = INSIDE.match(line) if block else DEFINED.match(line)
            if m:
                found.setdefault(m.group(1), set()).add(p)
    return found, goals, facts


def snake(word):
    word = re.sub(r"([a-z0-9])([A-Z])", r"\1_\2", word)
    return word.lower()


def spelled(name, known, facts):
    if name in APART:
        return APART[name]
    if name[0].isupper():
        return "".join(p[0].upper() + p[1:] for p in name.split("-")) if name in facts else name
    parts = name.split("-")
    parts = [snake(p) for p in parts]
    if len(parts) == 1:
        return parts[0]
    old = name.split("-")
    if len(old) == 2 and old[0] in known and old[1] in known and len(old[0]) > 1 and len(old[1]) > 1:
        return "-".join(parts)
    return "_".join(parts)


# the text of a clause, a ghost member or a `ghost use`, in a file of src/
GHOST = re.compile(r"(ghost use [^;]*;|(?:\bghost\b[^{;\n]*|\brequires\b[^{\n]*|\bensures\b[^{\n]*)\{)")


def ghost_parts(text):
    """The places of the ghost text of a .rt file, as pairs of offsets."""
    at = 0
    while True:
        m = GHOST.search(text, at)
        if not m:
            return
        if text[m.start():].startswith("ghost use"):
            yield m.start(), m.end()
            at = m.end()
            continue
        depth, i = 1, m.end()
        while depth and i < len(text):
            depth += {"{": 1, "}": -1}.get(text[i], 0)
            i += 1
        yield m.end(), i - 1
        at = i


def main():
    root = os.getcwd()
    found, goals, facts = definitions(root)
    known = set(found) | KNOWN
    turn = {}
    for name in sorted(found):
        to = spelled(name, known, facts)
        if to != name and name not in goals:
            turn[name] = to
    source = set()
    for p in files(root, ".rt"):
        source |= set(re.findall(r"\b[a-z_]\w*", read(p)))
    fall = {}
    for name, to in turn.items():
        fall.setdefault(to, []).append(name)
    for to in sorted(fall):
        olds = fall[to] + ([to] if to in found else [])
        if len(olds) > 1:
            print("fall together:", ", ".join(olds), "->", to, file=sys.stderr)
    if "--list" in sys.argv[1:]:
        for name in sorted(turn):
            print(f"{name} -> {turn[name]}" + ("   (a word of src/)" if turn[name] in source else ""))
        return

    def put(m):
        return turn.get(m.group(0), m.group(0))

    for p in files(root, (".antt", ".rt")):
        text = read(p)
        if p.endswith(".rt"):
            out, at = [], 0
            for a, b in ghost_parts(text):
                out += [text[at:a], TOKEN.sub(put, text[a:b])]
                at = b
            new = "".join(out) + text[at:]
        else:
            new = "\n".join(l if l.lstrip().startswith("--") else TOKEN.sub(put, l) for l in text.split("\n"))
        if new != text:
            with open(p, "w", encoding="utf-8") as f:
                f.write(new)


if __name__ == "__main__":
    main()
