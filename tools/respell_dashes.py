#!/usr/bin/env python3
"""Turns the dashes inside the repository's own names: a plain word is added with `_`, and a dash only joins two names.

usage: python3 tools/respell_dashes.py [--list]      at the top of the repository, once, after port.py and tools/respell.py

It renames definitions, lemmas, constructors and fields of specs/ and proofs/, as `peak-rises` to `peak_rises`. KEPT lists the names
whose dash joins two names. What the toolchain makes (goals, steps, the facts of a step) keeps its name: behind a dot only fields of
our own records and members of a module that the file names by `as` are turned.
"""

import os
import re
import sys

sys.path.insert(0, os.path.dirname(os.path.realpath(__file__)))
from respell import NAME, INSIDE, RECORD, definitions, files, ghost_parts, read  # noqa: E402

# the dash joins two names: the outer function first, or a fact and what it is kept by
KEPT = {"Are-push", "length-cond", "length-selections", "long-write", "low-write", "past-write"}
# names that a plain respelling would let fall on another
APART = {
    "tasks-from": "tasks_from_lem",
    "least-second": "second_at_least",
    "least-third": "third_at_least",
    "cost-fits": "cost_fits_lem",
}
TOKEN = re.compile(r"(?<![\w'·«-])(\.?)(" + NAME + r")(?![\w'·»])")
ALIAS = re.compile(r"^\s*(?:ghost )?use [\w.+]+ as (\w+);?$", re.M)


def fields(root):
    found = set()
    for p in files(root, ".antt"):
        block = False
        for line in read(p).split("\n"):
            if RECORD.match(line):
                block = line.rstrip().endswith("where")
                continue
            if line and not line[0].isspace():
                block = False
            m = INSIDE.match(line) if block else None
            if m:
                found.add(m.group(1))
    return found


def main():
    root = os.getcwd()
    found, goals, _ = definitions(root)
    own = fields(root)
    turn = {}
    for name in sorted(found):
        if "-" in name and name not in goals and name not in KEPT:
            turn[name] = APART.get(name, name.replace("-", "_"))
    fall = {}
    for name, to in turn.items():
        fall.setdefault(to, []).append(name)
    for to in sorted(fall):
        olds = fall[to] + ([to] if to in found else [])
        if len(olds) > 1:
            print("fall together:", ", ".join(olds), "->", to, file=sys.stderr)
    if "--list" in sys.argv[1:]:
        for name in sorted(turn):
            print(f"{name} -> {turn[name]}" + ("   (a field)" if name in own else ""))
        return
    for p in files(root, (".antt", ".rt")):
        text = read(p)
        aliases = set(ALIAS.findall(text))

        def put(m):
            dot, name = m.groups()
            if name not in turn:
                return m.group(0)
            if dot and name not in own:
                before = re.search(r"([\w'+-]+)$", m.string[: m.start()])
                if not before or before.group(1) not in aliases or before.group(1) == "goal":
                    return m.group(0)
            return dot + turn[name]

        if p.endswith(".rt"):
            out, at = [], 0
            for a, b in ghost_parts(text):
                out += [text[at:a], TOKEN.sub(put, text[a:b])]
                at = b
            new = "".join(out) + text[at:]
        else:
            new = "\n".join(l if l.lstrip().startswith("--") else TOKEN.sub(put, l) for l in text.split("\n"))
        if new != text:
            with open(p, "w", encoding="utf-8") as f:
                f.write(new)


if __name__ == "__main__":
    main()
