#!/usr/bin/env python3
"""Lists the places in crates/*/src where an older form may stand: python3 tools/places.py [-v] [POINT ..]

For each point of docs/DESIGN-PASS.md it prints how many places each pattern finds, and with -v where they are. A place found is a candidate:
the page says which of them are changed and which are kept, and why."""
import glob
import re
import sys

PATTERNS = [
    (1, "a number told in place of a type, or a result that says nothing", r"\bfn \w+(?:<[^>]*>)?\([^)]*\) -> u8\b"),
    (1, "let-else that returns a failure of its own", r"\blet (?:Some|Ok)\([^=;]*\) =[^;{]*\belse \{\s*return (?:Err\(|None|Ok\(None)"),
    (1, "a match arm that passes a failure on", r"\b(?:Err\((?:_|\w+)\) => (?:return )?Err\(|None => (?:return )?(?:None|Ok\(None\)|Err\())"),
    (1, "a match arm that passes a value on", r"\b(?:Ok|Some)\((\w+)\) => (?:Ok|Some)\(\1\)"),
    (1, "is_err, is_none, is_ok or is_some as a test", r"\.is_(?:err|none|ok|some)\(\)"),
    (2, "the same struct name in two crates", None),
    (2, "runs of six lines of one shape", None),
    (3, "while and loop", r"^\s*(?:'\w+: )?(?:while\b|loop \{)"),
    (3, "for over a range of numbers", r"\bfor \w+ in [^{\n]*\.\.[^{\n]*\{"),
    (4, "an order, equality or copy by hand", r"^impl(?:<[^{]*>)? (?:PartialEq|Eq|PartialOrd|Ord|TotalOrder|Clone|Copy)(?:<[^{]*>)? for"),
    (4, "From or Display by hand", r"^impl(?:<[^{]*?>)? (?:From<[^{]*>|TryFrom<[^{]*>|fmt::Display) for"),
    (4, "a number turned by `as`", r"\bas (?:u8|u16|u32|u64|usize|i64)\b"),
    (4, "fields taken out only to be printed", r"\blet (\w+) = [\w.]+\.\1(?:\(\))?;"),
    (4, "a public type without PartialEq", None),
    (5, "a clause that stands three times or more", None),
    (5, "two parameters that stand together three times or more", None),
    (6, "an array of fixed length in a type", r"\[[\w\[\]; ]+; (?:\d+|N)\]"),
    (6, "a count beside a buffer", r"^\s*(?:pub )?(?:count|len): usize,"),
    (7, "a match on which of the library's kinds", r"\bmatch [\w.]*(?:kind|by|command|follower|ran\.last)\b"),
    (7, "dyn, Fn or a function pointer", r"\bdyn \w|\bFn(?:Once|Mut)?\(|: fn\("),
]


def sources():
    return {f: open(f, encoding="utf-8").read() for f in sorted(glob.glob("crates/*/src/**/*.rt", recursive=True))}


def by_regex(pattern, files):
    out = []
    for f, text in files.items():
        for m in re.finditer(pattern, text, re.M):
            out.append(f"{f}:{text.count(chr(10), 0, m.start()) + 1}")
    return out


def grouped(pairs, least):
    seen = {}
    for key, place in pairs:
        seen.setdefault(key, []).append(place)
    return [f"{len(v)}x {k}  ({', '.join(v)})" for k, v in sorted(seen.items()) if len(v) >= least]


def same_structs(files):
    return grouped(((m.group(1), f) for f, t in files.items() for m in re.finditer(r"^pub (?:struct|enum) (\w+)|^struct (\w+)", t, re.M) if m.group(1)), 2)


def clauses(files):
    def told():
        for f, t in files.items():
            for i, line in enumerate(t.split("\n"), 1):
                m = re.match(r"\s*(?:requires|ensures)\*? ?\w* ?\{ (.*) \}$", line)
                if m:
                    yield re.sub(r"\b(self|reader|heap)\.(now|old|new|entry)", r"\1", m.group(1)), f"{f}:{i}"
    return grouped(told(), 3)


def parameters(files):
    def told():
        for f, t in files.items():
            for m in re.finditer(r"\bfn (\w+)[^(\n]*\(([^)]*)\)", t):
                names = sorted(p.strip() for p in m.group(2).split(",") if ":" in p)
                for i, a in enumerate(names):
                    for b in names[i + 1:]:
                        yield f"{a}, {b}", f"{f} {m.group(1)}"
    return grouped(told(), 3)


def bare_types(files):
    out = []
    for f, t in files.items():
        for m in re.finditer(r"^(#\[derive\(([^)]*)\)\]\n)?pub (?:struct|enum) (\w+)", t, re.M):
            if "PartialEq" not in (m.group(2) or ""):
                out.append(f"{f}:{t.count(chr(10), 0, m.start()) + 1} {m.group(3)}")
    return out


def twins(files):
    """Pairs of runs of six lines or more that are the same but for names, numbers and strings; imports, clauses, variants and the lines of
    a struct's fields are left out."""
    runs = {}
    for f, t in files.items():
        lines = []
        for i, line in enumerate(t.split("\n"), 1):
            line = line.split("//")[0].strip()
            if not line or re.match(r"[})\]]*[,;{]?$|(pub )?(use|ghost|mod|requires|ensures|const)\b|#|(pub )?\w+(: [\w:]+)?,$|\.\.|\w+ \{$", line):
                continue
            words = r"\b(?!(?:let|match|if|else|for|in|while|loop|return|fn|pub|self|mut|Some|None|Ok|Err|struct|enum|impl)\b)\w+"
            lines.append((i, re.sub(words, "w", line)))
        for k in range(len(lines) - 5):
            runs.setdefault("\n".join(s for _, s in lines[k:k + 6]), []).append((f, lines[k][0]))
    pairs = sorted({(a[0], b[0], b[1] - a[1], a[1]) for v in runs.values() for i, a in enumerate(v) for b in v[i + 1:]})
    out = []
    for f, g, gap, at in pairs:
        if out and out[-1][:3] == [f, g, gap] and at - out[-1][4] <= 12:
            out[-1][4] = at
        else:
            out.append([f, g, gap, at, at])
    return [f"{f}:{a} ~ {g}:{a + gap}" for f, g, gap, a, _ in out]


BY_HAND = {
    "the same struct name in two crates": same_structs,
    "runs of six lines of one shape": twins,
    "a public type without PartialEq": bare_types,
    "a clause that stands three times or more": clauses,
    "two parameters that stand together three times or more": parameters,
}


def main():
    words = sys.argv[1:]
    wanted = [int(w) for w in words if w.isdigit()]
    files = sources()
    for point, name, pattern in PATTERNS:
        if wanted and point not in wanted:
            continue
        places = by_regex(pattern, files) if pattern else BY_HAND[name](files)
        print(f"{point}  {len(places):3}  {name}")
        if "-v" in words:
            for place in places:
                print("        " + place)


main()
