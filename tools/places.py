#!/usr/bin/env python3
"""Counts the places in crates/*/src that docs/DESIGN-PASS.md speaks of, one line a place.

    tools/places.py          how many places each search finds
    tools/places.py 3        the places of point 3
"""
import collections
import itertools
import pathlib
import re
import sys

ROOT = pathlib.Path(__file__).resolve().parent.parent
FILES = [f for f in sorted(ROOT.glob("crates/*/src/**/*.rt"))]


def code(line):
    return re.sub(r"//.*", "", line)


def lines(pattern, tests=True):
    """Each line of code that a pattern finds; a comment counts only where the pattern asks for one."""
    found = []
    for f in FILES:
        for n, line in enumerate(f.read_text().splitlines(), 1):
            text = line if pattern.startswith("//") else code(line)
            if re.search(pattern, text) and not re.match(r"\s*(requires|ensures|ghost)\b", line):
                found.append(f"{f.relative_to(ROOT)}:{n}: {line.strip()}")
    return found


def functions():
    """Each function: its file, name, parameters, clauses and body."""
    for f in FILES:
        text = "\n".join(code(line) for line in f.read_text().splitlines())
        for m in re.finditer(r"^( *)(?:pub )?(?:const )?fn (\w+)(?:<[^(]*>)?\(([^)]*)\)", text, re.M):
            indent, name, params = m.groups()
            end = re.search(r"^" + indent + r"\}$|^[^\n]*\};$", text[m.end():], re.M)
            body = text[m.end():m.end() + (end.end() if end else 0)]
            clauses = re.findall(r"^\s*(requires|ensures)\s+(?:\w+ )?\{ (.*) \};?$", body, re.M)
            rest = re.sub(r"^\s*(requires|ensures)\b.*$", "", body, flags=re.M)
            rest = rest[rest.find("{"):] if "{" in rest else ""
            yield str(f.relative_to(ROOT)), name, params, clauses, rest


def twins():
    """Functions whose bodies are the same but for names and literals."""
    shapes = collections.defaultdict(list)
    for f, name, _, _, body in functions():
        shape = re.sub(r'b?"[^"]*"|b?\'[^\']*\'|\b[0-9][0-9_]*\b', "0", body)
        shape = re.sub(r"\b[A-Za-z_]\w*\b", "a", shape)
        shape = re.sub(r"\s+", "", shape)
        if len(shape) > 24 and "/tests" not in f:
            shapes[shape].append(f"{f}: {name}")
    return [" = ".join(g) for g in shapes.values() if len(g) > 1]


def facts():
    """Facts that stand in the requires of three or more functions."""
    count = collections.defaultdict(set)
    for f, name, _, clauses, _ in functions():
        for kind, clause in clauses:
            if kind == "requires":
                for part in clause.split(" × "):
                    part = re.sub(r"\.(old|now)\b", "", part).strip().strip("()")
                    count[part].add(f"{f}:{name}")
    return [f"{fact}: {', '.join(sorted(s))}" for fact, s in sorted(count.items()) if len(s) >= 3]


def travellers():
    """Three or more parameters that stand together in four or more functions, none of them part of a longer such list."""
    count = collections.defaultdict(set)
    for f, name, params, _, _ in functions():
        names = {re.sub(r"\bmut\b", "", p.split(":")[0]).strip() for p in params.split(",") if ":" in p}
        for n in (3, 4, 5):
            for some in itertools.combinations(sorted(names), n):
                count[some].add(f"{f}:{name}")
    kept = {some: s for some, s in count.items() if len(s) >= 4}
    return [f"{', '.join(some)}: {', '.join(sorted(s))}" for some, s in sorted(kept.items())
            if not any(set(some) < set(other) and kept[other] == s for other in kept)]


def proofs(pattern):
    return [str(f.relative_to(ROOT)) for f in sorted(ROOT.glob(pattern))]


SEARCHES = {
    1: [
        ("enums of the repository's own", lambda: lines(r"^(pub )?enum ")),
        ("a refusal handed out as an Option", lambda: lines(r"-> Option<Refusal>")),
        ("the length of a list for no place", lambda: lines(r"//.*or the length where")),
        ("numbers for kinds", lambda: lines(r"\b(column|mark|by|kind|letter|method): (u8|u32|u64)\b")),
    ],
    2: [("functions of one shape", twins)],
    3: [
        ("loops with while or loop", lambda: lines(r"^\s*('\w+: )?(while|loop)\b")),
        ("loops over a range of indices", lambda: lines(r"\bfor \w+ in 0 ?\.\.")),
    ],
    4: [
        ("a function that converts, compares or spells by hand",
         lambda: lines(r"\bfn (tell|letter|column|check|mark_of|marks_of|is_same|least|zero_or|either|\w*_text)\b")),
        ("casts that cannot lose", lambda: lines(r"\bas (u64|i64|char)\b")),
        ("text put together", lambda: lines(r"format!")),
    ],
    5: [("facts in three or more contracts", facts), ("parameters that travel together", travellers)],
    6: [
        ("a buffer with a length or a place beside it", lambda: lines(r"\b(len|at): usize")),
        ("arrays of amounts, letters and numbers", lambda: lines(r"pub (\(crate\) )?\w+: (\[\w+; \d+\]|YenTable|MarkTable)|type \w+ = \[")),
    ],
    7: [
        ("a match on a letter", lambda: lines(r"match .* as char")),
        ("function pointers, dyn and boxes", lambda: lines(r"\bdyn\b|: fn\(|Box<")),
    ],
    8: [
        ("answers", lambda: proofs("crates/*/proofs/**/Answers.antt")),
        ("invariants", lambda: proofs("crates/*/proofs/**/Invariants.antt")),
        ("files of lemmas", lambda: [p for p in proofs("crates/*/proofs/*.antt") if not p.endswith("Lib.antt")]),
    ],
}

if len(sys.argv) > 1:
    for title, search in SEARCHES[int(sys.argv[1])]:
        print(f"# {title}")
        print("\n".join(search()))
else:
    for point, searches in SEARCHES.items():
        for title, search in searches:
            print(f"{point}  {len(search()):4}  {title}")
