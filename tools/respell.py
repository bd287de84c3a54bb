#!/usr/bin/env python3
"""Brings the repository's own definitions, lemmas and bound names to snake case, and its propositions to camel case.

    python3 tools/respell.py [--list]

Run once at the top of the repository, after the toolchain's port.py. A name is the repository's own if a file of specs/ or
proofs/ declares it (a definition, a lemma, a field, a constructor) or binds it (a parameter, a λ, a let). Names of goals,
which the toolchain makes, and names of the library keep their spelling. Functions of src/, strings, inputs and outputs are
not touched. Two names that would fall together in a file stop the script before anything is written. The library's
AllByRecursion goes by its own name, since its short name is now another word of the library.
"""
import re
import sys
from pathlib import Path

WORD = r"[^\s(){}\[\].,;:⌜⌝\"«»@]"
TOKEN = re.compile(WORD + "+")
DECLARED = re.compile(r"^ *(?:(?:abbrev|unfoldable|pub|data|record|ruleset) )*(" + WORD + r"+)((?: [({].*)?) (?::|=) ?(.*)$")
MEMBER = re.compile(r"^\s+(?:pub )?(" + WORD + r"+) : ")
BOUND = [
    re.compile(r"λ ((?:" + WORD + r"+ )*" + WORD + r"+)\."),
    re.compile(r"\(((?:" + WORD + r"+ )*" + WORD + r"+) : "),
    re.compile(r"\{((?:" + WORD + r"+ )*" + WORD + r"+) : "),
    re.compile(r"\blet (" + WORD + r"+) (?::|=) "),
]
KEYWORDS = {"use", "pub", "mod", "module", "open", "unfolding", "abbrev", "unfoldable", "data", "record", "ruleset", "let", "in", "elim", "as"}
HYPHEN = re.compile(r"[^-]-[^-]")


def sources():
    for end in ("antt", "rt"):
        for path in sorted(Path("crates").rglob("*." + end)):
            if "out" not in path.parts:
                yield path


def proposition(kind, parameters, value):
    """Whether a declaration is a type: a record, a data, or a definition whose signature ends in a Type."""
    return kind or re.search(r"Type(?: \d+)?(?: where)?$", value.strip()) is not None


def own(texts):
    """The repository's own names, and those of them that are propositions."""
    names, types = set(), set()
    for path, text in texts.items():
        if path.suffix != ".antt":
            names.update(re.findall(r" as (" + WORD + r"+)[,}]", text))
            continue
        for line in text.split("\n"):
            if line.startswith("--") or line.startswith("use ") or line.startswith("pub mod"):
                continue
            m = DECLARED.match(line)
            if m and m.group(1) not in KEYWORDS and not re.match(r"(goal|given|Given|Goals)\.", m.group(3)):
                names.add(m.group(1))
                if proposition(re.match(r"(?:pub )?(?:data|record) ", line), m.group(2), m.group(3)):
                    types.add(m.group(1))
            m = MEMBER.match(line)
            if m and m.group(1) not in KEYWORDS:
                names.add(m.group(1))
            for bound in BOUND:
                for m in bound.finditer(line):
                    names.update(m.group(1).split(" "))
            # what stands left of the = of a clause is bound, but for constructors
            head = re.match(r"^ *(\S+)((?: [^=.∙]*)?) =(?: |$)", line)
            if head:
                names.update(re.findall(WORD + "+", head.group(2)))
        names.update(re.findall(r" as (" + WORD + r"+)[,}]", text))
        # the names of goals that the file answers are not its own
        names -= set(re.findall(r"^(?:abbrev )?(?:pub )?(\S+) : (?:goal|given)\.", text, re.M))
    return names, types


def goals(texts):
    """Names of goals, which the toolchain makes of the code."""
    found = set()
    for path, text in texts.items():
        if path.suffix == ".antt":
            found.update(re.findall(r"\b(?:goal|given)\.(" + WORD + "+)", text))
            for words in re.findall(r"^use Rattle\.\S*\.(?:Goals|Given)\.\{([^}]*)\}", text, re.M):
                found.update(re.findall(WORD + "+", words))
    return found


def imported(texts):
    """Names that some file takes from the library, and not from this repository."""
    crates = {path.parts[1] for path in texts}
    found = set()
    for text in texts.values():
        for module, words in re.findall(r"^(?:ghost )?use ([^\s{]+)\.\{([^}]*)\}", text, re.M):
            parts = module.split(".")
            if parts[0] != "Rattle" or parts[1] not in crates:
                found.update(re.findall(WORD + "+", words))
    return found


def spelled(name, is_type):
    if is_type or name[:1].isupper():
        return "".join(part[:1].upper() + part[1:] for part in re.split(r"-", name))
    name = re.sub(r"(?<=[a-z])(?=[Zℤ](?![a-z]))", "_", name).replace("_Z", "_z")
    return re.sub(r"(?<=[^-])-(?=[^-])", "_", name)


def unabridged(text):
    """The library's AllByRecursion under its own name, where a file calls it All."""
    alias = "AllByRecursion as All"
    if alias not in text:
        return text
    lines = text.replace(alias, "AllByRecursion").split("\n")
    word = re.compile(r"(?<![\w'-])All(?![\w'-])")
    return "\n".join(line if line.lstrip().startswith(("--", "//")) else word.sub("AllByRecursion", line) for line in lines)


def main():
    texts = {path: path.read_text() for path in sources()}
    names, types = own(texts)
    names -= goals(texts)
    names -= imported(texts)
    to = {}
    for name in sorted(names):
        if name[:1] == "◌" or not (HYPHEN.search(name) or re.fullmatch(r"[a-z]+[Zℤ]", name)):
            continue
        if not re.search(r"[A-Za-z]", name) or re.search(r"[◌≡≤<>+*∷]", name):
            continue
        to[name] = spelled(name, name in types)
    bad = False
    by = {}
    for old, new in to.items():
        if by.setdefault(new, old) != old:
            print(f"respell: {by[new]} and {old} would both be {new}")
    for path, text in texts.items():
        if path.suffix != ".antt":
            continue
        # a field after a dot and a part of a path stand in a place of their own
        here = {m.group(0) for m in TOKEN.finditer(text) if text[m.start() - 1] != "." and text[m.end() : m.end() + 1] != "."}
        seen = {}
        for token in here:
            new = to.get(token, token)
            if seen.setdefault(new, token) != token:
                print(f"respell: in {path}, {seen[new]} and {token} would both be {new}")
                bad = True
    if "--list" in sys.argv:
        for old, new in to.items():
            print(old, new)
        return
    if bad:
        raise SystemExit("respell: nothing was changed")

    def turn(text):
        return TOKEN.sub(lambda m: to.get(m.group(0), m.group(0)), text)

    for path, text in texts.items():
        if path.suffix == ".antt":
            new = "\n".join(line if line.lstrip().startswith("--") else turn(line) for line in text.split("\n"))
        else:
            # in Rust only what a contract says: names with a hyphen occur nowhere else but in strings and comments
            new = "\n".join(turn_code(line, turn) for line in text.split("\n"))
        new = unabridged(new)
        if new != text:
            path.write_text(new)


def turn_code(line, turn):
    if line.lstrip().startswith("//"):
        return line
    pieces = re.split(r'("(?:[^"\\]|\\.)*")', line)
    return "".join(piece if i % 2 else turn(piece) for i, piece in enumerate(pieces))


if __name__ == "__main__":
    main()
