#!/usr/bin/env python3
"""Respells the repository's own definitions and lemmas: facts and records in camel case, all else in snake case.

usage: python3 tools/respell.py [TOP]    once, at the top of a checkout (or in TOP), right behind the kit's port.py

It goes by text: names that .antt files declare with a dash, and traits' ghost members with a capital inside, whole
words alone, in .antt files, in the clauses of .rt files, in must-fail edits, and between backticks in the pages. Goals
and steps, whose names Rattle makes, functions of src/, strings and file names stay. It stops, with nothing written,
where two names would fall together.
"""

import os
import re
import sys

WORD = re.compile(r"[A-Za-zΑ-Ωα-ω_][A-Za-zΑ-Ωα-ω0-9_'₀-₉-]*")
DECLARED = re.compile(r"^\s*(?:(?:abbrev|unfoldable|pub|record|data|ruleset)\s+)*([A-Za-zΑ-Ωα-ω][A-Za-zΑ-Ωα-ω0-9_'-]*)\s+(?:\(.*\)\s+|\{.*\}\s+)*:(?!:)")
MEMBER = re.compile(r"^\s*(?:ghost|law) ([a-z]+[A-Z][A-Za-z0-9]*)\b")
MADE = re.compile(r":\s*(?:goal|need|given|needs)\.")
# A lemma that port.py has respelled, and that would now have the name of the ghost member that it proves.
APART = {"thirty_two": "length_sha256_of"}
SKIPPED = ("out", ".git", "target", "__pycache__")


def files(top):
    for folder, dirs, names in os.walk(top):
        dirs[:] = sorted(d for d in dirs if d not in SKIPPED)
        for name in sorted(names):
            yield os.path.join(folder, name)


def read(path):
    with open(path, encoding="utf-8") as f:
        return f.read()


def declared(top):
    """The names with a dash that the .antt files declare, but for answers to goals, and ghost members in camel case."""
    found = set()
    for path in files(os.path.join(top, "crates")):
        if path.endswith(".rt"):
            for line in read(path).splitlines():
                m = MEMBER.match(line)
                if m:
                    found.add(m[1])
        if path.endswith(".antt"):
            for line in read(path).splitlines():
                m = DECLARED.match(line)
                if m and "-" in m[1] and not MADE.search(line):
                    found.add(m[1])
    return found


def respelled(name):
    if name[0].isupper():
        return "".join(part[:1].upper() + part[1:] for part in name.split("-"))
    return re.sub(r"[A-Z]", lambda m: "_" + m[0].lower(), name).replace("-", "_")


def ghost_parts(text, turn):
    """A .rt text with turn applied outside strings, and in comments between backticks alone."""
    out = []
    for line in text.split("\n"):
        parts = re.split(r'(//.*$|"(?:\\.|[^"\\])*")', line)
        for k, part in enumerate(parts):
            if k % 2 == 0:
                parts[k] = turn(part)
            elif part.startswith("//"):
                parts[k] = re.sub(r"`[^`]*`", lambda m: turn(m[0]), part)
        out.append("".join(parts))
    return "\n".join(out)


def main():
    top = sys.argv[1] if len(sys.argv) > 1 else "."
    names = {name: respelled(name) for name in declared(top)}
    names |= {name: new for name, new in APART.items() if name in names.values()}
    texts = {path: read(path) for path in files(top) if path.endswith((".antt", ".rt", ".edit", ".md"))}
    present = set()
    for path, text in texts.items():
        if path.endswith((".antt", ".rt")):
            present |= set(WORD.findall(text))
    together = {}
    for old, new in sorted(names.items()):
        together.setdefault(new, []).append(old)
    # A ghost member is named through its trait, so that it may have the name of a record's field.
    bad = [f"{new}: {', '.join(olds)}" for new, olds in together.items() if len([old for old in olds if "-" in old]) > 1]
    if bad:
        sys.exit("two names would fall together: " + "; ".join(bad))
    for new, olds in together.items():
        if new in present:
            print(f"look: {olds[0]} becomes {new}, which stands somewhere already")

    def turn(part):
        return WORD.sub(lambda m: names.get(m[0], m[0]), part)

    def spoken(m):
        """A name between backticks in a page: also one that port.py has respelled."""
        return WORD.sub(lambda w: names.get(w[0]) or (respelled(w[0]) if "-" in w[0] and respelled(w[0]) in present else w[0]), m[0])

    changed = 0
    alias = "AllByRecursion as All}"
    for path, text in texts.items():
        if path.endswith(".antt"):
            new = "\n".join(part if part.lstrip().startswith("--") and "`" not in part else turn(part) for part in text.split("\n"))
        elif path.endswith(".md"):
            new = re.sub(r"`[^`\n]*`", spoken, text)
        else:
            new = ghost_parts(text, turn)
        if path.endswith(".antt") and alias in new:  # the library's All is another word now
            new = re.sub(r"(?<![\w.-])All(?![\w-])", "AllByRecursion", new.replace(alias, "AllByRecursion}"))
        if new != text:
            changed += 1
            with open(path, "w", encoding="utf-8") as f:
                f.write(new)
    print(f"respell: {len(names)} names, {changed} files")


if __name__ == "__main__":
    main()
