#!/usr/bin/env python3
"""Brings the repository's own definitions and lemmas to today's spelling.

Words are in snake case, types in camel case. Only names that a file of specs/ or
proofs/ of this repository declares are respelled, and only where they stand as
whole names. Run once, after the kit's port.py, at the top of the repository.
With --list it prints the names and changes nothing.
"""
import pathlib
import re
import sys

PART = r"[A-Za-z0-9_'⁺◌]"
NAME = re.compile(rf"{PART}+(?:-{PART}+)+")
TOKEN = re.compile(rf"(?<![A-Za-z0-9_'⁺◌·-]){PART}+(?:-{PART}+)+(?![A-Za-z0-9_'⁺◌·-])")
WORD = re.compile(rf"(?<![A-Za-z0-9_'⁺◌·-]){PART}+(?![A-Za-z0-9_'⁺◌·-])")
DECLARED = re.compile(
    rf"^\s*(?:pub\s+|abbrev\s+|opaque\s+|unfoldable\s+)*(?:(?:data|record|module)\s+({PART}+(?:-{PART}+)+)|({PART}+(?:-{PART}+)+)\s*:)"
)
LET = re.compile(rf"\blet\s+({PART}+(?:-{PART}+)+)\s*[:=]")
GOAL = re.compile(r":\s*goal\.")


def files(root, *suffixes):
    for path in sorted(root.rglob("*")):
        parts = path.relative_to(root).parts
        if path.is_file() and path.suffix in suffixes and not {"out", "target", ".git"} & set(parts):
            yield path


# Names that a library's word already has in today's spelling.
OTHERWISE = {"bit-and": "bit_of_and", "bit-or": "bit_of_or"}

# Types that port.py gives a word's spelling.
TYPES = {"Laid_out": "LaidOut"}


def respelled(name):
    """A type in camel case, a word in snake case."""
    if name in OTHERWISE:
        return OTHERWISE[name]
    if name[0].isupper():
        return "".join(part[:1].upper() + part[1:] for part in name.split("-"))
    return name.replace("-", "_")


def declared(root):
    names, imported = set(), set()
    for path in files(root, ".antt"):
        for line in path.read_text().splitlines():
            if re.match(r"\s*(pub )?use\s", line):
                if "Rattle.std" in line or not line.split()[1].startswith("Rattle."):
                    imported |= set(NAME.findall(line))
                continue
            if GOAL.search(line):
                continue
            found = DECLARED.match(line)
            if found:
                names.add(found.group(1) or found.group(2))
            names |= set(LET.findall(line))
    return names, imported


def main():
    root = pathlib.Path(sys.argv[1] if len(sys.argv) > 1 and sys.argv[1] != "--list" else ".")
    names, imported = declared(root / "crates")
    both = names & imported
    if both:
        print("declared here and imported:", " ".join(sorted(both)))
    table = {name: respelled(name) for name in names - both}
    words = set()
    for path in files(root / "crates", ".antt", ".rt"):
        words |= set(WORD.findall(path.read_text()))
    for name in sorted(table):
        if table[name] in words:
            print("falls together:", name, table[name])
    if "--list" in sys.argv:
        print("\n".join(f"{a} {b}" for a, b in sorted(table.items())))
        return
    for path in files(root, ".antt", ".rt", ".md"):
        if path.name == "PORT.md":
            continue
        old = path.read_text()
        if path.suffix == ".md":
            # port.py turns no pages: a word that it has turned is turned here
            turned = lambda t: respelled(t.group(0)) if t.group(0) in table or respelled(t.group(0)) in words else t.group(0)
            new = re.sub(r"`[^`\n]*`", lambda m: TOKEN.sub(turned, m.group(0)), old)
        else:
            new = TOKEN.sub(lambda t: table.get(t.group(0), t.group(0)), old)
            new = WORD.sub(lambda t: TYPES.get(t.group(0), t.group(0)), new)
        if new != old:
            path.write_text(new)


main()
