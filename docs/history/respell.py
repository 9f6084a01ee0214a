#!/usr/bin/env python3
"""Respells the names of this repository's definitions and lemmas: types in camel case, all else in snake case.

usage: python3 respell.py [--dry]     at the top of a repository that port.py has turned

A name is the repository's own if a file of specs/ or proofs/ defines it: at the head of a line, as a constructor, a field,
or a local of a `where` or `module _`. Goals (`name : goal.name`) and what Rattle makes keep their dashes.
"""

import os
import re
import sys

HEAD = re.compile(r"^(\s*)((?:unfoldable |abbrev |pub |record |data )*)([^\s(){}.,;:λ«»]+)((?:\s[^:]*)?)\s?:(?:\s|$)(.*)$")
RECORD = re.compile(r"^\s*(?:pub )?(?:record|data) (?:pub )?([^\s(){}.,;:]+)")
TOKEN = re.compile(r"[^\s(){}.,;:λ«»\[\]⌜⌝`|\"]+")
# What port.py left, since the file had the name already, and names that imports give.
LEFT = {"last-row": "last_row", "cheaper-of": "cheaper_of", "what-is-read": "what_is_read", "ground-count": "ground_count"}


def files(root, endings):
    for folder, dirs, names in os.walk(root):
        dirs[:] = sorted(d for d in dirs if d not in ("out", ".git", "target"))
        for n in sorted(names):
            if n.endswith(endings):
                yield os.path.join(folder, n)


def is_type(text, name):
    """Whether a definition's signature ends in a universe, or it is a record or a family."""
    for line in text.splitlines():
        m = RECORD.match(line)
        if m and m.group(1) == name:
            return True
        m = HEAD.match(line)
        if m and m.group(3) == name and re.search(r"Type 0\s*(where)?\s*$", m.group(5)):
            return True
    return False


def own_names(root):
    found = {}
    for path in files(os.path.join(root, "crates"), (".antt",)):
        with open(path, encoding="utf-8") as f:
            text = f.read()
        for line in text.splitlines():
            if line.lstrip().startswith("--"):
                continue
            m = RECORD.match(line)
            names = [m.group(1)] if m else []
            h = HEAD.match(line)
            if h and not m:
                more = h.group(4).split()
                several = all(TOKEN.fullmatch(name) for name in more)
                if more and not several and not more[0].startswith(("(", "{")):
                    continue
                if re.search(r"\bgoal\.", h.group(5)):
                    continue
                names = [h.group(3), *(more if several else [])]
            for name in names:
                if "-" in name and not name.startswith("-"):
                    found.setdefault(name, set()).add((path, is_type(text, name)))
    return found


def respelled(name, typed):
    parts = name.split("-")
    if typed:
        return "".join(p[:1].upper() + p[1:] for p in parts)
    return "_".join(parts)


def turned(text, table, path):
    """The text with its names respelled: outside comments, and in a page only between backticks."""

    def words(t):
        return TOKEN.sub(lambda m: table.get(m.group(0), m.group(0)), t)

    if path.endswith(".md"):
        return re.sub(r"`[^`\n]+`", lambda m: words(m.group(0)), text)
    mark = "//" if path.endswith(".rt") else "--"
    lines = []
    for line in text.split("\n"):
        at = re.search(r"(?:^|\s)" + mark + r"(?:\s|$)", line)
        cut = at.start() if at else len(line)
        lines.append(words(line[:cut]) + line[cut:])
    return "\n".join(lines)


def main(argv):
    root = os.getcwd()
    names = own_names(root)
    table = dict(LEFT)
    for name, places in sorted(names.items()):
        kinds = {typed for _, typed in places}
        if len(kinds) > 1:
            print(f"both a type and another: {name} {sorted(places)}")
        table[name] = respelled(name, kinds == {True})
    back = {}
    for old, new in table.items():
        back.setdefault(new, []).append(old)
    for new, olds in back.items():
        if len(olds) > 1:
            print(f"fall together: {olds} -> {new}")
    changed = 0
    pages = [os.path.join(root, "README.md"), *files(os.path.join(root, "docs"), (".md",))]
    pages = [p for p in pages if os.path.basename(p) != "PORT.md"]
    for path in [*files(os.path.join(root, "crates"), (".antt", ".rt")), *pages]:
        with open(path, encoding="utf-8") as f:
            text = f.read()
        tokens = set(TOKEN.findall(text))
        for old in sorted(tokens & set(table)):
            if table[old] in tokens:
                print(f"already there: {path}: {old} -> {table[old]}")
            if re.search(r"use Rattle\.std[^\n]*[{ ,]" + re.escape(old) + r"[,} ]", text):
                print(f"imported from std: {path}: {old}")
        new = turned(text, table, path)
        if "AllByRecursion as All" in new:
            # a use under the name of another word of the library is refused
            new = turned(new.replace("AllByRecursion as All", "AllByRecursion"), {"All": "AllByRecursion"}, path)
        if new != text:
            changed += 1
            if "--dry" not in argv:
                with open(path, "w", encoding="utf-8") as f:
                    f.write(new)
    print(f"{len(table)} names, {changed} files")


if __name__ == "__main__":
    main(sys.argv[1:])
