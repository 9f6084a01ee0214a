#!/usr/bin/env python3
"""Counts the places of docs/history/DESIGN-PASS.md in a checkout: places.py [TOP] [-v]. With -v each place is listed."""

import re
import sys
from collections import Counter
from pathlib import Path

ARGS = [a for a in sys.argv[1:] if a != "-v"]
VERBOSE = "-v" in sys.argv
TOP = Path(ARGS[0] if ARGS else ".")


def sources():
    for path in sorted(TOP.glob("crates/*/src/**/*.rt")):
        yield path, path.read_text()


def code_lines(text):
    """The lines without comments, ghost imports and tests, with their numbers."""
    in_tests = False
    for number, line in enumerate(text.split("\n"), 1):
        in_tests = in_tests or line.startswith("mod tests {")
        if not in_tests and not line.lstrip().startswith(("//", "ghost use")):
            yield number, line


def in_lines(pattern):
    """The lines in which a pattern stands."""
    found = []
    for path, text in sources():
        if path.name == "tests.rt":
            continue
        for number, line in code_lines(text):
            if re.search(pattern, line):
                found.append((path, number, line.strip()))
    return found


def in_signatures(pattern):
    """The signatures that a pattern fits, each read as one line up to its first clause or its body."""
    found = []
    for path, text in sources():
        for match in re.finditer(r"fn \w+(?:\[[^\]]*\]|[^{;\[])*?(?=\s(?:requires|ensures|where)\b|\{|;)", text):
            signature = " ".join(match.group().split())
            if re.search(pattern, signature):
                found.append((path, text[: match.start()].count("\n") + 1, signature))
    return found


def in_structs(pattern):
    """The fields of structs that a pattern fits."""
    found = []
    for path, text in sources():
        for match in re.finditer(r"struct \w+[^;{(]*\{(.*?)\n\}", text, re.S):
            first = text[: match.start(1)].count("\n")
            for number, line in enumerate(match.group(1).split("\n"), first + 1):
                if not line.lstrip().startswith(("//", "ghost")) and re.search(pattern, line):
                    found.append((path, number, line.strip()))
    return found


def repeated_facts():
    """The facts that stand in the `requires` of three functions or more of a crate."""
    facts = Counter()
    for path, text in sources():
        for match in re.finditer(r"requires (?:\w+ )?\{ (.*) \}", text):
            for fact in re.split(r" × |^\(|\)$", match.group(1)):
                fact = fact.strip("() ")
                if fact:
                    facts[(path.parts[len(TOP.parts) + 1], fact)] += 1
    return [(crate, count, fact) for (crate, fact), count in sorted(facts.items()) if count >= 3]


POINTS = [
    ("1 a call on &mut self that answers bool", lambda: in_signatures(r"&mut self.*-> bool")),
    ("1 a field with a number for a kind or a refusal", lambda: in_structs(r"\b(kind|code|answer|layer|refusal|tag|number): u8")),
    ("1 an arm from an enum to a number or back", lambda: in_lines(r"\w+::\w+ => \d+,|\d+ => \d+,|^\s*_ => \d+,|^\s*\d+ => (Some|Ok)\(")),
    ("1 0 for none", lambda: in_lines(r"None => 0,|return 0;|else \{ 0 \}")),
    ("1 an enum of its own", lambda: in_lines(r"\benum \w+")),
    ("2 a table with its count, of a type of its own", lambda: in_structs(r"^\s+(filled|count|ground_count|line_count): usize,")),
    ("2 a call of one joining in a match on the kind", lambda: in_lines(r"Kind::\w+\)?( \| None)? => (\{|.*::<)")),
    ("2 a function that prints, or puts text", lambda: in_signatures(r"fn (print_\w+|show_\w+|put_(bytes|number|word|u8|u16|fault))\b")),
    ("3 a loop over counted numbers", lambda: in_lines(r"\bfor \w+ in .*\.\.")),
    ("3 while or loop", lambda: in_lines(r"^\s*(while\b|loop\b)")),
    ("3 a counter kept by hand", lambda: in_lines(r"\b(at|index|count|filled|made|i) \+= 1;")),
    ("4 order, search, conversion, printing by hand", lambda: in_signatures(r"fn (comes_before|stops_at|is_behind|place_of|numbered|number|number_at|byte|digit|halves|lists|cheaper|fault_at|amount_fault)\b")),
    ("5 a fact in the requires of three functions or more", repeated_facts),
    ("5 a requires of several facts", lambda: in_lines(r"requires .*\) × ")),
    ("6 a table of fixed length in a type", lambda: in_structs(r": \[(u8|i32|i64|[A-Z][a-z]\w*); \w+\],")),
    ("6 a count beside a table", lambda: in_structs(r"\b(filled|count|ground_count|line_count|opened|places|last_row): (u8|usize),")),
    ("7 a match on what to run", lambda: in_lines(r"match .*(kind|field|step)\b")),
]


def main():
    for name, places in POINTS:
        found = places()
        print(f"{len(found):4} {name}")
        if VERBOSE:
            for place in found:
                print("      ", *place)


main()
