#!/usr/bin/env python3
"""Writes a job file from a plain text: tools/job.py TEXT JOB.

The text has a line for each thing that a job states, in this order. Words are parted by spaces, and `#` begins a comment.

    cap 900                      the price cap; the price is row 0, and its name is price
    row standby at-least 60      a row: a name, a kind (at-most, at-least or greatest-at-most) and a limit
    order battery phone          the places, the one at position 1 first
    place battery                a place: a name; its versions follow, or its ladder
    version 75 180               a version: an amount for each row, the price first
    ladder 4 75 10 180 -20       a ladder: a count of versions, then a base and a step for each row, the price first
    search                       a call: search, run BUDGET, close, clear, or limit ROW NUMBER

Rows, places and versions are numbered as they come: rows from 1 on, since the price is row 0. Each line is one field of the
file (docs/FORMAT.md), but for `place`. What the file states is a valid job: any other text is refused, with the line
that is wrong, and then no file is written. The text is read as UTF-8, with a byte order mark or without one, and is never
written over.
"""

import os
import re
import sys
from collections.abc import Callable
from dataclasses import dataclass, field
from pathlib import Path

KINDS = {"at-most": 1, "at-least": 2, "greatest-at-most": 3}
CODES = {"limit": 1, "clear": 2, "search": 3, "run": 4, "close": 5}
MOST_PLACES, MOST_ROWS, MOST_VERSIONS, MOST_CALLS = 16, 8, 32, 256
GREATEST_LIMIT, GREATEST_AMOUNT = 20_000_000, 1_000_000
FOUR_BYTES = (2**31 - 1, -(2**31))


class Refused(Exception):
    """Why a text states no job."""


@dataclass
class Place:
    name: str
    versions: list[list[int]] = field(default_factory=list)
    count: int = 0  # of a ladder's versions, whose bases and steps are the rungs
    rungs: list[int] = field(default_factory=list)


@dataclass
class Job:
    cap: int | None = None
    names: list[str] = field(default_factory=lambda: ["price"])
    rows: list[tuple[int, int]] = field(default_factory=list)
    order: list[str] = field(default_factory=list)
    places: list[Place] = field(default_factory=list)
    calls: list[tuple[int, int, int]] = field(default_factory=list)


def want(good: bool, why: str) -> None:
    if not good:
        raise Refused(why)


def number(word: str, greatest: int, least: int | None = None) -> int:
    """A whole number from least to greatest; with no least named, no further from 0 than the greatest."""
    least = -greatest if least is None else least
    is_number = re.fullmatch("-?[0-9]{1,10}", word) is not None
    want(is_number and least <= int(word) <= greatest, f"'{word}' is no whole number from {least} to {greatest}")
    return int(word)


def word_count(words: list[str], count: int) -> None:
    want(len(words) == count, f"{count} words are wanted behind the first, and there are {len(words)}")


def take_cap(job: Job, words: list[str]) -> None:
    want(job.cap is None, "the cap stands twice")
    word_count(words, 1)
    job.cap = number(words[0], GREATEST_LIMIT)


def take_row(job: Job, words: list[str]) -> None:
    word_count(words, 3)
    name, kind, limit = words
    want(len(job.rows) < MOST_ROWS, f"there are more than {MOST_ROWS} rows")
    want(name not in job.names, f"there is a row '{name}' already")
    want(kind in KINDS, f"'{kind}' is none of {', '.join(KINDS)}")
    job.names.append(name)
    job.rows.append((KINDS[kind], number(limit, GREATEST_LIMIT)))


def take_order(job: Job, words: list[str]) -> None:
    want(not job.order, "the order stands twice")
    want(0 < len(words) <= MOST_PLACES, f"an order has 1 to {MOST_PLACES} places")
    want(len(set(words)) == len(words), "a place stands twice in the order")
    job.order = words


def take_place(job: Job, words: list[str]) -> None:
    word_count(words, 1)
    want(words[0] in job.order, f"'{words[0]}' isn't in the order")
    want(words[0] not in [it.name for it in job.places], f"there is a place '{words[0]}' already")
    job.places.append(Place(words[0]))


def last_place(job: Job) -> Place:
    want(bool(job.places), "there is no place yet")
    want(not job.places[-1].rungs, "this place has a ladder already")
    return job.places[-1]


def take_version(job: Job, words: list[str]) -> None:
    place = last_place(job)
    want(not any(it.rungs for it in job.places), "versions are listed before all ladders")
    want(len(place.versions) < MOST_VERSIONS, f"this place has more than {MOST_VERSIONS} versions")
    word_count(words, len(job.names))
    place.versions.append([number(it, GREATEST_AMOUNT) for it in words])


def take_ladder(job: Job, words: list[str]) -> None:
    place = last_place(job)
    want(not place.versions, "this place has versions already")
    word_count(words, 1 + 2 * len(job.names))
    place.count = number(words[0], MOST_VERSIONS, 1)
    place.rungs = [number(it, *FOUR_BYTES) for it in words[1:]]
    for base, step in zip(place.rungs[::2], place.rungs[1::2]):
        number(str(base), GREATEST_AMOUNT)
        number(str(base + (place.count - 1) * step), GREATEST_AMOUNT)


def take_call(job: Job, name: str, words: list[str]) -> None:
    want(len(job.calls) < MOST_CALLS, f"there are more than {MOST_CALLS} calls")
    word_count(words, {"limit": 2, "run": 1}.get(name, 0))
    row = words[0] if name == "limit" else "price"
    want(row in job.names, f"there is no row '{row}'")
    last = number(words[-1], *FOUR_BYTES) if words else 0
    job.calls.append((CODES[name], job.names.index(row), last))


# What takes each line, with the section that it stands in.
TAKES: dict[str, tuple[int, Callable[[Job, list[str]], None]]] = {
    "cap": (1, take_cap),
    "row": (2, take_row),
    "order": (3, take_order),
    "place": (4, take_place),
    "version": (4, take_version),
    "ladder": (4, take_ladder),
    **{name: (5, lambda job, words, name=name: take_call(job, name, words)) for name in CODES},
}


def test_whole(job: Job) -> None:
    want(job.cap is not None, "there is no cap")
    want(bool(job.order), "there is no order")
    missing = set(job.order) - {it.name for it in job.places if it.versions or it.rungs}
    want(not missing, f"places without versions: {', '.join(sorted(missing))}")


def read_text(text: str) -> Job:
    """The job that a text states."""
    job, section, at = Job(), 0, 0
    try:
        for at, line in enumerate(text.split("\n"), 1):
            words = line.split("#")[0].split()
            if words:
                want(words[0] in TAKES, f"no line begins with '{words[0]}'")
                place, take = TAKES[words[0]]
                want(place >= section, f"'{words[0]}' comes too late")
                section = place
                take(job, words[1:])
        test_whole(job)
    except Refused as why:
        raise Refused(f"line {at}: {why}") from None
    return job


def one_field(tag: int, small: list[int], large: list[int]) -> bytes:
    """A field whose body has these numbers of one byte, and behind them these of four."""
    body = bytes(small) + b"".join(it.to_bytes(4, "big", signed=True) for it in large)
    return bytes([tag]) + len(body).to_bytes(2, "big") + body


def place_fields(at: int, place: Place) -> list[bytes]:
    if place.rungs:
        return [one_field(5, [at, place.count], place.rungs)]
    return [one_field(4, [at], it) for it in place.versions]


def write(job: Job) -> bytes:
    """The job file of a job."""
    names = [it.name for it in job.places]
    fields = [one_field(1, [len(names), len(job.rows)], [job.cap or 0])]
    fields += [one_field(2, [kind], [limit]) for kind, limit in job.rows]
    fields += [one_field(3, [names.index(it) + 1 for it in job.order], [])]
    for at, place in enumerate(job.places, 1):
        fields += place_fields(at, place)
    fields += [one_field(6, [code, row], [last]) for code, row, last in job.calls]
    return b"".join(fields)


def same_file(text: str, made: str) -> bool:
    """Whether both are one file, by whatever names or links."""
    return os.path.exists(made) and os.path.samefile(text, made)


def main(words: list[str]) -> int:
    if len(words) != 2:
        print("usage: tools/job.py TEXT JOB", file=sys.stderr)
        return 2
    try:
        want(not same_file(*words), "the job file would be written over the text")
        made = write(read_text(Path(words[0]).read_text(encoding="utf-8-sig")))
        Path(words[1]).write_bytes(made)
    except (Refused, OSError, UnicodeDecodeError) as why:
        print(f"{words[0]}: {why}", file=sys.stderr)
        return 1
    return 0


if __name__ == "__main__":
    sys.exit(main(sys.argv[1:]))
