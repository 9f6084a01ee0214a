"""The jobs of the benchmark: texts as tools/job.py takes them, always the same."""

import random
from collections.abc import Iterable
from dataclasses import dataclass

NO_LIMIT = 20_000_000
ENOUGH = 1_000_000  # a budget that no search here uses up
UNITS = {"at-most": 60, "at-least": 60, "greatest-at-most": 4}  # amounts are drawn from 1 to five of these
LOOSER = {"at-most": 1, "at-least": -1, "greatest-at-most": 1}
TOTALS = {"at-most": sum, "at-least": sum, "greatest-at-most": max}


@dataclass(frozen=True)
class Shape:
    """A job whose amounts are drawn, and whose limits are the totals of a drawn choice."""

    places: int
    versions: int
    kinds: tuple[str, ...]
    sequence: int

    @property
    def name(self) -> str:
        return f"drawn {self.places}x{self.versions}"


SHAPES = (
    Shape(5, 8, ("at-most", "greatest-at-most", "at-most", "at-least"), 1),
    Shape(5, 32, ("at-most", "at-most", "at-least"), 3),
    Shape(8, 6, ("at-most", "greatest-at-most", "at-least"), 4),
    Shape(12, 3, ("at-most", "at-most"), 7),
    Shape(16, 2, ("greatest-at-most", "at-most", "at-least", "at-least"), 8),
    Shape(16, 32, ("at-least", "at-most", "greatest-at-most"), 7),
)


class Draws:
    """The drawn numbers of a sequence; `random` alone is sure to give the same ones in every Python."""

    def __init__(self, sequence: int) -> None:
        self.draw = random.Random(sequence)

    def upto(self, most: int) -> int:
        return 1 + int(self.draw.random() * most)


def head(limits: list[tuple[str, int]], order: Iterable[int], cap: int) -> list[str]:
    rows = [f"row r{row} {kind} {limit}" for row, (kind, limit) in enumerate(limits, 1)]
    return [f"cap {cap}", *rows, "order " + " ".join(f"p{it}" for it in order)]


def drawn_limits(shape: Shape, table: list[list[list[int]]], draws: Draws) -> list[tuple[str, int]]:
    """The totals of a drawn choice, which keeps them."""
    choice = [versions[draws.upto(len(versions)) - 1] for versions in table]
    return [(kind, TOTALS[kind](it[row] for it in choice)) for row, kind in enumerate(shape.kinds, 1)]


@dataclass(frozen=True)
class Drawn:
    """The amounts by place, version and row, the price first; and the rows past the price, each a kind and a limit."""

    table: list[list[list[int]]]
    limits: list[tuple[str, int]]

    def lines(self, order: Iterable[int], cap: int = NO_LIMIT) -> list[str]:
        """All that the job states but its calls."""
        lines = head(self.limits, order, cap)
        for place, versions in enumerate(self.table, 1):
            lines += [f"place p{place}", *("version " + " ".join(map(str, it)) for it in versions)]
        return lines


def draw(shape: Shape) -> Drawn:
    """All amounts are drawn by themselves."""
    draws = Draws(shape.sequence)
    mosts = [500, *(5 * UNITS[kind] for kind in shape.kinds)]
    table = [[[draws.upto(most) for most in mosts] for _ in range(shape.versions)] for _ in range(shape.places)]
    return Drawn(table, drawn_limits(shape, table, draws))


def graded(shape: Shape, versions: list[list[int]]) -> list[list[int]]:
    """The amounts of a place dealt anew to its versions, so that a dearer one is better in every row."""
    columns = [sorted(it) for it in zip(*versions)]
    for kind, column in zip(shape.kinds, columns[1:]):
        column.sort(key=lambda amount: -LOOSER[kind] * amount)
    return [list(it) for it in zip(*columns)]


def draw_graded(shape: Shape) -> Drawn:
    """Places differ in how far the amounts of each row lie apart, up to five times, and at each a dearer version is better."""
    draws = Draws(shape.sequence)
    units = [100, *(UNITS[kind] for kind in shape.kinds)]
    table = []
    for _ in range(shape.places):
        mosts = [draws.upto(5) * unit for unit in units]
        table.append(graded(shape, [[draws.upto(most) for most in mosts] for _ in range(shape.versions)]))
    return Drawn(table, drawn_limits(shape, table, draws))


def drawn(shape: Shape, searches: int) -> str:
    """A search is run as far as it goes, again and again, with an empty ledger and the limit of row 1 a little looser each time."""
    it = draw(shape)
    lines = it.lines(range(1, shape.places + 1))
    kind, first = it.limits[0]
    for search in range(searches):
        lines += [f"limit r1 {first + search * LOOSER[kind]}", "clear", "search", f"run {ENOUGH}", "close"]
    return "\n".join(lines)


def counter(places: int, rows: int, budget: int, searches: int) -> str:
    """A job that counts down: each choice costs one less than the one before it, so that a search finds one with about every
    other step, and learns a ground of one line with about every 64th. Places past the third and rows past the price have no
    say. Each search begins with an empty ledger."""
    lines = head([("at-most", NO_LIMIT)] * rows, range(1, places + 1), NO_LIMIT)
    for place in range(1, places + 1):
        step = -(32 ** (place - 1)) if place <= 3 else 1
        base = -31 * step if place <= 3 else 0
        lines += [f"place p{place}", f"ladder 32 {base} {step}" + " 1 0" * rows]
    return "\n".join([*lines, *["search", f"run {budget}", "close", "clear"] * searches])
