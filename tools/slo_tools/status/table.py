"""The table of a terminal: cut to its width, with colours where it has some."""

from __future__ import annotations

from collections import Counter
from collections.abc import Iterator, Sequence
from dataclasses import dataclass
from fractions import Fraction
from typing import Optional

from slo_tools.clock import date_of
from slo_tools.spelling import percent, printable, times
from slo_tools.status.asking import LOOKBACKS, Standing
from slo_tools.status.standing import Line, State

RED, YELLOW, GREEN, DIM, PLAIN = "\033[31;1m", "\033[33m", "\033[32m", "\033[2m", "\033[0m"
COLOURS = {State.BREACHING: RED, State.SPENT: RED, State.QUIET: GREEN}
# The bar of a budget, as far as there is room for it beside what counts.
BARS = (20, 10, 0)
# A name is cut to no less than this.
LEAST_NAME = 8
STATE_WIDTH = 9
HEADS = ("SLO", "STATE", "BUDGET LEFT", "BREACHING")


@dataclass(frozen=True)
class Paper:
    """What is written on. Without a width nothing is cut."""

    width: Optional[int] = None
    is_coloured: bool = False
    is_plain: bool = False

    @property
    def blocks(self) -> str:
        """A bar's full part, its empty part, and what stands where a text was cut."""
        return "#.~" if self.is_plain else "█░…"

    def line(self, cells: Sequence[tuple[str, str]]) -> str:
        """Texts with their colours, cut to the width."""
        room, made = self.width, ""
        for text, colour in cells:
            shown = text if room is None else text[:room]
            room = None if room is None else room - len(shown)
            made += f"{colour}{shown}{PLAIN}" if self.is_coloured and colour and shown else shown
        return made if self.is_coloured else made.rstrip()


@dataclass(frozen=True)
class _Row:
    """The texts of a line before they have widths."""

    line: Line
    left: str
    burns: list[str]
    breaching: str


@dataclass(frozen=True)
class _Widths:
    name: int
    bar: int
    left: int
    burns: list[int]


def table_of(standing: Standing, paper: Paper) -> Iterator[str]:
    """The lines of the table, worst first: the moment with a sum, the heads, the objectives."""
    rows = [_row(line) for line in standing.lines]
    widths = _widths(rows, paper)
    yield paper.line([(_sum(standing), DIM)])
    heads = [f"{head:>{width}}" for head, width in zip(LOOKBACKS, widths.burns)]
    budget = _budget_width(widths)
    cells = [f"{HEADS[0]:{widths.name}}", f"{HEADS[1]:{STATE_WIDTH}}", f"{HEADS[2]:{budget}}"]
    tail = [HEADS[3]] if any(row.breaching for row in rows) else []
    yield paper.line([("  ".join([*cells, *heads, *tail]), DIM)])
    for row in rows:
        yield paper.line(_cells(row, widths, paper))


def _sum(standing: Standing) -> str:
    states = Counter(line.facts.state for line in standing.lines)
    counts = [f"{states[state]} {state.value}" for state in State if states[state]]
    if standing.unread:
        counts.append(f"{len(standing.unread)} can't be read")
    return f"{date_of(standing.at)}  {', '.join(counts)}"


def _row(line: Line) -> _Row:
    remaining = line.facts.remaining
    left = "-" if remaining is None else percent(remaining)
    burns = ["-" if burn is None else times(burn) for burn in line.burns]
    return _Row(line, left, burns, printable(" ".join(line.facts.breaching)))


def _widths(rows: Sequence[_Row], paper: Paper) -> _Widths:
    left = max([7, *(len(row.left) for row in rows)])
    burns = [
        max([len(head), *(len(row.burns[column]) for row in rows)])
        for column, head in enumerate(LOOKBACKS)
    ]
    name = max([len(HEADS[0]), *(len(_name(row.line, None, paper)) for row in rows)])
    if paper.width is None:
        return _Widths(name, BARS[0], left, burns)
    breaching = max([0, *(len(row.breaching) + 2 for row in rows if row.breaching)])
    room = paper.width - STATE_WIDTH - sum(burns) - 2 * (2 + len(burns)) - breaching
    bar = next(bar for bar in BARS if name + max(_budget(bar, left), 11) <= room or not bar)
    name = min(name, max(LEAST_NAME, room - max(_budget(bar, left), 11)))
    return _Widths(name, bar, left, burns)


def _budget(bar: int, left: int) -> int:
    return bar + 1 + left if bar else left


def _budget_width(widths: _Widths) -> int:
    return max(_budget(widths.bar, widths.left), len(HEADS[2]))


def _cells(row: _Row, widths: _Widths, paper: Paper) -> list[tuple[str, str]]:
    facts = row.line.facts
    colour = COLOURS.get(facts.state, YELLOW)
    bar = _bar(facts.remaining, widths.bar, paper)
    left = f"{row.left:>{_budget_width(widths) - len(bar)}}"
    burns = [f"{burn:>{width}}" for burn, width in zip(row.burns, widths.burns)]
    return [
        (f"{_name(row.line, widths.name, paper):{widths.name}}  ", ""),
        (f"{facts.state.value:{STATE_WIDTH}}", colour),
        ("  ".join(["", bar + left, *burns]), ""),
        (f"  {row.breaching}" if row.breaching else "", colour),
    ]


def _name(line: Line, most: Optional[int], paper: Paper) -> str:
    """`slo/0`; where it has to be cut its number stays."""
    slo, number = printable(line.slo), f"/{line.number}"
    if most is not None and len(slo) + len(number) > most:
        slo = slo[: most - len(number) - 1] + paper.blocks[2]
    return slo + number


def _bar(left: Optional[Fraction], width: int, paper: Paper) -> str:
    if left is None:
        return " " * width
    full = max(0, min(width, int(left * width)))
    return paper.blocks[0] * full + paper.blocks[1] * (width - full)
