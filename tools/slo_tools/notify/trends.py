"""The burn rates of the last seven days, which the page draws as a small line in each row."""

from __future__ import annotations

import re
from collections.abc import Iterator, Sequence
from fractions import Fraction
from typing import Any, Optional

from slo_tools import questions
from slo_tools.clock import DAY
from slo_tools.objects import Objective, Slo
from slo_tools.office import Office
from slo_tools.questions import Outcome

_TARGET = re.compile(r"(\d{1,30}(?:\.\d{1,30})?)(%?)", re.ASCII)
# Every slice lies inside of one step.
STEP = 360
SPAN = 7 * DAY


class Trends:
    """The trends of an office's objectives, asked for anew when a step is over."""

    def __init__(self) -> None:
        self.by_objective: dict[tuple[str, int], dict[str, Any]] = {}
        self._asked: Optional[tuple[int, list[tuple[str, int, str]]]] = None

    def ask(self, office: Office, slos: Sequence[Slo], at: int, origin: Optional[int]) -> None:
        """The trends up to the last step that is over at a moment."""
        wanted = [(slo.name, each) for slo in slos for each in slo.objectives]
        end = at // STEP * STEP
        state = (end, [(name, each.number, each.target) for name, each in wanted])
        if state == self._asked:
            return
        begin = max(end - SPAN, -(-(origin or 0) // STEP) * STEP)
        self.by_objective = {}
        self._asked = state
        if begin >= end:
            return
        asked = [questions.sums(name, each.number, begin, end, STEP) for name, each in wanted]
        outcomes: Iterator[Outcome[Any]] = iter(office.asked(asked))
        for name, each in wanted:
            outcome = next(outcomes)
            if outcome.fault is None:
                burns = [_burn(each, *pair) for pair in outcome.get()]
                self.by_objective[name, each.number] = {"burns": burns, "step": STEP, "to": end}


def _burn(objective: Objective, num: int, den: int) -> Optional[float]:
    """A burn rate of three digits, which is enough for a line."""
    target = target_of(objective.target)
    if not den or target is None:
        return None
    burn = Fraction(den - num, den) / (1 - target)
    return float(f"{float(burn):.3g}")


def target_of(text: str) -> Optional[Fraction]:
    """A target as it was written, `0.999` or `99.9%`; None for what is none."""
    found = _TARGET.fullmatch(text)
    if found is None:
        return None
    target = Fraction(found[1]) / (100 if found[2] else 1)
    return target if target < 1 else None
