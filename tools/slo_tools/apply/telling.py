"""Faults and warnings as lines for people."""

from __future__ import annotations

from collections.abc import Iterable
from typing import TextIO

from slo_tools.apply.folder import Told
from slo_tools.apply.form import RULES
from slo_tools.nodes import Fault

# Lines of this many faults are read by nobody, and take a pipeline's log.
MOST_LINES = 500


def shown(text: str) -> str:
    """A text on one line: what doesn't print stands as its escape."""
    if text.isprintable():
        return text
    return "".join(
        c if c.isprintable() else c.encode("unicode_escape", "surrogatepass").decode("ascii")
        for c in text
    )


def fault_line(told: Told) -> str:
    """`file:line:column: path: rule: what that means`."""
    return f"{_place(told)}: {_text(told.fault)}"


def warning_line(told: Told) -> str:
    return f"{_place(told)}: warning: {_text(told.fault)}"


def tell(lines: Iterable[str], to: TextIO) -> None:
    """Writes the first lines, and how many there are beside them."""
    left = 0
    for number, line in enumerate(lines):
        if number < MOST_LINES:
            print(line, file=to)
        else:
            left += 1
    if left:
        print(f"slo-apply: and {left:,} lines more", file=to)


def in_order(told: Iterable[Told]) -> list[Told]:
    """Faults by file and place."""
    return sorted(told)


def _place(told: Told) -> str:
    return f"{shown(told.file)}:{told.fault.place.line}:{told.fault.place.column}"


def _text(fault: Fault) -> str:
    meaning = RULES.get(fault.rule, "")
    return shown(": ".join(part for part in (fault.path, fault.rule, fault.why or meaning) if part))
