"""How the texts of objects differ."""

from __future__ import annotations

import difflib
from collections.abc import Iterator, Mapping
from itertools import islice

Name = tuple[str, str]


def differences_of(before: Mapping[Name, str], after: Mapping[Name, str]) -> Iterator[str]:
    """A line for each object that came (`+`), went (`-`) or changed (`~`), and below the last the
    lines of its text that differ, with one around them."""
    for name in sorted({*before, *after}):
        old, new = before.get(name), after.get(name)
        if old == new:
            continue
        mark = "+" if old is None else "-" if new is None else "~"
        yield f"{mark} {' '.join(name)}"
        if old is not None and new is not None:
            yield from (f"  {line}" for line in text_differences(old, new))


def text_differences(before: str, after: str) -> Iterator[str]:
    """The lines of two texts that differ, without the names of files above them."""
    # Other characters that count as a line's end elsewhere stand inside texts.
    old, new = before.split("\n")[:-1], after.split("\n")[:-1]
    yield from islice(difflib.unified_diff(old, new, lineterm="", n=1), 2, None)
