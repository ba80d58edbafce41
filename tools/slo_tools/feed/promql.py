"""Which series a query of counters names.

Differences are made of the raw samples of each series, since a sum of series hides which of them
was reset, and `rate` and `increase` guess at a window's edges. So a query of counters is a
selector, a `sum` of one, or a sum of those by `+`; anything else is refused.
"""

from __future__ import annotations

import re
from typing import Optional

from slo_tools.feed.engine import QueryFault

# Brackets inside one another; a query for people has a few.
_DEEPEST = 50

_NAME = r"[A-Za-z_:][A-Za-z0-9_:]*"
_LABEL = r"[A-Za-z_][A-Za-z0-9_]*"
_TEXT = r'"(?:[^"\\\n]|\\.)*"|' + r"'(?:[^'\\\n]|\\.)*'|`[^`]*`"
_TOKEN = re.compile(
    rf"(?:\s|#[^\n]*)*(?:(?P<name>{_NAME})|(?P<text>{_TEXT})|(?P<sign>!=|=~|!~|.))", re.DOTALL
)
_END = re.compile(r"(?:\s|#[^\n]*)*\Z")


def fault_of(query: str) -> Optional[str]:
    """Why the feed can't count by a query of counters, None where it can.

    >>> fault_of('rate(requests_total[5m])')
    "rate(..) is no counter; name the counter's own series"
    """
    try:
        selectors(query)
    except QueryFault as fault:
        return str(fault)
    return None


def selectors(query: str) -> list[str]:
    """The selectors whose series a query adds up.

    >>> selectors('sum by (instance) (requests_total{code=~"2.."})')
    ['requests_total{code=~"2.."}']
    >>> selectors('a_total + sum(b_total)')
    ['a_total', 'b_total']
    """
    reader = _Reader(_tokens(query))
    found = [reader.term()]
    while reader.takes("+"):
        found.append(reader.term())
    reader.end()
    return found


Token = tuple[str, str]


def _tokens(query: str) -> list[Token]:
    tokens: list[Token] = []
    place = 0
    while _END.match(query, place) is None:
        match = _TOKEN.match(query, place)
        if match is None or match.lastgroup is None:
            raise QueryFault("it can't be read")
        tokens.append((match.lastgroup, match.group(match.lastgroup)))
        place = match.end()
    return tokens


class _Reader:
    def __init__(self, tokens: list[Token]) -> None:
        self._tokens = tokens
        self._place = 0
        self._depth = 0

    def term(self) -> str:
        """A selector, `sum(..)` with or without labels, or a term in brackets."""
        self._depth += 1
        if self._depth > _DEEPEST:
            raise QueryFault(f"more than {_DEEPEST} brackets stand inside one another")
        found = self._term()
        self._depth -= 1
        return found

    def _term(self) -> str:
        if self.takes("("):
            inner = self.term()
            self._want(")")
            return inner
        if self._peek() == "sum" and self._peek(1) in ("(", "by", "without"):
            return self._sum()
        return self._selector()

    def _sum(self) -> str:
        self._place += 1
        self._grouping()
        self._want("(")
        inner = self.term()
        self._want(")")
        self._grouping()
        return inner

    def _grouping(self) -> None:
        if self._peek() not in ("by", "without"):
            return
        self._place += 1
        self._want("(")
        while not self.takes(")"):
            self._kind("name", "a label")
            if self._peek() != ")":
                self._want(",")

    def _selector(self) -> str:
        name = ""
        if self._peek() != "{":
            name = self._kind("name", "a metric")
            if self._peek() == "(":
                raise QueryFault(f"{name}(..) is no counter; name the counter's own series")
        if not self.takes("{"):
            return name
        matchers = []
        while not self.takes("}"):
            matchers.append(self._matcher())
            if self._peek() != "}":
                self._want(",")
        if not name and not matchers:
            raise QueryFault("a selector names a metric or a label")
        return name + "{" + ",".join(matchers) + "}"

    def _matcher(self) -> str:
        label = self._kind("name", "a label")
        sign = self._peek()
        if sign not in ("=", "!=", "=~", "!~"):
            raise QueryFault(f"{sign or 'the end'!r} stands where a label is compared")
        self._place += 1
        return label + sign + self._kind("text", "a text in quotes")

    def takes(self, sign: str) -> bool:
        if self._peek() != sign:
            return False
        self._place += 1
        return True

    def end(self) -> None:
        if self._place < len(self._tokens):
            raise QueryFault(f"{self._peek()!r} has no place in a query of counters")

    def _want(self, sign: str) -> None:
        if not self.takes(sign):
            raise QueryFault(f"{self._peek() or 'the end'!r} stands where {sign!r} is wanted")

    def _kind(self, kind: str, what: str) -> str:
        if self._place >= len(self._tokens) or self._tokens[self._place][0] != kind:
            raise QueryFault(f"{self._peek() or 'the end'!r} stands where {what} is wanted")
        self._place += 1
        return self._tokens[self._place - 1][1]

    def _peek(self, ahead: int = 0) -> str:
        place = self._place + ahead
        return self._tokens[place][1] if place < len(self._tokens) else ""
