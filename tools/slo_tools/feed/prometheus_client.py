"""The HTTP interface of a Prometheus, or of what speaks as it does: what is asked, and what an answer
has to look like to be one."""

from __future__ import annotations

import json
import re
import time
from collections.abc import Mapping, Sequence
from dataclasses import dataclass, field
from typing import Any, Optional
from urllib.parse import urlencode

from slo_tools.feed.engine import EngineError, OddAnswer, QueryFault, TooLarge
from slo_tools.feed.numbers import NoNumber, number_of, shown
from slo_tools.wire import Link, Peer, Reply, Silence, TooLong

# Some 600,000 samples, which take 200 MB here. What is longer is asked for in smaller parts.
ANSWER_BYTES = 16 * 1024 * 1024
# Counted from the asking to the last byte.
ANSWER_SECONDS = 60.0
CLOCK_SECONDS = 10.0
_FORM = {"Content-Type": "application/x-www-form-urlencoded"}
# No minute is waited for longer than this, whatever a target's timeout is.
MOST_TIMEOUT = 600.0
# Prometheus's moments are seconds of this era.
_MOMENTS_END = float(2**33)
_DURATION = re.compile(r"(?:([0-9]{1,6})h)?(?:([0-9]{1,6})m)?(?:([0-9]{1,6})s)?(?:([0-9]{1,6})ms)?")

Labels = frozenset[tuple[str, str]]


@dataclass(frozen=True)
class Values:
    """The samples of one series as they came: seconds, and what stands for a number."""

    labels: Labels
    values: Sequence[tuple[float, Any]]


@dataclass
class PrometheusClient:
    """A Prometheus at an address. One link serves the questions of a round."""

    peer: Peer
    _link: Optional[Link] = field(default=None, init=False, repr=False)

    def now(self) -> float:
        """Its clock."""
        result = self._ask("query", {"query": "time()"}, CLOCK_SECONDS).get("result")
        if not isinstance(result, list) or len(result) != 2:
            raise _odd("it doesn't say its time")
        try:
            return _moment(float(number_of(result[1]) or 0))
        except NoNumber as fault:
            raise _odd(f"its time is {fault}") from fault

    def samples(self, selector: str, begin: float, end: float) -> list[Values]:
        """All samples of [begin, end]."""
        seconds = max(1, round(end - begin))
        keys = {"query": f"{selector}[{seconds}s]", "time": f"{end:.3f}"}
        return series_of(self._ask("query", keys))

    def values(self, query: str, begin: int, end: int, step: int) -> list[Values]:
        """The values of an expression at begin, begin + step, .. up to end."""
        keys = {"query": query, "start": str(begin), "end": str(end), "step": str(step)}
        return series_of(self._ask("query_range", keys))

    def scrape_timeout(self) -> Optional[float]:
        """The greatest timeout of its targets, where it says so."""
        try:
            targets = self._ask("targets", {"state": "active"})["activeTargets"]
            longest = max((seconds_of(t["scrapeTimeout"]) for t in targets), default=None)
        except (EngineError, QueryFault, KeyError, ValueError, TypeError):
            return None
        return None if longest is None else min(longest, MOST_TIMEOUT)

    def _ask(
        self, what: str, keys: Mapping[str, str], most: float = ANSWER_SECONDS
    ) -> dict[str, Any]:
        try:
            reply = self._reply(what, urlencode(keys), min(most, self.peer.timeout))
            content = reply.whole()
        except TooLong as fault:
            raise TooLarge(f"{self.peer.address.place}: {fault}") from fault
        except Silence as fault:
            raise EngineError(f"{self.peer.address.place}: {fault}") from fault
        return data_of(reply.status, content)

    def _reply(self, what: str, form: str, seconds: float) -> Reply:
        """An answer on the link that is open, or on a new one. A link that was closed meanwhile is
        no fault: the question is asked once more, since it changes nothing."""
        end = time.monotonic() + seconds
        if what == "targets":
            request = self.peer.request("GET", f"/api/v1/{what}?{form}")
        else:
            request = self.peer.request("POST", f"/api/v1/{what}", form.encode("ascii"), _FORM)
        kept, self._link = self._link, None
        if kept is not None and kept.is_quiet():
            try:
                return self._over(kept, request, end)
            except TooLong:
                raise
            except Silence:
                if time.monotonic() >= end:
                    raise
        elif kept is not None:
            kept.close()
        return self._over(Link(self.peer, end), request, end)

    def _over(self, link: Link, request: bytes, end: float) -> Reply:
        try:
            link.send(request, end)
            reply = link.reply("POST", self.peer.most, end)
        except Silence:
            link.close()
            raise
        if link.is_ended:
            link.close()
        else:
            self._link = link
        return reply


def data_of(status: int, content: bytes) -> dict[str, Any]:
    """What an answer says. Raises QueryFault where the query is to blame, EngineError where
    Prometheus says that it can't, OddAnswer where nobody knows who spoke."""
    try:
        told = json.loads(content.decode("utf-8"))
    except (ValueError, RecursionError, MemoryError) as fault:
        raise _odd(f"status {status}, no JSON") from fault
    if not isinstance(told, dict):
        raise _odd(f"status {status}, no answer of Prometheus")
    if told.get("status") == "error":
        text = f"{shown(told.get('errorType'))}: {_line(told.get('error'))}"
        if told.get("errorType") in ("bad_data", "execution"):
            raise QueryFault(text)
        raise OddAnswer(text)
    data = told.get("data")
    if status != 200 or told.get("status") != "success" or not isinstance(data, dict):
        raise _odd(f"status {status}, no answer of Prometheus")
    return data


def series_of(data: Mapping[str, Any]) -> list[Values]:
    """The series of an answer to a query of ranges. Raises OddAnswer, or QueryFault for those that
    have no numbers to count by."""
    result = data.get("result")
    if data.get("resultType") != "matrix" or not isinstance(result, list):
        raise _odd("the answer has no series")
    return [_series(each) for each in result]


def _series(told: Any) -> Values:
    if not isinstance(told, dict) or not isinstance(told.get("metric"), dict):
        raise _odd("a series without labels")
    labels = told["metric"]
    if not all(isinstance(value, str) for value in labels.values()):
        raise _odd("a label that is no text")
    if "values" not in told and "histograms" in told:
        name = shown(labels.get("__name__", "a series"))
        raise QueryFault(f"{name} is a native histogram: name a counter, or a query of values")
    values = told.get("values")
    if not isinstance(values, list):
        raise _odd("a series without values")
    return Values(frozenset(labels.items()), [_sample(pair) for pair in values])


def _sample(pair: Any) -> tuple[float, Any]:
    if not isinstance(pair, list) or len(pair) != 2:
        raise _odd("a sample that is no pair")
    return _moment(pair[0]), pair[1]


def _moment(value: Any) -> float:
    if isinstance(value, (int, float)) and 0 <= value < _MOMENTS_END:
        return float(value)
    raise _odd(f"{shown(value)} is no moment")


def _odd(why: str) -> OddAnswer:
    return OddAnswer(f"no answer of Prometheus: {why}")


def _line(value: Any) -> str:
    """What Prometheus says of a fault: a line, not longer than is read."""
    text = " ".join(value.split()) if isinstance(value, str) else shown(value)
    return text[:300] if text.isprintable() else repr(text[:300])


def seconds_of(text: str) -> float:
    """A duration of Prometheus as `10s`, `1m`, `1m30s` or `500ms`. Raises ValueError."""
    found = _DURATION.fullmatch(text)
    if found is None or not text:
        raise ValueError(text)
    hours, minutes, seconds, thousandths = (int(part or 0) for part in found.groups())
    return hours * 3600.0 + minutes * 60.0 + seconds + thousandths / 1000
