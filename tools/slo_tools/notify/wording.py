"""What an alert says at the minute of a round, and what it carries along: functions over facts,
nothing is asked here."""

from __future__ import annotations

import re
from collections.abc import Iterator, Mapping, Sequence
from dataclasses import dataclass
from fractions import Fraction
from typing import Any, Optional

from slo_tools.clock import DAY
from slo_tools.notify.deciding import BREACHING, NO_DATA, QUIET
from slo_tools.objects import Document, map_of
from slo_tools.spelling import budget_text, minutes_of_duration

# Annotations with this front are meant for the tools, not for people.
OWN_FRONT = "slo-office/"
# As the objects write numbers (docs/objects.md).
_NUMBER = re.compile(r"\d{1,30}(\.\d{1,30})?", re.ASCII)
# A state that no alert has: the objective isn't watched by the policy any more.
GONE = "gone"
_STANDS = {"gt": "above", "gte": "from", "lt": "below", "lte": "up to"}
_CALENDAR = {"1d": "day", "1w": "week", "1M": "month", "1Q": "quarter", "1Y": "year"}


@dataclass(frozen=True)
class Rule:
    """Windows in minutes, the longest first, over each of which a burn rate stands to a threshold."""

    windows: tuple[int, ...]
    op: str
    threshold: Fraction

    def text(self, severity: str) -> str:
        number = decimal(self.threshold)
        return f"{severity or 'alert'} {_STANDS.get(self.op, self.op)} {number}"


# The policies that every office has (docs/rules.md).
BUILT_IN_RULES = {
    "workbook-page": (
        Rule((60, 5), "gt", Fraction("14.4")),
        Rule((360, 30), "gt", Fraction(6)),
    ),
    "workbook-ticket": (Rule((4320, 360), "gt", Fraction(1)),),
}


def rule_of(condition: Mapping[str, Any]) -> Optional[Rule]:
    """The rule of an AlertCondition's `spec`; None where it has another form."""
    members = map_of(condition.get("condition"))
    window = minutes_of_duration(str(members.get("lookbackWindow", "")))
    threshold = _number_of(str(members.get("threshold", "")))
    if threshold is None:
        return None
    return None if window is None else Rule((window,), str(members.get("op", "gte")), threshold)


@dataclass(frozen=True)
class Facts:
    """What is known of an alert at a minute: its objective's name, target and window, the policy,
    the burn rates by minutes back, the rest of the budget, and where it counts from."""

    name: str
    target: str
    window: str
    policy: str
    severity: str
    state: str
    rules: Sequence[Rule]
    burns: Mapping[int, Optional[Fraction]]
    remaining: Optional[Fraction]
    span: Optional[int] = None
    elapsed: Optional[int] = None


def summary(facts: Facts) -> str:
    """One line for people, true at the facts' minute."""
    rule = telling_rule(facts)
    burn = None if rule is None else facts.burns.get(rule.windows[0])
    parts = [f"{facts.name} ({facts.target} in {facts.window}): {_happening(facts, rule, burn)}."]
    left = _left(facts, burn)
    return " ".join([*parts, left]) if left else parts[0]


def telling_rule(facts: Facts) -> Optional[Rule]:
    """The first rule of the policy that holds; else the one that is nearest to it."""
    best: Optional[Rule] = None
    most = Fraction(-1)
    for rule in facts.rules:
        found = [facts.burns.get(window) for window in rule.windows]
        known = [burn for burn in found if burn is not None]
        if len(known) == len(found) and all(_holds(rule, burn) for burn in known):
            return rule
        near = min(known, default=Fraction(0)) / max(rule.threshold, Fraction(1, 10**9))
        if near > most:
            best, most = rule, near
    return best


def _holds(rule: Rule, burn: Fraction) -> bool:
    return {
        "gt": burn > rule.threshold,
        "gte": burn >= rule.threshold,
        "lt": burn < rule.threshold,
        "lte": burn <= rule.threshold,
    }.get(rule.op, False)


def _happening(facts: Facts, rule: Optional[Rule], burn: Optional[Fraction]) -> str:
    if facts.state == GONE:
        return f"{facts.policy} doesn't watch it any more"
    if rule is None:
        return f"{facts.policy} is {facts.state}"
    over, asked = f"over {spelled_window(rule.windows[0])}", rule.text(facts.severity)
    if facts.state == NO_DATA:
        return f"no data {over} ({asked})"
    if facts.state == QUIET:
        now = "nothing is counted" if burn is None else f"a burn rate of {decimal(burn)}"
        return f"back to normal, {now} {over} ({asked})"
    if burn is None:
        return f"it burned, now nothing is counted {over} ({asked})"
    if burn > 1 and rule.op in ("gt", "gte"):
        return f"burns {decimal(burn)} times too fast {over} ({asked})"
    return f"has a burn rate of {decimal(burn)} {over} ({asked})"


def _left(facts: Facts, burn: Optional[Fraction]) -> str:
    if facts.remaining is None:
        return ""
    if facts.remaining <= 0:
        text = budget_text(facts.remaining)
        return f"{text[0].upper()}{text[1:]}."
    text = f"{short_percent(facts.remaining)} left"
    minutes = _exhausted_in(facts, burn) if facts.state == BREACHING else None
    if minutes is not None and (facts.span is None or minutes < facts.span):
        text += f", gone in {spelled_minutes(minutes)} at this pace"
    return f"{text[0].upper()}{text[1:]}."


def _exhausted_in(facts: Facts, burn: Optional[Fraction]) -> Optional[int]:
    """The minutes until a budget is spent at a pace, at even traffic. A rolling window has its whole
    length to spend; in one of a calendar the budget grows with the events that come."""
    if burn is None or burn <= 1 or facts.remaining is None:
        return None
    if facts.elapsed is not None:
        return int(facts.elapsed * facts.remaining / (burn - 1))
    return None if facts.span is None else int(facts.span * facts.remaining / burn)


def decimal(value: Fraction) -> str:
    """A number for people, rounded: `25.8`, `0.32`, `500`."""
    digits = 2 if abs(value) < 10 else 1 if abs(value) < 1_000 else 0
    text = f"{float(round(value, digits)):.{digits}f}"
    return text.rstrip("0").rstrip(".") if digits else text


def decimal_of(value: Optional[Fraction]) -> str:
    """The same with more digits, for programs; an empty text for none."""
    if value is None:
        return ""
    text = f"{float(round(value, 4)):.4f}".rstrip("0").rstrip(".")
    return "0" if text in ("-0", "") else text


def short_percent(part: Fraction) -> str:
    """A part above zero in percent, rounded down: `39%`, `38.7%`."""
    tenths = part.numerator * 1_000 // part.denominator
    if tenths == 0:
        return "less than 0.1%"
    return f"{tenths // 10}%" if tenths % 10 == 0 else f"{tenths // 10}.{tenths % 10}%"


def _number_of(text: str) -> Optional[Fraction]:
    """A number as objects have it; None for another text, as one with an exponent, which may stand
    for more digits than there is time to write."""
    return Fraction(text) if _NUMBER.fullmatch(text) is not None else None


def target_text(target: str) -> str:
    """A target in percent, as `99.9%` of `0.999`."""
    if target.endswith("%"):
        return target
    part = _number_of(target)
    if part is None:
        return target
    percent = part * 100
    text = f"{float(percent):.10f}".rstrip("0").rstrip(".")
    return f"{text}%" if Fraction(text) == percent else target


def window_text(duration: str, is_calendar: bool) -> str:
    """A window as it stands behind `in`: `28d`, `a calendar month`."""
    return f"a calendar {_CALENDAR.get(duration, duration)}" if is_calendar else duration


def spelled_window(minutes: int) -> str:
    """A window's length: `5m`, `1h`, `3d`."""
    for unit, length in (("d", DAY), ("h", 60)):
        if minutes % length == 0 and minutes >= length:
            return f"{minutes // length}{unit}"
    return f"{minutes}m"


def spelled_minutes(minutes: int) -> str:
    """A length of time for people: `106 min`, `7 h`, `9 d`."""
    if minutes < 120:
        return f"{minutes} min"
    return f"{minutes // 60} h" if minutes < 2 * DAY else f"{minutes // DAY} d"


def carried(documents: Sequence[Document], field: str, own: Mapping[str, str]) -> dict[str, str]:
    """The labels or annotations of objects, by names that Alertmanager takes. A later object's
    count before an earlier one's, and none takes the place of an alert's own."""
    found: dict[str, str] = {}
    for document in documents:
        members = map_of(map_of(document.members.get("metadata")).get(field))
        # A name that is legal as it stands counts before one that becomes it.
        for name, text in sorted(_texts(members), key=lambda each: legal_name(each[0]) == each[0]):
            found[legal_name(name)] = text
    return {name: text for name, text in found.items() if name not in own}


def _texts(members: Mapping[str, Any]) -> Iterator[tuple[str, str]]:
    for name, value in sorted(members.items()):
        if name.startswith(OWN_FRONT):
            continue
        items = value if isinstance(value, list) else [value]
        texts = [item for item in items if isinstance(item, str) and item]
        if texts:
            yield name, ", ".join(texts)


def legal_name(text: str) -> str:
    """A name of a label that Alertmanager takes: other characters become `_`, and a front that
    Prometheus keeps for itself (`__`) or a digit in front doesn't stay."""
    name = re.sub(r"[^a-zA-Z0-9_]", "_", text)
    name = re.sub(r"^__+", "_", name)
    return f"_{name}" if name[:1].isdigit() or not name else name
