"""Where a document breaks a rule: the tables of docs/objects.md, field by field.

The office says of a document that is no object which field breaks which rule first, without its
place. These tables find the place, and the further faults of the same document. What is refused is
the office's to say: a document that it takes is never looked at here.
"""

from __future__ import annotations

import re
from collections.abc import Callable, Sequence
from datetime import datetime
from decimal import Decimal
from typing import NamedTuple, Optional

from slo_tools.apply import hints
from slo_tools.nodes import Fault, Fields, Items, Node, Place, Scalar
from slo_tools.spelling import minutes_of_duration

VERSION = "openslo/v1"
MAX_DESCRIPTION = 1_050
MAX_NAME = 63
MAX_WINDOW = 527_040
# Of a document, and of a folder: nobody reads more.
MOST_FAULTS = 1_000
MAX_LOOKBACK = 43_200
MINUTES_A_DAY = 1_440

NAME = re.compile(r"[a-z0-9]([a-z0-9-]{0,61}[a-z0-9])?")
ZONE_NAMES = "a zone's name has 1 to 63 letters, digits and . _ - / +, as Europe/Berlin"
ZONE_NAME = re.compile(r"[A-Za-z0-9._/+-]{1,63}")
DECIMAL = re.compile(r"(\d+)(?:\.(\d{1,9}))?", re.ASCII)
MOMENT = re.compile(r"\d{4}-\d\d-\d\d \d\d:\d\d:\d\d", re.ASCII)
TRUE = ("true", "True", "TRUE")
FALSE = ("false", "False", "FALSE")
SLICE_WIDTHS = "it must be 1, 2, 3, 4, 5, 6, 10, 12, 15, 20, 30 or 60 minutes, as 5 or 5m"
COMPARISONS = ("lte", "gte", "lt", "gt")

Form = Callable[["Faults", Node, str], None]


class Key(NamedTuple):
    """A line of a table."""

    key: str
    form: Form
    required: bool = False


class Faults:
    """The faults of a document, in the order in which they were found."""

    def __init__(self) -> None:
        self.found: list[Fault] = []

    def add(self, place: Place, rule: str, path: str, why: str = "") -> None:
        if len(self.found) < MOST_FAULTS:
            self.found.append(Fault(place, rule, path, why))

    def map(self, node: Node, path: str, table: Sequence[Key]) -> bool:
        """Judges a map by its table."""
        if not isinstance(node, Fields):
            self.add(node.place, "not_map", path)
            return False
        known = [line.key for line in table]
        for key, form, required in table:
            value = node.get(key)
            if value is not None:
                form(self, value, _at(path, key))
            elif required:
                self.add(node.place, "missing", _at(path, key))
        for key_node, value in node.entries:
            if len(self.found) >= MOST_FAULTS:
                break
            if key_node.text not in known and not (isinstance(value, Scalar) and value.is_null):
                why = hints.of_field(key_node.text, known)
                self.add(key_node.place, "unknown_field", _at(path, key_node.text), why)
        return True

    def items(
        self, node: Node, path: str, form: Form, least: int = 0, most: Optional[int] = None
    ) -> None:
        if not isinstance(node, Items):
            self.add(node.place, "not_list", path)
            return
        if len(node.items) < least or (most is not None and len(node.items) > most):
            self.add(node.place, "list_length", path, hints.of_length(len(node.items), least, most))
            return
        for number, item in enumerate(node.items):
            form(self, item, f"{path}[{number}]")

    def one_of(self, node: Fields, path: str, first: str, second: str) -> None:
        """Exactly one of two fields stands."""
        found = [node.entry(key) for key in (first, second)]
        if all(found):
            assert found[0] is not None
            self.add(found[0][0].place, "both", _at(path, first))
        elif not any(found):
            self.add(node.place, "neither", _at(path, first))


def faults_of(document: Node) -> list[Fault]:
    """All faults of a document, as far as the tables tell."""
    faults = Faults()
    if not isinstance(document, Fields):
        faults.add(document.place, "not_map", "document")
        return faults.found
    kind = document.get("kind")
    word = kind.text if isinstance(kind, Scalar) else ""
    table = [Key("apiVersion", _version, True), Key("kind", _kind, True)]
    faults.map(document, "", [*table, *_object_table(word)])
    return faults.found


def key_of(fault: Fault) -> str:
    """The field by which the office names a fault."""
    return re.sub(r"\[\d+\]$", "", fault.path).rpartition(".")[2]


def _at(path: str, key: str) -> str:
    return f"{path}.{key}" if path else key


def _ignored(faults: Faults, node: Node, path: str) -> None:
    """A free value, kept as it stands."""


def _text(faults: Faults, node: Node, path: str) -> None:
    if not isinstance(node, Scalar):
        faults.add(node.place, "not_text", path)


def _description(faults: Faults, node: Node, path: str) -> None:
    if not isinstance(node, Scalar):
        faults.add(node.place, "not_text", path)
    elif len(node.text) > MAX_DESCRIPTION:
        why = (
            f"a description has at most {MAX_DESCRIPTION:,} characters, this has {len(node.text):,}"
        )
        faults.add(node.place, "too_long", path, why)


def _name(faults: Faults, node: Node, path: str) -> None:
    if not isinstance(node, Scalar) or not NAME.fullmatch(node.text):
        faults.add(node.place, "bad_name", path, _name_hint(node))


def _name_hint(node: Node) -> str:
    return hints.of_name(node.text, MAX_NAME, NAME) if isinstance(node, Scalar) else ""


def _zone_name(faults: Faults, node: Node, path: str) -> None:
    if not isinstance(node, Scalar) or not ZONE_NAME.fullmatch(node.text):
        faults.add(node.place, "bad_name", path, ZONE_NAMES)


def _word(words: Sequence[str], rule: str = "bad_word") -> Form:
    def judge(faults: Faults, node: Node, path: str) -> None:
        if not isinstance(node, Scalar) or node.text not in words:
            text = node.text if isinstance(node, Scalar) else ""
            faults.add(node.place, rule, path, hints.of_words(text, words))

    return judge


def _bool(faults: Faults, node: Node, path: str) -> None:
    if not isinstance(node, Scalar) or node.text not in TRUE + FALSE:
        faults.add(node.place, "not_bool", path)


def _free_map(faults: Faults, node: Node, path: str) -> None:
    if not isinstance(node, Fields):
        faults.add(node.place, "not_map", path)


def _number(is_within: Callable[[Decimal], bool], range_: str, decimals: int = 9) -> Form:
    def judge(faults: Faults, node: Node, path: str) -> None:
        found = DECIMAL.fullmatch(node.text) if isinstance(node, Scalar) else None
        if found is None or len(found[2] or "") > decimals:
            why = f"it must be digits, and maybe a point and at most {decimals} more"
            faults.add(node.place, "not_number", path, f"{why}; {range_}")
        elif not is_within(Decimal(found[0])):
            faults.add(node.place, "out_of_range", path, f"it must be {range_}")

    return judge


def _objective_target(faults: Faults, node: Node, path: str) -> None:
    own = Faults()
    _number(lambda n: n < 1, "below 1")(own, node, path)
    for fault in own.found:
        meant = hints.of_percent(node.text) if isinstance(node, Scalar) else ""
        faults.add(fault.place, fault.rule, path, f"{fault.why}{meant}")


def _duration(least: int, most: int) -> Form:
    days = f"at most {most // MINUTES_A_DAY} days"
    range_ = f"above zero and {days}" if least else days

    def judge(faults: Faults, node: Node, path: str) -> None:
        minutes = minutes_of_duration(node.text) if isinstance(node, Scalar) else None
        if minutes is None:
            text = node.text if isinstance(node, Scalar) else ""
            faults.add(node.place, "not_duration", path, hints.of_duration(text))
        elif not least <= minutes <= most:
            faults.add(node.place, "out_of_range", path, f"it must be {range_}")

    return judge


def slice_minutes(text: str) -> Optional[int]:
    """The width of a slice, which is written as digits or as a duration; None where it is none."""
    return minutes_of_duration(f"{text}m" if text.isdigit() else text)


def _slice_window(faults: Faults, node: Node, path: str) -> None:
    minutes = slice_minutes(node.text) if isinstance(node, Scalar) else None
    if minutes is None:
        faults.add(node.place, "not_duration", path, SLICE_WIDTHS)
    elif not 1 <= minutes <= 60 or 60 % minutes:
        faults.add(node.place, "out_of_range", path, SLICE_WIDTHS)


def _moment(faults: Faults, node: Node, path: str) -> None:
    if isinstance(node, Scalar) and MOMENT.fullmatch(node.text):
        try:
            moment = datetime.strptime(node.text, "%Y-%m-%d %H:%M:%S")
        except ValueError:
            pass
        else:
            if 1971 <= moment.year <= 2097 and moment.second <= 59:
                return
    why = "it must be a moment as 2026-01-31 12:30:00, of the years 1971 to 2097"
    faults.add(node.place, "not_moment", path, why)


_version = _word([VERSION], "bad_version")


def _kind(faults: Faults, node: Node, path: str) -> None:
    _word(list(SPECS), "bad_kind")(faults, node, path)


def _metadata(faults: Faults, node: Node, path: str) -> None:
    faults.map(
        node,
        path,
        [
            Key("name", _name, True),
            Key("displayName", _text),
            Key("labels", _free_map),
            Key("annotations", _free_map),
        ],
    )


def _object_table(kind: str) -> list[Key]:
    return [Key("metadata", _metadata, True), Key("spec", SPECS.get(kind, _ignored), True)]


def _inline(kind: str) -> Form:
    def judge(faults: Faults, node: Node, path: str) -> None:
        front = [Key("apiVersion", _version), Key("kind", _word([kind], "bad_kind"))]
        faults.map(node, path, [*front, *_object_table(kind)])

    return judge


def _reference_or(key: str, kind: str) -> Form:
    inline = _inline(kind)

    def judge(faults: Faults, node: Node, path: str) -> None:
        if isinstance(node, Fields) and node.get(key) is not None:
            faults.map(node, path, [Key(key, _name, True)])
        else:
            inline(faults, node, path)

    return judge


def _data_source(faults: Faults, node: Node, path: str) -> None:
    table = [Key("description", _description), Key("type", _text, True)]
    faults.map(node, path, [*table, Key("connectionDetails", _ignored)])


def _service(faults: Faults, node: Node, path: str) -> None:
    faults.map(node, path, [Key("description", _description)])


def _source(faults: Faults, node: Node, path: str) -> None:
    table = [Key("metricSourceRef", _name), Key("type", _text), Key("spec", _ignored)]
    faults.map(node, path, table)


def _metric(faults: Faults, node: Node, path: str) -> None:
    faults.map(node, path, [Key("metricSource", _source, True)])


def _ratio(faults: Faults, node: Node, path: str) -> None:
    is_raw = isinstance(node, Fields) and node.get("raw") is not None
    raw_type = _word(["success", "failure"])
    table = [Key("counter", _bool), Key("raw", _metric)]
    if is_raw:
        table.append(Key("rawType", raw_type, True))
    table += [Key("total", _metric, not is_raw), Key("good", _metric), Key("bad", _metric)]
    if not faults.map(node, path, table):
        return
    assert isinstance(node, Fields)
    if not is_raw:
        faults.one_of(node, path, "good", "bad")
    elif any(node.get(key) is not None for key in ("total", "good", "bad")):
        entry = node.entry("raw")
        assert entry is not None
        faults.add(entry[0].place, "both", _at(path, "raw"))


def _sli(faults: Faults, node: Node, path: str) -> None:
    table = [
        Key("description", _description),
        Key("thresholdMetric", _metric),
        Key("ratioMetric", _ratio),
    ]
    if faults.map(node, path, table):
        assert isinstance(node, Fields)
        faults.one_of(node, path, "thresholdMetric", "ratioMetric")


def _calendar(faults: Faults, node: Node, path: str) -> None:
    faults.map(node, path, [Key("startTime", _moment, True), Key("timeZone", _zone_name, True)])


def _window(faults: Faults, node: Node, path: str) -> None:
    rolling = node.get("isRolling") if isinstance(node, Fields) else None
    is_rolling = isinstance(rolling, Scalar) and rolling.text in TRUE
    table = [
        Key("duration", _duration(1, MAX_WINDOW), True),
        Key("isRolling", _bool),
        Key("calendar", _calendar, not is_rolling),
    ]
    if not faults.map(node, path, table):
        return
    assert isinstance(node, Fields)
    duration, calendar = node.get("duration"), node.entry("calendar")
    if is_rolling and calendar is not None:
        faults.add(calendar[0].place, "both", _at(path, "calendar"))
    if not is_rolling and isinstance(duration, Scalar) and duration.text[-1:] in ("m", "h"):
        why = "a window that isn't rolling has d, w, M, Q or Y"
        faults.add(duration.place, "out_of_range", _at(path, "duration"), why)


_slice_target = _number(lambda n: 0 < n <= 1, "above 0 and at most 1")


def _objective(method: str) -> Form:
    def judge(faults: Faults, node: Node, path: str) -> None:
        is_sliced = method in ("Timeslices", "RatioTimeslices")
        table = [
            Key("displayName", _text),
            Key("op", _word(COMPARISONS)),
            Key("value", _number(lambda n: n <= 10**9, "at most 1,000,000,000")),
            Key("target", _objective_target),
            Key("targetPercent", _number(lambda n: n < 100, "below 100", 7)),
            Key("timeSliceTarget", _slice_target, method == "Timeslices"),
            Key("timeSliceWindow", _slice_window, is_sliced),
        ]
        if faults.map(node, path, table):
            assert isinstance(node, Fields)
            faults.one_of(node, path, "target", "targetPercent")

    return judge


def _policy_item(faults: Faults, node: Node, path: str) -> None:
    if isinstance(node, Scalar):
        if node.is_null or not NAME.fullmatch(node.text):
            faults.add(node.place, "bad_name", path, _name_hint(node))
    elif isinstance(node, Items):
        faults.add(node.place, "not_map", path)
    else:
        _reference_or("alertPolicyRef", "AlertPolicy")(faults, node, path)


def _policies(faults: Faults, node: Node, path: str) -> None:
    faults.items(node, path, _policy_item, most=10)
    seen: set[str] = set()
    for number, item in enumerate(node.items if isinstance(node, Items) else ()):
        name = policy_name(item)
        if name is not None and name.text in seen:
            faults.add(name.place, "repeated", f"{path}[{number}]")
        elif name is not None:
            seen.add(name.text)


def policy_name(item: Node) -> Optional[Scalar]:
    """The name of an item of `alertPolicies`: a name, a reference or a policy that stands there."""
    if isinstance(item, Scalar):
        return item
    if isinstance(item, Fields):
        found = item.get("alertPolicyRef")
        if found is None:
            metadata = item.get("metadata")
            found = metadata.get("name") if isinstance(metadata, Fields) else None
        return found if isinstance(found, Scalar) else None
    return None


def _slo(faults: Faults, node: Node, path: str) -> None:
    method = node.get("budgetingMethod") if isinstance(node, Fields) else None
    objective = _objective(method.text if isinstance(method, Scalar) else "")
    table = [
        Key("description", _description),
        Key("service", _name, True),
        Key("indicator", _inline("SLI")),
        Key("indicatorRef", _name),
        Key("timeWindow", lambda f, n, p: f.items(n, p, _window, 1, 1), True),
        Key("budgetingMethod", _word(["Occurrences", "Timeslices", "RatioTimeslices"]), True),
        Key("objectives", lambda f, n, p: f.items(n, p, objective, 1, 5), True),
        Key("alertPolicies", _policies),
    ]
    if faults.map(node, path, table):
        assert isinstance(node, Fields)
        faults.one_of(node, path, "indicator", "indicatorRef")


def _alert_policy(faults: Faults, node: Node, path: str) -> None:
    condition = _reference_or("conditionRef", "AlertCondition")
    target = _reference_or("targetRef", "AlertNotificationTarget")
    table = [
        Key("description", _description),
        Key("alertWhenNoData", _bool),
        Key("alertWhenResolved", _bool),
        Key("alertWhenBreaching", _bool),
        Key("conditions", lambda f, n, p: f.items(n, p, condition, most=1)),
        Key("notificationTargets", lambda f, n, p: f.items(n, p, target)),
    ]
    faults.map(node, path, table)


def _burn_condition(faults: Faults, node: Node, path: str) -> None:
    table = [
        Key("kind", _word(["burnrate"])),
        Key("op", _word(COMPARISONS)),
        Key("threshold", _number(lambda n: n <= 10_000, "at most 10,000"), True),
        Key("lookbackWindow", _duration(1, MAX_LOOKBACK), True),
        Key("alertAfter", _duration(0, MAX_LOOKBACK)),
    ]
    faults.map(node, path, table)


def _alert_condition(faults: Faults, node: Node, path: str) -> None:
    table = [
        Key("description", _description),
        Key("severity", _text, True),
        Key("condition", _burn_condition, True),
    ]
    faults.map(node, path, table)


def _target(faults: Faults, node: Node, path: str) -> None:
    faults.map(node, path, [Key("description", _description), Key("target", _text, True)])


SPECS: dict[str, Form] = {
    "DataSource": _data_source,
    "Service": _service,
    "SLI": _sli,
    "SLO": _slo,
    "AlertPolicy": _alert_policy,
    "AlertCondition": _alert_condition,
    "AlertNotificationTarget": _target,
}

# What each rule's word means (docs/objects.md, docs/yaml.md), for people.
RULES = {
    "missing": "a required field is omitted",
    "not_map": "it must be a map",
    "not_list": "it must be a list",
    "not_text": "it must be a scalar",
    "not_number": "it must be a decimal number",
    "not_bool": "it must be true or false",
    "not_duration": "it must be a duration as 30d",
    "not_moment": "it must be a moment as 2026-01-31 12:30:00",
    "out_of_range": "it is outside its range",
    "bad_name": "it must be a name: small letters, digits and `-`",
    "bad_version": f"the version must be {VERSION}",
    "bad_kind": "the kind isn't one of OpenSLO, or not that of its place",
    "bad_word": "it is none of the words that may stand there",
    "both": "two fields stand of which one may",
    "neither": "neither of two fields stands of which one must",
    "unknown_field": "there is no such field",
    "list_length": "the list has too many or too few items",
    "too_long": "a description has more than 1,050 characters",
    "repeated": "a policy is named twice",
    "duplicate_key": "the map has this key already",
    "duplicate": "this kind and name stand twice, with different content",
    "reserved": "this is the name of a built-in policy",
    "unresolved": "it refers to what isn't there",
    "needs_op": "the indicator is a threshold, and the objective has no `op` or no `value`",
    "unknown_zone": "there is no such zone in the folder",
    "left_out": "the office's YAML can't say this",
    "too_deep": "maps and lists are nested too deep",
    "yaml": "this is no YAML",
    "json": "this is no JSON",
    "bad_zone": "the file is no time zone",
    "not_utf8": "the text isn't UTF-8",
    "not_file": "this is no file, or leads to none",
    "control": "a control character",
    "limit": "there is too much",
    "no_slice": "the policy's shortest window holds no whole slice",
    "unread_query": "slo-feed won't read this query",
    "few_slices": "the policy's shortest window holds a whole slice at some minutes alone",
}
