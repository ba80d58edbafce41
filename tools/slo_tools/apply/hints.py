"""What is wanted where a field breaks a rule, in a person's words: the office says the rule alone."""

from __future__ import annotations

import difflib
import re
from collections.abc import Iterable, Mapping, Sequence
from decimal import Decimal
from typing import Any, Optional

# A longer text stands shortened in a line.
MOST_SHOWN = 80
UNITS = {
    "m": ("m", "min", "mins", "minute", "minutes"),
    "h": ("h", "hr", "hrs", "hour", "hours"),
    "d": ("d", "day", "days"),
    "w": ("w", "wk", "week", "weeks"),
    "M": ("mo", "mon", "month", "months"),
    "Q": ("q", "quarter", "quarters"),
    "Y": ("y", "yr", "year", "years"),
}
LIMITS = {
    "objects": "at most 2,000 objects",
    "catalog": "at most 16,777,216 bytes of objects",
    "slis": "at most 200 SLIs",
    "slos": "at most 200 SLOs",
    "bindings": "at most 400 pairs of an objective and a policy of its SLO",
    "starts": "at most 40,000 starts of an SLO's calendar",
    "days": "at most 80,000 pairs of an objective and a day with a row",
    "zones": "at most 50 time zones",
    "zone_bytes": "at most 65,536 bytes of a time zone",
}
REFUSALS = {
    "has_samples": "an indicator that has rows stays, and keeps its reading: give the other one"
    " another name",
    "in_use": "the object named refers to it: remove that first",
    "zone_differs": "an office keeps a zone's bytes for ever: give this one another name",
    "journal_full": "the journal is full: renew it",
}


def of_words(text: str, words: Sequence[str]) -> str:
    """A word that is none of those that may stand there."""
    return f"it must be one of {', '.join(words)}{nearest(text, words)}"


def of_field(key: str, keys: Iterable[str]) -> str:
    return f"there is no such field{nearest(key, list(keys))}"


def of_name(text: str, most: int, pattern: re.Pattern[str]) -> str:
    """A name of another form."""
    if len(text) > most:
        return f"a name has at most {most} characters, this one has {len(text):,}"
    parted = re.sub(r"(?<=[a-z0-9])(?=[A-Z])", "-", text.strip())
    other = re.sub(r"[\s._]+", "-", parted.lower()).strip("-")
    other = other if pattern.fullmatch(other) else ""
    return "a name has small letters, digits and `-`, which stands at neither end" + _meant(other)


def of_percent(text: str) -> str:
    """What was meant by a target that is none, where it is a percentage; empty else."""
    percent = text.strip().removesuffix("%").strip()
    if not re.fullmatch(r"\d\d?(\.\d{1,7})?", percent, re.ASCII) or Decimal(percent) < 1:
        return ""
    return _meant(f"targetPercent: {percent}")


def of_duration(text: str) -> str:
    """A text that is no duration."""
    found = re.fullmatch(r"\s*(\d{1,6})\s*([A-Za-z]+)\s*", text, re.ASCII)
    units = [unit for unit, words in UNITS.items() if found and found[2].lower() in words]
    meant = f"{found[1]}{units[0]}" if found and units else ""
    return "it must be digits and one of m, h, d, w, M, Q, Y, as 30d" + _meant(meant)


def of_length(found: int, least: int, most: Optional[int]) -> str:
    wanted = f"at least {least}" if most is None else f"{least} to {most}"
    if least == most:
        wanted = f"exactly {least}"
    return f"the list must have {wanted} item{'' if most == 1 else 's'}, it has {found:,}"


def of_limit(which: str) -> str:
    """A limit of the office, by the word of its refusal."""
    return f"an office has {LIMITS[which]}" if which in LIMITS else which


def of_refusal(word: str, members: Mapping[str, Any]) -> str:
    """What to do about a refusal of the running office; empty where its own words say it."""
    if word == "limit":
        return f" ({of_limit(str(members.get('which', '')))})"
    return f" ({REFUSALS[word]})" if word in REFUSALS else ""


def nearest(text: str, words: Sequence[str]) -> str:
    """The word that was meant, where one is near."""
    by_small = {word.lower(): word for word in words}
    found = difflib.get_close_matches(text[:MOST_SHOWN].lower(), list(by_small), 1, 0.7)
    return _meant(by_small[found[0]] if found else "")


def _meant(text: str) -> str:
    return f"; did you mean {text}?" if text else ""
