"""The message of Alertmanager's webhooks, version 4, to the field: what reads Alertmanager's reads
this one too (https://prometheus.io/docs/alerting/latest/configuration/#webhook_config)."""

from __future__ import annotations

from collections.abc import Mapping, Sequence
from datetime import datetime, timezone
from typing import Any, Optional

from slo_tools.clock import MINUTE
from slo_tools.notify.state import OpenAlert

VERSION = "4"
RECEIVER = "slo-notify"
# The end of an alert that fires: Go's zero time.
NO_END = "0001-01-01T00:00:00Z"

# FNV-1a of 64 bits, with a byte that no text of UTF-8 has behind each name and each value.
_OFFSET, _PRIME, _SEPARATOR = 14_695_981_039_346_656_037, 1_099_511_628_211, b"\xff"


def message_of(alerts: Sequence[tuple[OpenAlert, Optional[int]]]) -> dict[str, Any]:
    """The message of some alerts, each with the minute of its end where it has ended."""
    labels = [alert.labels for alert, _ in alerts]
    annotations = [alert.annotations for alert, _ in alerts]
    return {
        "alerts": [_alert(alert, ended) for alert, ended in alerts],
        "commonAnnotations": _common(annotations),
        "commonLabels": _common(labels),
        "externalURL": _place(alerts[0][0].link),
        "groupKey": "{}:{}",
        "groupLabels": {},
        "receiver": RECEIVER,
        "status": "firing" if any(ended is None for _, ended in alerts) else "resolved",
        "truncatedAlerts": 0,
        "version": VERSION,
    }


def fingerprint(labels: Mapping[str, str]) -> str:
    """What Alertmanager tells alerts apart by."""
    sum_ = _OFFSET
    for name in sorted(labels):
        for byte in b"".join(
            (name.encode("utf-8"), _SEPARATOR, labels[name].encode("utf-8"), _SEPARATOR)
        ):
            sum_ = (sum_ ^ byte) * _PRIME % 2**64
    return f"{sum_:016x}"


def moment_text(minute: int) -> str:
    """A minute in the form of RFC 3339."""
    moment = datetime.fromtimestamp(minute * MINUTE, timezone.utc)
    return moment.strftime("%Y-%m-%dT%H:%M:%SZ")


def _alert(alert: OpenAlert, ended: Optional[int]) -> dict[str, Any]:
    end = NO_END if ended is None else moment_text(max(ended, alert.since))
    return {
        "annotations": alert.annotations,
        "endsAt": end,
        "fingerprint": fingerprint(alert.labels),
        "generatorURL": alert.link,
        "labels": alert.labels,
        "startsAt": moment_text(alert.since),
        "status": "firing" if ended is None else "resolved",
    }


def _common(maps: Sequence[Mapping[str, str]]) -> dict[str, str]:
    """What all of them say alike."""
    first, *others = maps
    return {
        key: value
        for key, value in first.items()
        if all(other.get(key) == value for other in others)
    }


def _place(link: str) -> str:
    """The page's own address."""
    return link.partition("#")[0]
