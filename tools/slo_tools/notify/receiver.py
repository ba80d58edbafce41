"""Who takes the alerts: Alertmanager, or a webhook."""

from __future__ import annotations

import json
from collections.abc import Sequence
from dataclasses import dataclass
from typing import Any, Optional, Protocol

from slo_tools.notify.config import ReceiverConfig
from slo_tools.notify.state import OpenAlert
from slo_tools.notify.webhook_form import message_of, moment_text
from slo_tools.wire import Peer, Reply, Silence, address_of

NOTIFIER = "slo-notify"
# The alerts of this program that an Alertmanager has open: some 1 KiB each, for tens of thousands.
LIST_BYTES = 32 * 1024 * 1024
_OWN_ALERTS = "/api/v2/alerts?active=true&filter=notifier%3D%22slo-notify%22"


class NotTaken(Exception):
    """The receiver didn't take what was sent, or couldn't be asked. The text has the receiver's
    host alone: the path of a webhook is a secret, and what it answers may hold one."""


@dataclass(frozen=True)
class Sending:
    """An alert as it is sent: one that begins or goes on, or one that has ended at a minute.
    `is_news` is false for one that is repeated alone."""

    alert: OpenAlert
    ended: Optional[int]
    is_news: bool


class Receiver(Protocol):
    """What the rounds want of a receiver."""

    kind: str

    def date(self) -> Optional[str]:
        """The field `Date` of an answer. Raises NotTaken where there is none."""

    def send(self, sendings: Sequence[Sending], now: int) -> Optional[str]:
        """Sends alerts; the field `Date` of the answer. Raises NotTaken."""

    def opened(self, office: str) -> list[dict[str, str]]:
        """The labels of the alerts that it has open by this program. Raises NotTaken."""


def receiver_of(config: ReceiverConfig, timeout: float, lifetime: int) -> Receiver:
    if config.kind == "alertmanager":
        return Alertmanager(config, timeout, lifetime)
    if config.kind == "webhook":
        return Webhook(config, timeout)
    return Nobody()


class Nobody:
    """No receiver: notices wait in the office."""

    kind = "none"

    def date(self) -> Optional[str]:
        return None

    def send(self, sendings: Sequence[Sending], now: int) -> Optional[str]:
        raise NotTaken("there is no receiver")

    def opened(self, office: str) -> list[dict[str, str]]:
        return []


class _Client:
    def __init__(self, config: ReceiverConfig, timeout: float) -> None:
        login = config.login
        address = address_of(config.address)
        self.place = address.place
        self.peer = Peer(
            address, login.credentials, login.token, login.verify, timeout, most=LIST_BYTES
        )

    def request(self, method: str, path: str, content: Any = None) -> Reply:
        """The answer of the receiver itself: what sends elsewhere isn't followed. Raises NotTaken
        where there is none."""
        body = b"" if content is None else json.dumps(content).encode("ascii")
        fields = {} if content is None else {"Content-Type": "application/json"}
        try:
            return self.peer.asked_once(method, path, body, fields)
        except Silence as silence:
            raise NotTaken(f"{self.place}: {silence}") from silence

    def refusal(self, reply: Reply) -> NotTaken:
        elsewhere = (
            ": it sends elsewhere, where nobody is told" if 300 <= reply.status < 400 else ""
        )
        return NotTaken(f"{self.place}: status {reply.status}{elsewhere}")


class Alertmanager(_Client):
    """Alertmanager's second interface. What isn't repeated ends there after its lifetime."""

    kind = "alertmanager"

    def __init__(self, config: ReceiverConfig, timeout: float, lifetime: int) -> None:
        super().__init__(config, timeout)
        self.lifetime = lifetime

    def date(self) -> Optional[str]:
        return self.request("GET", "/api/v2/status").date

    def send(self, sendings: Sequence[Sending], now: int) -> Optional[str]:
        told = [self._spelled(sending, now) for sending in sendings]
        reply = self.request("POST", "/api/v2/alerts", told)
        if reply.status != 200:
            raise self.refusal(reply)
        return reply.date

    def opened(self, office: str) -> list[dict[str, str]]:
        reply = self.request("GET", _OWN_ALERTS)
        if reply.status != 200:
            raise self.refusal(reply)
        try:
            found = [_labels(alert) for alert in json.loads(reply.whole())]
        except (
            Silence,
            ValueError,
            RecursionError,
            LookupError,
            TypeError,
            AttributeError,
        ) as fault:
            raise NotTaken(f"{self.place}: its list of alerts can't be read") from fault
        return [
            labels
            for labels in found
            if labels.get("notifier") == NOTIFIER and labels.get("office") == office
        ]

    def _spelled(self, sending: Sending, now: int) -> dict[str, Any]:
        alert = sending.alert
        end = now + self.lifetime if sending.ended is None else max(sending.ended, alert.since)
        return {
            "annotations": alert.annotations,
            "endsAt": moment_text(end),
            "generatorURL": alert.link,
            "labels": alert.labels,
            "startsAt": moment_text(alert.since),
        }


def _labels(alert: Any) -> dict[str, str]:
    labels = alert["labels"]
    if not all(isinstance(text, str) for pair in labels.items() for text in pair):
        raise TypeError("labels that are no texts")
    return dict(labels)


class Webhook(_Client):
    """A server that is told of what begins and ends, once each, in the form of Alertmanager's own
    webhooks."""

    kind = "webhook"

    def date(self) -> Optional[str]:
        return self.request("HEAD", "").date

    def send(self, sendings: Sequence[Sending], now: int) -> Optional[str]:
        news = [(sending.alert, sending.ended) for sending in sendings if sending.is_news]
        if not news:
            return None
        reply = self.request("POST", "", message_of(news))
        if not 200 <= reply.status < 300:
            raise self.refusal(reply)
        return reply.date

    def opened(self, office: str) -> list[dict[str, str]]:
        return []
