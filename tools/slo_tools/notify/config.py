"""The configuration of `slo-notify`, a TOML file."""

from __future__ import annotations

from dataclasses import dataclass
from pathlib import Path
from typing import Optional

from slo_tools.settings import Login, Table, read_settings

CLOCKS = ("kernel", "receiver", "trusted")
RECEIVERS = ("alertmanager", "webhook")
MOST_MINUTES = 43_200
# slo-feed asks at the fifteenth second of a minute where nothing else is set, and needs some to send.
SECOND = 30


@dataclass(frozen=True)
class OfficeConfig:
    """An office that is watched, and where the web server passes its interface on."""

    name: str
    address: str
    path: str
    login: Login


@dataclass(frozen=True)
class ReceiverConfig:
    """Who takes the alerts: `kind` is `alertmanager`, `webhook` or `none`."""

    kind: str
    address: str = ""
    login: Login = Login()
    # Where people open Alertmanager's own pages; None where the page isn't to say.
    link: Optional[str] = None


@dataclass(frozen=True)
class Config:
    """Everything that is set: seconds in `every`, `timeout` and `second`, else minutes."""

    every: int
    stale: int
    away: int
    lifetime: int
    timeout: int
    second: int
    tick: bool
    watchdog: bool
    clock: str
    link: str
    state: Path
    overview: Optional[Path]
    metrics: Optional[tuple[str, int]]
    sloth_names: bool
    offices: tuple[OfficeConfig, ...]
    receiver: ReceiverConfig


def read_config(path: Path) -> Config:
    """The configuration of a file. Raises ConfigFault."""
    return read_settings(path, _config)


def _config(table: Table, folder: Path) -> Config:
    receiver = _receiver(table, folder)
    metrics = _metrics(table)
    config = Config(
        every=table.number("every", 60, 1, 3600),
        stale=table.number("stale", 10, 1, MOST_MINUTES),
        away=table.number("away", 5, 1, MOST_MINUTES),
        lifetime=table.number("lifetime", 60, 1, MOST_MINUTES),
        timeout=table.number("timeout", 10, 1, 600),
        second=table.number("second", SECOND, 0, 59),
        tick=table.truth("tick", True),
        watchdog=table.truth("watchdog"),
        clock=_clock(table, receiver),
        link=table.text("link") or "",
        state=folder / table.wanted("state"),
        overview=table.file("overview", folder),
        metrics=metrics,
        sloth_names=_sloth_names(table, metrics),
        offices=_offices(table, folder),
        receiver=receiver,
    )
    table.end()
    return config


def _clock(table: Table, receiver: ReceiverConfig) -> str:
    word = table.text("clock") or "kernel"
    if word not in CLOCKS:
        raise table.fault("clock", f"is none of {', '.join(CLOCKS)}")
    if word == "receiver" and receiver.kind == "none":
        raise table.fault("clock", "can't be asked of a receiver: there is none")
    return word


def _metrics(table: Table) -> Optional[tuple[str, int]]:
    text = table.text("metrics")
    if text is None:
        return None
    host, _, port = text.rpartition(":")
    if not host or not port.isdigit():
        raise table.fault("metrics", f"{text!r} is no address as 127.0.0.1:9464")
    return host, int(port)


def _sloth_names(table: Table, metrics: Optional[tuple[str, int]]) -> bool:
    is_wanted = table.truth("sloth_names")
    if is_wanted and metrics is None:
        raise table.fault(
            "sloth_names", "names metrics, and none are offered: `metrics` is missing"
        )
    return is_wanted


def _offices(table: Table, folder: Path) -> tuple[OfficeConfig, ...]:
    offices: list[OfficeConfig] = []
    for entry in table.tables("office"):
        name = entry.wanted("name")
        if any(office.name == name for office in offices):
            raise entry.fault("name", f"{name!r} stands twice")
        address = entry.address("address")
        path = entry.text("path") or "/office/"
        offices.append(OfficeConfig(name, address, path, entry.login(folder)))
        entry.end()
    if not offices:
        raise table.fault("office", "is missing: there is no [[office]]")
    return tuple(offices)


def _receiver(table: Table, folder: Path) -> ReceiverConfig:
    kinds = [kind for kind in RECEIVERS if kind in table.names()]
    if len(kinds) > 1:
        raise table.fault("alertmanager", "and webhook: one of them")
    for kind in kinds:
        entry = table.table(kind)
        address = entry.address("address")
        if kind == "alertmanager":
            address = address.rstrip("/")
        login = entry.login(folder)
        link = None
        if kind == "alertmanager" and "link" in entry.names():
            link = entry.address("link").rstrip("/")
        entry.end()
        return ReceiverConfig(kind, address, login, link)
    return ReceiverConfig("none")
