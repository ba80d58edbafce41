"""The feed's configuration: a small TOML file beside what the office's objects say."""

from __future__ import annotations

from collections.abc import Mapping
from dataclasses import dataclass, field, replace
from pathlib import Path
from typing import Optional

from slo_tools.office import is_label
from slo_tools.settings import Login, Table, read_settings
from slo_tools.wire import address_of

EVERY = (1, 5, 10, 15)
# The details that say whom an engine's secret is told.
ADDRESS = ("url", "host", "port", "secure")


@dataclass(frozen=True)
class EngineConfig:
    """What is added to a DataSource. `details` take the place of its `connectionDetails`."""

    login: Login = Login()
    wait: Optional[float] = None
    details: Mapping[str, str] = field(default_factory=dict)


@dataclass(frozen=True)
class IndicatorConfig:
    """How the rows of an indicator are made, as far as the file says it: by a label, or summed up
    under a name; and how many minutes a row has."""

    label: Optional[str] = None
    name: Optional[str] = None
    every: Optional[int] = None
    look_back: int = 10
    gap: int = 60
    engine: Optional[str] = None
    skip: bool = False


@dataclass(frozen=True)
class Config:
    """The whole file."""

    office: str
    office_login: Login
    state: Path
    first: int = 60
    spread: int = 10
    reread_objects: int = 5
    metrics_port: Optional[int] = None
    metrics_file: Optional[Path] = None
    engines: Mapping[str, EngineConfig] = field(default_factory=dict)
    usual: IndicatorConfig = IndicatorConfig()
    indicators: Mapping[str, IndicatorConfig] = field(default_factory=dict)

    def indicator(self, sli: str) -> IndicatorConfig:
        return self.indicators.get(sli, self.usual)

    def engine(self, name: str) -> EngineConfig:
        return self.engines.get(name, EngineConfig())


def read_config(path: Path) -> Config:
    """The configuration of a file. Raises ConfigFault."""
    return read_settings(path, _config)


def _config(table: Table, folder: Path) -> Config:
    office = table.table("office")
    address, office_login = _office(office, folder)
    feed = table.table("feed")
    state = folder / feed.wanted("state")
    first = feed.number("first", 60, 1, 1_000_000)
    spread = feed.number("spread", 10, 0, 59)
    reread = feed.number("reread_objects", 5, 1, 1440)
    port = feed.number("metrics_port", 0, 0, 65535)
    file = feed.file("metrics_file", folder)
    feed.end()
    usual = _indicator(table.table("indicators"), IndicatorConfig())
    engines = table.table("engine")
    named = {name: _engine(engines.table(name), folder) for name in engines.names()}
    single = table.table("indicator")
    indicators = {name: _indicator(single.table(name), usual) for name in single.names()}
    table.end()
    return Config(
        office=address,
        office_login=office_login,
        state=state,
        first=first,
        spread=spread,
        reread_objects=reread,
        metrics_port=port or None,
        metrics_file=file,
        engines=named,
        usual=usual,
        indicators=indicators,
    )


def _office(table: Table, folder: Path) -> tuple[str, Login]:
    address = table.address("address")
    login = table.login(folder)
    table.end()
    if login.verify is not True and not address.startswith("https:"):
        raise table.fault("ca", "is of use with an https address alone")
    return address, login


def _engine(table: Table, folder: Path) -> EngineConfig:
    login = table.login(folder)
    wait = table.seconds("wait")
    details = {key: table.word(key) for key in table.names()}
    if login.has_secret and not {"url", "host"} & details.keys():
        raise table.fault(
            "url",
            "is missing beside a secret: write the Prometheus's url, or the ClickHouse's host, port "
            "and secure, here (a DataSource's own address, which others may define, isn't used "
            "with it)",
        )
    if "url" in details:
        try:
            address_of(details["url"].rstrip("/"))
        except ValueError as fault:
            raise table.fault("url", str(fault)) from fault
    if details.get("secure", "false") not in ("true", "false"):
        raise table.fault("secure", "is neither true nor false")
    return EngineConfig(login, wait, details)


def _indicator(table: Table, usual: IndicatorConfig) -> IndicatorConfig:
    label, name = table.text("label"), table.text("sum")
    if label is not None and name is not None:
        raise table.fault("label", "and sum: one of them")
    if name is not None and not is_label(name):
        raise table.fault("sum", f"{name!r} is no name of a source")
    every = usual.every
    if "every" in table.names():
        every = table.number("every", 1, 1, 15)
        if every not in EVERY:
            raise table.fault("every", "is 1, 5, 10 or 15 minutes")
    look_back = table.number("look_back", usual.look_back, 1, 1440)
    gap = table.number("gap", usual.gap, 1, 1440)
    engine = table.text("engine") or usual.engine
    skip = table.truth("skip") or usual.skip
    table.end()
    read = replace(usual, every=every, look_back=look_back, gap=gap, engine=engine, skip=skip)
    if name is not None or label is not None:
        return replace(read, label=label, name=name)
    return read
