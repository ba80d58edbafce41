"""The configuration: which office, and where its copy is kept."""

from __future__ import annotations

import ipaddress
from dataclasses import dataclass
from pathlib import Path
from typing import Optional

from slo_tools.settings import Login, Table, read_settings
from slo_tools.wire import address_of

EVERY_SECONDS = 5
COMPARE_HOURS = 24


@dataclass(frozen=True)
class Config:
    """The whole file."""

    office: str
    office_login: Login
    is_plain: bool
    folder: Path
    program: str = "slo_office"
    every: int = EVERY_SECONDS
    compare_hours: int = COMPARE_HOURS
    seals: Optional[Path] = None
    metrics_port: Optional[int] = None
    metrics_file: Optional[Path] = None


def read_config(path: Path) -> Config:
    """The configuration of a file. Raises ConfigFault."""
    return read_settings(path, _config)


def _config(table: Table, folder: Path) -> Config:
    office = table.table("office")
    address, is_plain = _address(office)
    login = office.login(folder)
    office.end()
    copy = table.table("copy")
    read = Config(
        office=address,
        office_login=login,
        is_plain=is_plain,
        folder=folder / copy.wanted("folder"),
        program=copy.text("program") or "slo_office",
        every=copy.number("every", EVERY_SECONDS, 1, 3600),
        compare_hours=copy.number("compare_hours", COMPARE_HOURS, 1, 24 * 366),
        seals=copy.file("seals", folder),
        metrics_port=copy.number("metrics_port", 0, 0, 65535) or None,
        metrics_file=copy.file("metrics_file", folder),
    )
    copy.end()
    table.end()
    return read


def _address(office: Table) -> tuple[str, bool]:
    """The address, and whether nothing on the way sums up what comes from there."""
    text = office.address("address")
    address = address_of(text)
    may_be_plain = office.truth("plain_http")
    is_plain = address.scheme == "http" and not _is_loopback(address.host)
    if is_plain and not may_be_plain:
        raise office.fault(
            "address",
            "is plain http to another machine, where nothing tells a flipped bit: take https, or"
            " `plain_http = true`, by which each feed is asked for twice",
        )
    return text, is_plain


def _is_loopback(host: str) -> bool:
    try:
        return ipaddress.ip_address(host).is_loopback
    except ValueError:
        return host == "localhost"
