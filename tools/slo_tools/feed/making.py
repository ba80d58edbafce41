"""The engine of a DataSource: what its object says, and what the configuration adds.

Whoever may define objects writes a DataSource's address. So a password or a token goes to an address
of the configuration alone, which stands beside it.
"""

from __future__ import annotations

import re
from collections.abc import Mapping

from slo_tools.feed.clickhouse import ClickHouse, Table
from slo_tools.feed.clickhouse_client import Access, ClickHouseClient
from slo_tools.feed.config import ADDRESS, EngineConfig
from slo_tools.feed.engine import Engine, EngineError
from slo_tools.feed.objects import DataSource
from slo_tools.feed.prometheus import Prometheus
from slo_tools.feed.prometheus_client import ANSWER_BYTES, ANSWER_SECONDS, PrometheusClient
from slo_tools.wire import Peer, address_of

_HOST = re.compile(r"(?:\[([0-9A-Fa-f:.%]+)\]|([A-Za-z0-9._-]+))(?::([0-9]{1,5}))?")
MOST_LATE_DAYS = 400


def engine_of(source: DataSource, added: EngineConfig) -> Engine:
    """The engine of a DataSource. Raises EngineError for details that don't do."""
    details = details_of(source, added)
    if source.type == "Prometheus":
        return _prometheus(source.name, details, added)
    return _clickhouse(source.name, details, added)


def details_of(source: DataSource, added: EngineConfig) -> dict[str, str]:
    """The words of the object and of the configuration, of which the latter count. Beside a secret
    the object's address counts for nothing."""
    own: Mapping[str, str] = source.details
    if added.login.has_secret:
        own = {key: value for key, value in own.items() if key not in ADDRESS}
    return {**own, **added.details}


def _wanted(name: str, details: Mapping[str, str], key: str, added: EngineConfig) -> str:
    if key in details:
        return details[key]
    if key in ADDRESS and added.login.has_secret:
        raise EngineError(
            f"its secret goes to an address of the configuration alone: write {key} = "
            f'".." under [engine.{name}]'
        )
    raise EngineError(f"its connectionDetails have no {key}")


def _prometheus(name: str, details: Mapping[str, str], added: EngineConfig) -> Engine:
    try:
        address = address_of(_wanted(name, details, "url", added).rstrip("/"))
    except ValueError as fault:
        raise EngineError(f"its url {fault}") from fault
    if added.login.verify is not True and address.scheme != "https":
        raise EngineError(f"[engine.{name}] has a ca, which is of use with an https url alone")
    peer = Peer(
        address,
        added.login.credentials,
        added.login.token,
        added.login.verify,
        ANSWER_SECONDS,
        ANSWER_BYTES,
    )
    return Prometheus(PrometheusClient(peer), added.wait)


def _clickhouse(name: str, details: Mapping[str, str], added: EngineConfig) -> Engine:
    if added.login.token is not None:
        raise EngineError(f"[engine.{name}] has a token_file: ClickHouse takes a user's password")
    secure = details.get("secure", "false")
    if secure not in ("true", "false"):
        raise EngineError("its secure is neither true nor false")
    if added.login.verify is not True and secure == "false":
        raise EngineError(f"[engine.{name}] has a ca, which is of use with secure = true alone")
    port = _number(details, "port", 9440 if secure == "true" else 9000, 65535)
    hosts = hosts_of(_wanted(name, details, "host", added), port)
    user, password = added.login.credentials or ("default", "")
    access = Access(
        details.get("database", "default"), user, password, secure == "true", added.login.verify
    )
    table = Table(
        _wanted(name, details, "table", added),
        _wanted(name, details, "time", added),
        details.get("inserted"),
        _number(details, "late_days", 7, MOST_LATE_DAYS),
    )
    return ClickHouse(ClickHouseClient(hosts, access), table, added.wait)


def _number(details: Mapping[str, str], key: str, usual: int, most: int) -> int:
    text = details.get(key, str(usual))
    if re.fullmatch(r"[0-9]{1,9}", text) is None or not 0 < int(text) <= most:
        raise EngineError(f"its {key} is no number from 1 to {most}")
    return int(text)


def hosts_of(text: str, port: int) -> list[tuple[str, int]]:
    """The hosts of a cluster, as `ch-1, ch-2:9001, [::1]`. Raises EngineError."""
    hosts = []
    for each in text.split(","):
        found = _HOST.fullmatch(each.strip())
        if found is None:
            raise EngineError("its host is no name, or names with commas, as ch-1, ch-2:9000")
        own = int(found[3] or port)
        if not 0 < own < 65536:
            raise EngineError(f"its host has the port {own}")
        hosts.append((found[1] or found[2], own))
    return hosts
