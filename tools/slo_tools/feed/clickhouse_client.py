"""The native protocol of ClickHouse, by Debian's python3-clickhouse-driver, over sockets that bound
what is read: in bytes, and in whole time."""

from __future__ import annotations

import logging
import re
import socket
import ssl
import time
from collections.abc import Sequence
from dataclasses import dataclass, field
from typing import Any, Optional

from slo_tools.feed.engine import EngineError, OddAnswer, QueryFault, TooLarge
from slo_tools.wire import Verify, tls_of

Row = tuple[Any, ...]

# They take ten times as much here. What is longer is asked for in smaller parts.
ANSWER_BYTES = 16 * 1024 * 1024
# Counted from the asking to the last byte.
ANSWER_SECONDS = 60.0
CONNECT_SECONDS = 10.0


@dataclass(frozen=True)
class Access:
    """Whom to ask at each host, and how."""

    database: str = "default"
    user: str = "default"
    password: str = field(default="", repr=False)
    secure: bool = False
    verify: Verify = True
    seconds: float = ANSWER_SECONDS
    most: int = ANSWER_BYTES


@dataclass
class ClickHouseClient:
    """The hosts of a ClickHouse. The one that answered is asked first the next time; where it
    gives no answer the others are asked in turn."""

    hosts: Sequence[tuple[str, int]]
    access: Access
    _place: int = field(default=0, init=False, repr=False)
    _client: Any = field(default=None, init=False, repr=False)

    def rows(self, query: str) -> Sequence[Row]:
        """The rows of a query. Raises QueryFault where the query is to blame, OddAnswer for an
        answer that can't be read, EngineError where no host gives one."""
        faults: list[str] = []
        for _ in self.hosts:
            try:
                return self._asked(query)
            except (QueryFault, OddAnswer):
                self._close()
                raise
            except EngineError as fault:
                self._close()
                faults.append(str(fault))
                self._place = (self._place + 1) % len(self.hosts)
        raise EngineError("; ".join(dict.fromkeys(faults)))

    def _asked(self, query: str) -> Sequence[Row]:
        from clickhouse_driver import errors

        host, port = self.hosts[self._place]
        where = f"{host}:{port}"
        if self._client is None:
            self._client = _client(host, port, self.access)
        budget: _Budget = self._client.connection.budget
        budget.begin()
        try:
            answer = self._client.execute(query)
        except errors.ServerException as fault:
            if fault.code in _QUERY_CODES:
                raise QueryFault(_first_line(fault)) from fault
            raise EngineError(f"{where}: {_first_line(fault)}") from fault
        except OddAnswer:
            raise
        except EngineError as fault:
            raise EngineError(f"{where}: {fault}") from fault
        except (errors.NetworkError, errors.SocketTimeoutError, OSError, EOFError) as fault:
            raise EngineError(f"{where}: {_no_answer(fault)}") from fault
        except Exception as fault:
            # The driver reads what it is sent without looking: anything may come of that.
            why = f"{type(fault).__name__}: {_first_line(fault)}"
            raise OddAnswer(f"{where}: no answer of ClickHouse ({why})") from fault
        if not isinstance(answer, list):
            raise OddAnswer(f"{where}: no answer of ClickHouse")
        return answer

    def _close(self) -> None:
        client, self._client = self._client, None
        if client is not None:
            try:
                client.disconnect()
            except Exception:
                return


# Of ClickHouse's ErrorCodes: arguments and types, unknown functions, columns and tables, syntax;
# division by zero, what can't be parsed or converted, and limits that one query alone reaches.
_QUERY_CODES = frozenset(
    {6, 27, 32, 38, 41, 42, 43, 46, 47, 53, 60, 62, 63, 69, 70, 72, 153, 158, 159, 160, 184, 215}
    | {241, 307, 349, 386, 396}
)


def _first_line(fault: Exception) -> str:
    """What a fault says, without the stack of the server."""
    for line in str(fault).strip().splitlines():
        text = re.sub(r"^(?:Code: \d+\. ?)?(?:DB::Exception: )?", "", line.strip())[:300]
        if text not in ("Stack trace:", ""):
            return text if text.isprintable() else repr(text)
    return "no answer"


def _no_answer(fault: BaseException) -> str:
    if isinstance(fault, (socket.timeout, TimeoutError)):
        return "no answer in time"
    if isinstance(fault, EOFError):
        return "the link was closed"
    return _first_line(fault) if isinstance(fault, Exception) else "no answer"


@dataclass
class _Budget:
    """What is left of an answer's bytes and time."""

    access: Access
    left: int = 0
    end: float = 0.0

    def begin(self) -> None:
        self.left = self.access.most
        self.end = time.monotonic() + self.access.seconds

    def seconds(self) -> float:
        left = self.end - time.monotonic()
        if left <= 0:
            raise socket.timeout("no answer in time")
        return left

    def take(self, length: int) -> None:
        self.left -= length
        if self.left < 0:
            raise TooLarge(f"an answer of more than {self.access.most} bytes")


class _Door:
    """A socket as the driver uses it, within a budget."""

    def __init__(self, inner: socket.socket, budget: _Budget) -> None:
        self._inner = inner
        self._budget = budget
        self._most: Optional[float] = None

    def recv_into(self, buffer: Any) -> int:
        left = self._budget.seconds()
        self._inner.settimeout(left if self._most is None else min(left, self._most))
        length = self._inner.recv_into(buffer)
        self._budget.take(length)
        return length

    def sendall(self, data: Any) -> None:
        self._inner.settimeout(self._budget.seconds())
        self._inner.sendall(data)

    def settimeout(self, seconds: Optional[float]) -> None:
        """How long one reading waits at most; the budget says how long all of them do."""
        self._most = seconds

    def gettimeout(self) -> Optional[float]:
        return self._most

    def __getattr__(self, name: str) -> Any:
        return getattr(self._inner, name)


def _client(host: str, port: int, access: Access) -> Any:
    from clickhouse_driver import Client
    from clickhouse_driver.connection import Connection

    # It writes a traceback for each connection that fails; the fault is told once here.
    logging.getLogger("clickhouse_driver").setLevel(logging.CRITICAL)

    class Bounded(Connection):  # type: ignore[misc]
        """A connection that trusts certificates as the tools do: the driver of Debian 12 looks at
        none, whatever `verify` says."""

        budget = _Budget(access)

        def _create_socket(self, host: str, port: int) -> _Door:
            wait = min(CONNECT_SECONDS, self.budget.seconds())
            link = socket.create_connection((host, port), wait)
            if access.secure:
                try:
                    link = tls_of(access.verify).wrap_socket(link, server_hostname=host)
                except ssl.SSLCertVerificationError as fault:
                    link.close()
                    why = f"its certificate isn't trusted ({fault.verify_message})"
                    raise EngineError(f"{why}: name the signer's by the key `ca`") from fault
            return _Door(link, self.budget)

    client = Client(
        host, port=port, database=access.database, user=access.user, password=access.password
    )
    client.connection = Bounded(
        host, port, access.database, access.user, access.password, connect_timeout=CONNECT_SECONDS
    )
    client.connection.context.settings = client.settings
    client.connection.context.client_settings = client.client_settings
    return client
