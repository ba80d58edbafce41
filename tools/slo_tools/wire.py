"""HTTP/1.1 as the tools ask it: an answer that came whole, in time and within a size, or none.

What stands at an address is hostile until it is read: it may close the link in the middle, send a
byte a second, never end, or send another place to ask at. So

- an answer whose content has another length than its head says is none;
- an answer has a limit in bytes, and a time that is counted from the asking to its last byte;
- nothing is asked elsewhere than at the address: no redirects, no proxies of the environment;
- nothing is decoded: contents are asked for as they are.
"""

from __future__ import annotations

import base64
import http.client
import io
import os
import re
import select
import socket
import ssl
import time
from collections.abc import Iterator, Mapping, Sequence
from dataclasses import dataclass
from functools import lru_cache
from typing import Any, Optional, Union, cast
from urllib.parse import urlsplit

Verify = Union[bool, str]

# The longest answers of an office are a feed and an object, some 2 MiB each; those of the engines
# and of Alertmanager grow with what they hold, and are asked for in parts.
ANSWER_BYTES = 8 * 1024 * 1024
# The answers to questions that are asked together: four times the texts of all objects.
TOGETHER_BYTES = 64 * 1024 * 1024
# Interim answers (100, 103) before the one that counts.
INTERIM = 10
# How much is read of a link at once.
PIECE_BYTES = 65_536
# Requests that are written ahead of their answers: so few bytes that the least buffers of two
# machines hold them, and neither side waits for the other to read first.
AHEAD_BYTES = 16_384

_TARGET = re.compile(r"[!-~]*")
_HOST = re.compile(r"[A-Za-z0-9._:%-]+")
# OpenSSL's numbers of a certificate that nobody known has signed, and of one of another host.
_UNKNOWN_SIGNER = (18, 19, 20, 21)
_OTHER_HOST = (62, 64)


class Silence(Exception):
    """There is no answer that counts; the text says why, without the address."""

    passes = True
    """Whether another try may end otherwise."""


class NotTrusted(Silence):
    """The other side's certificate isn't one to believe."""

    passes = False


class TooLong(Silence):
    """The answer is longer than any that was asked for."""

    passes = False


@dataclass(frozen=True)
class Address:
    """Where to ask: `host` and `port`, and the front of all paths."""

    scheme: str
    host: str
    port: int
    path: str

    @property
    def place(self) -> str:
        """Scheme, host and port alone: what may be told of an address, whose path may be a secret."""
        return f"{self.scheme}://{self.authority}"

    @property
    def authority(self) -> str:
        host = f"[{self.host}]" if ":" in self.host else self.host
        usual = {"http": 80, "https": 443}[self.scheme]
        return host if self.port == usual else f"{host}:{self.port}"


def address_of(text: str) -> Address:
    """An address as `http://127.0.0.1:8080`. Raises ValueError, without the text: it may hold a
    secret."""
    try:
        parts = urlsplit(text)
        port = parts.port
    except ValueError:
        raise ValueError("is no address as http://127.0.0.1:8080") from None
    if parts.username is not None or parts.password is not None:
        raise ValueError(
            "has a name or a password in it (`user:password@`): give them by `--user` and"
            " `--password-file`, or by the keys `user` and `password_file`"
        )
    target = parts.path + (f"?{parts.query}" if parts.query else "")
    host = parts.hostname or ""
    if (
        parts.scheme not in ("http", "https")
        or _HOST.fullmatch(host) is None
        or _TARGET.fullmatch(text) is None
        or parts.fragment
        or port == 0
    ):
        raise ValueError("is no address as http://127.0.0.1:8080")
    usual = 80 if parts.scheme == "http" else 443
    return Address(parts.scheme, host, port or usual, target)


@dataclass(frozen=True)
class Peer:
    """Whom to ask, by which password or token, trusting which certificate, and how long."""

    address: Address
    credentials: Optional[tuple[str, str]] = None
    token: Optional[str] = None
    verify: Verify = True
    timeout: float = 30.0
    most: int = ANSWER_BYTES

    def request(
        self,
        method: str,
        path: str,
        body: bytes = b"",
        fields: Mapping[str, str] = {},
        is_last: bool = False,
    ) -> bytes:
        """A request as it goes over the wire; `is_last` asks for the link's end behind it."""
        told = {
            "Host": self.address.authority,
            "User-Agent": "slo-office-tools",
            "Accept-Encoding": "identity",
            "Connection": "close" if is_last else "keep-alive",
            **fields,
        }
        if body or method in ("POST", "PUT"):
            told["Content-Length"] = str(len(body))
        if self.token is not None:
            told["Authorization"] = f"Bearer {self.token}"
        elif self.credentials is not None:
            pair = ":".join(self.credentials).encode("utf-8")
            told["Authorization"] = "Basic " + base64.b64encode(pair).decode("ascii")
        lines = [f"{method} {self.address.path + path or '/'} HTTP/1.1"]
        lines += [f"{name}: {value}" for name, value in told.items()]
        head = "\r\n".join([*lines, "", ""])
        return head.encode("utf-8") + body

    def asked_once(
        self, method: str, path: str = "", body: bytes = b"", fields: Mapping[str, str] = {}
    ) -> Reply:
        """The answer to one request on a link of its own. Raises Silence."""
        end = time.monotonic() + self.timeout
        link = Link(self, end)
        try:
            link.send(self.request(method, path, body, fields, is_last=True), end)
            return link.reply(method, self.most, end)
        finally:
            link.close()


@dataclass(frozen=True)
class Reply:
    """An answer: its status, its fields by their names in small letters, and its content.
    `is_measured` is false where the head says no length, so that nobody knows whether it is whole.
    """

    status: int
    fields: Mapping[str, str]
    content: bytes
    is_measured: bool = True

    @property
    def kind(self) -> str:
        """The kind of the content, as `application/json`."""
        return self.fields.get("content-type", "").partition(";")[0].strip().lower()

    @property
    def date(self) -> Optional[str]:
        return self.fields.get("date")

    def whole(self) -> bytes:
        """The content. Raises Silence where it may have been cut."""
        if not self.is_measured:
            raise Silence("the answer doesn't say how long it is")
        return self.content


class _Incoming(io.RawIOBase):
    """What comes on a link, up to the end of the time that an answer has."""

    def __init__(self, link: socket.socket) -> None:
        self.end = 0.0
        # Whether nothing is read just now: what is asked for is what has come already.
        self.rests = False
        self._socket = link

    def readable(self) -> bool:
        return True

    def readinto(self, room: Any) -> Optional[int]:
        if self.rests:
            return None
        self._socket.settimeout(_left(self.end))
        return self._socket.recv_into(room)


class _Kept(io.BufferedReader):
    """The bytes of a link, for one answer behind another: the end of one closes nothing. A line that
    the link's end cuts is none, but where no answer has begun."""

    has_begun = False

    def close(self) -> None:
        pass

    def readline(self, most: Optional[int] = -1) -> bytes:
        line = super().readline(most)
        if not line.endswith(b"\n") and len(line) != most and (line or self.has_begun):
            raise Silence("the answer was cut: the link was closed")
        self.has_begun = True
        return line

    def makefile(self, mode: str) -> _Kept:
        """What an answer asks its socket for."""
        return self


class Link:
    """An open link. Whatever fails on it raises Silence, and the link is of no use from then on."""

    def __init__(self, peer: Peer, end: float) -> None:
        self.answers = 0
        self.is_ended = False
        self._socket = _connected(peer, end)
        self._incoming = _Incoming(self._socket)
        self._bytes = _Kept(self._incoming, PIECE_BYTES)

    def close(self) -> None:
        self.is_ended = True
        self._socket.close()

    def is_quiet(self) -> bool:
        """Whether the link can be used once more: it is open, and nothing came unasked."""
        if self.is_ended or self._has_more():
            return False
        door = select.poll()
        door.register(self._socket, select.POLLIN)
        return not door.poll(0)

    def _has_more(self) -> bool:
        """Whether bytes came behind the last answer."""
        self._incoming.rests = True
        try:
            return bool(self._bytes.peek(1))
        finally:
            self._incoming.rests = False

    def send(self, data: bytes, end: float) -> None:
        try:
            self._socket.settimeout(_left(end))
            self._socket.sendall(data)
        except OSError as fault:
            self.is_ended = True
            raise _silence(fault) from fault

    def replies(self, requests: Sequence[bytes], most: int, end: float) -> Iterator[Reply]:
        """The answers to requests (of GET) that are written one behind another, in their order.
        They end early where the other side says that it closes the link."""
        sent = ahead = 0
        room = TOGETHER_BYTES
        for request in requests:
            if ahead < AHEAD_BYTES // 2:
                data = bytearray()
                while sent < len(requests) and (not data or ahead < AHEAD_BYTES):
                    data += requests[sent]
                    ahead += len(requests[sent])
                    sent += 1
                if data:
                    self.send(bytes(data), end)
            reply = self.reply("GET", min(most, room), end)
            room -= len(reply.content)
            ahead -= len(request)
            yield reply
            if self.is_ended:
                return

    def reply(self, method: str, most: int, end: float) -> Reply:
        """The next answer, to a request of this method."""
        try:
            return self._reply(method, most, end)
        except Silence:
            self.is_ended = True
            raise
        except (OSError, ValueError, http.client.HTTPException) as fault:
            self.is_ended = True
            raise _silence(fault) from fault

    def _reply(self, method: str, most: int, end: float) -> Reply:
        self._incoming.end = end
        answer = self._begun(method)
        fields = _fields_of(answer)
        if answer.will_close:
            self.is_ended = True
        self.answers += 1
        is_measured = answer.length is not None or answer.chunked
        return Reply(answer.status, fields, _content_of(answer, most), is_measured)

    def _begun(self, method: str) -> http.client.HTTPResponse:
        """An answer behind its head, which interim ones (100, 103) may come before."""
        for _ in range(INTERIM):
            self._bytes.has_begun = False
            # the answer asks for nothing of a socket but its bytes
            answer = http.client.HTTPResponse(cast(socket.socket, self._bytes), method=method)
            answer.begin()
            if answer.status >= 200:
                return answer
        raise Silence("the answer doesn't begin")


def _fields_of(answer: http.client.HTTPResponse) -> dict[str, str]:
    """The fields of an answer's head, where these say in one way how long it is."""
    fields: dict[str, str] = {}
    if answer.headers.defects:
        raise Silence("the answer's head has another form")
    for name, value in answer.getheaders():
        if "\n" in value:
            raise Silence("the answer's head has another form")
        name = name.lower()
        fields[name] = f"{fields[name]}, {value}" if name in fields else value
    length = fields.get("content-length", "0")
    if re.fullmatch(r"[0-9]{1,19}", length) is None:
        raise Silence("the answer's length is no number")
    coding = fields.get("transfer-encoding", "chunked").lower()
    if coding != "chunked" or ("transfer-encoding" in fields and "content-length" in fields):
        raise Silence("the answer says its length in two ways, or in an unknown one")
    if fields.get("content-encoding", "identity").lower() not in ("", "identity"):
        raise Silence("the answer is encoded, though it was asked for as it is")
    return fields


def _content_of(answer: http.client.HTTPResponse, most: int) -> bytes:
    """All of an answer's content, where it is no longer than that."""
    if answer.length is not None:
        if answer.length > most:
            raise TooLong(_long_text(most))
        return answer.read()
    content = bytearray()
    while piece := answer.read(PIECE_BYTES):
        content += piece
        if len(content) > most:
            raise TooLong(_long_text(most))
    return bytes(content)


def _connected(peer: Peer, end: float) -> socket.socket:
    address = peer.address
    try:
        link = socket.create_connection((address.host, address.port), _left(end))
    except (OSError, UnicodeError) as fault:
        raise _silence(fault) from fault
    try:
        link.setsockopt(socket.IPPROTO_TCP, socket.TCP_NODELAY, 1)
        if address.scheme == "https":
            trust = _trust(peer.verify)
            link.settimeout(_left(end))
            link = trust.wrap_socket(link, server_hostname=address.host)
    except (OSError, ValueError) as fault:
        link.close()
        raise _silence(fault) from fault
    except Silence:
        link.close()
        raise
    return link


def _trust(verify: Verify) -> ssl.SSLContext:
    try:
        return tls_of(verify)
    except OSError as fault:
        raise NotTrusted(
            f"{verify} (`--ca`, or the key `ca`) is no file of certificates"
        ) from fault


def tls_of(verify: Verify) -> ssl.SSLContext:
    """What certificates are believed: True for those that the machine trusts, else a file's.
    Raises OSError where there is no such file, or none of certificates."""
    return _tls(verify, os.stat(verify).st_mtime_ns if isinstance(verify, str) else 0)


@lru_cache(maxsize=16)
def _tls(verify: Verify, _written: int) -> ssl.SSLContext:
    context = ssl.create_default_context(cafile=verify if isinstance(verify, str) else None)
    if verify is False:
        context.check_hostname = False
        context.verify_mode = ssl.CERT_NONE
    return context


def _long_text(most: int) -> str:
    return f"the answer is longer than {most} bytes"


def _left(end: float) -> float:
    left = end - time.monotonic()
    if left <= 0:
        raise TimeoutError
    return left


def _silence(fault: Exception) -> Silence:
    if isinstance(fault, ssl.SSLCertVerificationError):
        return NotTrusted(_certificate_text(fault))
    if isinstance(fault, TimeoutError):
        return Silence("no answer in time")
    if isinstance(fault, http.client.RemoteDisconnected):
        return Silence("no answer: the link was closed")
    if isinstance(fault, http.client.IncompleteRead):
        came = len(fault.partial)
        if fault.expected is None:
            return Silence(f"the answer was cut behind {came} bytes, or its pieces have no length")
        return Silence(f"the answer was cut: {came} of {came + fault.expected} bytes came")
    if isinstance(fault, http.client.LineTooLong):
        return Silence("the answer's head is too long")
    if isinstance(fault, (http.client.HTTPException, ValueError)):
        return Silence("no answer of HTTP")
    if isinstance(fault, ssl.SSLError):
        return Silence(f"no connection: TLS fails ({fault.reason or 'the link was closed'})")
    return Silence("no connection")


def _certificate_text(fault: ssl.SSLCertVerificationError) -> str:
    if fault.verify_code in _UNKNOWN_SIGNER:
        return "its certificate isn't trusted: name the signer's by `--ca`, or by the key `ca`"
    if fault.verify_code in _OTHER_HOST:
        return "its certificate isn't trusted: it is another host's"
    return f"its certificate isn't trusted: {fault.verify_message}"
