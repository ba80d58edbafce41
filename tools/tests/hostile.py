"""Servers that answer as no good server does: bytes by a script, cut, slow, or without an end."""

from __future__ import annotations

import re
import socket
import threading
from collections.abc import Callable, Iterator
from contextlib import contextmanager, suppress

# What a server does with a link: it gets the link and the head of the request that came.
Doing = Callable[[socket.socket, bytes], None]


class Hostile:
    """A server that does what it is told with each link behind the head of its first request."""

    def __init__(self, doing: Doing) -> None:
        self.doing = doing
        self.heads: list[bytes] = []
        self._door = socket.create_server(("127.0.0.1", 0))
        self.port: int = self._door.getsockname()[1]
        self._thread = threading.Thread(target=self._serve, daemon=True)
        self._thread.start()

    @property
    def address(self) -> str:
        return f"http://127.0.0.1:{self.port}"

    def close(self) -> None:
        with suppress(OSError):
            self._door.shutdown(socket.SHUT_RDWR)
        self._door.close()
        self._thread.join(10)

    def _serve(self) -> None:
        while True:
            try:
                link, _ = self._door.accept()
            except OSError:
                return
            with link, suppress(OSError):
                head = read_head(link)
                self.heads.append(head)
                self.doing(link, head)


def read_head(link: socket.socket) -> bytes:
    """A request up to its empty line, with what came behind it."""
    head = b""
    while b"\r\n\r\n" not in head:
        more = link.recv(65_536)
        if not more:
            break
        head += more
    return head


@contextmanager
def hostile(doing: Doing) -> Iterator[Hostile]:
    server = Hostile(doing)
    try:
        yield server
    finally:
        server.close()


def says(answer: bytes) -> Doing:
    """Sends these bytes, and closes the link."""
    return lambda link, head: link.sendall(answer)


def spelled(
    content: bytes, kind: str = "application/json", status: str = "200 OK", more: str = ""
) -> bytes:
    """An answer as an office spells it."""
    head = f"HTTP/1.1 {status}\r\nContent-Type: {kind}\r\nContent-Length: {len(content)}\r\n"
    return f"{head}{more}Connection: keep-alive\r\n\r\n".encode() + content


def chunked(content: bytes, size: int, kind: str = "application/json") -> bytes:
    """The same in pieces."""
    pieces = [content[at : at + size] for at in range(0, len(content), size)]
    body = b"".join(b"%x\r\n%b\r\n" % (len(piece), piece) for piece in [*pieces, b""])
    head = f"HTTP/1.1 200 OK\r\nContent-Type: {kind}\r\nTransfer-Encoding: chunked\r\n\r\n"
    return head.encode() + body


class Replaying:
    """A server that gives each path's answer by a table, as often as it is asked; others are 404.
    Behind the answer of the path `closes` it closes the link."""

    def __init__(self) -> None:
        self.answers: dict[str, bytes] = {}
        self.closes = ""
        self._server = Hostile(self._answer)
        self.address = self._server.address
        self.close = self._server.close

    def _answer(self, link: socket.socket, data: bytes) -> None:
        link.settimeout(5)
        unknown = spelled(b'{"error":"not_found"}', status="404 Not Found")
        while data:
            *heads, data = data.split(b"\r\n\r\n")
            for path in [head.split(b" ")[1].decode() for head in heads]:
                link.sendall(self.answers.get(path, unknown))
                if path == self.closes:
                    return
            more = link.recv(65_536)
            data = more and data + more


class Cutting:
    """A proxy in front of a server at a port of this machine. `cut` says how many bytes of answers
    the next links may bring; an empty list lets all through."""

    def __init__(self, port: int) -> None:
        self.behind = port
        self.cuts: list[int] = []
        self.links = 0
        self.came = 0
        self.questions: list[bytes] = []
        self._server = Hostile(self._pass_on)
        self.address = self._server.address
        self.close = self._server.close

    def _pass_on(self, link: socket.socket, head: bytes) -> None:
        self.links += 1
        self.came = 0
        room = self.cuts.pop(0) if self.cuts else None
        with socket.create_connection(("127.0.0.1", self.behind)) as office:
            thread = threading.Thread(target=self._onwards, args=(link, office, head), daemon=True)
            thread.start()
            while room is None or room > 0:
                answer = office.recv(65_536 if room is None else min(room, 65_536))
                if not answer:
                    break
                self.came += len(answer)
                link.sendall(answer)
                room = None if room is None else room - len(answer)
            with suppress(OSError):
                link.shutdown(socket.SHUT_RDWR)
                office.shutdown(socket.SHUT_RDWR)
            thread.join(10)

    def _onwards(self, link: socket.socket, office: socket.socket, head: bytes) -> None:
        with suppress(OSError):
            while head:
                self.questions += re.findall(rb"^[A-Z]+ (\S+) HTTP/1\.1\r$", head, re.MULTILINE)
                office.sendall(head)
                head = link.recv(65_536)
            office.shutdown(socket.SHUT_WR)
