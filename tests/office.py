"""What the tests share: an office in a folder, its messages and answers, its journal, and links to it."""
from __future__ import annotations

import json
import re
import socket
import struct
import subprocess
import time
from collections.abc import Iterable, Iterator
from contextlib import contextmanager
from dataclasses import dataclass
from pathlib import Path
from typing import Any

TOP = Path(__file__).resolve().parent.parent
EXAMPLES = TOP / "examples"
# No session of these tests takes as long.
MOST_SECONDS = 600


def message(method: str, target: str, body: bytes | str = b"") -> bytes:
    """A request with the length of its body."""
    data = body.encode() if isinstance(body, str) else body
    return f"{method} {target} HTTP/1.1\r\nContent-Length: {len(data)}\r\n\r\n".encode() + data


def define(*documents: str) -> bytes:
    """The request that defines the objects of these documents."""
    return message("POST", "/objects", "---\n".join(documents))


@dataclass(frozen=True)
class Answer:
    status: int
    body: bytes

    @property
    def told(self) -> Any:
        return json.loads(self.body)


def read_answer(data: bytes) -> tuple[Answer, bytes] | None:
    """The first answer in some bytes and what comes behind it, or nothing where it isn't whole."""
    head, end, rest = data.partition(b"\r\n\r\n")
    if not end:
        return None
    length = re.search(rb"Content-Length: (\d+)", head)
    assert length, f"an answer without a length: {head!r}"
    if len(rest) < int(length[1]):
        return None
    return Answer(int(head[9:12]), rest[: int(length[1])]), rest[int(length[1]) :]


def answers(data: bytes) -> list[Answer]:
    """All whole answers in some bytes."""
    found = []
    while read := read_answer(data):
        answer, data = read
        found.append(answer)
    return found


def records(path: Path) -> list[bytes]:
    """The records of a journal: the moment's four bytes, and the command's."""
    data = path.read_bytes()
    assert data[1:9] == b"OSLOJRN1" and data[0] != 0, "no header"
    found, at = [], 13
    while data[at]:
        (length,) = struct.unpack_from(">I", data, at + 1)
        record = data[at + 5 : at + 5 + length]
        assert len(record) == length, "a record that isn't whole"
        found.append(record)
        at += 5 + length
    return found


def minute_now() -> int:
    return int(time.time()) // 60


def free_port() -> int:
    with socket.socket() as it:
        it.bind(("127.0.0.1", 0))
        return int(it.getsockname()[1])


class Lost(Exception):
    """A link ended before the answer was there whole."""


class Link:
    """A connection to an office that serves."""

    def __init__(self, port: int, seconds: float = 60) -> None:
        self.socket = socket.create_connection(("127.0.0.1", port), timeout=seconds)
        self.waiting = b""

    def send(self, data: bytes) -> None:
        try:
            self.socket.sendall(data)
        except OSError:
            raise Lost from None

    def answer(self) -> Answer:
        while not (read := read_answer(self.waiting)):
            try:
                piece = self.socket.recv(65536)
            except OSError:
                raise Lost from None
            if not piece:
                raise Lost
            self.waiting += piece
        answer, self.waiting = read
        return answer

    def ask(self, data: bytes) -> Answer:
        self.send(data)
        return self.answer()

    def cut(self, hard: bool = False) -> None:
        """Ends the link, with a reset where it is to be hard."""
        if hard:
            self.socket.setsockopt(socket.SOL_SOCKET, socket.SO_LINGER, struct.pack("ii", 1, 0))
        self.socket.close()


class Office:
    """The program and a folder in which its journal lies."""

    def __init__(self, program: Path, folder: Path, origin: int | None = None) -> None:
        """With an origin the journal is made."""
        self.program, self.folder = program, folder
        self.journal = folder / "office.journal"
        folder.mkdir(parents=True, exist_ok=True)
        if origin is not None:
            done = self.run("init", str(origin))
            assert done.returncode == 0, done.stderr

    def run(self, *words: str, data: bytes = b"", **more: Any) -> subprocess.CompletedProcess[bytes]:
        return subprocess.run([self.program, *words], cwd=self.folder, input=data, capture_output=True, timeout=MOST_SECONDS, **more)

    def ask(self, messages: Iterable[bytes], at_once: int = 600) -> list[Answer]:
        """The answers to these messages, in sessions of so many."""
        every, found = list(messages), []
        for at in range(0, len(every), at_once):
            done = self.run("pipe", data=b"".join(every[at : at + at_once]))
            assert done.returncode == 0, (done.returncode, done.stderr)
            found += answers(done.stdout)
        assert len(found) == len(every), f"{len(found)} answers to {len(every)} requests"
        return found

    def report(self, at: int) -> str:
        done = self.run("report", str(at))
        assert done.returncode == 0, done.stderr
        return done.stdout.decode()

    def records(self) -> list[bytes]:
        return records(self.journal)

    @contextmanager
    def serving(self, environment: dict[str, str] | None = None) -> Iterator[Server]:
        server = Server(self, environment)
        try:
            yield server
        finally:
            server.stop()


class Server:
    """An office that serves at a port of its own."""

    def __init__(self, office: Office, environment: dict[str, str] | None = None) -> None:
        self.port = free_port()
        self.base = f"http://127.0.0.1:{self.port}"
        words = [str(office.program), "serve", str(self.port)]
        self.child = subprocess.Popen(words, cwd=office.folder, stdout=subprocess.PIPE, env=environment)
        assert self.child.stdout
        line = self.child.stdout.readline()
        assert line == b"ready\n", line

    def link(self) -> Link:
        return Link(self.port)

    def stop(self) -> None:
        self.child.kill()
        self.child.wait()
