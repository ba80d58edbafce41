"""A scratch office: the office's own program over a journal that is thrown away, an empty one or
one with a given past."""

from __future__ import annotations

import json
import os
import re
import subprocess
import tempfile
import threading
from collections.abc import Sequence
from dataclasses import dataclass
from pathlib import Path
from types import TracebackType
from typing import IO, Any, Optional, TypeVar

from slo_tools import questions
from slo_tools.past.entries import Past
from slo_tools.questions import Outcome, Question, outcome_of
from slo_tools.told import json_members

Found = TypeVar("Found")

# A session ends after 1,000 answers.
MOST_ANSWERS = 999
# In memory where there is such a folder: nothing of a scratch office has to be kept.
MEMORY = Path("/dev/shm")


# What the program says of a journal that it doesn't open.
DAMAGED = re.compile(r"file damaged at (\d+)")


class ScratchFault(Exception):
    """The program couldn't be run, refused the past, or answered as no office does."""


@dataclass(frozen=True)
class Message:
    """A request of a scratch office."""

    method: str
    path: str
    body: bytes = b""

    def spelled(self) -> bytes:
        head = f"{self.method} {self.path} HTTP/1.1\r\nContent-Length: {len(self.body)}\r\n\r\n"
        return head.encode("ascii") + self.body


@dataclass(frozen=True)
class Answer:
    """What a scratch office answered."""

    status: int
    body: bytes
    kind: str = ""

    def as_told(self) -> questions.Answer:
        """The same as if it had come over the wire."""
        members = json_members(self.body) if self.kind == "application/json" else None
        return questions.Answer(self.status, members, self.body, None, self.kind)

    @property
    def members(self) -> dict[str, Any]:
        told = json.loads(self.body)
        return told if isinstance(told, dict) else {}

    @property
    def text(self) -> str:
        return self.body.decode("utf-8")


class Scratch:
    """An office of one's own, for as long as it is needed."""

    def __init__(
        self, program: str, origin: Optional[int] = None, past: Optional[Past] = None
    ) -> None:
        self.program = os.path.abspath(program) if os.sep in program else program
        parent = MEMORY if os.access(MEMORY, os.W_OK) else None
        self._folder = tempfile.TemporaryDirectory(prefix="slo-scratch-", dir=parent)
        self._session: Optional[subprocess.Popen[bytes]] = None
        self._answers = 0
        self._past = past
        if past is not None:
            # The first session opens it, and so judges each entry.
            with (Path(self._folder.name) / "office.journal").open("wb") as file:
                file.writelines(past.journal())
            return
        made = self._start(["init"] if origin is None else ["init", str(origin)])
        _, told = made.communicate()
        if made.returncode != 0:
            raise self._fault("init", made.returncode, told)

    def __enter__(self) -> Scratch:
        return self

    def __exit__(
        self,
        kind: Optional[type[BaseException]],
        fault: Optional[BaseException],
        trace: Optional[TracebackType],
    ) -> None:
        self._end()
        self._folder.cleanup()

    def asked(self, asked: Sequence[Question[Found]]) -> list[Outcome[Found]]:
        """What many questions come to, in their order."""
        answers = self.ask([Message("GET", question.path) for question in asked])
        return [outcome_of(it, answer.as_told()) for it, answer in zip(asked, answers)]

    def ask(self, messages: Sequence[Message]) -> list[Answer]:
        """The answers to requests, in their order. They are written while answers are read."""
        answers: list[Answer] = []
        while len(answers) < len(messages):
            session = self._in_session()
            first = len(answers)
            together = messages[first : first + MOST_ANSWERS - self._answers]
            self._answers += len(together)
            answers += self._exchanged(session, together)
        return answers

    def one(self, message: Message) -> Answer:
        """The answer to a request."""
        return self.ask([message])[0]

    def _in_session(self) -> subprocess.Popen[bytes]:
        if self._answers == MOST_ANSWERS:
            self._end()
        if self._session is None:
            self._session, self._answers = self._start(["pipe"]), 0
        return self._session

    def _exchanged(
        self, session: subprocess.Popen[bytes], messages: Sequence[Message]
    ) -> list[Answer]:
        assert session.stdin is not None and session.stdout is not None
        writer = threading.Thread(target=_write, args=(session.stdin, messages))
        writer.start()
        try:
            answers = [_answer(session.stdout) for _ in messages]
        except EOFError:
            writer.join()
            self._session = None
            assert session.stderr is not None
            told = session.stderr.read()
            raise self._fault("pipe", session.wait(), told) from None
        writer.join()
        return answers

    def _start(self, words: list[str]) -> subprocess.Popen[bytes]:
        try:
            return subprocess.Popen(
                [self.program, *words],
                cwd=self._folder.name,
                stdin=subprocess.PIPE,
                stdout=subprocess.PIPE,
                stderr=subprocess.PIPE,
            )
        except OSError as fault:
            raise ScratchFault(f"{self.program}: {fault.strerror}") from fault

    def _end(self) -> None:
        if self._session is not None:
            self._session.communicate()
            self._session = None

    def _fault(self, word: str, status: int, told: bytes) -> ScratchFault:
        line = told.decode("utf-8", "replace").strip()
        damaged = DAMAGED.search(line)
        if self._past is not None and damaged is not None:
            entry = self._past.told_of(int(damaged[1]))
            return ScratchFault(f"{entry}, can't stand there: the office's program refuses it")
        return ScratchFault(f"{self.program} {word}: status {status}: {line}")


def _write(sink: IO[bytes], messages: Sequence[Message]) -> None:
    try:
        for message in messages:
            sink.write(message.spelled())
        sink.flush()
    except BrokenPipeError:
        # The session ended before it had read all: its reader says why.
        pass


def _answer(source: IO[bytes]) -> Answer:
    """The next answer of a session. Raises EOFError where there is none."""
    first = source.readline().split()
    if not first:
        raise EOFError
    length: Optional[int] = None
    kind = ""
    while (line := source.readline().strip()) != b"":
        name, _, value = line.partition(b":")
        if name.lower() == b"content-length" and value.strip().isdigit():
            length = int(value)
        elif name.lower() == b"content-type":
            kind = value.strip().decode("ascii", "replace")
    if len(first) < 2 or not first[1].isdigit() or length is None:
        raise ScratchFault("an answer of another form")
    return Answer(int(first[1]), source.read(length), kind)
