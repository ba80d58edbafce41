"""The worked sessions of the gate, byte for byte: what they read and what has to come stand in crates/worked_sessions.

The gate plays them over a disk and a clock in memory; here the built program plays them over a file, at a clock that is
held. What a file and a terminal can't be made to do, as doors and stops within a write, is the gate's alone.
"""
from __future__ import annotations

import errno
import re
from dataclasses import dataclass, field
from pathlib import Path

import held
from office import TOP, Answer, answers, message
from report import Report, Skipped

WORKED = TOP / "crates" / "worked_sessions"
PLAYED_BY_THE_GATE = {
    "each": "many runs over memory",
    "visitor": "doors in memory",
    "pairs": "doors in memory",
    "failing doors": "doors in memory",
    "failing next": "doors in memory",
    "files": "calls of the disk by itself",
}
# The most bytes of a feed that are shown.
MOST_SHOWN = 100
LEFT_OUT = {
    "the gate's write fails, and the batch comes again": "the calls on a file have other numbers: kills lets each fail",
    "the sync after the gate fails, and the batch comes again": "over a file each sync after one that failed fails too",
    "the disk fails at each call of an upgrade": "the calls on a file have other numbers: kills lets each fail",
    "the disk fails at each call of an export, and a part's last flush fails": "the calls on a file have other numbers: export lets each fail",
    "the disk fails at each call of following": "the calls on a file have other numbers: following lets each fail",
}


def parts(text: str) -> dict[str, list[str]]:
    """The lines of each session, by its title; what stands before the first is left out."""
    found: dict[str, list[str]] = {}
    for part in re.split(r"(?m)^== ", text)[1:]:
        title, _, rest = part.partition("\n")
        found[title] = rest.splitlines()
    return found


def shown(output: bytes) -> str:
    """The answers of an output, a line each: status, `close` where it closes, methods where it names them, the body."""
    text, lines = output.decode("latin-1"), ""
    for answer in text.split("HTTP/1.1 "):
        head, end, body = answer.partition("\r\n\r\n")
        lines += f"{shown_head(head)}{shown_body(head, body)}\n" if end else answer
    return lines


def shown_body(head: str, body: str) -> str:
    """Of a feed its bytes in digits of 16, or how many there are."""
    if "application/octet-stream" not in head:
        return body
    return f"{len(body)} bytes" if len(body) > MOST_SHOWN else body.encode("latin-1").hex()


def shown_head(head: str) -> str:
    methods = re.search(r"Allow: (.*?)\r\n", head)
    return head.split(" ")[0] + " " + "close " * ("Connection: close" in head) + (f"{methods[1]} " if methods else "")


def counted(output: bytes) -> str:
    """How many answers there are, how many are 200, and the last one."""
    found = output.decode(errors="replace").split("HTTP/1.1 ")
    count, fine = sum("\r\n\r\n" in it for it in found), sum(it.startswith("200 ") for it in found)
    head, end, body = found[-1].partition("\r\n\r\n")
    return f"{count} answers, {fine} of them 200, the last one:\n" + (shown_head(head) + body if end and len(found) > 1 else "") + "\n"


@dataclass
class Stage:
    """What the next run is made from, and what came out so far."""

    program: Path
    folder: Path
    saved: bytes = b""
    exported: bytes = b""
    readings: list[int] = field(default_factory=list)
    faults: dict[tuple[str, int], int | str] = field(default_factory=dict)
    piece: int | None = None
    whole: bool = False
    brief: bool = False
    times: tuple[int, int] | None = None
    request: str = ""
    body: str = ""
    input: bytes = b""
    answered: bytes = b""
    out: list[str] = field(default_factory=list)
    unflushed: list[int] = field(default_factory=list)

    def begin(self) -> None:
        """A session begins without a file, and without requests that one before left, since it was skipped."""
        self.write(b"")
        self.request, self.body, self.input = "", "", b""
        self.faults, self.piece, self.whole, self.brief, self.out, self.unflushed = {}, None, False, False, [], []

    @property
    def journal(self) -> Path:
        return self.folder / "office.journal"

    def read(self) -> bytes:
        return self.journal.read_bytes() if self.journal.exists() else b""

    def write(self, data: bytes) -> None:
        self.journal.unlink(missing_ok=True)
        if data:
            self.journal.write_bytes(data)

    def take(self, line: str) -> None:
        """A line of the script. A line of a body begins with `|`; each other one ends the request before it."""
        word, _, rest = line.partition(" ")
        if line.startswith("|"):
            self.body += line[1:] + "\n"
        elif word == "rows":
            self.body += series(f"{rest} shop-good,web,@,1,1,1")
        elif word == "series":
            self.body += series(rest)
        else:
            self.end_request()
            if word == "$":
                self.run(rest)
            elif word == ">":
                self.send(rest)
            elif line and not line.startswith("#"):
                self.set(word, rest)

    def send(self, text: str) -> None:
        kind, _, rest = text.partition(" ")
        if kind == "raw":
            self.input += rest.replace("\\", "\r\n").encode()
        elif kind == "many":
            count, _, repeated = rest.partition(" ")
            self.input += int(count) * repeated.replace("\\", "\r\n").encode()
        elif kind == "stream":
            raise Skipped("a sample stream as an input")
        elif kind == "exported":
            self.input += self.exported
        elif kind == "bytes":
            self.input += bytes.fromhex(rest)
        elif kind == "answer":
            self.input += self.answered
        else:
            self.request = text

    def end_request(self) -> None:
        method, _, target = self.request.partition(" ")
        if not self.request:
            self.input += self.body.encode()
        elif self.times:
            for number in range(self.times[0], sum(self.times)):
                self.input += request(numbered(self.request, number), numbered(self.body, number))
            self.times = None
        else:
            self.input += request(self.request, self.body)
        self.request = self.body = ""

    def set(self, word: str, rest: str) -> None:
        """Sets what the next runs are made from, or shows the file."""
        kind = f"failing {rest.split()[0]}" if word == "failing" else word
        if kind in PLAYED_BY_THE_GATE:
            raise Skipped(PLAYED_BY_THE_GATE[kind])
        match word:
            case "clock":
                self.readings = [int(it) for it in rest.split()]
            case "failing":
                name, *numbers = rest.split()
                self.faults = {(name, int(it)): errno.EIO for it in numbers}
            case "pieces":
                self.piece = int(rest)
            case "cut":
                self.write(self.read()[: int(rest)])
            case "times":
                first, count = rest.split()
                self.times = int(first), int(count)
            case "heads":
                self.whole = True
            case "brief":
                self.brief = True
            case "file":
                self.out[-1] += self.read().hex() + "\n"
            case "save":
                self.saved = self.read()
            case "load":
                self.write(self.saved)
            case _:
                raise AssertionError(f"a line that means nothing: {word} {rest}")

    def run(self, words: str) -> None:
        """Runs the program, and notes what it wrote, its status and the line that says why."""
        if re.match(r"serve \d", words):
            raise Skipped("doors in memory")
        # What is written to a file waits for no flush, so its flush can't be made to fail.
        if ("output", 1) in self.faults:
            self.unflushed.append(len(self.out))
        outside = held.Outside(self.readings, self.piece, self.faults)
        try:
            ran = held.run(self.program, words.split(), self.folder, self.input, outside)
        except held.Absent as why:
            raise Skipped(str(why)) from None
        self.input, self.faults = b"", {}
        is_export = words.startswith("export ")
        if is_export:
            self.exported = ran.output
        if words == "pipe":
            self.answered = (answers(ran.output) or [Answer(0, b"")])[-1].body
        show = whole if self.whole or is_export else counted if self.brief else shown
        self.out.append(f"$ {words}\n{show(ran.output)}status {ran.status}\n{shown(ran.errors)}")
        self.brief = False


def whole(output: bytes) -> str:
    """The answers with their heads, without carriage returns."""
    return "".join(f"{line}\n" for line in output.decode(errors="replace").split("\r\n"))


def request(line: str, body: str) -> bytes:
    method, _, target = line.partition(" ")
    return message(method, target, body)


def numbered(text: str, number: int) -> str:
    """A text in which `@` stands for the number, and `\\` for a line's end."""
    return text.replace("\\", "\n").replace("@", str(number))


def series(text: str) -> str:
    """A line for each of so many numbers from the first on, as in `1 3 - name-@`."""
    first, count, line = text.split(" ", 2)
    return "".join(numbered(line, int(first) + place) + "\n" for place in range(int(count)))


def compare(wanted: str, stage: Stage) -> None:
    """What came of each run has to be what is wanted; of those whose flush was to fail, but for the status."""
    runs = re.split(r"(?m)^(?=\$ )", wanted)[1:]
    assert len(runs) == len(stage.out), f"{len(stage.out)} runs, wanted {len(runs)}"
    for number, (want, got) in enumerate(zip(runs, stage.out)):
        if number in stage.unflushed:
            want, got = (it.partition("status ")[0] for it in (want, got))
        assert got == want, first_difference(want, got)


def first_difference(wanted: str, got: str) -> str:
    lines = [*zip(wanted.splitlines() + [""], got.splitlines() + [""])]
    want, have = next((it for it in lines if it[0] != it[1]), ("", "more lines"))
    return f"{lines[0][0]}: wanted {want[:200]!r}, got {have[:200]!r}"


def run(report: Report) -> None:
    scripts, wanted = (parts((WORKED / name).read_text()) for name in ("stdin", "stdout"))
    assert list(scripts) == list(wanted), "the answers of other sessions"
    stage = Stage(report.program, report.folder("stage"))
    for title, script in scripts.items():
        with report.case(title):
            if title in LEFT_OUT:
                raise Skipped(LEFT_OUT[title])
            stage.begin()
            for line in script:
                stage.take(line)
            stage.end_request()
            compare("".join(f"{line}\n" for line in wanted[title]), stage)
