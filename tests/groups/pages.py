"""The pages with commands: each `console` block of README.md, docs/ and tests/pages/, from the top of a page to its end, in one folder.

A line behind `$ ` is a command, lines behind `> ` go on with it, and all other lines are what it prints, byte for byte.
The folder has the program and the examples; a page's port 8080 is a free one.
"""
from __future__ import annotations

import os
import re
import shutil
import signal
import subprocess
from dataclasses import dataclass
from pathlib import Path

from office import EXAMPLES, TOP, free_port
from report import Report, Skipped

MARK = "\001"
PORT = "8080"
MOST_SECONDS = 120


@dataclass
class Command:
    line: int
    text: str
    wanted: str


def commands(page: str) -> list[Command]:
    """The commands of a page's console blocks."""
    found: list[Command] = []
    inside = False
    for number, line in enumerate(page.splitlines(), 1):
        if line.startswith("```"):
            inside = line == "```console"
        elif inside and line.startswith("$ "):
            found.append(Command(number, line[2:], ""))
        elif inside and line.startswith("> ") and found and not found[-1].wanted:
            found[-1].text += "\n" + line[2:]
        elif inside:
            found[-1].wanted += line + "\n"
    return found


def script(asked: list[Command], port: str) -> str:
    """All commands of a page for one shell, with a mark behind the output of each."""
    return "exec 2>&1\n" + "".join(f"{it.text.replace(PORT, port)}\nprintf '{MARK}'\n" for it in asked)


def printed(asked: list[Command], folder: Path) -> list[str]:
    """What each command prints."""
    port, path = str(free_port()), folder.with_suffix(".script")
    path.write_text(script(asked, port))
    out = folder.with_suffix(".out")
    with open(out, "wb") as sink:
        shell = subprocess.Popen(["bash", path], cwd=folder, stdin=subprocess.DEVNULL, stdout=sink, start_new_session=True)
        try:
            shell.wait(MOST_SECONDS)
        finally:
            # a page that goes wrong may leave its server
            try:
                os.killpg(shell.pid, signal.SIGKILL)
            except ProcessLookupError:
                pass
            shell.wait()
    return out.read_text(errors="replace").replace(port, PORT).split(MARK)


def without_end(text: str) -> str:
    return text.removesuffix("\n")


def try_page(report: Report, path: Path) -> None:
    asked = commands(path.read_text())
    lacking = [it for it in ("curl", "xxd", "od") if any(re.search(rf"\b{it}\b", c.text) for c in asked) and not shutil.which(it)]
    if lacking:
        raise Skipped(f"{lacking[0]} isn't installed")
    folder = report.folder(path.stem)
    shutil.copy2(report.program, folder / "slo_office")
    shutil.copytree(EXAMPLES, folder / "examples")
    got = printed(asked, folder)
    for command, text in zip(asked, got):
        assert without_end(text) == without_end(command.wanted), f"line {command.line}, {command.text[:80]!r}: printed {text[:300]!r}"
    assert len(got) == len(asked) + 1, f"line {asked[len(got) - 1].line}: the page ended there"


def run(report: Report) -> None:
    for path in [TOP / "README.md", *sorted((TOP / "docs").glob("*.md")), *sorted((TOP / "tests/pages").glob("*.md"))]:
        if commands(path.read_text()):
            with report.case(path.relative_to(TOP).as_posix()):
                try_page(report, path)
