"""The page of the claim, in a copy of the sources: what changes it, and what `tests/statement` refuses."""
from __future__ import annotations

import shutil
import subprocess
from pathlib import Path

from office import TOP
from report import Report

BUDGET = Path("crates/slo_terms/specs/Budget.antt")


def copy_of_sources(folder: Path) -> Path:
    """All that the page is made of, and the page."""
    for name in ("crates.txt", "tests/statement", "tests/claim", "docs/statement.md", "docs/trusted.md"):
        (folder / name).parent.mkdir(parents=True, exist_ok=True)
        place = TOP / name
        if place.is_dir():
            shutil.copytree(place, folder / name)
        else:
            shutil.copy2(place, folder / name)
    for part in (*TOP.glob("crates/*/src"), *TOP.glob("crates/*/specs")):
        shutil.copytree(part, folder / part.relative_to(TOP))
    return folder


def said(folder: Path, *words: str) -> tuple[int, str]:
    done = subprocess.run([folder / "tests" / "statement", *words], capture_output=True, text=True, timeout=60)
    return done.returncode, done.stdout + done.stderr


def changed_rows(folder: Path) -> set[str]:
    """The files whose rows a page that is written anew changes."""
    before = (folder / "docs/statement.md").read_text().splitlines()
    assert said(folder, "--write")[0] == 0
    after = (folder / "docs/statement.md").read_text().splitlines()
    return {it.split("](")[0] for it in set(after) - set(before) if it.startswith("| [`")}


def run(report: Report) -> None:
    folder = copy_of_sources(report.folder("sources"))
    file = folder / BUDGET
    text = file.read_text()
    with report.case("statement: the page is what the sources make of it"):
        status, line = said(folder)
        assert status == 0 and line.startswith("statement: 1,"), line
    with report.case("statement: another layout and another comment leave each sum as it is"):
        file.write_text(text.replace("-- the", "-- a word more: the").replace("\n    ", "\n      "))
        assert changed_rows(folder) == set()
        file.write_text(text)
    with report.case("statement: a changed definition is told, and changes its own row alone"):
        file.write_text(text.replace("sum.den == 0", "sum.den == 1"))
        status, line = said(folder)
        assert (status, line) == (1, "docs/statement.md isn't what tests/statement --write writes\n"), line
        assert changed_rows(folder) == {"| [`slo_terms`: Budget"}
    with report.case("statement: a word that stands behind its first use is told"):
        first, _, rest = text.partition("\n\n")
        blocks = rest.split("\n\n")
        file.write_text("\n\n".join([first, *reversed(blocks)]))
        status, line = said(folder)
        assert status == 1 and "which it cites" in line, line
    with report.case("statement: the way from a contract to a definition"):
        file.write_text(text)
        status, line = said(folder, "--why", "IsBudgetAnswer")
        assert status == 0 and "budget_command/specs/Answer.antt" in line, line
