"""The counts of docs/trusted.md: how much a reviewer takes on trust, row by row."""
from __future__ import annotations

import re
import shutil
import subprocess
from pathlib import Path

from claim.claim import Claim
from claim.house import House, key_of, reach
from claim.sources import Definition

# What stands between `run` and the system, and tells proofs nothing of what it gives or takes.
ADAPTERS = {
    "the file": [f"crates/office_outside/src/{it}.rt" for it in ("file_disk", "opened_file", "identity")],
    "standard streams and the clock": [f"crates/office_outside/src/{it}.rt" for it in ("adapters", "wall_clock")],
    "links": [
        f"crates/office_doors/src/{it}.rt"
        for it in ("hall", "link", "link_sink", "link_source", "places", "room", "tally", "tcp_door", "tcp_doors")
    ],
    "`main`": [f"crates/slo_office/src/{it}.rt" for it in ("main", "standard")],
}
# A row of the table, by the text of its first cell.
ROW = re.compile(r"^\| (?P<what>[^|]+?) \| (?P<size>[^|]*?) \|", re.M)


def code_lines(file: Path) -> int:
    """Lines of code: no comments, no clauses' first lines, no blank ones."""
    lines = (line.strip() for line in file.read_text(encoding="utf-8").splitlines())
    return sum(1 for it in lines if it and not it.startswith(("//", "ghost use", "ensures", "requires")))


def kit() -> Path | None:
    """The toolchain's sources, where it is there."""
    if shutil.which("rt") is None:
        return None
    first_page = subprocess.run(["rt", "doc"], capture_output=True, text=True, check=True).stdout.strip()
    return Path(first_page).parent / "rattle"


def ported_definitions(claim: Claim, sources: Path) -> list[Definition]:
    """What the theorem's definitions name of ported crates, with all that these name."""
    named = {it for one in claim.of_run if isinstance(one, Definition) for it in one.outside}
    found: dict[str, Path] = {}
    reached: list[Definition] = []
    # a ported crate may name others
    while more := {it for path, _ in named if (it := path.split(".")[0]) not in found and it != "std" and (sources / it / "specs").is_dir()}:
        found.update({it: sources / it for it in sorted(more)})
        house = House(found)
        roots = {it for place in named if (it := house.look_up(*place)) is not None}
        reached = [it for it in reach(sorted(roots, key=key_of)) if isinstance(it, Definition)]
        named |= {it for one in reached for it in one.outside}
    return reached


def size_of(definitions: list[Definition]) -> str:
    crates = len({it.crate for it in definitions})
    lines = sum(it.lines for it in definitions)
    return f"{len(definitions):,} definitions, {lines:,} lines, {crates} crates"


def sizes(top: Path, claim: Claim) -> dict[str, str]:
    """What each row of the table has to say. Rows of the toolchain are there where it is."""
    made = {"definitions behind `run`": size_of([it for it in claim.of_run if isinstance(it, Definition)])}
    made["definitions behind the laws and the traits too"] = size_of(claim.definitions)
    for what, files in ADAPTERS.items():
        made[what] = f"{sum(code_lines(top / it) for it in files):,} lines of code"
    sources = kit()
    if sources is not None:
        made["definitions of ported crates in these"] = size_of(ported_definitions(claim, sources))
    return made


def with_sizes(page: str, wanted: dict[str, str]) -> str:
    """The page with each row's size. Raises SystemExit where a row isn't there."""
    rows = {it["what"] for it in ROW.finditer(page)}
    if missing := wanted.keys() - rows:
        raise SystemExit(f"statement: docs/trusted.md has no row {', '.join(sorted(missing))}")

    def row(found: "re.Match[str]") -> str:
        return f"| {found['what']} | {wanted.get(found['what'], found['size'])} |"

    return ROW.sub(row, page)
