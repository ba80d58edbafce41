"""Measure the desk's tools over a real office of 200 SLOs, over 50 of 40, a folder and a journal."""

from __future__ import annotations

import resource
import statistics
import subprocess
import sys
import tempfile
import time
from collections.abc import Callable, Sequence
from contextlib import ExitStack
from pathlib import Path

sys.path.insert(0, str(Path(__file__).resolve().parent.parent / "tests"))

from support import OfficeServer, program, run_tool, running_office  # noqa: E402

from slo_tools.apply.profile import written  # noqa: E402
from slo_tools.clock import SystemClock  # noqa: E402
from slo_tools.notify.command import made_rounds  # noqa: E402
from slo_tools.notify.config import read_config  # noqa: E402
from slo_tools.yaml_reading import read_yaml  # noqa: E402

SLOS = 200
# A fleet: so many offices of so many SLOs.
OFFICES, EACH = 50, 40


def documents(number: int) -> str:
    return f"""---
apiVersion: openslo/v1
kind: SLI
metadata: {{name: sli-{number}}}
spec:
  ratioMetric:
    good: {{metricSource: {{type: Prometheus}}}}
    total: {{metricSource: {{type: Prometheus}}}}
---
apiVersion: openslo/v1
kind: SLO
metadata: {{name: slo-{number}}}
spec:
  service: shop
  indicatorRef: sli-{number}
  timeWindow: [{{duration: 30d, isRolling: true}}]
  budgetingMethod: Occurrences
  objectives: [{{target: 0.999}}]
  alertPolicies: [workbook-page, workbook-ticket]
"""


SERVICE = "apiVersion: openslo/v1\nkind: Service\nmetadata: {name: shop}\nspec: {}\n"


def folder_of_slos(place: Path, slos: int = SLOS) -> None:
    (place / "service.yaml").write_text(SERVICE)
    for number in range(slos):
        (place / f"{number:03}.yaml").write_text(documents(number))


def processor(work: Callable[[], object]) -> tuple[float, float]:
    """Seconds of the clock, and of this program's processor with its children's."""
    begin, used = time.monotonic(), _used()
    work()
    return time.monotonic() - begin, _used() - used


def _used() -> float:
    used = 0.0
    for who in (resource.RUSAGE_SELF, resource.RUSAGE_CHILDREN):
        told = resource.getrusage(who)
        used += told.ru_utime + told.ru_stime
    return used


def told(name: str, clock: float, used: float) -> None:
    print(f"{name}: {clock:.2f} s of the clock, {used:.2f} s of the processor", flush=True)


def feed(office: OfficeServer, now: int, slos: int = SLOS) -> None:
    client = office.client()
    with client.kept_link():
        for number in range(slos):
            rows = (f"sli-{number},web,{now - n},1,999,1000\n" for n in range(1, 301))
            client.ask("POST", ["samples"], body="".join(rows).encode())


def with_office(words: set[str]) -> None:
    now = int(time.time()) // 60
    with running_office(now - 50_000) as office, tempfile.TemporaryDirectory() as made:
        place = Path(made)
        folder_of_slos(place)
        clock, used = processor(
            lambda: run_tool("slo-apply", "--office", office.address, str(place))
        )
        if "apply" in words:
            told(f"slo-apply, {SLOS} files into an empty office", clock, used)
            clock, used = processor(
                lambda: run_tool("slo-apply", "--office", office.address, str(place))
            )
            told("slo-apply, the same again", clock, used)
        feed(office, now)
        if "gate" in words:
            clock, used = processor(
                lambda: run_tool("slo-gate", "--office", office.address, "slo-7")
            )
            told("slo-gate, one SLO", clock, used)
            clock, used = processor(
                lambda: run_tool("slo-gate", "--office", office.address, "--service", "shop")
            )
            told(f"slo-gate, a service of {SLOS} SLOs", clock, used)
        if "status" in words:
            clock, used = processor(lambda: run_tool("slo-status", "--office", office.address))
            told(f"slo-status, {SLOS} SLOs", clock, used)
        if "notify" in words:
            rounds_of([office], place, SLOS)


def rounds_of(offices: Sequence[OfficeServer], place: Path, slos: int) -> None:
    config = place / "notify.toml"
    listed = "".join(
        f'[[office]]\nname = "{number}"\naddress = "{office.address}"\n'
        for number, office in enumerate(offices)
    )
    config.write_text(
        f'state = "{place}/state.json"\noverview = "{place}/overview.json"\nclock = "trusted"\n'
        f"{listed}"
    )
    rounds = made_rounds(read_config(config), SystemClock())
    taken = [processor(rounds.round) for _ in range(6)]
    size = (place / "overview.json").stat().st_size
    clock = statistics.median(each[0] for each in taken)
    used = statistics.median(each[1] for each in taken)
    name = f"slo-notify, a round of {len(offices)} offices with {slos} SLOs each"
    told(f"{name}, an overview of {size} bytes", clock, used)


def fleet() -> None:
    """Many offices under one slo-notify."""
    now = int(time.time()) // 60
    with tempfile.TemporaryDirectory() as made, ExitStack() as ends:
        place = Path(made)
        folder_of_slos(place, EACH)
        offices = []
        for _ in range(OFFICES):
            office = ends.enter_context(running_office(now - 50_000))
            run_tool("slo-apply", "--office", office.address, str(place))
            feed(office, now, EACH)
            offices.append(office)
        rounds_of(offices, place, EACH)


def journal() -> None:
    with tempfile.TemporaryDirectory() as made:
        run = [program(), "init", "29000000"]
        subprocess.run(run, cwd=made, check=True, capture_output=True)
        text = "---\n".join(written(node) for node in read_yaml(SERVICE + documents(0)).documents)
        messages = [_message("/objects", text.encode())]
        for batch in range(300):
            first = 29_000_000 + batch * 1000
            rows = (f"sli-0,web,{first + n},1,99,100\n" for n in range(1000))
            messages.append(_message("/samples", "".join(rows).encode()))
        subprocess.run(
            [program(), "pipe"], cwd=made, check=True, capture_output=True, input=b"".join(messages)
        )
        file = Path(made) / "office.journal"
        clock, used = processor(lambda: run_tool("slo-journal", "--alone", "--summary", str(file)))
        told(f"slo-journal --alone, 300,000 rows in {file.stat().st_size} bytes", clock, used)


def _message(path: str, body: bytes) -> bytes:
    return f"POST {path} HTTP/1.1\r\nContent-Length: {len(body)}\r\n\r\n".encode() + body


def main(words: list[str]) -> None:
    wanted = set(words) or {"notify", "status", "gate", "apply", "journal", "fleet"}
    if wanted & {"notify", "status", "gate", "apply"}:
        with_office(wanted)
    if "journal" in wanted:
        journal()
    if "fleet" in wanted:
        fleet()


if __name__ == "__main__":
    main(sys.argv[1:])
