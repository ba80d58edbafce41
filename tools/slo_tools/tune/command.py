"""The command `slo-tune`: the alert that would have told best of known incidents."""

from __future__ import annotations

import argparse
import os
import sys
from collections.abc import Iterator, Sequence
from dataclasses import dataclass
from fractions import Fraction
from pathlib import Path
from typing import Optional

from slo_tools.apply.telling import shown
from slo_tools.clock import DAY, minute_of_date
from slo_tools.journal.records import Kind
from slo_tools.objects import Slo
from slo_tools.office_options import add_office_options
from slo_tools.past.entries import NotAPast, Past
from slo_tools.past.scratch import Scratch, ScratchFault
from slo_tools.refusals import OfficeError
from slo_tools.spelling import minutes_of_duration
from slo_tools.trial.catalogue import catalogue_of
from slo_tools.trial.command import add_past_options, past_of
from slo_tools.trial.hindsight import Alert, told_by
from slo_tools.trial.incidents import BadIncidents, Incident, Quality, quality_of, read_incidents
from slo_tools.trial.telling import table
from slo_tools.trial.trying import CantTry
from slo_tools.tune.candidates import Candidate, alerts_of
from slo_tools.tune.choosing import best_first, errors_of, kept_target, within

DONE, FAULTY = 0, 2
PARTS = (Fraction(1), Fraction(99, 100), Fraction(9, 10), Fraction(1, 2))


def parser() -> argparse.ArgumentParser:
    made = argparse.ArgumentParser(
        prog="slo-tune",
        description="Tell which alert would have told best of known incidents of an SLO.",
        epilog="Exit status: 0 it was told, 2 it couldn't be told.",
    )
    made.add_argument("slo", metavar="SLO", help="the SLO whose alert is looked for")
    made.add_argument("--objective", metavar="N", type=int, default=0, help="(default: 0)")
    made.add_argument(
        "--until",
        metavar="DATE",
        type=_minute,
        help="choose on the days before a date, and judge on those behind it",
    )
    made.add_argument("--top", metavar="N", type=int, default=8, help="how many are told of")
    made.add_argument(
        "--policy", action="store_true", help="print the best one alone, as an OpenSLO document"
    )
    add_past_options(made, incidents_wanted=True)
    add_office_options(made)
    return made


def _minute(text: str) -> int:
    try:
        return minute_of_date(text)
    except ValueError as fault:
        raise argparse.ArgumentTypeError(str(fault)) from fault


@dataclass(frozen=True)
class Tuned:
    """What a past says of the alerts of an SLO: those of its own policies and of the candidates, and
    the errors of its window up to each hour."""

    slo: Slo
    begin: int
    until: int
    end: int
    own: dict[str, list[Alert]]
    candidates: dict[Candidate, list[Alert]]
    incidents: list[Incident]
    errors: list[Fraction]

    def chosen_on(self) -> list[Incident]:
        return [it for it in self.incidents if self.begin <= it.begin < self.until]

    def judged_on(self) -> list[Incident]:
        return [it for it in self.incidents if self.until <= it.begin < self.end]


def main(words: Optional[list[str]] = None) -> int:
    """Tunes, prints, and returns the exit status."""
    options = parser().parse_args(words)
    try:
        for line in _lines(_tuned(past_of(options), options), options):
            print(line)
        sys.stdout.flush()
        return DONE
    except BrokenPipeError:
        os.dup2(os.open(os.devnull, os.O_WRONLY), sys.stdout.fileno())
    except (
        BadIncidents,
        CantTry,
        NotAPast,
        OSError,
        OfficeError,
        ScratchFault,
        ValueError,
    ) as fault:
        for line in str(fault).splitlines():
            print(f"slo-tune: {shown(line)}", file=sys.stderr)
    return FAULTY


def _tuned(past: Past, options: argparse.Namespace) -> Tuned:
    end = past.moment
    begin = max(past.origin, end - options.days * DAY)
    until = end if options.until is None else options.until
    with Scratch(options.program, past=past.without(Kind.TICK, Kind.TAKING)) as scratch:
        catalogue = catalogue_of(scratch, {})
        slo = next((each for each in catalogue.slos if each.name == options.slo), None)
        if slo is None:
            raise CantTry(f"there is no SLO {options.slo}")
        if not 0 <= options.objective < len(slo.objectives):
            raise CantTry(f"{slo.name} has {len(slo.objectives)} objectives, counted from 0")
        incidents = _incidents(options.incidents, catalogue.slos, slo)
        own: dict[str, list[Alert]] = {policy: [] for policy in slo.policies}
        for alert in told_by(scratch, catalogue.of_slo(slo.name), begin, end).alerts:
            if alert.watched.objective == options.objective:
                own[alert.watched.policy].append(alert)
        window = minutes_of_duration(str(slo.window.get("duration"))) or DAY
        errors = errors_of(scratch, slo.name, options.objective, past.origin, end, window)
        candidates = alerts_of(scratch, catalogue, slo, options.objective, begin, end)
    tuned = Tuned(slo, begin, until, end, own, candidates, incidents, errors)
    _check(tuned, options)
    return tuned


def _incidents(file: Path, slos: Sequence[Slo], slo: Slo) -> list[Incident]:
    found = read_incidents(file, slos)
    return [it for it in found if it.about in (slo.name, slo.service, "*")]


def _check(tuned: Tuned, options: argparse.Namespace) -> None:
    """Raises CantTry where there is nothing to choose on, or to judge on."""
    name = tuned.slo.name
    if not tuned.chosen_on():
        raise CantTry(f"no incident of {name} began in the days that are chosen on")
    if options.until is not None and not tuned.judged_on():
        raise CantTry(f"no incident of {name} began in the days that are judged on")


def _lines(tuned: Tuned, options: argparse.Namespace) -> Iterator[str]:
    before = {it: within(a, tuned.begin, tuned.until) for it, a in tuned.candidates.items()}
    best = best_first(before, tuned.chosen_on(), options.slack)
    if options.policy:
        # A name has at most 63 characters.
        yield best[0].document(f"{tuned.slo.name[:57]}-tuned").rstrip("\n")
        return
    best = best[: max(1, options.top)]
    yield from _table(tuned, best, options.slack, tuned.begin, tuned.until, tuned.chosen_on())
    if options.until is not None:
        yield ""
        yield "The same on the days behind, on which nothing was chosen"
        yield from _table(tuned, best, options.slack, tuned.until, tuned.end, tuned.judged_on())
    else:
        yield "note: chosen and judged on the same days, which is no proof; --until parts them"
    yield ""
    yield from _targets(tuned)


def _table(
    tuned: Tuned,
    best: Sequence[Candidate],
    slack: int,
    begin: int,
    end: int,
    incidents: Sequence[Incident],
) -> Iterator[str]:
    rows = [("POLICY", "FALSE", *(shown(it.name) for it in incidents))]
    named = [*tuned.own.items(), *((str(it), tuned.candidates[it]) for it in best)]
    for name, alerts in named:
        quality = quality_of(within(alerts, begin, end), incidents, slack)
        rows.append((name, *_cells(quality)))
    yield from table(rows)


def _cells(quality: Quality) -> Iterator[str]:
    yield str(quality.alerts - quality.true_alerts)
    for each in quality.detections:
        yield "-" if each.detected is None else f"{each.detected}m"


def _targets(tuned: Tuned) -> Iterator[str]:
    window = tuned.slo.window.get("duration")
    if not tuned.errors:
        yield f"no whole window of {window} has rows: no target can be told"
    for part in PARTS if tuned.errors else ():
        # Rounded down, since a greater one was kept less often.
        millionths = int(kept_target(tuned.errors, part) * 1_000_000)
        hours = f"{float(part * 100):g}% of the hours"
        target = f"{millionths // 1_000_000}.{millionths % 1_000_000:06}"
        yield f"a target of {target} would have been met over {window} at {hours}"
