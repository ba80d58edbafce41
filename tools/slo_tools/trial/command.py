"""The command `slo-try`: what a folder's definitions would have told of an office's past."""

from __future__ import annotations

import argparse
import os
import sys
from pathlib import Path
from typing import Optional

from slo_tools.apply.telling import shown
from slo_tools.office import Pauses
from slo_tools.office_options import add_office_options, office_of
from slo_tools.past.entries import NotAPast, Past, past_of_journal, past_of_office
from slo_tools.past.scratch import ScratchFault
from slo_tools.refusals import OfficeError
from slo_tools.trial.incidents import BadIncidents
from slo_tools.trial.telling import json_of, lines_of
from slo_tools.trial.trying import CantTry, Terms, tried

SAME, DIFFERENT, FAULTY = 0, 1, 2
# An office has no more.
MOST_DAYS = 1_457


def parser() -> argparse.ArgumentParser:
    made = argparse.ArgumentParser(
        prog="slo-try",
        description="Try a folder of OpenSLO files over an office's past before it is applied.",
        epilog="Exit status: 0 it would have told the same, 1 something else, 2 it can't be tried.",
    )
    made.add_argument("folder", metavar="FOLDER", type=Path, help="its .yaml, .yml and .json files")
    made.add_argument(
        "--as-it-came",
        action="store_true",
        help="also tell the notices that would have been made then, with late rows and corrections",
    )
    made.add_argument("--prune", action="store_true", help="as if `slo-apply --prune` followed")
    made.add_argument(
        "--with-office",
        action="store_true",
        help="let the folder refer to objects that the office alone has",
    )
    made.add_argument("--json", action="store_true", help="print JSON in place of tables")
    add_past_options(made)
    add_office_options(made)
    return made


def add_past_options(made: argparse.ArgumentParser, incidents_wanted: bool = False) -> None:
    """Which past is tried over, by which program, and against which incidents."""
    made.add_argument(
        "--days",
        metavar="N",
        type=_days,
        default=30,
        help="how many days before the last entry are told of (default: 30)",
    )
    made.add_argument(
        "--incidents",
        metavar="FILE",
        type=Path,
        required=incidents_wanted,
        help="lines NAME,SLO or SERVICE or *,FROM,TO of what people know was wrong",
    )
    made.add_argument(
        "--slack",
        metavar="MINUTES",
        type=_minutes,
        default=60,
        help="how long behind an incident an alert may still begin for it (default: 60)",
    )
    made.add_argument(
        "--journal",
        metavar="FILE",
        type=Path,
        help="read the past from a journal in place of the office",
    )
    made.add_argument(
        "--program",
        metavar="SLO_OFFICE",
        default=os.environ.get("SLO_OFFICE_PROGRAM", "slo_office"),
        help="the office's program, which tells of the past (default: slo_office)",
    )


def _days(text: str) -> int:
    return _from(1, MOST_DAYS, text, "days")


def _minutes(text: str) -> int:
    return _from(0, 44_640, text, "minutes")


def _from(least: int, most: int, text: str, what: str) -> int:
    if not (text.isascii() and text.isdigit() and len(text) < 10 and least <= int(text) <= most):
        raise argparse.ArgumentTypeError(f"{text} is no number of {what} from {least} to {most}")
    return int(text)


def main(words: Optional[list[str]] = None) -> int:
    """Tries, prints, and returns the exit status."""
    made = parser()
    options = made.parse_args(words)
    if options.prune and options.with_office:
        made.error("--prune removes what --with-office would keep")
    try:
        return _run(options)
    except BrokenPipeError:
        os.dup2(os.open(os.devnull, os.O_WRONLY), sys.stdout.fileno())
    except (
        BadIncidents,
        CantTry,
        NotAPast,
        OSError,
        OfficeError,
        ScratchFault,
        ValueError,
    ) as fault:
        for line in str(fault).splitlines():
            print(f"slo-try: {shown(line)}", file=sys.stderr)
    except Exception as fault:
        # A traceback ends with the status that says that something else would have been told.
        why = shown(f"{type(fault).__name__}: {fault}")
        print(f"slo-try: a fault of this program, nothing is tried: {why}", file=sys.stderr)
    return FAULTY


def _run(options: argparse.Namespace) -> int:
    terms = Terms(
        program=options.program,
        folder=options.folder,
        days=options.days,
        prune=options.prune,
        with_office=options.with_office,
        as_it_came=options.as_it_came,
        incidents=options.incidents,
    )
    trial = tried(past_of(options), terms)
    for line in [json_of(trial, options.slack)] if options.json else lines_of(trial, options.slack):
        print(line)
    sys.stdout.flush()
    return SAME if trial.is_same else DIFFERENT


def past_of(options: argparse.Namespace) -> Past:
    """The past that the options name. Raises NotAPast, or OSError."""
    if options.journal is not None:
        return past_of_journal(options.journal)
    office = office_of(options, Pauses(tries=4, first=0.5, longest=4.0))
    with office.kept_link():
        return past_of_office(office)
