"""The command `slo-gate`: may a release go ahead?"""

from __future__ import annotations

import argparse
import json
import sys
from collections.abc import Sequence
from fractions import Fraction
from typing import Any, Optional

from slo_tools.clock import Clock, SystemClock, date_of, minute_of
from slo_tools.gate.asking import Asker
from slo_tools.gate.judging import Judged, Reason, SloFacts, Terms, Verdict, judge_slo, worst
from slo_tools.office import Pauses
from slo_tools.office_options import add_office_options, office_of
from slo_tools.refusals import OfficeError
from slo_tools.spelling import percent, printable, spelled_fraction

# What passes is tried again; a pipeline waits some seconds for it, not for minutes.
PAUSES = Pauses(tries=4, first=0.5, longest=4.0)
SECONDS = 20.0

WORDS = {
    Verdict.RELEASE: "release",
    Verdict.HOLD: "hold",
    Verdict.UNKNOWN: "unknown",
}


class _HelpAlone(argparse.Action):
    """`--help` ends with 0 where it is the only word: in `slo-gate $WORDS && deploy` a word among
    others never lets a release through."""

    words = 0

    def __init__(self, option_strings: list[str], dest: str, **others: Any) -> None:
        super().__init__(option_strings, dest, nargs=0, help=others.get("help"))

    def __call__(self, parser: argparse.ArgumentParser, *others: Any) -> None:
        if self.words != 1:
            parser.error("--help stands alone")
        parser.print_help()
        parser.exit()


def parser(words: Sequence[str] = ()) -> argparse.ArgumentParser:
    made = argparse.ArgumentParser(
        prog="slo-gate",
        add_help=False,
        description="Ask an office whether a release may go ahead.",
        epilog="Exit status: 0 release, 1 hold, 2 it couldn't be told.",
    )
    helping = made.add_argument("-h", "--help", action=_HelpAlone, help="print this, and end")
    helping.words = len(words)  # type: ignore[attr-defined]
    made.add_argument("slo", nargs="*", metavar="SLO", help="the SLOs that are asked about")
    made.add_argument("--service", metavar="NAME", help="all SLOs of this service")
    made.add_argument(
        "--remaining",
        metavar="PART",
        type=_part,
        default=Fraction(0),
        help="the least part of each budget that has to be left, as 0.1 or 10%% (default: 0)",
    )
    made.add_argument(
        "--stale",
        metavar="MINUTES",
        type=_minutes,
        default=30,
        help="how many minutes back data has to lie (default: 30)",
    )
    made.add_argument(
        "--skew",
        metavar="MINUTES",
        type=_minutes,
        default=5,
        help="how far the office's clock may be from this machine's (default: 5)",
    )
    made.add_argument("--json", action="store_true", help="print JSON in place of a table")
    add_office_options(made)
    return made


def _part(text: str) -> Fraction:
    try:
        part = Fraction(text[:-1]) / 100 if text.endswith("%") else Fraction(text)
    except (ValueError, ZeroDivisionError):
        raise argparse.ArgumentTypeError(f"{text} is no part as 0.1 or 10%") from None
    if part < 0:
        raise argparse.ArgumentTypeError(f"{text} is less than nothing")
    if part > 1:
        raise argparse.ArgumentTypeError(f"{text} is more than a whole budget")
    return part


def _minutes(text: str) -> int:
    if not text.isdigit() or not 1 <= int(text) <= 43_200:
        raise argparse.ArgumentTypeError(f"{text} is no number of minutes from 1 to 43200")
    return int(text)


def main(words: Optional[list[str]] = None, clock: Clock = SystemClock()) -> int:
    """Judges, prints, and returns the exit status: 0 only where all was asked and let through."""
    words = sys.argv[1:] if words is None else words
    options = parser(words).parse_args(words)
    if not options.slo and options.service is None:
        parser().error("name an SLO, or a service by --service")
    try:
        status = _run(options, clock)
        sys.stdout.flush()
        return int(status)
    except (OfficeError, OSError, ValueError) as fault:
        print(f"slo-gate: {fault}", file=sys.stderr)
    except Exception as fault:
        # Whatever went wrong, it is no release.
        print(f"slo-gate: {type(fault).__name__}: {fault}", file=sys.stderr)
    return int(Verdict.UNKNOWN)


def _run(options: argparse.Namespace, clock: Clock) -> Verdict:
    office = office_of(options, PAUSES, timeout=SECONDS)
    asker = Asker(office, options.stale)
    with office.kept_link():
        names = list(dict.fromkeys(options.slo))
        if options.service is not None:
            of_service = asker.slos_of_service(options.service)
            if not of_service:
                raise ValueError(f"the service {options.service} has no SLO")
            names = list(dict.fromkeys([*names, *of_service]))
        facts = asker.facts(names)
    terms = Terms(options.remaining, options.stale)
    judged = [line for slo in facts for line in judge_slo(slo, terms)]
    judged += _skewed(facts, options.skew, minute_of(clock.now()))
    verdict = worst(line.verdict for line in judged)
    if options.json:
        _print_json(verdict, facts, judged, minute_of(clock.now()))
    else:
        _print_table(verdict, judged)
    return verdict


def _skewed(facts: list[SloFacts], most: int, now: int) -> list[Judged]:
    return [
        Judged(slo.slo, None, [Reason(Verdict.UNKNOWN, _skew_text(slo.at, now))])
        for slo in facts
        if slo.at and abs(slo.at - now) > most
    ]


def _skew_text(at: int, now: int) -> str:
    return f"the office's moment is {date_of(at)}, and it is {date_of(now)} here"


def _print_table(verdict: Verdict, judged: list[Judged]) -> None:
    rows = [("VERDICT", "SLO", "OBJECTIVE", "TARGET", "LEFT", "WHY")]
    rows += [_row(line) for line in judged]
    widths = [max(len(row[column]) for row in rows) for column in range(5)]
    for row in rows:
        cells = [text.ljust(width) for text, width in zip(row, widths)]
        print("  ".join([*cells, row[5]]))
    print(WORDS[verdict])


def _row(line: Judged) -> tuple[str, str, str, str, str, str]:
    why = printable("; ".join(reason.why for reason in line.reasons)) or "-"
    facts = line.objective
    if facts is None:
        return WORDS[line.verdict], line.slo, "-", "-", "-", why
    number = str(facts.number)
    name = number if facts.display == number else f"{number} {facts.display}"
    left = "-" if facts.remaining is None else percent(facts.remaining)
    return WORDS[line.verdict], line.slo, printable(name), printable(facts.target), left, why


def _print_json(verdict: Verdict, facts: list[SloFacts], judged: list[Judged], now: int) -> None:
    told = {
        "asked": date_of(now),
        "lines": [_line(line) for line in judged],
        "moments": {slo.slo: slo.at for slo in facts if slo.at},
        "status": int(verdict),
        "verdict": WORDS[verdict],
    }
    print(json.dumps(told, indent=2, sort_keys=True))


def _line(line: Judged) -> dict[str, Any]:
    told: dict[str, Any] = {
        "reasons": [{"verdict": WORDS[r.verdict], "why": r.why} for r in line.reasons],
        "slo": line.slo,
        "verdict": WORDS[line.verdict],
    }
    facts = line.objective
    if facts is not None:
        told["objective"] = facts.number
        told["name"] = facts.display
        told["target"] = facts.target
        told["from"] = facts.begin
        told["den"] = facts.counted
        told["remaining"] = spelled_fraction(facts.remaining)
        told["pages"] = {page.policy: page.state for page in facts.pages}
    return told
