"""The command `slo-status`: how does everything stand?"""

from __future__ import annotations

import argparse
import os
import shutil
import sys
from typing import Optional

from slo_tools.clock import Clock, SystemClock, date_of, minute_of
from slo_tools.freshness import LONGEST
from slo_tools.office import Pauses
from slo_tools.office_options import add_office_options, office_of
from slo_tools.refusals import OfficeError
from slo_tools.spelling import printable
from slo_tools.status.asking import Asker, Standing
from slo_tools.status.standing import Status, status_of
from slo_tools.status.table import Paper, table_of

PAUSES = Pauses(tries=2, first=0.5)
SECONDS = 10.0
# An office whose moment is further from this machine's clock isn't believed.
MOST_SKEW = 5
CLEAR = "\033[H\033[2J"


def parser() -> argparse.ArgumentParser:
    made = argparse.ArgumentParser(
        prog="slo-status",
        description="Show how all objectives of an office stand, worst first.",
        epilog="Exit status: 0 all are quiet, 1 an alert breaches or a budget is spent, "
        "2 it couldn't be told of all of them.",
    )
    made.add_argument("--service", metavar="NAME", help="only the SLOs of this service")
    made.add_argument(
        "--stale",
        metavar="MINUTES",
        type=_minutes,
        default=10,
        help="how old the newest data may be, where no annotation says it (default: 10)",
    )
    made.add_argument(
        "--watch",
        metavar="SECONDS",
        nargs="?",
        type=_seconds,
        const=10,
        help="show it again each 10 seconds, or as many as are given, until Ctrl-C",
    )
    add_office_options(made)
    return made


def _minutes(text: str) -> int:
    return _number(text, LONGEST, "minutes")


def _seconds(text: str) -> int:
    return _number(text, 3600, "seconds")


def _number(text: str, most: int, what: str) -> int:
    if not (text.isascii() and text.isdigit() and len(text) < 9 and 1 <= int(text) <= most):
        raise argparse.ArgumentTypeError(f"{text} is no number of {what} from 1 to {most}")
    return int(text)


def main(words: Optional[list[str]] = None, clock: Clock = SystemClock()) -> int:
    """Asks, prints, and returns the exit status: where it is watched, that of the last table."""
    options = parser().parse_args(words)
    status = Status.UNKNOWN
    try:
        asker = Asker(office_of(options, PAUSES, timeout=SECONDS), options.stale)
        status = _shown(asker, options, clock)
        while options.watch is not None:
            clock.sleep(options.watch)
            status = _shown(asker, options, clock)
    except KeyboardInterrupt:
        pass
    except BrokenPipeError:
        # Whoever read it has seen enough, as `head` does.
        os.dup2(os.open(os.devnull, os.O_WRONLY), sys.stdout.fileno())
        return int(Status.UNKNOWN)
    except (OSError, ValueError) as fault:
        print(f"slo-status: {fault}", file=sys.stderr)
        return int(Status.UNKNOWN)
    return int(status)


def _shown(asker: Asker, options: argparse.Namespace, clock: Clock) -> Status:
    """Shows how all stands, or why that can't be told: nothing older is left on the screen."""
    try:
        standing = asker.standing(options.service)
    except (OfficeError, ValueError) as fault:
        return _unknown(str(fault), options)
    except Exception as fault:
        # An answer of another form than any that is known.
        return _unknown(f"{type(fault).__name__}: {fault}", options)
    _cleared(options)
    faults = [printable(fault) for fault in standing.faults]
    skew = _skew(standing, minute_of(clock.now()))
    lines = list(table_of(standing, _paper()))
    print("\n".join(_fitting(lines, options, len(faults) + 1)), flush=True)
    for why in [*faults, *skew]:
        print(f"slo-status: {why}", file=sys.stderr, flush=True)
    status = status_of(standing.lines)
    is_unknown = status is Status.QUIET and (skew or standing.unread)
    return Status.UNKNOWN if is_unknown else status


def _unknown(why: str, options: argparse.Namespace) -> Status:
    _cleared(options)
    print(f"slo-status: {printable(why)}", file=sys.stderr, flush=True)
    return Status.UNKNOWN


def _skew(standing: Standing, now: int) -> list[str]:
    if abs(standing.at - now) <= MOST_SKEW:
        return []
    return [f"the office's moment is {date_of(standing.at)}, and it is {date_of(now)} here"]


def _cleared(options: argparse.Namespace) -> None:
    if options.watch is not None and sys.stdout.isatty():
        print(CLEAR, end="", flush=True)


def _fitting(lines: list[str], options: argparse.Namespace, others: int) -> list[str]:
    """The lines that a watched screen has room for: what is worst stands first, and stays."""
    if options.watch is None or not sys.stdout.isatty():
        return lines
    room = max(3, shutil.get_terminal_size().lines - others)
    if len(lines) <= room:
        return lines
    return [*lines[: room - 1], f"and {len(lines) - room + 1} more"]


def _paper() -> Paper:
    is_terminal = sys.stdout.isatty()
    width = shutil.get_terminal_size().columns if is_terminal else None
    is_coloured = (
        is_terminal and not os.environ.get("NO_COLOR") and os.environ.get("TERM") != "dumb"
    )
    return Paper(width, is_coloured, not _has_blocks())


def _has_blocks() -> bool:
    """Whether the output's letters have the blocks of a bar."""
    try:
        Paper().blocks.encode(sys.stdout.encoding or "ascii")
    except (UnicodeEncodeError, LookupError):
        return False
    return True
