"""The command `slo-feed`: sample rows from Prometheus and ClickHouse."""

from __future__ import annotations

import argparse
import errno
import logging
import os
import sys
from collections.abc import Callable, Sequence
from pathlib import Path
from typing import Optional

from slo_tools.clock import MINUTE, Clock, SystemClock, minute_of_date
from slo_tools.feed.config import Config, read_config
from slo_tools.feed.engine import Engine
from slo_tools.feed.making import engine_of
from slo_tools.feed.objects import DataSource
from slo_tools.feed.rounds import Feed, why_not_written
from slo_tools.feed.state import read_state
from slo_tools.feed.watch import LOG, Watch
from slo_tools.office import Office
from slo_tools.settings import ConfigFault

USAGE = 2


def main(words: Optional[Sequence[str]] = None) -> int:
    """Run the command; its exit status."""
    asked = _parser().parse_args(words)
    logging.basicConfig(stream=sys.stderr, format="slo-feed: %(message)s", level=logging.INFO)
    try:
        if asked.minute is not None:
            print(minute_of_date(asked.minute))
            return 0
        begin = minute_of_date(asked.begin) if asked.begin is not None else None
        config = read_config(Path(asked.config))
    except (ConfigFault, ValueError) as fault:
        print(f"slo-feed: {fault}", file=sys.stderr)
        return USAGE
    if asked.check:
        from slo_tools.feed.checking import check

        return check(config, office_of(config), engine_maker(config), SystemClock())
    return run(config, begin, asked.once, SystemClock())


def _parser() -> argparse.ArgumentParser:
    parser = argparse.ArgumentParser(
        prog="slo-feed",
        description="Send sample rows from Prometheus and ClickHouse to an error budget office.",
        epilog="Exit statuses: 0 done, 1 something was left out, 2 usage or configuration, "
        "3 the office, 4 an engine, 5 clocks differ, 6 the office is full, 7 the state file.",
    )
    parser.add_argument(
        "--config", default="/etc/slo-feed.toml", metavar="FILE", help="default: %(default)s"
    )
    mode = parser.add_mutually_exclusive_group()
    mode.add_argument("--once", action="store_true", help="one round, then end")
    mode.add_argument(
        "--from", dest="begin", metavar="DATE", help="send all minutes since DATE, then end"
    )
    mode.add_argument(
        "--check", action="store_true", help="say what would be fed, and whether all is reached"
    )
    mode.add_argument("--minute", metavar="DATE", help="print the minute of a date, for init")
    return parser


def office_of(config: Config) -> Office:
    """The office, which says when it is tried again."""
    login = config.office_login
    return Office(
        config.office,
        credentials=login.credentials,
        verify=login.verify,
        token=login.token,
        heard=lambda why, pause: LOG.info("the office: %s; again in %g s", why, pause),
    )


def engine_maker(config: Config) -> Callable[[DataSource], Engine]:
    """What makes the engine of a DataSource. Raises EngineError for details that don't do."""
    return lambda source: engine_of(source, config.engine(source.name))


def run(config: Config, begin: Optional[int], once: bool, clock: Clock) -> int:
    """One round, a back-fill, or rounds for ever."""
    why = place_fault(config.state)
    if why is not None:
        print(f"slo-feed: {config.state}: {why}", file=sys.stderr)
        return USAGE
    state, why = read_state(config.state)
    if why is not None:
        LOG.info("no state (%s): what the office holds is found out anew", why)
    watch = Watch()
    feed = Feed(config, office_of(config), engine_maker(config), state, clock, watch)
    if config.metrics_port is not None and not once and begin is None:
        watch.serve(config.metrics_port)
    if once or begin is not None:
        if begin is not None and state.origin is not None and begin < state.origin:
            state.origin = None
        end = feed.round(begin)
        _write_metrics(config, watch)
        return int(end)
    while True:
        feed.round()
        _write_metrics(config, watch)
        clock.sleep(seconds_to_next(clock.now(), feed.behind()))


def place_fault(state: Path) -> Optional[str]:
    """Why the state couldn't be kept, before anything is done; None where it can."""
    folder = state.parent
    if not folder.is_dir():
        return why_not_written(FileNotFoundError(errno.ENOENT, ""))
    if not os.access(folder, os.W_OK | os.X_OK):
        return why_not_written(PermissionError(errno.EACCES, os.strerror(errno.EACCES)))
    return None


def seconds_to_next(now: float, behind: float) -> float:
    """How long to wait for the moment `behind` seconds after the end of a minute."""
    return (behind - now) % MINUTE or float(MINUTE)


def _write_metrics(config: Config, watch: Watch) -> None:
    if config.metrics_file is not None:
        try:
            watch.write(config.metrics_file)
        except OSError as fault:
            LOG.warning("%s: %s", config.metrics_file, fault.strerror)
