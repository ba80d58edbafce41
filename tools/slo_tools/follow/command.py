"""The command `slo-follow`: a copy of an office, kept as the office's entries come."""

from __future__ import annotations

import argparse
import logging
import shutil
import signal
import sys
from collections.abc import Sequence
from pathlib import Path
from typing import Optional

from slo_tools.clock import Clock, SystemClock
from slo_tools.follow.comparing import Diverged
from slo_tools.follow.config import Config, read_config
from slo_tools.follow.copy_file import Damaged
from slo_tools.follow.feeds import NoFeed, Source, asking
from slo_tools.follow.rounds import LOG, Following
from slo_tools.follow.taking import CopyFault, NotTaken
from slo_tools.follow.watch import Watch
from slo_tools.office import Office
from slo_tools.settings import ConfigFault

DONE, USAGE, OFFICE, COPY, DAMAGED, DIVERGED = 0, 2, 3, 4, 5, 9
LONGEST_PAUSE = 300.0
TIMEOUT = 60.0


def main(words: Optional[Sequence[str]] = None) -> int:
    """Run the command; its exit status."""
    options = _parser().parse_args(words)
    # Ctrl-C ends it at once, as SIGTERM does: nothing is lost by a stop.
    signal.signal(signal.SIGINT, signal.SIG_DFL)
    logging.basicConfig(stream=sys.stderr, format="slo-follow: %(message)s", level=logging.INFO)
    try:
        config = read_config(Path(options.config))
        program = _program(config)
        office = _office(config)
        watch = Watch(None if options.once else config.metrics_port, config.metrics_file)
    except (ConfigFault, ValueError, OSError) as fault:
        print(f"slo-follow: {fault}", file=sys.stderr)
        return USAGE
    clock = SystemClock()
    source = Source(asking(office), config.is_plain)
    following = Following(source, program, config.folder, clock, config.compare_hours)
    return Run(config, office, following, watch, clock).run(options.once, options.whole)


def _parser() -> argparse.ArgumentParser:
    parser = argparse.ArgumentParser(
        prog="slo-follow",
        description="Keep a copy of an error budget office, as its entries come.",
        epilog="Exit statuses: 0 done, 2 usage or configuration, 3 no feed came, 4 the copy can't "
        "take entries now, 5 the copy is damaged, 9 the office has another history.",
    )
    parser.add_argument(
        "--config", default="/etc/slo-follow.toml", metavar="FILE", help="default: %(default)s"
    )
    parser.add_argument("--once", action="store_true", help="bring what there is, then end")
    parser.add_argument(
        "--whole", action="store_true", help="compare all entries now, also of a diverged copy"
    )
    return parser


def _program(config: Config) -> str:
    found = shutil.which(config.program)
    if found is None:
        raise ConfigFault(f"copy.program {config.program} isn't installed")
    return str(Path(found).resolve())


def _office(config: Config) -> Office:
    login = config.office_login
    return Office(
        config.office,
        timeout=TIMEOUT,
        credentials=login.credentials,
        token=login.token,
        verify=login.verify,
    )


class Run:
    """One run, or rounds for ever, and what is told of them."""

    def __init__(
        self, config: Config, office: Office, following: Following, watch: Watch, clock: Clock
    ) -> None:
        self.config, self.office, self.following = config, office, following
        self.watch, self.clock = watch, clock
        self._fault: Optional[str] = None
        self._is_whole = False
        following.after_comparison = self._seal

    def run(self, once: bool, whole: bool) -> int:
        """Follow the office; the exit status."""
        try:
            self.following.open()
            self._heed_divergence(whole)
            self._is_whole = whole
            return self._once() if once else self._for_ever()
        except Diverged as fault:
            return self._diverged(str(fault))
        except Damaged as fault:
            LOG.error(
                "%s: the copy is damaged. Keep the file, look at it with slo-journal, and begin "
                "a new copy (slo-follow(1))",
                fault,
            )
            return DAMAGED
        except NoFeed as fault:
            LOG.error("no feed (%s); %s", fault, self._had())
            return OFFICE
        except (CopyFault, NotTaken, OSError) as fault:
            LOG.error("%s", fault)
            return COPY

    def _heed_divergence(self, whole: bool) -> None:
        """A copy that diverged once isn't followed again: the last entries may be alike by now."""
        diverged = self.following.state.diverged
        if diverged is not None and not whole:
            raise Diverged(diverged)

    def _once(self) -> int:
        with self.office.kept_link():
            self._compare_whole()
            came = self.following.round()
            self.following.end()
            self.following.begin_comparison()
            while self.following.is_comparing:
                self.following.compare_some()
        self._remember(True)
        print(f"{came} entries came, {self.following.state.entries} are there")
        return DONE

    def _compare_whole(self) -> None:
        """Where it was asked for: before anything is taken, which a copy that diverged doesn't."""
        if not self._is_whole:
            return
        self.following.begin_comparison(True)
        while self.following.is_comparing:
            self.following.compare_some()
        self.following.state.diverged = None
        self._is_whole = False

    def _for_ever(self) -> int:
        LOG.info("the copy has %d entries", self.following.state.entries)
        self.following.start()
        every = pause = float(self.config.every)
        while True:
            due = self.clock.now() + pause
            try:
                with self.office.kept_link():
                    self._round(due)
                pause = every
            except NoFeed as fault:
                self._tell(f"no feed ({fault}); {self._had()}")
                pause = every
            except (CopyFault, OSError) as fault:
                self._tell(str(fault))
                pause = min(2 * pause, LONGEST_PAUSE)
            # Not longer where the clock was set back.
            self.clock.sleep(min(due - self.clock.now(), pause))

    def _round(self, due: float) -> None:
        self._compare_whole()
        came = self.following.round()
        if self._fault is not None:
            LOG.info("over: %d entries are there", self.following.state.entries)
            self._fault = None
        self._remember(came > 0)
        self.following.begin_comparison()
        while self.following.is_comparing and self.clock.now() < due:
            self.following.compare_some()
            if not self.following.is_comparing:
                self._remember(True)

    def _tell(self, text: str) -> None:
        """Write a fault once while it holds."""
        if self._fault is None or self._fault.partition(";")[0] != text.partition(";")[0]:
            LOG.warning("%s", text)
        self._fault = text

    def _remember(self, is_news: bool) -> None:
        try:
            self.following.remember(is_news)
        finally:
            self.watch.show(self.following.state)

    def _had(self) -> str:
        state = self.following.state
        if state.all_came is None:
            return f"the copy has {state.entries or 'no'} entries"
        age = max(0, int(self.clock.now() - state.all_came))
        return f"the copy has {state.entries} entries, all that there were {age} seconds ago"

    def _diverged(self, told: str) -> int:
        self.following.state.diverged = told
        try:
            self._remember(True)
        except OSError as fault:
            LOG.error("%s", fault)
        LOG.error(
            "%s: the office has another history than its copy, which stays as it is. Where the "
            "office is right (it was restored or renewed), begin a new copy: move %s away, and "
            "start slo-follow again. Where the copy is right, see slo-follow(1)",
            told,
            self.following.journal,
        )
        return DIVERGED

    def _seal(self, journal: Path) -> None:
        if self.config.seals is not None:
            from slo_tools.journal.sealing import SealFault, seal

            try:
                LOG.info("%s", seal(journal, self.config.seals))
            except SealFault as fault:
                raise Damaged(str(fault)) from fault
