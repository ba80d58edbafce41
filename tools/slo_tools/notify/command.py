"""The command `slo-notify`: alerts of offices, passed on each minute."""

from __future__ import annotations

import argparse
import sys
from pathlib import Path
from typing import Optional

from slo_tools.clock import Clock, SystemClock
from slo_tools.notify.clock_trust import ClockTrust
from slo_tools.notify.config import Config, read_config
from slo_tools.notify.metrics import Metrics
from slo_tools.notify.receiver import NotTaken, Receiver, receiver_of
from slo_tools.notify.rounds import MOST_UNTRUSTED, Rounds
from slo_tools.notify.state import BadState, read_state
from slo_tools.settings import ConfigFault

WELL, UNWELL, FAILED, MUTE = 0, 1, 2, 3


def parser() -> argparse.ArgumentParser:
    made = argparse.ArgumentParser(
        prog="slo-notify",
        description="Tick offices each minute, and pass their alerts on.",
        epilog="Exit status: with --once 0 all went well, 1 not all did; with --check 1 nothing"
        " would be paged; 2 it couldn't begin; 3 it could tick nothing for ten rounds.",
    )
    made.add_argument("config", metavar="CONFIG", type=Path, help="the configuration, in TOML")
    made.add_argument("--once", action="store_true", help="make one round and end")
    made.add_argument(
        "--check", action="store_true", help="read the configuration, look at the clock, and end"
    )
    return made


def main(words: Optional[list[str]] = None, clock: Clock = SystemClock()) -> int:
    options = parser().parse_args(words)
    try:
        config = read_config(options.config)
        if options.check:
            return check(config, clock)
        rounds = made_rounds(config, clock)
    except (ConfigFault, BadState, OSError, ValueError) as fault:
        print(f"slo-notify: {fault}", file=sys.stderr)
        return FAILED
    if options.once:
        return WELL if rounds.round() else UNWELL
    return run(rounds, clock)


def run(rounds: Rounds, clock: Clock) -> int:
    """Rounds, until the clock wasn't to be trusted for so many that somebody has to look."""
    config = rounds.config
    while True:
        rounds.round(config.timeout)
        if rounds.cannot_tick:
            why = f"nothing could be ticked or paged for {MOST_UNTRUSTED} rounds: see the clock"
            print(f"slo-notify: {why}", file=sys.stderr)
            return MUTE
        clock.sleep(pause(clock.now(), config.every, config.second))


def check(config: Config, clock: Clock) -> int:
    """Whether anything would be ticked and paged, as far as it can be told beforehand."""
    receiver = _receiver(config)
    trust = ClockTrust(config.clock, now=clock.now)
    silence = ""
    if config.clock != "trusted" and receiver.kind != "none":
        try:
            trust.heard(receiver.date())
        except NotTaken as refusal:
            silence = f" ({refusal})"
    fault = trust.fault()
    if fault is None:
        return WELL
    print(f"slo-notify: {fault}{silence}", file=sys.stderr)
    return UNWELL


def made_rounds(config: Config, clock: Clock) -> Rounds:
    """Everything that the rounds need. Raises OSError where the metrics' port is taken."""
    metrics = Metrics()
    if config.metrics is not None:
        metrics.serve(*config.metrics)
    trust = ClockTrust(config.clock, now=clock.now)
    return Rounds(config, clock, trust, _receiver(config), read_state(config.state), metrics)


def _receiver(config: Config) -> Receiver:
    return receiver_of(config.receiver, config.timeout, config.lifetime)


def pause(now: float, every: int, second: int) -> float:
    """The seconds to the next round, which begins at that second of a minute, behind the rows."""
    return every - (now - second) % every
