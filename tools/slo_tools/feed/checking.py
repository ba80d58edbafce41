"""`slo-feed --check`: what would be fed, whether everything is reached, and how long the office lasts."""

from __future__ import annotations

from collections.abc import Callable
from dataclasses import dataclass, field

from slo_tools.clock import Clock, date_of, minute_of
from slo_tools.feed.config import Config
from slo_tools.feed.engine import Engine, EngineError, Indicator
from slo_tools.feed.objects import Catalog, DataSource, read_catalog
from slo_tools.feed.room import FIVE, rows_a_day, takes_five
from slo_tools.feed.rounds import CLOCKS_APART, End, unforeseen
from slo_tools.feed.state import read_state
from slo_tools.feed.ways import Ways, said, way_of
from slo_tools.office import Office
from slo_tools.refusals import OfficeError

# A metric of which nothing came for so long is taken for a mistyped one.
HOUR = 60


def check(
    config: Config, office: Office, engine_of: Callable[[DataSource], Engine], clock: Clock
) -> int:
    """Print a line for each DataSource and SLI; the exit status that a round would have."""
    try:
        catalog = read_catalog(office, config)
        print(f"office {config.office}: {catalog.entries} entries")
        state, _ = read_state(config.state)
        ways = Ways(office, config, catalog, state, print)
        checking = Checking(catalog, ways, engine_of, clock)
        checking.sources()
        checking.left_out(config)
        checking.room()
    except OfficeError as fault:
        print(f"office {config.office}: {fault}")
        return End.OFFICE
    return checking.end


@dataclass
class Checking:
    """A round of questions that sends nothing."""

    catalog: Catalog
    ways: Ways
    engine_of: Callable[[DataSource], Engine]
    clock: Clock
    end: End = field(default=End.DONE, init=False)
    # The SLIs with their ways, and how many sources the engine tells.
    _fed: list[tuple[Indicator, int]] = field(default_factory=list, init=False)

    def sources(self) -> None:
        for source in self.catalog.sources.values():
            indicators = [i for i in self.catalog.indicators if i.engine == source.name]
            if indicators:
                try:
                    self._source(source, indicators)
                except OfficeError:
                    raise
                except Exception as fault:
                    why = str(fault) if isinstance(fault, EngineError) else unforeseen(fault)
                    self._say(f"{source.name}: {why}", End.ENGINE)

    def left_out(self, config: Config) -> None:
        """What isn't fed, and why."""
        for sli, why in self.catalog.left_out.items():
            self._say(f"{sli}: not fed: {why}", End.LEFT_OUT)
        for name, why in self.catalog.odd.items():
            self._say(f"{name}: not fed: {why}", End.LEFT_OUT)
        known = {*self.catalog.left_out, *(i.sli for i in self.catalog.indicators)}
        for sli in config.indicators:
            if sli not in known and not config.indicator(sli).skip:
                self._say(f"{sli}: not fed: the office has no such SLI", End.LEFT_OUT)

    def room(self) -> None:
        """How many days an office lasts with these rows, and what to change."""
        pace = sum(rows_a_day(indicator, sources) for indicator, sources in self._fed)
        if not pace:
            return
        needs = self.ways.needs
        days = self.ways.cells / pace
        print(
            f"room: {pace:.0f} rows a day, so an empty office lasts {days:.0f} days; its longest "
            f"window and a month are {needs.days} days"
        )
        if days < needs.days:
            print(f"room: too little: {self._remedy(days)}")

    def _remedy(self, days: float) -> str:
        kinds = {source.name: source.type for source in self.catalog.sources.values()}
        summed = [i for i, _ in self._fed if i.label is None]
        by_five = [
            i
            for i, _ in self._fed
            if i.every < FIVE and takes_five(i, kinds[i.engine], self.ways.needs)
        ]
        steps = []
        if len(summed) < len(self._fed):
            steps.append('write sum = "all" in place of a label')
        if by_five:
            steps.append(f"write every = {FIVE}")
        if not self.ways.is_upgraded:
            steps.append("upgrade the office (POST /upgrade), which doubles its room")
        parts = int(self.ways.needs.days / days) + 1
        steps.append(f"make {parts} offices of it, each with a feed of its own")
        return "; or ".join(steps)

    def _source(self, source: DataSource, indicators: list[Indicator]) -> None:
        engine = self.engine_of(source)
        apart = engine.now() - self.clock.now()
        print(
            f"{source.name}: {source.type}, clock {apart:+.1f} s, minutes are asked for "
            f"{engine.settled():g} s behind their end"
        )
        if abs(apart) > CLOCKS_APART:
            self.end = max(self.end, End.CLOCK)
            return
        closed = minute_of(self.clock.now() - engine.settled()) - 1
        for indicator in self.ways.settled(source, engine, indicators, closed, None):
            self._indicator(indicator, engine, closed)
        for sli, why in self.ways.undecided.items():
            self._say(f"{sli}: {why}", End.LEFT_OUT)

    def _indicator(self, indicator: Indicator, engine: Engine, closed: int) -> None:
        newest = indicator.newest(closed)
        answer = engine.read({indicator: (newest - HOUR + 1, newest + 1)})
        if answer.fault is not None:
            raise EngineError(answer.fault)
        reading = answer.readings[indicator.sli]
        minutes = {cell.minute for cell in reading.amounts}
        at_end = sum(cell.minute == newest for cell in reading.amounts)
        sources = {cell.source for cell in reading.amounts}
        self._fed.append((indicator, len(sources)))
        print(
            f"{indicator.sli}: {indicator.form.value} of {indicator.engine}, "
            f"{said(way_of(indicator))}: {at_end} rows at {date_of(newest)}, "
            f"{len(minutes)} minutes with rows in an hour"
        )
        for fault in reading.faults.values():
            self._say(f"{indicator.sli}: {fault}", End.LEFT_OUT)
        for note in reading.notes:
            print(f"{indicator.sli}: {note}")
        if not reading.amounts and not reading.faults and not self._has_begun(indicator, engine):
            kind = self.catalog.sources[indicator.engine].type
            what = "series" if kind == "Prometheus" else "events"
            self._say(
                f"{indicator.sli}: no {what} in an hour: does its query name what is there?",
                End.LEFT_OUT,
            )

    def _has_begun(self, indicator: Indicator, engine: Engine) -> bool:
        """Whether something came in the minutes that aren't closed yet."""
        end = minute_of(self.clock.now()) + 1
        span = (end - HOUR, end)
        return bool(engine.read({indicator: span}).readings[indicator.sli].amounts)

    def _say(self, line: str, end: End) -> None:
        print(line)
        self.end = max(self.end, end)
