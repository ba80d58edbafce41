"""Feeds of an office's entries (docs/records.md), read from bytes and asked for."""

from __future__ import annotations

from collections.abc import Callable
from dataclasses import dataclass

from slo_tools.journal.file import MAX_RECORD_BYTES
from slo_tools.office import Office, Pauses
from slo_tools.questions import Answer
from slo_tools.refusals import OfficeError

MARK = b"OSLOFEED"
HEAD_BYTES = 20
LENGTH_BYTES = 4
# The most bytes of a feed of several entries.
MOST_FEED_BYTES = 1_048_576


class NoFeed(Exception):
    """No feed came; the text says why."""


class Fewer(Exception):
    """The office has fewer entries than those that were asked past."""


@dataclass(frozen=True)
class Feed:
    """Entries of an office from a position on, as records."""

    origin: int
    first: int
    records: list[bytes]
    content: bytes

    @property
    def end(self) -> int:
        """The position behind its last entry."""
        return self.first + len(self.records)

    def has_room(self, record: bytes) -> bool:
        """Whether it would have had this record too, if the office had it then."""
        size = len(self.content) + LENGTH_BYTES + len(record)
        return size <= MOST_FEED_BYTES or not self.records


def read_feed(content: bytes) -> Feed:
    """The feed of some bytes, which are one feed and no more. Raises NoFeed."""
    if content[: len(MARK)] != MARK or len(content) < HEAD_BYTES:
        raise NoFeed("the answer is no feed")
    origin, first, count = (int.from_bytes(content[at : at + 4], "big") for at in (8, 12, 16))
    records: list[bytes] = []
    place = HEAD_BYTES
    while len(records) < count:
        begin = place + LENGTH_BYTES
        length = int.from_bytes(content[place:begin], "big")
        if not 1 <= length <= MAX_RECORD_BYTES or begin + length > len(content):
            raise NoFeed(f"the feed is broken at {place}")
        records.append(content[begin : begin + length])
        place = begin + length
    if place != len(content):
        raise NoFeed(f"the feed goes on behind its {count} entries")
    return Feed(origin, first, records, content)


def asking(office: Office) -> Callable[[int], Answer]:
    """What asks an office for the feed from a position on. It asks twice, since a link that was kept
    may have been closed while the copy took a feed."""
    pauses = Pauses(tries=2, first=0.2)
    return lambda at: office.answer("GET", ["entries"], {"from": at}, pauses=pauses)


@dataclass(frozen=True)
class Source:
    """The office that is followed: what asks it for the feed from a position on. Where the line to
    it has no checksum of its own each feed is asked for twice, and taken as far as both are alike.
    """

    ask: Callable[[int], Answer]
    is_plain: bool = False

    def feed(self, at: int) -> Feed:
        """The feed from a position on. Raises NoFeed, or Fewer."""
        feed = self._answered(at)
        if not self.is_plain:
            return feed
        again = self._answered(at)
        shorter = min(feed, again, key=lambda it: len(it.records))
        count = len(shorter.records)
        if feed.origin != again.origin or feed.records[:count] != again.records[:count]:
            raise NoFeed("two feeds from one position differ")
        return shorter

    def _answered(self, at: int) -> Feed:
        try:
            answer = self.ask(at)
        except OfficeError as fault:
            raise NoFeed(str(fault)) from fault
        if answer.status == 422 and answer.word == "range":
            raise Fewer
        if answer.status != 200:
            raise NoFeed(f"status {answer.status} {answer.word}".rstrip())
        feed = read_feed(answer.content)
        if feed.first != at:
            raise NoFeed(f"a feed from {feed.first} where {at} was asked for")
        return feed
