"""Whether two histories are one: the entries that the office and its copy both have."""

from __future__ import annotations

from collections.abc import Iterator
from typing import Optional

from slo_tools.follow.feeds import Feed, Fewer, Source


class Diverged(Exception):
    """The office has another history than the copy; the text says where."""


class Held:
    """Entries of the copy, one by one, from a position on."""

    def __init__(self, records: Iterator[bytes], at: int) -> None:
        self._records = records
        self._next: Optional[bytes] = None
        self.at = at

    def next(self) -> Optional[bytes]:
        """The next entry, which stays the next one until `passed`; none behind the last."""
        if self._next is None:
            self._next = next(self._records, None)
        return self._next

    def passed(self) -> None:
        self._next = None
        self.at += 1


def feed_at(source: Source, at: int, origin: int) -> Feed:
    """The feed from a position that the copy has, or is at. Raises Diverged, and NoFeed."""
    try:
        feed = source.feed(at)
    except Fewer:
        raise Diverged(f"the office has fewer than {at} entries, which the copy has") from None
    if feed.origin != origin:
        raise Diverged(f"other origin {feed.origin}, the copy has {origin}")
    return feed


def compare(feed: Feed, held: Held) -> bool:
    """Compare a feed with the entries of the copy from its position on, which are passed by; say
    whether none is left. Raises Diverged, also where the office ends before the copy."""
    for record in feed.records:
        mine = held.next()
        if mine is None:
            return True
        if mine != record:
            raise Diverged(f"diverges at {held.at}")
        held.passed()
    mine = held.next()
    if mine is None:
        return True
    if feed.has_room(mine):
        raise Diverged(f"the office has {held.at} entries, the copy has more")
    return False
