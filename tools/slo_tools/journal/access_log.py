"""Who asked for a change, by the log of the proxy in front of the office.

The log has a line a request, in nginx's form `combined`; the journal has an entry a change, with
its minute. A line stands for an entry where method and path are those of its change, the answer
was 200, and the times agree.
"""

from __future__ import annotations

import re
from collections import defaultdict
from collections.abc import Iterable
from dataclasses import dataclass
from datetime import datetime

from slo_tools.clock import minute_of
from slo_tools.journal.records import (
    Command,
    Define,
    Entry,
    Exclude,
    Lift,
    PutZone,
    Remove,
    Samples,
    Take,
    Upgrade,
)

LINE = re.compile(
    r'(?P<address>\S+) \S+ (?P<user>\S+) \[(?P<time>[^]]+)\] "(?P<method>[A-Z]+) '
    r'(?P<path>[^ ?"]+)[^"]*" (?P<status>\d{3}) '
)
TIME = "%d/%b/%Y:%H:%M:%S %z"
# A request is logged when its answer was sent, which may be some minutes after its moment.
LATE_MINUTES = 2


@dataclass(frozen=True)
class Asked:
    """A request that was answered with 200."""

    minute: int
    request: str
    who: str


def read_log(lines: Iterable[str]) -> list[Asked]:
    """The requests of a log that may have changed something. Other lines are passed over."""
    asked = []
    for line in lines:
        found = LINE.match(line)
        if found is None or found["status"] != "200" or found["method"] == "GET":
            continue
        try:
            moment = datetime.strptime(found["time"], TIME)
        except ValueError:
            continue
        user = found["user"]
        who = found["address"] if user == "-" else f"{user} at {found['address']}"
        asked.append(
            Asked(minute_of(moment.timestamp()), f"{found['method']} {found['path']}", who)
        )
    return asked


def request_of(command: Command) -> str:
    """Method and path of the request that makes a change."""
    if isinstance(command, Samples):
        return "POST /samples"
    if isinstance(command, Define):
        return "POST /objects"
    if isinstance(command, Remove):
        return f"DELETE /objects/{command.kind}/{command.name}"
    if isinstance(command, PutZone):
        return f"PUT /zones/{command.name}"
    if isinstance(command, Exclude):
        return f"PUT /exclusions/{command.id}"
    if isinstance(command, Lift):
        return f"DELETE /exclusions/{command.id}"
    if isinstance(command, Take):
        return f"POST /notices/{command.number}/take"
    if isinstance(command, Upgrade):
        return "POST /upgrade"
    return "POST /tick"


class Log:
    """The requests of a log, by what they asked and when."""

    def __init__(self, asked: Iterable[Asked]) -> None:
        self._who: dict[tuple[str, int], list[str]] = defaultdict(list)
        for each in asked:
            self._who[each.request, each.minute].append(each.who)

    def who(self, entry: Entry) -> list[str]:
        """All who may have asked for an entry; more than one where the log can't part them."""
        request = request_of(entry.command)
        found: list[str] = []
        for late in range(LATE_MINUTES + 1):
            found += self._who.get((request, entry.moment + late), [])
            if found:
                break
        return list(dict.fromkeys(found))
