"""How much a text of a folder may be, found out before it is read as nodes.

A library composes nodes by recursion, and all of a document before anybody can count: what nests
too deeply, or has more than an office holds, is refused by its events, one after the other.
"""

from __future__ import annotations

from typing import Any, Optional

import yaml

from slo_tools.nodes import Fault, Place
from slo_tools.yaml_reading import LOADER, MAX_NODES, Reading, pieces

# An office holds 2,000 objects, so no folder has more documents.
MOST_DOCUMENTS = 2_000
# An office's objects have at most this many bytes.
MOST_BYTES = 16_777_216
# What nests above 32 is a fault of its document, what nests above this one of its file.
MOST_OPEN = 200


class Bounds:
    """What is left for the files of a folder that are still to be read."""

    def __init__(self) -> None:
        self.bytes = MOST_BYTES
        self.documents = MOST_DOCUMENTS
        # As many as one text may have: 2,000 objects have some 100,000.
        self.nodes = MAX_NODES

    def fault_of_size(self, content: bytes) -> Optional[Fault]:
        """Counts the bytes of a file."""
        self.bytes -= len(content)
        if self.bytes >= 0:
            return None
        return Fault(Place(1, 1), "limit", why=f"a folder has at most {MOST_BYTES:,} bytes")

    def fault_of_reading(self, reading: Reading) -> Optional[Fault]:
        """Counts what was read with as many nodes as are left."""
        self.nodes = reading.left
        self.documents -= len(reading.documents)
        return self._passed(Place(1, 1), 0, self.nodes)

    def fault(self, text: str) -> Optional[Fault]:
        """Where a text of YAML passes a bound, found out before its nodes are made and counted."""
        before = self.documents
        try:
            return self._scan(text, 0)
        except yaml.YAMLError:
            # Behind a fault each document is read by itself.
            self.documents = before
        line = 0
        for piece in pieces(text):
            try:
                fault = self._scan(piece, line)
            except yaml.YAMLError:
                self.documents -= 1
                fault = self._passed(Place(line + 1, 1), 0, self.nodes)
            if fault is not None:
                return fault
            line += piece.count("\n")
        return None

    def _scan(self, text: str, line: int) -> Optional[Fault]:
        loader: Any = LOADER(text)
        try:
            depth, left = 0, self.nodes
            while loader.check_event():
                event = loader.get_event()
                left -= isinstance(event, yaml.NodeEvent)
                if isinstance(event, yaml.CollectionStartEvent):
                    depth += 1
                elif isinstance(event, yaml.CollectionEndEvent):
                    depth -= 1
                elif isinstance(event, yaml.DocumentStartEvent):
                    self.documents -= not _is_empty(loader.peek_event())
                mark = event.start_mark
                fault = self._passed(Place(line + mark.line + 1, mark.column + 1), depth, left)
                if fault is not None:
                    return fault
            return None
        finally:
            loader.dispose()

    def _passed(self, place: Place, depth: int, left: int) -> Optional[Fault]:
        if depth > MOST_OPEN:
            return Fault(place, "too_deep", why=f"maps and lists are nested above {MOST_OPEN} deep")
        if self.documents < 0:
            return Fault(place, "limit", why=f"a folder has at most {MOST_DOCUMENTS:,} documents")
        if left < 0:
            return Fault(place, "limit", why=f"a folder has at most {MAX_NODES:,} nodes")
        return None


def _is_empty(event: Any) -> bool:
    """Whether a document has no content, as the one behind a last `---`."""
    return isinstance(event, yaml.ScalarEvent) and event.value == "" and not event.style
