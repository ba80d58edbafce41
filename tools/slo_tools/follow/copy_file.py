"""The journal of the copy, read beside the program that has it open (docs/journal.md).

Whoever reads an open gate reads a whole record behind it, so the file tells by itself how many
entries have come. It is never written here.
"""

from __future__ import annotations

import os
from collections import deque
from collections.abc import Iterator
from pathlib import Path

from slo_tools.follow.feeds import LENGTH_BYTES
from slo_tools.journal.file import FIRST_GATE, HEADER_BYTES, MAX_RECORD_BYTES, header_faults

# Each asking begins at least one entry and at most so many bytes before the copy's end: what both
# have there is compared.
OVERLAP_BYTES = 16_384
_BLOCK_BYTES = 1_048_576
_GATE_AND_LENGTH = 5


class Damaged(Exception):
    """The copy's file is no whole journal; the text says where."""


class CopyFile:
    """How many entries the copy has, and the last of them. Raises Damaged, and OSError."""

    def __init__(self, path: Path) -> None:
        self.path = path
        self._file = os.open(path, os.O_RDONLY | os.O_CLOEXEC)
        try:
            header = os.pread(self._file, HEADER_BYTES, 0)
            for fault in header_faults(header):
                raise Damaged(f"{path}: {fault}")
            self.origin = int.from_bytes(header[9:13], "big")
            self.entries = 0
            self._tail = FIRST_GATE
            self._last: deque[bytes] = deque()
            self._last_bytes = 0
            self.advance()
        except BaseException:
            self.close()
            raise

    def close(self) -> None:
        os.close(self._file)

    def is_replaced(self) -> bool:
        """Whether the name stands for another file by now, or for none."""
        try:
            named, opened = os.stat(self.path), os.fstat(self._file)
        except FileNotFoundError:
            return True
        return (named.st_dev, named.st_ino) != (opened.st_dev, opened.st_ino)

    def advance(self) -> None:
        """Read what came since."""
        for record in self._records_from(self._tail):
            self._tail += _GATE_AND_LENGTH + len(record)
            self.entries += 1
            self._last.append(record)
            self._last_bytes += LENGTH_BYTES + len(record)
            while self._last_bytes > OVERLAP_BYTES and len(self._last) > 1:
                self._last_bytes -= LENGTH_BYTES + len(self._last.popleft())

    def sync(self) -> None:
        """Return once what was read is on the disk."""
        os.fdatasync(self._file)

    def last_records(self) -> list[bytes]:
        """The last entries, as far as an asking overlaps; they end at the copy's end."""
        return list(self._last)

    def records(self) -> Iterator[bytes]:
        """All entries that are there by now, from the first one on."""
        return self._records_from(FIRST_GATE)

    def _records_from(self, place: int) -> Iterator[bytes]:
        block, begin = b"", place
        while True:
            at = place - begin
            if at + _GATE_AND_LENGTH > len(block):
                block, begin, at = os.pread(self._file, _BLOCK_BYTES, place), place, 0
            if not block:
                raise Damaged(f"{self.path}: damaged at {place}, where the file ends")
            if block[at] == 0:
                return
            length = int.from_bytes(block[at + 1 : at + _GATE_AND_LENGTH], "big")
            size = _GATE_AND_LENGTH + length
            if at + size > len(block) and length <= MAX_RECORD_BYTES:
                block, begin, at = os.pread(self._file, _BLOCK_BYTES + size, place), place, 0
            if not 1 <= length <= MAX_RECORD_BYTES or at + size > len(block):
                raise Damaged(f"{self.path}: damaged at {place}, no whole record")
            yield block[at + _GATE_AND_LENGTH : at + size]
            place += size
