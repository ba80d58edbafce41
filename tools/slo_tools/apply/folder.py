"""A folder of OpenSLO files: its documents, its zones, and what can't be read of them."""

from __future__ import annotations

import os
import re
from collections.abc import Iterable, Iterator
from dataclasses import dataclass, field
from pathlib import Path
from typing import NamedTuple, NoReturn, Optional

from slo_tools.apply.bounds import Bounds
from slo_tools.apply.profile import unwritable, with_plain_numbers, written
from slo_tools.json_reading import read_json
from slo_tools.nodes import Fault, Node, Place, Scalar
from slo_tools.openslo import KINDS_BY_REFERENCE, Found, objects_in
from slo_tools.yaml_reading import Reading, read_yaml

ZONES = "zones"
SUFFIXES = (".yaml", ".yml", ".json")
TZIF = b"TZif"
# More than an office takes as a zone.
MOST_ZONE_BYTES = 65_537
# What an office takes as one text, less a marker in front.
MOST_DOCUMENT_BYTES = 1_048_570
NAMED = re.compile(r"""\bname["']?\s*:\s*["']?([a-z0-9-]+)""")


class Told(NamedTuple):
    """A fault of a file of the folder."""

    file: str
    fault: Fault


@dataclass(frozen=True)
class Document:
    """A document of a file: its node, its text in the office's profile, its objects."""

    file: str
    node: Node
    text: str
    objects: tuple[Found, ...]

    @property
    def rank(self) -> int:
        """Its place in the order in which objects may refer to those before them."""
        kind = self.objects[-1].kind if self.objects else ""
        known = kind in KINDS_BY_REFERENCE
        return KINDS_BY_REFERENCE.index(kind) if known else len(KINDS_BY_REFERENCE)


@dataclass(frozen=True)
class Zone:
    """A time zone of the folder: a zone file, or a rule as `CET-1CEST,M3.5.0,M10.5.0/3`."""

    file: str
    name: str
    content: bytes


@dataclass
class Folder:
    """What a folder has."""

    documents: list[Document] = field(default_factory=list)
    zones: list[Zone] = field(default_factory=list)
    faults: list[Told] = field(default_factory=list)
    # Files that a link of the folder leads to, and that aren't the folder's own: what they say is
    # told to nobody.
    foreign: set[str] = field(default_factory=set)
    # Names that stand in files that couldn't be read whole: what refers to them isn't at fault.
    unread: set[str] = field(default_factory=set)

    def let_out(self, faults: Iterable[Told]) -> list[Told]:
        """Faults as they may be told: of what isn't the folder's own the place and the rule."""
        return [
            Told(file, Fault(fault.place, fault.rule) if file in self.foreign else fault)
            for file, fault in faults
        ]

    def in_order(self) -> list[Document]:
        """The documents, each behind those that it may refer to."""
        return sorted(self.documents, key=lambda document: document.rank)


def read_folder(top: Path) -> Folder:
    """Reads all files of a folder. Raises OSError where one can't be read."""
    if not top.is_dir():
        raise NotADirectoryError(f"{top}: no folder")
    folder = Folder()
    bounds = Bounds()
    inside = top.resolve()
    for path in _files(top):
        name = path.relative_to(top)
        is_zone = name.parts[0] == ZONES
        if not is_zone and path.suffix not in SUFFIXES:
            continue
        if not path.is_file():
            folder.faults.append(Told(str(path), Fault(Place(1, 1), "not_file")))
            continue
        if not path.resolve().is_relative_to(inside):
            folder.foreign.add(str(path))
        if is_zone:
            folder.zones.append(_zone(path, name))
        elif not _read_file(folder, path, bounds):
            break
    return folder


def _files(top: Path) -> Iterator[Path]:
    """All that a folder has but folders and what is hidden, in the order of the paths."""
    found: list[Path] = []
    for place, folders, files in os.walk(top, onerror=_unreadable):
        folders[:] = [name for name in folders if not name.startswith(".")]
        found += [Path(place, name) for name in files if not name.startswith(".")]
    return iter(sorted(found))


def _unreadable(fault: OSError) -> NoReturn:
    raise fault


def _zone(path: Path, name: Path) -> Zone:
    with path.open("rb") as file:
        content = file.read(MOST_ZONE_BYTES)
    if not content.startswith(TZIF):
        content = content.strip()
    return Zone(str(path), "/".join(name.parts[1:]), content)


def _read_file(folder: Folder, path: Path, bounds: Bounds) -> bool:
    """Reads a file's documents; False where the folder has more than any office takes."""
    file = str(path)
    with path.open("rb") as source:
        content = source.read(bounds.bytes + 1)
    reading, text = Reading(), ""
    fault = bounds.fault_of_size(content)
    if fault is None:
        text, fault = _text_of(content)
    if fault is None:
        reading = _reading(text, path.suffix, bounds)
    else:
        reading.faults.append(fault)
    folder.faults += [Told(file, fault) for fault in reading.faults]
    folder.documents += _documents(folder, file, reading)
    if reading.faults:
        folder.unread.update(NAMED.findall(text))
    return all(fault.rule != "limit" for fault in reading.faults)


def _reading(text: str, suffix: str, bounds: Bounds) -> Reading:
    if suffix == ".json":
        reading = read_json(text, bounds.nodes)
        fault = bounds.fault_of_reading(reading)
    else:
        fault = bounds.fault(text)
        reading = read_yaml(text, bounds.nodes) if fault is None else Reading()
        bounds.nodes = reading.left
    return reading if fault is None else Reading([], [fault])


def _text_of(content: bytes) -> tuple[str, Optional[Fault]]:
    try:
        return content.decode("utf-8-sig"), None
    except UnicodeDecodeError as fault:
        before = content[: fault.start]
        place = Place(before.count(b"\n") + 1, fault.start - before.rfind(b"\n"))
        return "", Fault(place, "not_utf8")


def _documents(folder: Folder, file: str, reading: Reading) -> Iterator[Document]:
    for node in reading.documents:
        faults = list(unwritable(node))
        if isinstance(node, Scalar):
            faults.append(Fault(node.place, "not_map", "document"))
        if faults:
            folder.faults += [Told(file, fault) for fault in faults]
            continue
        plain = with_plain_numbers(node)
        text = written(plain)
        if len(text.encode("utf-8")) > MOST_DOCUMENT_BYTES:
            why = f"a document has at most {MOST_DOCUMENT_BYTES:,} bytes"
            folder.faults.append(Told(file, Fault(node.place, "limit", "document", why)))
            continue
        yield Document(file, plain, text, tuple(objects_in(plain)))
