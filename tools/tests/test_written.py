"""The office's own writing of objects, read back: every character that it holds."""

from __future__ import annotations

import time
import unittest
from collections.abc import Iterator

from apply_documents import changed_at_random, documents
from support import running_office

from slo_tools.apply.profile import unwritable, written
from slo_tools.nodes import Fields, Items, Node, Scalar
from slo_tools.objects import read_document
from slo_tools.office import Office
from slo_tools.refusals import Foreign
from slo_tools.yaml_reading import NotWritten, read_written

ORIGIN = 29_000_000
# What YAML doesn't print, or PyYAML takes for a line's end or a mark of the order of bytes.
UNPRINTED = [*range(0x80, 0xA0), 0x2028, 0x2029, 0xFEFF, 0xFFFE, 0xFFFF, 0x1FFFE, 0x10FFFF]
SERVICE = "apiVersion: openslo/v1\nkind: Service\nmetadata:\n  name: NAME\nspec:\n  description: "
SOURCE = (
    "apiVersion: openslo/v1\nkind: DataSource\nmetadata:\n  name: all\n"
    "spec:\n  type: x\n  connectionDetails:\n    all: "
)


def held() -> Iterator[int]:
    """Every character that stands in a text of the office's profile without an escape."""
    yield from range(0x20, 0x7F)
    yield from range(0x80, 0xD800)
    yield from range(0xE000, 0x110000)


def quoted(text: str) -> str:
    return '"' + text.replace("\\", "\\\\").replace('"', '\\"') + '"'


def content_of(node: Node) -> object:
    """A node without its places; whatever says null is written as nothing."""
    if isinstance(node, Scalar):
        return ("", True) if node.is_null else (node.text, node.plain)
    if isinstance(node, Items):
        return [content_of(item) for item in node.items]
    return [(key.text, content_of(value)) for key, value in node.entries]


class WrittenTest(unittest.TestCase):
    def office(self) -> Office:
        client = self.enterContext(running_office(ORIGIN)).client()
        self.enterContext(client.kept_link())
        return client

    def description(self, client: Office, value: str) -> str:
        """What comes back of a description as it stands in a document."""
        client.define((SERVICE.replace("NAME", "shop") + value + "\n").encode())
        return str(read_document(client.object_text("Service", "shop")).spec["description"])

    def test_every_character_comes_back(self) -> None:
        client = self.office()
        points = list(held())
        for first in range(0, len(points), 200_000):
            text = "".join(map(chr, points[first : first + 200_000]))
            client.define((SOURCE + quoted(text) + "\n").encode())
            found = read_document(client.object_text("DataSource", "all"))
            self.assertEqual(found.spec["connectionDetails"], {"all": text})
        self.assertEqual(len(points), 0x110000 - 0x800 - 0x20 - 1)

    def test_what_yaml_does_not_print_comes_back_at_each_place(self) -> None:
        client = self.office()
        for point in UNPRINTED:
            sign = chr(point)
            with self.subTest(point=hex(point)):
                for text in (f"a{sign}b", f"a {sign} b", sign * 3, f"{sign}a"):
                    for value in (text, quoted(text), f"'{text}'", f"|\n    {text}\n    b"):
                        told = self.description(client, value)
                        self.assertEqual(told, f"{text}\nb\n" if value[0] == "|" else text)

    def test_keys_and_escapes_come_back(self) -> None:
        client = self.office()
        key = 'team \u0091x\u0092 \\ "'
        text = SERVICE.replace("NAME", "shop").replace(
            "name: shop", f'name: shop\n  annotations:\n    {quoted(key)}: "a\\tb\\nc\\\\n"'
        )
        client.define((text + "x\n").encode())
        found = read_document(client.object_text("Service", "shop"))
        self.assertEqual(found.annotation(key), "a\tb\nc\\n")

    def test_random_documents_as_they_are_written(self) -> None:
        read = 0
        nodes = [*documents(), *map(changed_at_random, range(400))]
        for node in nodes:
            if isinstance(node, Fields) and node.entries and not list(unwritable(node)):
                self.assertEqual(content_of(read_written(written(node))), content_of(node))
                read += 1
        self.assertGreater(read, 200)

    def test_other_texts_are_none(self) -> None:
        for text in (
            "",
            "a",
            "a: b",
            "\n",
            "a: b\n\n",
            "a: b\na: c\n",
            "a:\n   b: c\n",
            "  a: b\n",
            'a: "b\n',
            'a: "b\\x"\n',
            'a: "b" c\n',
            "- a\n",
            "[]\n",
            "a:\n- b\n",
            "a: b\n- c\n",
            "<html>\n",
            "[" * 100_000,
            "- " * 100_000 + "a\n",
            "a: b\n" + "".join(" " * 2 * n + "b:\n" for n in range(100)),
        ):
            with self.subTest(text=text[:20]), self.assertRaises(NotWritten):
                read_written(text)
            with self.assertRaises(Foreign):
                read_document(text)

    def test_long_lines_take_no_long_time(self) -> None:
        begin = time.monotonic()
        for text in ('"' * 200_000, '\\"' * 200_000, "a" * 400_000, "a: " * 100_000):
            for value in (text, quoted(text)):
                try:
                    read_written(f"a: {value}\n")
                except NotWritten:
                    pass
        self.assertLess(time.monotonic() - begin, 3.0)


if __name__ == "__main__":
    unittest.main()
