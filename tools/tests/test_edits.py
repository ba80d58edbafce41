"""The wrong bodies of tests/edits have their place in the text, so that tests/refused can try them."""

from __future__ import annotations

import tomllib
import unittest
from pathlib import Path

TESTS = Path(__file__).resolve().parent
TOOLS = TESTS.parent
PACKAGE = TOOLS / "slo_tools"


class EditsTest(unittest.TestCase):
    def test_each_stands_once(self) -> None:
        for table in sorted((TESTS / "edits").glob("*.toml")):
            for edit in tomllib.loads(table.read_text())["edit"]:
                with self.subTest(edit["name"]):
                    folder = TOOLS if edit["file"].startswith("page/") else PACKAGE
                    self.assertEqual((folder / edit["file"]).read_text().count(edit["old"]), 1)
                    for group in edit["groups"].split():
                        self.assertTrue((TESTS / f"test_{group}.py").exists(), group)


if __name__ == "__main__":
    unittest.main()
