"""slo-apply over folders that somebody made to stop it, or to be told what isn't theirs."""

from __future__ import annotations

import os
import resource
import tempfile
import unittest
from pathlib import Path

from test_apply import ONE_SERVICE, Folders


class Hostile(Folders):
    """What a proposal may hold: a line or two and a status, within seconds of the processor."""

    def told(self) -> list[str]:
        """The lines of a folder that is refused."""
        before = resource.getrusage(resource.RUSAGE_CHILDREN)
        status, lines = self.check()
        after = resource.getrusage(resource.RUSAGE_CHILDREN)
        self.assertEqual(status, 2, lines[:3])
        self.assertLess(after.ru_utime - before.ru_utime, 5)
        self.assertRegex(lines[-1], r"^slo-apply: \d+ faults?$")
        return lines[:-1]

    def test_deep_nesting_is_a_fault_of_its_file(self) -> None:
        for name, text, place in (
            ("a.yaml", "[" * 100_000, "1:201"),
            ("a.yaml", "{a: " * 20_000, "1:801"),
            ("a.yaml", "- " * 20_000, "1:401"),
            ("a.yaml", "".join(f"{' ' * n}a:\n" for n in range(2_000)), "201:201"),
            ("a.yaml", "a: b: c\n---\n" + "[" * 20_000, "3:201"),
            ("a.yaml", "a: \x01\n---\n" + "[" * 20_000, "3:201"),
            ("a.json", "[" * 100_000, "1:34"),
        ):
            with self.subTest(text=text[:20], name=name):
                path = self.write(name, text)
                (line,) = self.told()
                self.assertTrue(line.startswith(f"{name}:{place}: too_deep: "), line)
                path.unlink()

    def test_what_nests_below_the_bound_is_a_fault_of_its_document(self) -> None:
        self.write("a.yaml", "a: " + "[" * 60 + "]" * 60 + "\n---\n" + ONE_SERVICE % "Shop")
        lines = self.told()
        self.assertEqual(sum("too_deep" in line for line in lines), 1)
        self.assertEqual(sum("metadata.name: bad_name" in line for line in lines), 1)

    def test_more_documents_than_an_office_holds_are_one_fault(self) -> None:
        services = [ONE_SERVICE % f"s{number}" for number in range(100_000)]
        items = ",".join('{"kind":"Service"}' for _ in range(3_000))
        for name, text in (
            ("a.yaml", "".join(services)),
            ("a.yaml", "a: b: c\n---\n" * 100_000),
            ("a.json", f"[{items}]"),
        ):
            with self.subTest(text=text[:20]):
                path = self.write(name, text)
                (line,) = self.told()
                self.assertIn(": limit: a folder has at most 2,000 documents", line)
                path.unlink()
        for number in range(21):
            self.write(f"{number:02}.yaml", "".join(services[number * 100 : number * 100 + 100]))
        (line,) = self.told()
        self.assertTrue(line.startswith("20.yaml:"), line)
        (self.folder / "20.yaml").unlink()
        self.assertEqual(self.check(), (0, ["2000 objects, no fault"]))

    def test_aliases_in_many_documents_and_files_are_one_count(self) -> None:
        levels = [f"{b}: &{b} [{','.join([f'*{a}'] * 10)}]\n" for a, b in zip("abcd", "bcde")]
        bomb = "a: &a [x]\n" + "".join(levels) + "---\n"
        self.write("a.yaml", bomb * 1_000)
        self.assertEqual(sum(": limit: " in line for line in self.told()), 1)
        (self.folder / "a.yaml").unlink()
        for number in range(300):
            self.write(f"{number:03}.yaml", bomb)
        self.assertEqual(sum(": limit: more than" in line for line in self.told()), 1)

    def test_large_texts_are_one_fault(self) -> None:
        for text, why in (
            ("#" * 17_000_000, "a folder has at most 16,777,216 bytes"),
            ("a: " + "x" * 2_000_000, "a document has at most 1,048,570 bytes"),
            ("a: [" + "x," * 300_000 + "]", "a folder has at most 200,000 nodes"),
        ):
            with self.subTest(why=why):
                self.write("a.yaml", text)
                (line,) = self.told()
                self.assertIn(why, line)

    def test_many_faults_are_told_in_part(self) -> None:
        keys = "".join(f"k{number}: 1\n" for number in range(40_000))
        self.write("a.yaml", keys)
        lines = self.told()
        self.assertEqual((len(lines), lines[-1]), (501, "slo-apply: and 500 lines more"))

    def test_a_name_of_a_file_stays_on_its_line(self) -> None:
        self.write("a\nb:1:1.yaml", "a: [\n")
        with open(os.fsencode(self.folder) + b"/\xff\x1b[31m.yaml", "w", encoding="utf-8") as file:
            file.write("a: [\n")
        lines = self.told()
        self.assertEqual(len(lines), 2)
        self.assertEqual(
            [line.split(": ")[0] for line in lines],
            ["a\\nb:1:1.yaml:2:1", "\\udcff\\x1b[31m.yaml:2:1"],
        )

    def test_a_name_of_a_zone_begins_no_request_of_its_own(self) -> None:
        """An answer more, and a faulty document is judged by the one before."""
        zones = self.folder / "zones" / "A HTTP"
        zones.mkdir(parents=True)
        more = "1.1\r\nContent-Length: 0\r\n\r\nGET "
        name = zones / more / "notices HTTP" / "1.1\r\nContent-Length: 5\r\n\r\n"
        name.parent.mkdir(parents=True)
        name.write_text("UTC-1")
        self.write("zones/Cölln", "UTC-1")
        self.write("a.yaml", ONE_SERVICE % "Shop")
        lines = self.told()
        self.assertEqual(len(lines), 3, lines)
        self.assertEqual(sum(": bad_name: a zone's name has " in line for line in lines), 2)
        self.assertEqual(sum("metadata.name: bad_name" in line for line in lines), 1)

    def test_what_is_no_file_is_told(self) -> None:
        for name, to in (
            *(("zero.yaml", "/dev/zero"), ("gone.json", "/nowhere"), ("ring.yml", "ring.yml")),
            ("zones/Nowhere", "/dev/urandom"),
        ):
            path = self.folder / name
            path.parent.mkdir(exist_ok=True)
            path.symlink_to(to)
        os.mkfifo(self.folder / "fifo.yaml")
        lines = self.told()
        self.assertEqual(
            [line.split(": ")[:2] for line in lines],
            [
                [f"{name}:1:1", "not_file"]
                for name in ("fifo.yaml", "gone.json", "ring.yml", "zero.yaml", "zones/Nowhere")
            ],
        )

    def test_nothing_is_told_of_a_file_elsewhere(self) -> None:
        """What a link out of the folder leads to may be secret."""
        elsewhere = Path(self.enterContext(tempfile.TemporaryDirectory(prefix="slo-tools-")))
        texts = (
            "hunter2: x\napiVersion: hunter2\nhunter2: y\n",
            "hunter2: [\n",
            "kind: SLO\napiVersion: openslo/v1\nmetadata: {name: hunter2}\n"
            "spec: {service: hunter2, indicatorRef: hunter2, budgetingMethod: hunter2}\n",
            "token: !hunter2 x\n",
            '{"hunter2": 1, "hunter2": 2}',
        )
        for number, text in enumerate(texts):
            suffix = "json" if text.startswith("{") else "yaml"
            (elsewhere / f"{number}").write_text(text)
            (self.folder / f"{number}.{suffix}").symlink_to(elsewhere / f"{number}")
        (elsewhere / "zone").write_text("hunter2 is no zone\n")
        (self.folder / "zones").mkdir()
        (self.folder / "zones" / "Nowhere").symlink_to(elsewhere / "zone")
        lines = self.told()
        self.assertEqual({line[0] for line in lines}, set("01234z"))
        self.assertNotIn("hunter2", "\n".join(lines))

    def test_a_link_inside_the_folder_is_a_file_of_it(self) -> None:
        self.write("..data/a.yaml", ONE_SERVICE % "Shop")
        (self.folder / "a.yaml").symlink_to("..data/a.yaml")
        (line,) = self.told()
        self.assertTrue(line.startswith("a.yaml:3:18: metadata.name: bad_name: "), line)


if __name__ == "__main__":
    unittest.main()
