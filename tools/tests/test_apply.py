"""slo-apply: folders judged, planned and applied, over the office's program and a running office."""

from __future__ import annotations

import shutil
import tempfile
import time
import unittest
from pathlib import Path

from apply_documents import changed_at_random, documents
from support import TOOLS, OfficeServer, program, run_tool, running_office

from slo_tools.apply.folder import read_folder
from slo_tools.apply.form import faults_of, key_of
from slo_tools.apply.profile import written
from slo_tools.nodes import Items, Node, Scalar, node_at
from slo_tools.past.scratch import Message, Scratch
from slo_tools.yaml_reading import read_yaml

NOW = int(time.time()) // 60
UPSTREAM = TOOLS / "tests" / "openslo"


def content_of(node: Node) -> object:
    """A node without its places, nulls left out, so that two readings can be compared."""
    if isinstance(node, Scalar):
        return None if node.is_null else (node.text, node.plain)
    if isinstance(node, Items):
        return [content_of(item) for item in node.items]
    return {key.text: content_of(value) for key, value in node.entries}


class Folders(unittest.TestCase):
    """What tests over folders share."""

    def setUp(self) -> None:
        self.folder = Path(self.enterContext(tempfile.TemporaryDirectory(prefix="slo-tools-")))

    def write(self, name: str, text: str) -> Path:
        path = self.folder / name
        path.parent.mkdir(parents=True, exist_ok=True)
        path.write_text(text, encoding="utf-8")
        return path

    def check(self, *words: str) -> tuple[int, list[str]]:
        run = run_tool("slo-apply", "--check", "--program", program(), *words, str(self.folder))
        self.assertNotIn("Traceback", run.stderr)
        lines = (run.stdout + run.stderr).splitlines()
        return run.returncode, [line.replace(f"{self.folder}/", "") for line in lines]

    def office(self) -> OfficeServer:
        return self.enterContext(running_office(NOW - 3000))

    def apply(self, office: OfficeServer, *words: str) -> tuple[int, list[str], str]:
        run = run_tool(
            "slo-apply",
            *("--program", program(), "--office", office.address),
            *words,
            str(self.folder),
        )
        self.assertNotIn("Traceback", run.stderr)
        return run.returncode, run.stdout.splitlines(), run.stderr


class Judging(Folders):
    def test_documents_as_the_specification_has_them(self) -> None:
        shutil.copytree(UPSTREAM, self.folder, dirs_exist_ok=True)
        self.assertEqual(len(read_folder(self.folder).documents), 20)
        self.assertEqual(self.check(), (0, ["24 objects, no fault"]))

    def test_each_fault_of_a_folder_is_told_with_its_place(self) -> None:
        self.write("a.yaml", "apiVersion: openslo/v1\nkind: Service\nmetadata:\n\tname: x\n")
        self.write(
            "b.yaml",
            "apiVersion: openslo/v1\nkind: Service\nmetadata: {name: Shop, name: shop}\n"
            "spec: {weight: 1}\n---\nkind: Service\nmetadata: {name: two}\nspec: {}\n",
        )
        self.write("c.json", '{\n  "kind": "Service",\n  "kind": 5,,\n}')
        (self.folder / "d.yaml").write_bytes(b"a: 1\nb: \xff\n")
        self.write("zones/Nowhere", "no zone")
        status, lines = self.check()
        self.assertEqual(status, 2)
        self.assertEqual(
            sorted(line.split(": ")[0] for line in lines[:-1]),
            [
                *("a.yaml:4:1", "b.yaml:3:18", "b.yaml:3:24", "b.yaml:4:8", "b.yaml:6:1"),
                *("c.json:3:13", "c.json:3:3", "d.yaml:2:4", "zones/Nowhere:1:1"),
            ],
        )

    def test_what_refers_to_a_faulty_object_is_judged_too(self) -> None:
        self.write(
            "s.yaml", "apiVersion: openslo/v1\nkind: Service\nmetadata: {name: s}\nspec: {x: 1}\n"
        )
        self.write("slo.yaml", slo("a", service="s", indicator="nowhere", target="1.5"))
        self.write("slo2.yaml", slo("b", service="s", indicator="nowhere"))
        status, lines = self.check()
        self.assertEqual((status, lines[-1]), (2, "slo-apply: 4 faults"))
        self.assertIn("s.yaml:4:8: spec.x: unknown_field: there is no such field", lines)
        self.assertIn(
            "slo.yaml:15:15: spec.objectives[0].target: out_of_range: it must be below 1;"
            " did you mean targetPercent: 1.5?",
            lines,
        )
        self.assertIn("slo.yaml:8:17: spec.indicatorRef: unresolved: SLI nowhere", lines)
        self.assertIn("slo2.yaml:8:17: spec.indicatorRef: unresolved: SLI nowhere", lines)

    def test_a_month_in_a_zone_needs_the_zone_in_the_folder(self) -> None:
        for name in ("slo-calendar.yaml", "service.yaml", "sli-bad.yaml"):
            shutil.copy(UPSTREAM / name, self.folder)
        status, lines = self.check()
        place = "slo-calendar.yaml:14:19: spec.timeWindow[0].calendar.timeZone"
        self.assertEqual(status, 2)
        self.assertIn(f"{place}: unknown_zone: America/New_York", lines)
        shutil.copytree(UPSTREAM / "zones", self.folder / "zones")
        self.assertEqual(self.check()[0], 0)

    def test_a_fault_says_what_is_wanted(self) -> None:
        sound = slo("a", "s", "s", op="      timeSliceWindow: 5m\n")
        refused = {
            ("target: 0.9", "target: 99.9"): (
                "target: out_of_range: it must be below 1; did you mean targetPercent: 99.9?"
            ),
            ("target: 0.9", "target: 99.9%"): (
                "target: not_number: it must be digits, and maybe a point and at most 9 more;"
                " below 1; did you mean targetPercent: 99.9?"
            ),
            ("target: 0.9", "target: 100"): "target: out_of_range: it must be below 1",
            ("target: 0.9", "targetPercent: 100"): "out_of_range: it must be below 100",
            ("Occurrences", "Occurences"): (
                "spec.budgetingMethod: bad_word: it must be one of Occurrences, Timeslices,"
                " RatioTimeslices; did you mean Occurrences?"
            ),
            ("Occurrences", "Events"): (
                "bad_word: it must be one of Occurrences, Timeslices, RatioTimeslices"
            ),
            ("name: a\n", f"name: {'x' * 64}\n"): (
                "metadata.name: bad_name: a name has at most 63 characters, this one has 64"
            ),
            ("name: a\n", "name: Shop.web_1\n"): (
                "metadata.name: bad_name: a name has small letters, digits and `-`, which stands"
                " at neither end; did you mean shop-web-1?"
            ),
            ("kind: SLO", "kind: Slo"): (
                "kind: bad_kind: it must be one of DataSource, Service, SLI, SLO, AlertPolicy,"
                " AlertCondition, AlertNotificationTarget; did you mean SLO?"
            ),
            ("duration: 30d", "duration: 30days"): (
                "not_duration: it must be digits and one of m, h, d, w, M, Q, Y, as 30d;"
                " did you mean 30d?"
            ),
            ("duration: 30d", "duration: 2Y"): (
                "out_of_range: it must be above zero and at most 366 days"
            ),
            ("timeWindow:", "timeWindows:"): (
                "spec.timeWindows: unknown_field: there is no such field; did you mean timeWindow?"
            ),
            ("isRolling: true", "isRolling: true\n    - duration: 7d\n      isRolling: true"): (
                "spec.timeWindow: list_length: the list must have exactly 1 item, it has 2"
            ),
            ("service: s\n", "service: shops\n"): (
                "spec.service: unresolved: Service shops; did you mean shop?"
            ),
            ("service: s\n", "service: nowhere\n"): "spec.service: unresolved: Service nowhere",
            ("timeSliceWindow: 5m", "timeSliceWindow: 7m"): (
                "out_of_range: it must be 1, 2, 3, 4, 5, 6, 10, 12, 15, 20, 30 or 60 minutes,"
                " as 5 or 5m"
            ),
        }
        self.write("s.yaml", ONE_SERVICE % "s" + ONE_SERVICE % "shop" + SLI)
        for (old, new), wanted in refused.items():
            with self.subTest(new=new):
                self.assertEqual(sound.count(old), 1)
                self.write("a.yaml", sound.replace(old, new))
                status, lines = self.check()
                self.assertEqual(status, 2)
                self.assertEqual(sum(line.endswith(wanted) for line in lines), 1, lines)
        self.write("a.yaml", sound)
        self.assertEqual(self.check()[0], 0)

    def test_a_query_that_the_feed_refuses_is_a_fault(self) -> None:
        """As slo-feed itself says of it once it stands in an office (test_words)."""
        counter = 'requests_total{code=~"2.."}'
        self.write("s.yaml", ONE_SERVICE % "s" + slo("a", "s", "web"))
        for engine, good, total, more, told in (
            ("Prometheus", "rate(a_total[5m])", counter, "", "good of SLI web: rate(..) is no"),
            ("Prometheus", counter, "a_total - b_total", "", "total of SLI web: '-' has no place"),
            ("Prometheus", counter, "sum(a_total) or vector(0)", "counter: true", "total of SLI"),
            ("Prometheus", counter, "(" * 5_000 + "a", "", "brackets stand inside one another"),
            ("Prometheus", counter, "''", "", "total of SLI web: there is no spec.query"),
            ("ClickHouse", "status < 500", "''", "", "total of SLI web: there is no spec.query"),
            ("Prometheus", counter, "sum(a_total) + sum(b_total)", "", ""),
            ("Prometheus", "rate(a_total[5m])", counter, "counter: false", ""),
            ("ClickHouse", "rate(a)", "a - b", "", ""),
            ("Datadog", "rate(a)", "''", "", ""),
        ):
            with self.subTest(engine=engine, good=good[:20], total=total[:20]):
                self.write("a.yaml", web(engine, good, total, more))
                status, lines = self.check()
                if not told:
                    self.assertEqual((status, lines), (0, ["4 objects, no fault"]))
                    continue
                self.assertEqual((status, len(lines), lines[-1]), (2, 2, "slo-apply: 1 fault"))
                self.assertRegex(lines[0], r"^a\.yaml:\d+:\d+: spec\.ratioMetric\.(good|total)\.")
                self.assertIn(": unread_query: slo-feed won't read ", lines[0])
                self.assertIn(told, lines[0])
                is_there = "there is no" not in told
                self.assertEqual(".metricSource.spec.query: unread_query: " in lines[0], is_there)
                status, lines = self.check("--allow-unread-queries")
                self.assertEqual((status, lines[0]), (0, "4 objects, no fault"))
                self.assertIn(": warning: ", lines[1])

    def test_queries_of_two_engines_are_a_fault(self) -> None:
        self.write("s.yaml", ONE_SERVICE % "s" + slo("a", "s", "web"))
        other = "---\napiVersion: openslo/v1\nkind: DataSource\nmetadata: {name: other}\n"
        text = web("Prometheus", "a_total", "b_total", "") + other + "spec: {type: ClickHouse}\n"
        self.write("a.yaml", text.replace("metrics, spec: {query: 'b", "other, spec: {query: 'b"))
        status, lines = self.check()
        self.assertEqual((status, len(lines)), (2, 2))
        self.assertIn("the parts are of several DataSources, metrics and other", lines[0])

    def test_a_limit_is_told_with_its_number(self) -> None:
        for number in range(201):
            self.write(f"{number:03}.yaml", SLI.replace("name: s\n", f"name: s{number}\n"))
        status, lines = self.check()
        self.assertEqual(status, 2)
        self.assertEqual(lines[0], "200.yaml:1:1: limit: an office has at most 200 SLIs")

    def test_200_files_with_ten_planted_faults(self) -> None:
        for number in range(200):
            self.write(f"{number:03}.yaml", one_of_many(number))
        self.assertEqual(self.check(), (0, ["250 objects, no fault"]))
        expected = []
        for number, (old, new, place) in PLANTED.items():
            path = self.folder / f"{number:03}.yaml"
            text = path.read_text()
            self.assertIn(old, text)
            path.write_text(text.replace(old, new))
            expected.append(f"{number:03}.yaml:{place}")
        status, lines = self.check()
        self.assertEqual((status, lines[-1]), (2, f"slo-apply: {len(PLANTED)} faults"))
        told = [":".join(line.split(":")[:3]) + line[line.index(": ") :] for line in lines[:-1]]
        for line, place in zip(told, sorted(expected)):
            self.assertTrue(line.startswith(place), f"{line} isn't at {place}")

    def test_an_empty_folder_and_none_are_faults(self) -> None:
        self.assertEqual(self.check()[0], 2)
        run = run_tool("slo-apply", "--check", str(self.folder / "nothing"))
        self.assertEqual(run.returncode, 2)


ONE_SERVICE = "apiVersion: openslo/v1\nkind: Service\nmetadata: {name: %s}\nspec: {}\n---\n"


def web(engine: str, good: str, total: str, more: str) -> str:
    """An indicator by queries of a DataSource."""
    front = f"apiVersion: openslo/v1\nkind: DataSource\nmetadata: {{name: metrics}}\n"
    metric = "      metricSource: {metricSourceRef: metrics, spec: {query: %s}}\n"
    parts = [text if text == "''" else f"'{text}'" for text in (good, total)]
    return (
        f"{front}spec: {{type: {engine}}}\n---\napiVersion: openslo/v1\nkind: SLI\n"
        f"metadata:\n  name: web\nspec:\n  ratioMetric:\n    {more}\n"
        f"    good:\n{metric % parts[0]}    total:\n{metric % parts[1]}"
    )


SLI = (
    "apiVersion: openslo/v1\nkind: SLI\nmetadata:\n  name: s\nspec:\n  ratioMetric:\n"
    "    total:\n      metricSource: {}\n    good:\n      metricSource: {}\n"
)


def slo(name: str, service: str, indicator: str, target: str = "0.9", op: str = "") -> str:
    return f"""apiVersion: openslo/v1
kind: SLO
metadata:
  name: {name}

spec:
  service: {service}
  indicatorRef: {indicator}
  timeWindow:
    - duration: 30d
      isRolling: true
  budgetingMethod: Occurrences
  objectives:
    - displayName: Most
      target: {target}
{op}"""


def one_of_many(number: int) -> str:
    """A file of a folder of 200: services, indicators, SLOs with their own policies."""
    if number < 40:
        return (
            "apiVersion: openslo/v1\nkind: Service\nmetadata:\n"
            f"  name: service-{number}\nspec:\n  description: Service {number}\n"
        )
    metric = "{metricSource: {type: Prometheus}}"
    if number < 100:
        form = (
            f"  thresholdMetric: {metric}\n"
            if number < 50
            else f"  ratioMetric:\n    good: {metric}\n    total: {metric}\n"
        )
        return f"apiVersion: openslo/v1\nkind: SLI\nmetadata:\n  name: sli-{number}\nspec:\n{form}"
    if number < 140:
        text = slo(f"slo-{number}", f"service-{number - 100}", f"sli-{number - 50}")
        return text + "  alertPolicies:\n    - workbook-page\n"
    op = "      op: lt\n      value: 5\n"
    if number < 150:
        return slo(f"slo-{number}", "service-1", f"sli-{number - 100}", op=op)
    return f"""apiVersion: openslo/v1
kind: AlertPolicy
metadata:
  name: policy-{number}
spec:
  alertWhenBreaching: true
  conditions:
    - kind: AlertCondition
      metadata: {{name: condition-{number}}}
      spec:
        severity: page
        condition: {{kind: burnrate, op: gt, threshold: 2, lookbackWindow: 1h}}
"""


# The file's number: what stands there, what takes its place, and where the fault is told.
PLANTED = {
    3: ("spec:\n", "spec:\n\tx: 1\n", "6:1: yaml"),
    165: ("name: policy-165", "name: Policy-165", "4:9: metadata.name: bad_name"),
    20: ("  description:", "  owner: me\n  description:", "6:3: spec.owner: unknown_field"),
    60: ("    good:", "    count: 1\n    good:", "7:5: spec.ratioMetric.count: unknown_field"),
    101: ("0.9\n", "1.5\n", "15:15: spec.objectives[0].target: out_of_range"),
    110: ("service-10", "service-99", "7:12: spec.service: unresolved: Service service-99"),
    120: ("duration: 30d", "duration: 30days", "10:17: spec.timeWindow[0].duration: not_duration"),
    141: ("      op: lt\n", "", "14:7: spec.objectives[0]: needs_op"),
    155: ("policy-155", "workbook-page", "4:9: metadata.name: reserved"),
    170: (
        "condition-170}\n      spec:\n        severity: page",
        "condition-169}\n      spec:\n        severity: ticket",
        "9:24: spec.conditions[0].metadata.name: duplicate",
    ),
}


class Writing(unittest.TestCase):
    def test_what_is_written_reads_as_what_was_read(self) -> None:
        for text in (
            'a: "x: y # z"\nb: \'it\'\'s\'\nc: |\n  two\n  lines\nd: "tab\\there \\\\ \\""\n',
            "a: {b: [], c: {}, d: [x, [y, {z: 1}]]}\n",
            "a: [1, [2, 3], {b: [c, d]}]\n",
            "? 'a key: odd'\n: {'#': \"#\", '': ''}\n",
            "a: -5\nc: :x\nd: ?y\ne: http://a/b#c\nf: a#b\ng: '- x'\nh: '---'\n",
            "a: é ≥ \U0001f600\nb: '5'\nc: 5\nd: null\n",
        ):
            with self.subTest(text=text):
                node = read_yaml(text).documents[0]
                again = read_yaml(written(node))
                self.assertEqual(again.faults, [])
                self.assertEqual(content_of(again.documents[0]), content_of(node))

    def test_the_office_reads_what_is_written(self) -> None:
        """Free fields come back as they were, through the profile and the canonical writing."""
        free = (
            'a: "x: y # z"\nb: "it\'s \\"so\\""\nc: "two\\nlines\\n"\nd: [1, [2, {e: "5"}]]\n'
            "f: -5\ng: http://a/b#c\nh: '- x'\ni: {}\nj: []\nk: é ≥ 😀\nl: a b  c\nm: \"\\t\"\n"
        )
        text = (
            "apiVersion: openslo/v1\nkind: DataSource\nmetadata: {name: d}\n"
            "spec:\n  type: x\n  connectionDetails:\n"
            + "".join(f"    {line}\n" for line in free.splitlines())
        )
        node = read_yaml(text).documents[0]
        with Scratch(program()) as scratch:
            answer = scratch.one(Message("POST", "/objects", written(node).encode()))
            self.assertEqual(answer.status, 200, answer.text)
            told = scratch.one(Message("GET", "/objects/DataSource/d")).text
        kept = node_at(read_yaml(told).documents[0], "spec", "connectionDetails")
        sent = node_at(node, "spec", "connectionDetails")
        assert kept is not None and sent is not None
        self.assertEqual(content_of(kept), content_of(sent))

    def test_changed_documents_have_the_fault_that_the_office_tells(self) -> None:
        nodes = [
            node for seed in range(600) if not isinstance(node := changed_at_random(seed), Scalar)
        ]
        with Scratch(program()) as scratch:
            answers = scratch.ask(
                [Message("POST", "/objects", written(node).encode()) for node in nodes]
            )
        found = 0
        for node, answer in zip(nodes, answers):
            told = answer.members
            mine = [(key_of(fault), fault.rule) for fault in faults_of(node)]
            with self.subTest(text=written(node)):
                if told.get("error") == "object":
                    found += 1
                    self.assertIn((told["field"], told["rule"]), mine)
                else:
                    self.assertNotEqual(told.get("error"), "yaml")
                    self.assertEqual(mine, [])
        self.assertGreater(found, 200)

    def test_the_documents_themselves_are_taken(self) -> None:
        self.assertEqual([faults_of(node) for node in documents()], [[]] * 10)


class Applying(Folders):
    def test_a_plan_names_what_a_run_does_and_the_next_does_nothing(self) -> None:
        shutil.copytree(UPSTREAM, self.folder, dirs_exist_ok=True)
        office = self.office()
        status, planned, _ = self.apply(office, "--plan")
        self.assertEqual((status, len(planned)), (1, 26))
        self.assertEqual(office.client().objects()[0], 0)
        status, done, _ = self.apply(office)
        self.assertEqual((status, done[:-1]), (0, planned[:-1]))
        entries, names = office.client().objects()
        self.assertEqual((entries, len(names)), (2, 24))
        for words in ((), ("--plan",), ("--prune",), ("--plan", "--prune"), ("--with-office",)):
            status, told, _ = self.apply(office, *words)
            self.assertEqual((status, len(told)), (0, 1), told)
        self.assertEqual(office.client().objects()[0], 2)

    def test_changes_are_shown_and_made(self) -> None:
        shutil.copytree(UPSTREAM, self.folder, dirs_exist_ok=True)
        office = self.office()
        self.apply(office)
        slo_file = self.folder / "slo-rolling.yaml"
        slo_file.write_text(slo_file.read_text().replace("target: .98", "target: .985"))
        (self.folder / "slo-inline.yaml").unlink()
        self.write(
            "new.yaml",
            "apiVersion: openslo/v1\nkind: Service\nmetadata:\n  name: new\nspec: {}\n",
        )
        status, planned, _ = self.apply(office, "--plan", "--prune")
        self.assertEqual(status, 1)
        changes = [line for line in planned if not line.startswith("    ")]
        self.assertEqual(
            changes[:-1],
            [
                *("+ Service new", "~ SLO foo-slo", "- SLO inline-slo"),
                *("- AlertPolicy cpu-alerts", "- SLI inline-good"),
            ],
        )
        self.assertIn("    -      target: 0.98", planned)
        self.assertIn("    +      target: 0.985", planned)
        status, kept, _ = self.apply(office, "--plan")
        self.assertIn("  SLO inline-slo isn't in the folder (--prune removes it)", kept)
        status, done, _ = self.apply(office, "--prune")
        self.assertEqual((status, done[:-1]), (0, changes[:-1]))
        self.assertEqual(self.apply(office, "--plan", "--prune")[0], 0)

    def test_a_plan_over_characters_that_yaml_does_not_print(self) -> None:
        """Status 1 says that there is something to do, so a plan never ends by a traceback."""
        shutil.copytree(UPSTREAM, self.folder, dirs_exist_ok=True)
        office = self.office()
        self.apply(office)
        odd = "a\x80b\x85c\u2028d\uffffe\ufefff"
        named = f'metadata:\n  name: odd\n  displayName: "{odd}"\n'
        own = slo("odd", "foo", "odd").replace("metadata:\n  name: odd\n", named)
        sli = (
            f"apiVersion: openslo/v1\nkind: SLI\n{named}spec:\n  ratioMetric:\n"
            "    total:\n      metricSource: {}\n    good:\n      metricSource: {}\n"
        )
        office.client().ask("POST", ["objects"], body=f"{sli}---\n{own}".encode())
        office.client().ask("POST", ["samples"], body=f"odd,web,{NOW - 5},1,1,10\n".encode())
        for words in (("--plan",), ("--plan", "--with-office")):
            status, told, faults = self.apply(office, *words)
            self.assertEqual((status, faults), (0, ""), told)
            self.assertIn("  SLO odd isn't in the folder (--prune removes it)", told)
        status, told, faults = self.apply(office, "--plan", "--prune")
        self.assertEqual((status, told[:-1]), (1, ["- SLO odd", "  SLI odd has samples and stays"]))
        spelled = r"a\x80b\x85c\u2028d\uffffe\ufefff"
        self.write("odd.yaml", f"{sli}---\n{own}".replace(odd, spelled))
        self.assertEqual(self.apply(office, "--plan")[0], 0)
        self.write("odd.yaml", f"{sli}---\n{own}".replace(odd, spelled + "!"))
        status, told, faults = self.apply(office, "--plan")
        self.assertEqual(status, 1, faults)
        self.assertEqual(
            [line for line in told if "!" in line], [f'    +  displayName: "{spelled}!"'] * 2
        )
        self.assertEqual(self.apply(office)[0], 0)
        self.assertEqual(self.apply(office, "--plan", "--prune")[0], 0)

    def test_a_plan_prints_where_only_ascii_prints(self) -> None:
        office = self.office()
        self.write("a.yaml", ONE_SERVICE % "a")
        self.apply(office)
        self.write("a.yaml", (ONE_SERVICE % "a").replace("{name: a}", "{name: a, displayName: ≥}"))
        words = ("--plan", "--office", office.address, str(self.folder))
        run = run_tool("slo-apply", *words, PYTHONIOENCODING="ascii")
        self.assertEqual((run.returncode, run.stderr), (1, ""))
        self.assertIn("\\u2265", run.stdout)

    def test_faults_change_nothing(self) -> None:
        office = self.office()
        self.write(
            "a.yaml", "apiVersion: openslo/v1\nkind: Service\nmetadata:\n  name: a\nspec: {}\n"
        )
        self.write("b.yaml", slo("b", "a", "nowhere"))
        self.assertEqual(self.apply(office)[0], 2)
        self.assertEqual(office.client().objects(), (0, []))

    def test_the_running_office_may_have_what_is_referred_to(self) -> None:
        shutil.copytree(UPSTREAM, self.folder, dirs_exist_ok=True)
        office = self.office()
        self.apply(office)
        shutil.rmtree(self.folder)
        self.folder.mkdir()
        self.write("b.yaml", slo("b", "foo", "logins-bad"))
        self.assertEqual(self.apply(office)[0], 2)
        status, told, faults = self.apply(office, "--with-office")
        self.assertEqual((status, told[0]), (0, "+ SLO b"), faults)
        self.assertEqual(len(office.client().objects()[1]), 25)

    def test_policies_and_sources_of_the_running_office_are_looked_at(self) -> None:
        """Where the folder leaves to the office what its slices and queries have to fit."""
        office = self.office()
        policy = one_of_many(150).replace("lookbackWindow: 1h", "lookbackWindow: 9m")
        indicator = web("Prometheus", "a_total", "b_total", "")
        source, own = indicator.split("---\n")
        self.write("all.yaml", f"{ONE_SERVICE % 's'}{policy}---\n{source}")
        self.assertEqual(self.apply(office)[0], 0)
        (self.folder / "all.yaml").unlink()
        sliced = slo("a", "s", "web", op="      timeSliceTarget: 0.9\n      timeSliceWindow: 10m\n")
        sliced = sliced.replace("Occurrences", "Timeslices") + "  alertPolicies: [policy-150]\n"
        self.write("a.yaml", f"{own.replace('b_total', 'rate(b_total[1m])')}---\n{sliced}")
        status, told, faults = self.apply(office, "--plan", "--with-office")
        self.assertEqual((status, told, faults.splitlines()[-1]), (2, [], "slo-apply: 2 faults"))
        self.assertIn("no_slice: policy-150 on objective 0: no whole slice of 10m", faults)
        self.assertIn("unread_query: slo-feed won't read total of SLI web: rate(..)", faults)

    def test_an_indicator_with_samples_keeps_its_reading(self) -> None:
        shutil.copytree(UPSTREAM, self.folder, dirs_exist_ok=True)
        office = self.office()
        self.apply(office)
        client = office.client()
        client.ask("POST", ["samples"], body=f"logins-bad,web,{NOW - 5},1,1,10\n".encode())
        entries = client.objects()[0]
        file = self.folder / "sli-bad.yaml"
        file.write_text(file.read_text().replace("    bad:", "    good:"))
        for words in (("--plan",), ()):
            status, _, told = self.apply(office, *words)
            self.assertEqual(status, 2)
            self.assertIn("SLI logins-bad has samples", told)
        self.assertEqual(client.objects()[0], entries)

    def test_an_indicator_with_samples_is_not_pruned(self) -> None:
        shutil.copytree(UPSTREAM, self.folder, dirs_exist_ok=True)
        office = self.office()
        self.apply(office)
        client = office.client()
        client.ask("POST", ["samples"], body=f"inline-good,web,{NOW - 5},1,1,10\n".encode())
        (self.folder / "slo-inline.yaml").unlink()
        status, planned, _ = self.apply(office, "--plan", "--prune")
        self.assertEqual(
            (status, planned[:2]), (1, ["- SLO inline-slo", "- AlertPolicy cpu-alerts"])
        )
        self.assertIn("  SLI inline-good has samples and stays", planned)
        status, done, _ = self.apply(office, "--prune")
        self.assertEqual((status, done[:-1]), (0, planned[:-1]))
        # Nothing refers to it any more, so that the office alone can say that it has samples.
        status, done, told = self.apply(office, "--prune")
        self.assertEqual(status, 2)
        self.assertIn("has_samples", told)

    def test_a_zone_that_differs_is_told(self) -> None:
        shutil.copytree(UPSTREAM, self.folder, dirs_exist_ok=True)
        office = self.office()
        office.client().keep_zone("America/New_York", b"EST5")
        status, _, told = self.apply(office)
        self.assertEqual(status, 2)
        self.assertIn("zone_differs", told)
        self.assertEqual(office.client().objects()[1], [])

    def test_no_office_is_2(self) -> None:
        shutil.copytree(UPSTREAM, self.folder, dirs_exist_ok=True)
        office = self.office()
        office.kill()
        status, _, told = self.apply(office, "--plan")
        self.assertEqual(status, 2)
        self.assertIn("no connection", told)


if __name__ == "__main__":
    unittest.main()
