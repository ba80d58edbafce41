"""The page 'A team's set-up': its commands from top to bottom, in a folder, at ports of the test's own."""

from __future__ import annotations

import os
import re
import shutil
import signal
import subprocess
import tempfile
import unittest
from pathlib import Path

import machine
from support import TOOLS, TOP, free_port, needed, program

PAGE = TOP / "docs" / "desk.md"
EXAMPLES = TOP / "examples" / "desk"
INSTALLED = "/usr/share/doc/slo-office/examples/desk"
PORTS = ("8080", "8081", "9193", "9464")
PAGE_INSTALLED = "/usr/share/slo-office-tools/page"
MARK = "\001"


def commands() -> list[str]:
    blocks = re.findall(r"^```shell\n(.*?)^```", PAGE.read_text(), re.MULTILINE | re.DOTALL)
    return [line[2:] for block in blocks for line in block.splitlines() if line.startswith("$ ")]


class Page(unittest.TestCase):
    def setUp(self) -> None:
        self.folder = Path(self.enterContext(tempfile.TemporaryDirectory(prefix="slo-tools-")))
        # Where root runs the test nginx reads as another user.
        self.folder.chmod(0o755)

    def test_the_page_is_what_happens_on_an_empty_machine(self) -> None:
        """Every command as it stands, with what apt leaves running."""
        machine.needed()
        told = commands()
        said = machine.said_on_empty_machine(self.folder, told, 1200)
        self.assertEqual(said[0].status, 0, said[0].text)
        self.assertIn("Setting up slo-office-tools", said[0].text)
        self.judge(dict(zip(told[1:], (each.text for each in said[1:]))))

    def test_the_page_is_what_happens_at_ports_of_its_own(self) -> None:
        """All but the installation, in the checkout."""
        servers = [needed(name) for name in ("prometheus-alertmanager", "nginx", "curl")]
        told = commands()
        self.assertTrue(told[0].startswith("sudo apt install ./slo-office_*.deb"))
        place = self.folder / "bin"
        place.mkdir()
        (place / "slo_office").symlink_to(program())
        for server in servers:
            (place / Path(server).name).symlink_to(server)
        for tool in (TOOLS / "bin").iterdir():
            (place / tool.name).symlink_to(tool)
        examples = self.folder / "examples"
        shutil.copytree(EXAMPLES, examples / "desk")
        answers = dict(zip(told[1:], self.run_shell(told[1:], examples)))
        self.judge(answers)

    def run_shell(self, told: list[str], examples: Path) -> list[str]:
        ports = {port: str(free_port()) for port in PORTS}
        text = "\n".join(f"{line}\nprintf '{MARK}'" for line in told)
        text = text.replace(INSTALLED, str(examples / "desk"))
        files = [examples / "desk" / name for name in ("notify.toml", "nginx.conf")]
        files[1].write_text(files[1].read_text().replace(PAGE_INSTALLED, str(TOOLS / "page")))
        for port, own in ports.items():
            text = text.replace(port, own)
            for file in files:
                file.write_text(file.read_text().replace(port, own))
        run = subprocess.Popen(
            ["bash"],
            cwd=self.folder,
            stdin=subprocess.PIPE,
            stdout=subprocess.PIPE,
            stderr=subprocess.STDOUT,
            text=True,
            start_new_session=True,
            env={
                **os.environ,
                "PATH": f"{self.folder}/bin:{os.environ['PATH']}",
                # The tools ask at port 8080 where nothing else is said.
                "SLO_OFFICE_URL": f"http://127.0.0.1:{ports['8080']}",
            },
        )
        # The servers of the page go on until the page is over.
        script = f"{text}\nkill $(jobs -p)\nexit\n"
        try:
            out, _ = run.communicate(script, timeout=180)
        finally:
            try:
                os.killpg(run.pid, signal.SIGKILL)
            except ProcessLookupError:
                pass
        return out.split(MARK)[:-1]

    def judge(self, answers: dict[str, str]) -> None:
        """What the page says of its commands."""

        def of(front: str, number: int = 0) -> str:
            found = [text for line, text in answers.items() if line.startswith(front)]
            return found[number]

        self.assertEqual(of("slo_office serve"), "ready\n")
        self.assertEqual(of("slo-apply --check"), "4 objects, no fault\n")
        plan = of("slo-apply --plan slos")
        self.assertIn("status 1", plan)
        for line in ("+ zone Europe/Berlin", "+ Service shop", "+ SLO shop-month"):
            self.assertIn(line, plan)
        self.assertIn("4 defined", of("slo-apply slos"))
        self.assertTrue(of("slo-apply --plan --prune").endswith("4 the same\nstatus 0\n"))
        self.assertIn('"new":120', of("rows 120 1"))
        self.assertTrue(of("slo-gate --remaining").endswith("release\nstatus 0\n"))
        self.assertTrue(of("mkdir page").endswith("status 0\n"))
        self.assertTrue(of("slo-notify --once", 0).endswith("status 0\n"))
        alerts = of("curl -s http://127.0.0.1:9193")
        self.assertEqual(alerts.count('"summary":"Answers of the shop (99.9% in 30d): burns '), 2)
        for rule in ("(page above 14.4)", "(ticket above 1)"):
            self.assertIn(f"{rule}. The budget is spent 500 times over.", alerts)
        self.assertIn("<title>", of("curl -s http://127.0.0.1:8081/page/ "))
        told = of("curl -s http://127.0.0.1:8081/page/overview.json")
        self.assertIn('"name":"shop-answers"', told)
        self.assertIn('"remaining":"1/1"', of("curl -s http://127.0.0.1:8081/office/budgets"))
        self.assertTrue(of("slo-gate shop").endswith("hold\nstatus 1\n"))
        self.assertTrue(of("slo-notify --once", 1).endswith("[]\n\n"))
        self.assertEqual(of("grep -o"), '"remaining":"1/1"\n' * 2)
        tried = of("slo-try")
        self.assertTrue(tried.endswith("status 0\n"), tried)
        self.assertIn("0.999 -> 0.9999", tried)
        self.assertRegex(tried, r"pages in hindsight: precision 0 of 0 -> 0 of 0, recall 0 of 1 ->")
        self.assertRegex(
            tried, r"pages as it came: precision \d of \d -> \d of \d, recall 1 of 1 ->"
        )
        self.assertRegex(tried, r"failures +\S+ +60m +\d+m")
        tuned = of("slo-tune").splitlines()
        self.assertRegex(tuned[0], r"^POLICY +FALSE +failures$")
        self.assertRegex(tuned[1], r"^workbook-page +0 +-$")
        self.assertEqual(sum(line.startswith("above ") for line in tuned), 3)
        journal = of("slo-journal")
        self.assertIn("samples shop-answers: 60 newer", journal)
        self.assertIn("closed gate at", journal)
        self.assertNotIn("damaged", journal)
        changes = of("slo-journal --changes")
        self.assertIn("define Service shop", changes)
        self.assertIn("+ SLO shop-month", changes)
        self.assertNotIn("samples", changes)


if __name__ == "__main__":
    unittest.main()
