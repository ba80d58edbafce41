"""The guide's page 'Feeding it': its ten commands from top to bottom, and its table."""

from __future__ import annotations

import json
import os
import signal
import subprocess
import tempfile
import unittest
from pathlib import Path

import machine
from engines import PrometheusServer
from support import TOOLS, TOP, free_port, needed, program

PAGE = TOP / "docs" / "feeding.md"
EXAMPLES = TOP / "examples" / "feed"
INSTALLED = "/usr/share/doc/slo-office/examples/feed"


def commands() -> list[str]:
    """The ten commands of the page's first block."""
    block = PAGE.read_text().split("```shell\n", 1)[1].split("```", 1)[0]
    return [line[2:] for line in block.splitlines() if line.startswith("$ ")]


class PageTest(unittest.TestCase):
    def setUp(self) -> None:
        self.folder = Path(self.enterContext(tempfile.TemporaryDirectory()))

    def test_ten_commands_on_an_empty_machine(self) -> None:
        """All ten, as they stand, with Debian's own Prometheus as apt leaves it."""
        machine.needed()
        told = commands()
        self.assertEqual(len(told), 10)
        said = machine.said_on_empty_machine(self.folder, told, 1200)
        for line, each in zip(told, said):
            self.assertEqual(each.status, 0, f"{line}\n{each.text}")
        self.assertIn("Setting up slo-office-tools", said[0].text)
        self.judge([each.text for each in said[1:]])

    def test_nine_commands_at_ports_of_their_own(self) -> None:
        """All but the installation, in the checkout."""
        needed("curl")
        told = commands()
        self.assertTrue(told[0].startswith("sudo apt install prometheus curl ./slo-office_"))
        ports = {"9090": str(free_port()), "8080": str(free_port()), "9469": str(free_port())}
        prometheus = PrometheusServer(self.folder / "prometheus", port=int(ports["9090"]))
        prometheus.jobs = {"prometheus": [f"localhost:{ports['9090']}"]}
        self.addCleanup(prometheus.kill)
        prometheus.start()
        self.programs()
        self.judge(self.run_shell(self.rewritten(told[1:], ports)))

    def judge(self, answers: list[str]) -> None:
        """What the page says of the commands behind the installation."""
        self.assertEqual(json.loads(answers[3]), {"applied": 4, "entry": 0})
        self.assertIn(
            "web-good: counters of prometheus, a row a minute, summed as all: ", answers[4]
        )
        budget = json.loads(answers[7])["budgets"][0]
        self.assertGreater(budget["den"], 0)
        self.assertEqual(budget["num"], budget["den"])
        self.assertEqual(budget["remaining"], "1/1")
        self.assertIn('slo_feed_newest_minute{sli="web-good"}', answers[8])

    def programs(self) -> None:
        place = self.folder / "bin"
        place.mkdir()
        (place / "slo_office").symlink_to(program())
        (place / "slo-feed").symlink_to(TOOLS / "bin" / "slo-feed")

    def rewritten(self, told: list[str], ports: dict[str, str]) -> list[str]:
        """The commands with the test's ports, in the copied files too."""
        lines = []
        for line in told:
            for port, own in ports.items():
                line = line.replace(port, own)
            line = line.replace(INSTALLED, str(EXAMPLES))
            if line.startswith("mkdir"):
                edits = " ".join(f"-e s/{port}/{own}/" for port, own in ports.items())
                line += f" && sed -i {edits} web.yaml slo-feed.toml"
            lines.append(line)
        return lines

    def run_shell(self, lines: list[str]) -> list[str]:
        """Run all lines in one shell; the output of each."""
        mark = "--- next ---"
        script = "".join(f"{line}\necho; echo '{mark}'\n" for line in lines)
        path = f"{self.folder}/bin:{os.environ['PATH']}"
        shell = subprocess.Popen(
            ["bash", "-c", script],
            cwd=self.folder,
            stdout=subprocess.PIPE,
            text=True,
            env={**os.environ, "PATH": path},
            start_new_session=True,
        )
        try:
            output, _ = shell.communicate(timeout=400)
        finally:
            os.killpg(shell.pid, signal.SIGKILL)
        return [text.strip() for text in output.split(mark)]


if __name__ == "__main__":
    unittest.main()
