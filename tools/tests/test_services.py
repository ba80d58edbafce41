"""The packages' units, started by the systemd of an empty machine as the page 'A team's set-up' says."""

from __future__ import annotations

import json
import tempfile
import unittest
from pathlib import Path
from typing import Any

import machine
from support import TOP

PAGE = TOP / "docs" / "desk.md"
EXAMPLES = "/usr/share/doc/slo-office/examples"
UNITS = ("slo_office", "slo-feed", "slo-notify")
ALL = " ".join(UNITS)
STATES = f"systemctl show --property=ActiveState,NRestarts --value {ALL} | xargs"
BUDGETS = "curl -s http://127.0.0.1:8080/budgets/web-slo"
JOURNAL = "sudo ls -l /var/lib/private/slo_office/office.journal"
FEED_STATE = "sudo ls /var/lib/private/slo-feed"

COMMANDS = {
    "install": "sudo apt install ./*.deb prometheus prometheus-alertmanager curl",
    # A machine without a network has no address at which an Alertmanager could meet others.
    "alone": "echo 'ARGS=\"--cluster.listen-address=\"' | sudo tee /etc/default/prometheus-alertmanager;"
    " sudo systemctl restart prometheus-alertmanager",
    "disabled": f"systemctl is-enabled {ALL} | xargs",
    # Nothing keeps the clock of this machine, so it is compared with the receiver's alone.
    "clock": "sudo sed -i 's|^clock = .*|clock = \"receiver\"|' /etc/slo-notify.toml",
    "define": f"curl -s --data-binary @{EXAMPLES}/feed/web.yaml http://127.0.0.1:8080/objects",
    "restart": "sudo systemctl restart slo-feed slo-notify; sleep 140",
    "states": STATES,
    "users": "ps -C slo_office,slo-feed,slo-notify -o user= | sort -u | xargs",
    "budgets": BUDGETS,
    "overview": "cat /run/slo-notify/overview.json",
    "metrics": "curl -s http://127.0.0.1:9469/metrics http://127.0.0.1:9464/metrics",
    # Ended again and again by something that passes, they are there when it has passed.
    "hurry": f"for it in {ALL}; do sudo mkdir -p /etc/systemd/system/$it.service.d;"
    " printf '[Service]\\nRestartSec=0\\n' | sudo tee /etc/systemd/system/$it.service.d/hurry.conf;"
    " done; sudo systemctl daemon-reload",
    "often": f"for n in $(seq 8); do sudo systemctl kill --signal=KILL {ALL}; sleep 2; done;"
    f" systemctl is-active {ALL} | xargs",
    "leisure": "sudo rm -r /etc/systemd/system/s*.service.d; sudo systemctl daemon-reload;"
    f" sudo systemctl restart {ALL}; sleep 5",
    # A clock that can't be compared with the receiver's for ten rounds, and then can again.
    "mute": "sudo systemctl stop prometheus-alertmanager; sudo sed -i '1i every = 1' /etc/slo-notify.toml;"
    " sudo sed -i 's/sleep 300/sleep 10/' /usr/lib/systemd/system/slo-notify-again.service;"
    " sudo systemctl daemon-reload; sudo systemctl restart slo-notify;"
    " for n in $(seq 60); do systemctl is-failed --quiet slo-notify && break; sleep 0.5; done;"
    " systemctl show --property=ActiveState,ExecMainStatus --value slo-notify | xargs",
    "heard": "sudo systemctl start prometheus-alertmanager;"
    " for n in $(seq 60); do systemctl is-active --quiet slo-notify && break; sleep 0.5; done;"
    " systemctl is-active slo-notify; sudo sed -i '/^every/d' /etc/slo-notify.toml;"
    f" sudo systemctl restart {ALL}; sleep 5",
    "origin": "sudo head -c 13 /var/lib/private/slo_office/office.journal | tail -c 4 | od -An -tu1;"
    " cat /etc/default/slo_office",
    "kill": f"sudo systemctl kill --signal=KILL {ALL}; sleep 15; {STATES}",
    "kept": BUDGETS,
    "remove": f"sudo apt remove slo-office slo-office-tools; systemctl is-active {ALL} | xargs",
    "left": f"{JOURNAL}; {FEED_STATE}",
    "purge": f"sudo apt purge slo-office slo-office-tools; {JOURNAL}; {FEED_STATE}",
    "again": "sudo apt install ./slo-office_*.deb; sudo systemctl start slo_office; sleep 1",
    "still": BUDGETS,
    "log": f"sudo journalctl --no-pager {' '.join(f'--unit={unit}' for unit in UNITS)}",
}


def commands() -> dict[str, str]:
    """The test's commands, with the page's own behind the installation."""
    block = PAGE.read_text().split("## As services", 1)[1].split("```\n", 2)[1]
    page = {f"page {number}": line for number, line in enumerate(block.splitlines())}
    first = list(COMMANDS)[:3]
    rest = {name: line for name, line in COMMANDS.items() if name not in first}
    return {**{name: COMMANDS[name] for name in first}, **page, **rest}


class ServicesTest(unittest.TestCase):
    def test_units(self) -> None:
        machine.needed()
        folder = Path(self.enterContext(tempfile.TemporaryDirectory()))
        told = commands()
        said = dict(zip(told, machine.said_on_empty_machine(folder, list(told.values()), 1200)))
        log = said["log"].text
        for name in said:
            if name not in ("disabled", "remove", "purge"):
                self.assertEqual(said[name].status, 0, f"{told[name]}\n{said[name].text}\n{log}")
        self.assertEqual(said["disabled"].text, "disabled disabled disabled\n")
        # Each came up and stayed, by a user of its own.
        self.assertEqual(said["states"].text, "0 active 0 active 0 active\n", log)
        self.assertNotIn("root", said["users"].text)
        before = self.budget(said["budgets"].text)
        self.assertGreater(before["den"], 0, log)
        office = json.loads(said["overview"].text)["offices"][0]
        self.assertTrue(office["up"], office)
        self.assertEqual([slo["name"] for slo in office["slos"]], ["web-slo"])
        for metric in (
            'slo_feed_newest_minute{sli="web-good"}',
            'slo_office_up{office="shop"} 1.0',
            "slo_notify_clock_trusted 1.0",
        ):
            self.assertIn(metric, said["metrics"].text, log)
        self.assertGreater(office["entries"], 2, "it isn't ticked")
        # Killed, they come back, and nothing is lost.
        self.assertTrue(said["kill"].text.endswith("1 active 1 active 1 active\n"), log)
        self.assertGreaterEqual(self.budget(said["kept"].text)["den"], before["den"])
        self.assertTrue(said["often"].text.endswith("active active active\n"), log)
        # One that can't page is seen to have failed, and comes back by itself.
        self.assertEqual(said["mute"].text, "3 failed\n", log)
        self.assertEqual(said["heard"].text, "active\n", log)
        self.assertEqual(*self.origins(said["origin"].text))
        # Without the package they are ended; the journal stays, and outlives a purge.
        self.assertTrue(said["remove"].text.endswith("inactive inactive inactive\n"), log)
        self.assertIn("state.json", said["left"].text)
        self.assertIn("office.journal", said["purge"].text)
        self.assertNotIn("state.json", said["purge"].text)
        self.assertGreaterEqual(self.budget(said["still"].text)["den"], before["den"])

    def origins(self, text: str) -> tuple[int, int]:
        """The journal's first minute, and the one that the page's first command wrote down."""
        held, wanted = text.splitlines()
        found = int.from_bytes(bytes(map(int, held.split())), "big")
        return found, int(wanted.removeprefix("ORIGIN="))

    def budget(self, text: str) -> dict[str, Any]:
        told: dict[str, Any] = json.loads(text)["budgets"][0]
        return told


if __name__ == "__main__":
    unittest.main()
