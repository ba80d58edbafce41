"""The units of slo-follow and of the hourly seal, started by the systemd of an empty machine."""

from __future__ import annotations

import json
import tempfile
import unittest
from pathlib import Path

import machine

OFFICE = "/var/lib/private/slo_office/office.journal"
COPY = "/var/lib/private/slo-follow"
CONFIG = (
    '[office]\\naddress = "http://127.0.0.1:8080"\\n[copy]\\nfolder = "/var/lib/slo-follow"\\n'
    "every = 1\\n"
)
TICK = "curl -s -X POST http://127.0.0.1:8080/tick"
STATE = f"sudo cat {COPY}/follow.json"
UNIT = "systemctl show --property=NRestarts,ExecMainStatus,ActiveState --value slo-follow | xargs"
COMMANDS = {
    "install": "sudo apt install ./*.deb curl",
    "disabled": "systemctl is-enabled slo-follow slo-seal.timer | xargs",
    "office": f"sudo systemctl start slo_office; sleep 2; {TICK}; sudo cp {OFFICE} /var/tmp/saved",
    "config": f"printf '{CONFIG}' | sudo tee /etc/slo-follow.toml",
    "follow": f"{TICK}; sudo systemctl start slo-follow; sleep 8; {STATE}",
    "more": f"{TICK}; {TICK}; sleep 5; {STATE}",
    "alike": f"sudo cmp {OFFICE} {COPY}/office.journal && echo alike",
    "users": "ps -C slo-follow,slo_office -o user= | sort -u | xargs",
    "kill": f"sudo systemctl kill --signal=KILL slo-follow; sleep 12; {UNIT}",
    "seal": "sudo systemctl start slo-seal; sudo cat /var/lib/slo-seal/seals",
    "timer": "sudo systemctl start slo-seal.timer; systemctl is-active slo-seal.timer",
    "restore": "sudo systemctl stop slo_office; sudo systemctl reset-failed slo-follow;"
    f" sudo cp /var/tmp/saved {OFFICE}; sudo systemctl start slo_office; sleep 6; {UNIT}",
    "stays": f"sleep 12; {UNIT}; {STATE}",
    "unsealed": "sudo systemctl start slo-seal; systemctl is-failed slo-seal",
    "log": "sudo journalctl --no-pager --unit=slo-follow --unit=slo-seal",
    "renewed": f"sudo mv {COPY}/office.journal {COPY}/before.journal;"
    f" sudo systemctl start slo-follow; sleep 8; {UNIT}; {STATE}",
    "purge": "sudo apt purge slo-office-tools;"
    f" sudo ls {COPY}/office.journal {COPY}/before.journal /var/lib/slo-seal/seals",
}


class FollowServicesTest(unittest.TestCase):
    def test_units(self) -> None:
        machine.needed()
        folder = Path(self.enterContext(tempfile.TemporaryDirectory()))
        said = dict(
            zip(COMMANDS, machine.said_on_empty_machine(folder, list(COMMANDS.values()), 900))
        )
        log = said["log"].text
        self.assertEqual(said["disabled"].text, "disabled disabled\n")
        # It follows, by a user of its own, and comes back when it is killed.
        for name, entries in (("follow", 3), ("more", 5)):
            text = said[name].text
            self.assertIn('{"all_came"', text, log)
            told = json.loads(text[text.index('{"all_came"') :])
            self.assertEqual((told["entries"], told["diverged"]), (entries, None), log)
            self.assertIsNotNone(told["compared"])
        self.assertIn("alike", said["alike"].text, log)
        self.assertNotIn("root", said["users"].text)
        self.assertEqual(said["kill"].text, "1 0 active\n", log)
        # A seal is made; another history has status 9, and isn't started again.
        self.assertIn(" entries 5 bytes ", said["seal"].text, log)
        self.assertEqual(said["timer"].text, "active\n")
        self.assertEqual(said["restore"].text, "0 9 failed\n", log)
        self.assertTrue(said["stays"].text.startswith("0 9 failed\n"), log)
        self.assertIn('"diverged": "', said["stays"].text)
        self.assertIn("begin a new copy: move /var/lib/slo-follow/office.journal away", log)
        self.assertIn("failed", said["unsealed"].text)
        self.assertIn("not sealed: the seal of line 1, of ", log)
        # A new copy is begun as the page says, and outlives the package.
        self.assertTrue(said["renewed"].text.startswith("0 0 active\n"), log)
        self.assertIn('"entries": 2', said["renewed"].text)
        self.assertEqual(said["purge"].text.count("/office.journal"), 1)
        for name in ("office.journal", "before.journal", "seals"):
            self.assertIn(name, said["purge"].text)


if __name__ == "__main__":
    unittest.main()
