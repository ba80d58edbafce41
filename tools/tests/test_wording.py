"""What the pager says, and what goes along: numbers for people, in words that are true now."""

from __future__ import annotations

import re
import tempfile
import time
import unittest
from dataclasses import replace
from fractions import Fraction
from pathlib import Path

from notify_support import DOCUMENTS, Desk, Manager

from slo_tools.notify.alerts import annotations_of, labels_of
from slo_tools.notify.catalogue import Catalogue, read_catalogue
from slo_tools.notify.config import ReceiverConfig
from slo_tools.notify.deciding import Binding
from slo_tools.notify.receiver import Alertmanager, Sending
from slo_tools.notify.state import OpenAlert
from slo_tools.notify.wording import (
    BUILT_IN_RULES,
    Facts,
    Rule,
    decimal,
    decimal_of,
    legal_name,
    rule_of,
    short_percent,
    summary,
    target_text,
    window_text,
)

HOT = Facts(
    name="Checkout answers",
    target="99.9%",
    window="28d",
    policy="workbook-page",
    severity="page",
    state="breaching",
    rules=BUILT_IN_RULES["workbook-page"],
    burns={5: Fraction(91000, 3529), 30: Fraction(9), 60: Fraction(91000, 3529), 360: Fraction(5)},
    remaining=Fraction(39, 100),
    span=28 * 1440,
)


class SummaryTest(unittest.TestCase):
    def test_what_burns(self) -> None:
        self.assertEqual(
            summary(HOT),
            "Checkout answers (99.9% in 28d): burns 25.8 times too fast over 1h (page above 14.4)."
            " 39% left, gone in 10 h at this pace.",
        )
        soon = replace(HOT, remaining=Fraction(68, 1000))
        self.assertIn("6.8% left, gone in 106 min at this pace.", summary(soon))

    def test_a_spent_budget_is_said_to_be_spent(self) -> None:
        spent = replace(HOT, remaining=Fraction(-46, 10))
        self.assertTrue(summary(spent).endswith(" The budget is spent 5.6 times over."))
        spent = replace(HOT, remaining=Fraction(-499))
        self.assertTrue(summary(spent).endswith(" The budget is spent 500 times over."))
        self.assertTrue(summary(replace(HOT, remaining=Fraction(0))).endswith(" is spent."))
        self.assertNotIn("-", summary(spent))
        self.assertTrue(summary(replace(HOT, remaining=None)).endswith("14.4)."))

    def test_the_rule_that_holds_tells(self) -> None:
        slow = replace(HOT, burns={5: None, 30: Fraction(7), 60: Fraction(3), 360: Fraction(13, 2)})
        self.assertIn("burns 6.5 times too fast over 6h (page above 6)", summary(slow))
        # The hour burns, and no longer these five minutes: that rule doesn't hold.
        past = replace(slow, burns={**slow.burns, 5: Fraction(1), 60: Fraction(20)})
        self.assertIn("burns 6.5 times too fast over 6h (page above 6)", summary(past))
        # None holds at this minute: the one that is nearest.
        nearly = replace(
            HOT, burns={5: Fraction(9), 60: Fraction(9), 30: Fraction(1), 360: Fraction(2)}
        )
        self.assertIn("burns 9 times too fast over 1h (page above 14.4)", summary(nearly))
        even = replace(HOT, burns={5: Fraction(14.4), 60: Fraction("14.4"), 30: None, 360: None})
        self.assertIn("burns 14.4 times too fast over 1h (page above 14.4)", summary(even))

    def test_own_conditions(self) -> None:
        own = replace(
            HOT,
            policy="own",
            severity="ticket",
            rules=[Rule((90,), "gte", Fraction(2))],
            burns={90: Fraction(5, 2)},
            span=None,
        )
        self.assertIn("burns 2.5 times too fast over 90m (ticket from 2). 39% left.", summary(own))
        low = replace(own, rules=[Rule((1440,), "lt", Fraction(1, 10))], burns={1440: Fraction(0)})
        self.assertIn(": has a burn rate of 0 over 1d (ticket below 0.1). 39%", summary(low))
        self.assertIn(": own is breaching. 39% left.", summary(replace(own, rules=[])))

    def test_what_ended_does_not_burn(self) -> None:
        quiet = replace(HOT, state="quiet", burns={5: Fraction(0), 60: Fraction(1, 3)})
        self.assertEqual(
            summary(quiet),
            "Checkout answers (99.9% in 28d): back to normal, a burn rate of 0.33 over 1h"
            " (page above 14.4). 39% left.",
        )
        gone = summary(replace(HOT, state="gone"))
        self.assertIn("workbook-page doesn't watch it any more. 39% left.", gone)
        lacking = summary(replace(HOT, state="no_data", burns={}))
        self.assertIn(": no data over 1h (page above 14.4). 39% left.", lacking)
        for text in (summary(quiet), gone, lacking):
            self.assertNotIn("breaching", text)
            self.assertNotIn("pace", text)

    def test_a_calendars_window(self) -> None:
        # Ten days in with half of it spent: at 11 times the pace the other half lasts 12 hours.
        month = replace(
            HOT,
            window=window_text("1M", True),
            burns={5: Fraction(20), 60: Fraction(20), 360: None, 30: None},
            remaining=Fraction(19, 100),
            span=43_200,
            elapsed=14_400,
        )
        self.assertIn("(99.9% in a calendar month)", summary(month))
        self.assertIn("19% left, gone in 2 h at this pace.", summary(month))
        early = replace(month, elapsed=10_000_000)
        self.assertNotIn("pace", summary(early))

    def test_numbers(self) -> None:
        for value, text in (
            (Fraction(91000, 3529), "25.8"),
            (Fraction(144, 10), "14.4"),
            (Fraction(1, 3), "0.33"),
            (Fraction(6), "6"),
            (Fraction(0), "0"),
            (Fraction(10**30), str(10**30)),
            (Fraction(1000), "1000"),
        ):
            self.assertEqual(decimal(value)[:9], text[:9])
        self.assertEqual(
            [decimal_of(v) for v in (None, Fraction(0), Fraction(-1, 10**9))], ["", "0", "0"]
        )
        self.assertEqual(decimal_of(Fraction(-617, 97)), "-6.3608")
        self.assertEqual(
            [short_percent(Fraction(n, 10_000)) for n in (3900, 3876, 9999, 1, 10_000)],
            ["39%", "38.7%", "99.9%", "less than 0.1%", "100%"],
        )
        self.assertEqual(
            [target_text(text) for text in ("0.999", "99.95%", "0.9", "1", "x")],
            ["99.9%", "99.95%", "90%", "100%", "x"],
        )

    def test_rules_of_other_forms_are_none(self) -> None:
        self.assertIsNone(rule_of({}))
        self.assertIsNone(rule_of({"condition": {"lookbackWindow": "1h", "threshold": "1/0"}}))
        self.assertIsNone(rule_of({"condition": {"lookbackWindow": "often", "threshold": "1"}}))
        self.assertEqual(
            rule_of({"condition": {"lookbackWindow": "1h", "threshold": "2.5"}}),
            Rule((60,), "gte", Fraction(5, 2)),
        )


CARRYING = (
    DOCUMENTS.replace(
        "  name: shop\n",
        '  name: shop\n  labels:\n    team: front\n    tier: "1"\n    slo: mine\n    empty: ""\n'
        "  annotations:\n    runbook: http://wiki/shop\n    slo-office/stale: 8h\n",
        1,
    )
    .replace(
        "  name: answers\n",
        "  name: answers\n  labels:\n    team: back\n    pyrra.dev/owner: x\n"
        "    __name__: y\n    9to5: z\n    langs:\n    - go\n    - rust\n    deep:\n      a: b\n"
        "  annotations:\n    summary: mine\n    dash-board: http://d\n",
    )
    .replace("  - workbook-page\n", "  - workbook-page\n  - own\n")
    + """---
apiVersion: openslo/v1
kind: AlertPolicy
metadata:
  name: own
  labels:
    tier: "2"
  annotations:
    runbook: http://wiki/own
spec:
  conditions:
  - kind: AlertCondition
    metadata:
      name: own
    spec:
      severity: ticket
      condition:
        threshold: 2
        lookbackWindow: 90m
"""
)


class CarriedTest(Desk):
    def catalogue(self) -> Catalogue:
        _, office, _ = self.timed()
        client = office.client()
        client.define(CARRYING.encode())
        names = [(each.kind, each.name) for each in client.objects()[1]]
        return read_catalogue(client, names, 10)

    def test_labels_and_annotations_of_service_slo_and_policy(self) -> None:
        catalogue = self.catalogue()
        page, own = (Binding("answers", 0, name) for name in ("workbook-page", "own"))
        labels = labels_of(catalogue, "shop-office", page)
        self.assertEqual(
            labels,
            {
                "_9to5": "z",
                "_name__": "y",
                "alertname": "SloBurn",
                "indicator": "good",
                "langs": "go, rust",
                "notifier": "slo-notify",
                "objective": "0",
                "office": "shop-office",
                "policy": "workbook-page",
                "pyrra_dev_owner": "x",
                "service": "shop",
                "severity": "page",
                "slo": "answers",
                "team": "back",
                "tier": "1",
            },
        )
        self.assertEqual(labels_of(catalogue, "shop-office", own)["tier"], "2")
        told = annotations_of(catalogue, page, "breaching", 29_000_000, None, {"1h": Fraction(20)})
        self.assertEqual((told["runbook"], told["dash_board"]), ("http://wiki/shop", "http://d"))
        self.assertTrue(told["summary"].startswith("answers (99% in 30d): burns 20 times"), told)
        self.assertFalse([name for name in told if "stale" in name])
        burns = {"1h": Fraction(91000, 3529), "3d": None}
        told = annotations_of(catalogue, page, "breaching", 29_000_000, None, burns)
        self.assertEqual((told["burn_1h"], told["burn_3d"]), ("25.7863", ""))
        told = annotations_of(catalogue, own, "breaching", 29_000_000, None, {"90m": Fraction(3)})
        self.assertEqual(told["runbook"], "http://wiki/own")
        self.assertIn("burns 3 times too fast over 90m (ticket from 2)", told["summary"])

    def test_alertmanager_takes_them(self) -> None:
        catalogue = self.catalogue()
        binding = Binding("answers", 0, "own")
        folder = Path(self.enterContext(tempfile.TemporaryDirectory(prefix="slo-tools-")))
        manager = Manager(folder)
        manager.start()
        self.addCleanup(manager.kill)
        labels = labels_of(catalogue, "shop-office", binding)
        annotations = annotations_of(catalogue, binding, "breaching", 29_000_000, None, {})
        now = int(time.time()) // 60
        alert = OpenAlert(labels, annotations, now, "http://desk/#/a")
        receiver = Alertmanager(ReceiverConfig("alertmanager", manager.address), 5.0, 60)
        receiver.send([Sending(alert, None, True)], now)
        found = manager.alerts()["own"]
        self.assertEqual(found["labels"], labels)
        self.assertEqual(found["annotations"], annotations)

    def test_names_are_legal(self) -> None:
        for text in ("", "9", "__x", "ä", "a b", "a.b/c-d", "_", "__", "0" * 100):
            self.assertRegex(legal_name(text), r"^(?!__)[a-zA-Z_][a-zA-Z0-9_]*$")
        self.assertEqual(legal_name("team"), "team")
        self.assertTrue(re.fullmatch(r"[a-zA-Z_]\w*", legal_name("team:x")))


if __name__ == "__main__":
    unittest.main()
