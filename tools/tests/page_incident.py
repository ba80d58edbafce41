"""An incident of a shop, as the page shows it: what burns, what is on trial, what nobody watches."""

from __future__ import annotations

import copy
import json
import time
from typing import Any

from page_support import DAY, GUIDANCE, ROLLING, ROWS, TRIAL, indicator, service, slo_text
from support import OfficeServer

# The shop's outage began so many minutes ago, and of its thousand events a minute so many fail.
OUTAGE = 20
FAILED = 400
HISTORY = 8 * DAY
EVENTS = 1000
WINDOW = 30 * DAY
POLICIES: dict[str, list[str]] = {
    "calm": ["workbook-page"],
    "checkout": ["workbook-page", "workbook-ticket"],
    "exhausted": [],
    "search": ["workbook-ticket"],
    "tried": ["trial"],
    "unwatched": [],
}
# The rows of these fail so often all the time.
ALWAYS = {"exhausted": 1000, "search": 30}
# These fail since the outage began.
LATELY = {"checkout": FAILED, "tried": 100}
LINK = "https://alerts.example.org"


def documents() -> str:
    parts = [service("shop", "Shop front", GUIDANCE), service("search", "Search"), TRIAL]
    for name, policies in POLICIES.items():
        owner = "search" if name == "search" else "shop"
        text = slo_text(name, name.capitalize(), owner, name, "0.99", ROLLING)
        if policies:
            text += "  alertPolicies:\n" + "".join(f"  - {each}\n" for each in policies)
        parts += [indicator(name), text]
    return "---\n".join(parts)


def fill(office: OfficeServer, now: int) -> None:
    client = office.client()
    client.define(documents().encode())
    for name in POLICIES:
        failed = ALWAYS.get(name, 0)
        lines = [_row(name, now - ago, failed) for ago in range(10, HISTORY, 10)]
        if name in LATELY:
            lines = [_row(name, now - ago, 0) for ago in range(30, HISTORY, 10)]
            lines += [_row(name, now - ago, LATELY[name]) for ago in range(1, OUTAGE + 1)]
        elif name != "exhausted":
            lines += [_row(name, now - ago, failed) for ago in range(1, 10)]
        for begin in range(0, len(lines), ROWS):
            client.ask("POST", ["samples"], body="".join(lines[begin : begin + ROWS]).encode())
    client.ask("POST", ["tick"])


def _row(name: str, minute: int, failed: int) -> str:
    return f"{name},web,{minute},1,{EVENTS - failed},{EVENTS}\n"


def checkout_counts(later: int) -> tuple[int, int, int, int]:
    """Bad and total of the window, and of the last hour, so many minutes after the rows."""
    calm = len(range(30, HISTORY, 10))
    lately = len(range(30, 61 - later, 10))
    bad = OUTAGE * FAILED
    return bad, (calm + OUTAGE) * EVENTS, bad, (lately + OUTAGE) * EVENTS


def many(told: dict[str, Any], offices: int, slos: int) -> dict[str, Any]:
    """The same file with so many offices of so many SLOs, made of those that it has."""
    first = told["offices"][0]
    made: list[dict[str, Any]] = []
    for number in range(offices):
        slos_made: list[dict[str, Any]] = []
        for index in range(slos):
            slo = copy.deepcopy(first["slos"][index % len(first["slos"])])
            slo["name"] = f"part-{index:03}-of-the-shop-with-a-name-as-long-as-names-may-be-here-x"[
                :63
            ]
            slo["display"] = f"{slo['display']} {number}.{index} {slo['name']}"
            if index >= len(first["slos"]):
                slo["objectives"][0].update({"alerts": [], "state": "quiet"})
            slos_made.append(slo)
        made.append({**first, "name": f"office-{number:02}", "slos": slos_made})
    return {**told, "offices": made}


def fresh(told: str) -> dict[str, Any]:
    """A file as one that was written just now."""
    return {**json.loads(told), "second": int(time.time())}
