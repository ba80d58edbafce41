"""The office's client: answers, refusals by status, and what is tried again."""

from __future__ import annotations

import json
import threading
import unittest
from collections.abc import Callable
from fractions import Fraction
from http.server import BaseHTTPRequestHandler, ThreadingHTTPServer
from typing import Any

from support import TOP, free_port, running_office

from slo_tools.answers import Batch, SampleRow
from slo_tools.office import Office, Pauses
from slo_tools.refusals import (
    BadRequest,
    ClockRange,
    Conflict,
    Foreign,
    Full,
    NoAnswer,
    NotFound,
    Refusal,
    Unprocessable,
)

ROW = SampleRow("shop", "web", 5, 1, "9", 10)
TAKEN: Any = {"entry": 2, "new": 1, "newer": 0, "repeated": 0, "superseded": 0}


class Scripted(unittest.TestCase):
    """A server that gives the answers of a list, one after another, then none."""

    def setUp(self) -> None:
        self.answers: list[tuple[int, object]] = []
        self.asked: list[tuple[str, str, bytes, str]] = []
        case = self

        class Answering(BaseHTTPRequestHandler):
            protocol_version = "HTTP/1.1"

            def answer(self) -> None:
                body = self.rfile.read(int(self.headers.get("Content-Length", "0")))
                link = self.headers.get("Connection", "")
                case.asked.append((self.command, self.path, body, link))
                if not case.answers:
                    self.close_connection = True
                    return
                status, told = case.answers.pop(0)
                content = told if isinstance(told, bytes) else json.dumps(told).encode()
                self.send_response(status)
                if not isinstance(told, bytes):
                    self.send_header("Content-Type", "application/json")
                self.send_header("Content-Length", str(len(content)))
                self.end_headers()
                self.wfile.write(content)

            do_GET = do_POST = do_PUT = do_DELETE = answer

            def log_message(self, *_: object) -> None:
                pass

        server = ThreadingHTTPServer(("127.0.0.1", 0), Answering)
        threading.Thread(target=server.serve_forever, daemon=True).start()
        self.addCleanup(server.server_close)
        self.addCleanup(server.shutdown)
        self.pauses: list[float] = []
        self.office = Office(
            f"http://127.0.0.1:{server.server_port}",
            pauses=Pauses(tries=4, first=1.0, factor=3.0, longest=5.0),
            sleep=self.pauses.append,
        )

    def post(self) -> Batch:
        return self.office.post_samples([ROW])


class OfficeTest(Scripted):
    def test_a_batch(self) -> None:
        self.answers = [(200, TAKEN)]
        self.assertEqual(self.post(), Batch(2, 1, 0, 0, 0))
        self.assertEqual(self.asked, [("POST", "/samples", b"shop,web,5,1,9,10\n", "close")])

    def test_refusals(self) -> None:
        table: list[tuple[int, dict[str, object], type[Refusal]]] = [
            (400, {"error": "body", "record": 1}, BadRequest),
            (404, {"error": "not_found"}, NotFound),
            (405, {"error": "method"}, BadRequest),
            (409, {"amount": "1,2", "error": "conflict", "revision": 3, "row": 1}, Conflict),
            (413, {"error": "message"}, BadRequest),
            (409, {"amount": "withdrawn", "error": "conflict", "revision": 3, "row": 1}, Conflict),
            (422, {"error": "early", "minute": 5, "origin": 9, "row": 1}, Unprocessable),
            (422, {"error": "version", "row": 1}, Unprocessable),
            (431, {"error": "message"}, BadRequest),
            (500, {"error": "clock_range", "end": 1, "reading": 2}, ClockRange),
            (501, {"error": "message"}, BadRequest),
            (507, {"error": "limit", "which": "cells"}, Full),
        ]
        for status, told, kind in table:
            with self.subTest(status):
                self.answers = [(status, told)]
                with self.assertRaises(kind) as caught:
                    self.post()
                self.assertIs(type(caught.exception), kind)
                self.assertEqual(caught.exception.word, told["error"])
                members = {k: v for k, v in told.items() if k != "error"}
                self.assertEqual(caught.exception.members, members)
        self.assertEqual(self.pauses, [])

    def test_what_passes_is_tried_again(self) -> None:
        self.answers = [
            (500, {"error": "disk_fault"}),
            (503, {"error": "no_memory"}),
            (502, b"<html>Bad Gateway</html>"),
            (200, TAKEN),
        ]
        self.assertEqual(self.post().new, 1)
        self.assertEqual(self.pauses, [1.0, 3.0, 5.0])

    def test_no_answer_in_the_end(self) -> None:
        self.answers = [(500, {"error": "disk_fault"})] * 4
        with self.assertRaises(NoAnswer) as caught:
            self.post()
        self.assertIn("status 500 disk_fault", str(caught.exception))
        self.assertEqual(len(self.asked), 4)

    def test_links_that_break(self) -> None:
        with self.assertRaises(NoAnswer):
            self.post()
        self.assertEqual(len(self.asked), 4)
        away = Office(f"http://127.0.0.1:{free_port()}", pauses=Pauses(tries=1))
        with self.assertRaises(NoAnswer):
            away.notices()

    def test_a_tick_is_sent_once(self) -> None:
        with self.assertRaises(NoAnswer):
            self.office.tick()
        self.assertEqual(len(self.asked), 1)

    def test_answers_of_others(self) -> None:
        for status, content in ((401, b"password"), (200, b"<html>"), (200, b"[1]"), (404, b"x")):
            with self.subTest(status=status, content=content):
                self.answers = [(status, content)]
                with self.assertRaises(Foreign):
                    self.post()

    def test_a_kept_link(self) -> None:
        self.answers = [(200, TAKEN)] * 2
        with self.office.kept_link():
            self.post()
            self.post()
        self.assertEqual([asked[3] for asked in self.asked], ["keep-alive"] * 2)

    def test_budgets(self) -> None:
        budget = {
            "burn": "1/2",
            "den": 10,
            "error": "1/20",
            "from": 5,
            "num": 9,
            "objective": 0,
            "remaining": None,
        }
        self.answers = [(200, {"at": 9, "budgets": [budget], "entries": 3})]
        found = self.office.budgets("shop-slo", 9)
        self.assertEqual(self.asked[0][:2], ("GET", "/budgets/shop-slo?at=9"))
        self.assertEqual((found.at, found.entries), (9, 3))
        self.assertEqual(found.budgets[0].burn, Fraction(1, 2))
        self.assertIsNone(found.budgets[0].remaining)

    def test_queries_that_an_office_lacks(self) -> None:
        self.answers = [(404, {"error": "not_found"})] * 2
        self.assertIsNone(self.office.status())
        with self.assertRaises(NotFound):
            self.office.row("shop", "web", 5)

    def test_whether_an_office_is_upgraded(self) -> None:
        minute = 67_108_863
        told = [
            (422, {"error": "version", "row": 1}),
            (422, {"error": "open_minute", "minute": minute, "moment": 9, "row": 1}),
            (400, {"error": "body", "record": 1}),
            (404, {"error": "not_found"}),
        ]
        self.answers = list(told)
        self.assertEqual(
            [self.office.is_upgraded("shop") for _ in told], [False, True, False, False]
        )
        asked = ("POST", "/samples", b"shop,upgraded,67108863,1,,\n", "close")
        self.assertEqual(self.asked, [asked] * 4)

    def test_an_upgrade(self) -> None:
        self.answers = [(200, {"entry": 3}), (200, {"entry": None})]
        self.assertEqual([self.office.upgrade(), self.office.upgrade()], [3, None])
        self.assertEqual(self.asked, [("POST", "/upgrade", b"", "close")] * 2)

    def test_an_office_is_upgraded_once(self) -> None:
        with running_office(29_000_000) as office:
            client = office.client()
            client.define((TOP / "examples" / "targets.yaml").read_bytes())
            client.define((TOP / "examples" / "shop.yaml").read_bytes())
            withdrawn = [SampleRow("shop-good", "web", 29_000_000, 2, "")]
            self.assertFalse(client.is_upgraded("shop-good"))
            with self.assertRaisesRegex(Unprocessable, "^422 version row=1$"):
                client.post_samples(withdrawn)
            self.assertEqual((client.upgrade(), client.upgrade()), (2, None))
            self.assertTrue(client.is_upgraded("shop-good"))
            self.assertEqual(client.post_samples(withdrawn), Batch(3, 1, 0, 0, 0))
            with self.assertRaises(Conflict) as caught:
                client.post_samples([SampleRow("shop-good", "web", 29_000_000, 2, "1", 2)])
            self.assertEqual(caught.exception.text("amount"), "withdrawn")

    def test_what_cant_stand_in_a_request(self) -> None:
        calls: list[Callable[[], object]] = [
            lambda: self.office.budgets("a b"),
            lambda: self.office.object_text("SLI", "a?b"),
            lambda: self.office.burn("a", 0, "1h&at=3"),
            lambda: self.office.post_samples([ROW] * 1001),
        ]
        for call in calls:
            with self.assertRaises(ValueError):
                call()
        self.assertEqual(self.asked, [])


if __name__ == "__main__":
    unittest.main()
