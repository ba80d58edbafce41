"""What the tools take for an answer: it came whole, in time, within a size, of the form it says."""

from __future__ import annotations

import json
import socket
import subprocess
import tempfile
import threading
import time
import unittest
from collections.abc import Callable
from pathlib import Path
from typing import Any

from page_support import HOST, Front
from support import SHOP, OfficeServer, needed, running_office

from hostile import Cutting, Doing, chunked, hostile, says, spelled
from slo_tools import questions
from slo_tools.office import Office, Pauses
from slo_tools.refusals import Foreign, NoAnswer, NotFound, OfficeError, Refusal
from slo_tools.wire import Peer, Silence, TooLong, address_of

ORIGIN = 29_000_000
NOTICES = b'{"entries":7,"notices":[]}'
ONCE = Pauses(tries=1)


def peer(address: str, timeout: float = 5.0, most: int = 10_000) -> Peer:
    return Peer(address_of(address), timeout=timeout, most=most)


class WireTest(unittest.TestCase):
    def silence(self, doing: Doing, timeout: float = 5.0) -> str:
        """Why an answer isn't taken."""
        with hostile(doing) as server, self.assertRaises(Silence) as caught:
            peer(server.address, timeout).asked_once("GET", "/notices").whole()
        return str(caught.exception)

    def test_an_answer_that_is_cut_at_any_byte_is_none(self) -> None:
        for whole in (spelled(NOTICES), chunked(NOTICES, 10)):
            with hostile(says(whole)) as server:
                found = peer(server.address).asked_once("GET", "/notices")
                self.assertEqual((found.status, found.whole()), (200, NOTICES))
                for length in range(len(whole)):
                    server.doing = says(whole[:length])
                    with self.subTest(length=length), self.assertRaises(Silence):
                        peer(server.address).asked_once("GET", "/notices").whole()
                self.assertEqual(len(server.heads), 1 + len(whole))

    def test_a_byte_now_and_then_ends_at_the_deadline(self) -> None:
        def slowly(link: socket.socket, head: bytes) -> None:
            for byte in spelled(b" " * 5_000):
                link.sendall(bytes([byte]))
                time.sleep(0.01)

        def never_a_head(link: socket.socket, head: bytes) -> None:
            link.sendall(b"HTTP/1.1 200 OK\r\n")
            while True:
                link.sendall(b"Filling: 1\r\n")
                time.sleep(0.01)

        for doing in (slowly, never_a_head):
            begin = time.monotonic()
            self.assertEqual(self.silence(doing, timeout=0.4), "no answer in time")
            self.assertLess(time.monotonic() - begin, 2.0)

    def test_an_answer_has_a_limit_in_bytes(self) -> None:
        def endless(link: socket.socket, head: bytes) -> None:
            link.sendall(b"HTTP/1.1 200 OK\r\nContent-Type: text/plain\r\n\r\n")
            while True:
                link.sendall(b"x" * 65_536)

        many_pieces = chunked(b"y" * 10_001, 100)
        for doing in (endless, says(spelled(b"z" * 10_001)), says(many_pieces)):
            with hostile(doing) as server, self.assertRaisesRegex(TooLong, "longer than 10000"):
                peer(server.address).asked_once("GET", "/notices")
        with hostile(says(spelled(b"z" * 10_000))) as server:
            self.assertEqual(
                len(peer(server.address).asked_once("GET", "/notices").content), 10_000
            )

    def test_heads_of_another_form_are_none(self) -> None:
        body = b"\r\n\r\n" + NOTICES
        for head, why in (
            (b"HTTP/1.1 200 OK\r\nContent-Length: 26\r\nContent-Length: 25", "no number"),
            (b"HTTP/1.1 200 OK\r\nContent-Length: +26", "no number"),
            (b"HTTP/1.1 200 OK\r\nContent-Length: 2_6", "no number"),
            (b"HTTP/1.1 200 OK\r\nContent-Length: 26\r\nTransfer-Encoding: chunked", "two ways"),
            (b"HTTP/1.1 200 OK\r\nTransfer-Encoding: gzip, chunked", "unknown one"),
            (b"HTTP/1.1 200 OK\r\nContent-Length: 26\r\nContent-Encoding: gzip", "encoded"),
            (b"HTTP/1.1 200 OK\r\nContent-Type: application/json", "how long"),
            (b"HTTP/1.1 200 OK\r\n folded: 1\r\nContent-Length: 26", "another form"),
            (b"SSH-2.0-OpenSSH_9.2", "no answer of HTTP"),
            (b"HTTP/1.1 200 OK\r\nLong: " + b"x" * 70_000, "too long"),
            (b"HTTP/1.1 100 Continue\r\n\r\n" * 20, "no answer of HTTP"),
            (b"HTTP/1.1 103 Early Hints\r\n\r\n" * 20, "doesn't begin"),
        ):
            with self.subTest(head=head[:80]):
                self.assertIn(why, self.silence(says(head + body)))
        self.assertIn("pieces", self.silence(says(chunked(NOTICES, 26).replace(b"1a\r", b"1z\r"))))
        self.assertIn("pieces", self.silence(says(chunked(NOTICES, 26).replace(b"1a\r", b"19\r"))))
        self.assertIn("cut", self.silence(says(chunked(NOTICES, 26).replace(b"1a\r", b"ff\r"))))

    def test_interim_answers_are_passed_over(self) -> None:
        told = b"HTTP/1.1 100 Continue\r\n\r\nHTTP/1.1 103 Early Hints\r\nLink: a\r\n\r\n"
        with hostile(says(told + spelled(NOTICES))) as server:
            self.assertEqual(peer(server.address).asked_once("GET", "/").whole(), NOTICES)

    def test_nothing_is_asked_elsewhere(self) -> None:
        with hostile(says(spelled(NOTICES))) as elsewhere:
            for status in ("301 Moved", "302 Found", "303 See", "307 Kept", "308 Kept"):
                more = f"Location: {elsewhere.address}/notices\r\n"
                with hostile(says(spelled(b"", status=status, more=more))) as server:
                    office = Office(server.address, pauses=ONCE)
                    with self.assertRaisesRegex(Foreign, f"status {status[:3]}"):
                        office.notices()
                    with self.assertRaisesRegex(Foreign, f"status {status[:3]}"):
                        office.tick()
            self.assertEqual(elsewhere.heads, [])

    def test_addresses(self) -> None:
        for text, place, path in (
            ("http://127.0.0.1:8080", "http://127.0.0.1:8080", ""),
            ("https://office.example.org/a/b?c=d", "https://office.example.org", "/a/b?c=d"),
            ("HTTP://[::1]:80/", "http://[::1]", "/"),
        ):
            found = address_of(text)
            self.assertEqual((found.place, found.path), (place, path))
        for text in (
            "127.0.0.1:8080",
            "ftp://a",
            "http://",
            "http://a:port",
            "http://a:0",
            "http://a/b c",
            "http://a/b#c",
            "http://a/\r\nX: y",
            "http://a b/",
        ):
            with self.subTest(text), self.assertRaisesRegex(ValueError, "is no address as http"):
                address_of(text)
        for text in ("http://user:s3cret@a/", "https://user@a", "http://:s3cret@a:1"):
            with self.subTest(text), self.assertRaisesRegex(ValueError, "password") as caught:
                Office(text)
            self.assertNotIn("s3cret", str(caught.exception))

    def test_a_password_and_a_token_are_sent(self) -> None:
        with hostile(says(spelled(NOTICES))) as server:
            Office(server.address, credentials=("user", "pass"), pauses=ONCE).notices()
            Office(server.address, token="t0ken", pauses=ONCE).notices()
        self.assertIn(b"\r\nAuthorization: Basic dXNlcjpwYXNz\r\n", server.heads[0])
        self.assertIn(b"\r\nAuthorization: Bearer t0ken\r\n", server.heads[1])
        self.assertTrue(all(b"Accept-Encoding: identity" in head for head in server.heads))

    def test_a_certificate_that_nobody_trusts_is_said_to_be(self) -> None:
        needed("openssl"), needed("nginx")
        office = self.enterContext(running_office(ORIGIN))
        front = local_front(self, office.port)
        credentials = ("team", "secret")
        with self.assertRaisesRegex(NoAnswer, "certificate isn't trusted: .*--ca") as caught:
            Office(front.address, credentials=credentials).notices()
        self.assertNotIn("no connection", str(caught.exception))
        found = Office(front.address, credentials=credentials, verify=front.certificate)
        self.assertEqual(found.notices(), [])
        elsewhere = front.address.replace("localhost", "127.0.0.1")
        with self.assertRaisesRegex(NoAnswer, "another host's"):
            Office(elsewhere, verify=front.certificate, pauses=ONCE).notices()
        with self.assertRaisesRegex(NoAnswer, "nothing .* is no file of certificates"):
            Office(front.address, verify=f"{front.folder}/nothing", pauses=ONCE).notices()
        with self.assertRaisesRegex(NoAnswer, "TLS"):
            Office(f"https://localhost:{office.port}", pauses=ONCE).notices()


def local_front(case: unittest.TestCase, port: int) -> LocalFront:
    """nginx in front of an office, ended with the test."""
    name = case.enterContext(tempfile.TemporaryDirectory(prefix="slo-wire-"))
    folder = Path(name) / "nginx"
    folder.mkdir()
    front = LocalFront(folder, port)
    case.addCleanup(front.stop)
    return front


class LocalFront(Front):
    """nginx with the shipped text for the name that this machine has for itself."""

    @property
    def address(self) -> str:
        return f"https://localhost:{self.port}"

    @property
    def certificate(self) -> str:
        return f"{self.folder}/office.crt"

    def _make_secrets(self) -> None:
        super()._make_secrets()
        words = ["req", "-x509", "-newkey", "rsa:2048", "-nodes", "-days", "2"]
        words += ["-subj", "/CN=localhost", "-addext", "subjectAltName=DNS:localhost"]
        files = ["-keyout", f"{self.folder}/office.key", "-out", f"{self.folder}/office.crt"]
        subprocess.run(["openssl", *words, *files], check=True, capture_output=True)

    def _text(self, office: int) -> str:
        return super()._text(office).replace(HOST, "localhost")


# What an office never says; each in place of any member of a good answer.
ODD: list[Any] = [
    None,
    True,
    -1,
    1.5,
    10**60,
    "",
    "x",
    "1/0",
    "9" * 500,
    [],
    [1],
    [[1]],
    {},
    [None],
]


class TypedTest(unittest.TestCase):
    """Members of another type are an answer of another server, whatever they are."""

    answers: list[tuple[Callable[[Office], object], dict[str, Any]]] = [
        (
            lambda office: office.objects(),
            {"entries": 1, "objects": [{"kind": "SLI", "name": "a"}]},
        ),
        (
            lambda office: office.row("a", "b", 1),
            {"entries": 1, "row": {"amount": "1", "revision": 1, "total": 2}},
        ),
        (
            lambda office: office.notices(),
            {
                "notices": [
                    {
                        "at": 1,
                        "number": 1,
                        "objective": 0,
                        "policy": "p",
                        "slo": "s",
                        "state": "quiet",
                    }
                ]
            },
        ),
        (
            lambda office: office.budgets("a"),
            {
                "at": 1,
                "entries": 1,
                "budgets": [
                    {
                        "burn": "1/2",
                        "den": 1,
                        "error": "1/2",
                        "from": 1,
                        "num": 1,
                        "objective": 0,
                        "remaining": "1/2",
                    }
                ],
            },
        ),
        (
            lambda office: office.burn("a", 0, "1h"),
            {"at": 1, "burn": "1/2", "den": 1, "entries": 1, "num": 1},
        ),
        (
            lambda office: office.alerts("a", 0, "p", 1, 2),
            {"entries": 1, "intervals": [[1, 2]], "state": "quiet"},
        ),
        (lambda office: office.status(), {"at": 1, "entries": 1, "origin": 0, "cells": [1, 2]}),
        (lambda office: office.sums("a", 0, 1, 2, 1), {"sums": [[1, 2]]}),
        (
            lambda office: office.exclusions(),
            {"exclusions": [{"from": 1, "id": "a", "live": True, "slo": "s", "to": 2}]},
        ),
        (lambda office: office.zones(), {"zones": ["a/b"]}),
        (lambda office: office.tick(), {"entry": 1, "notices": 2}),
        (lambda office: office.take(1), {"entry": 1}),
        (lambda office: office.define(b""), {"applied": 1, "entry": 1}),
        (
            lambda office: office.post_samples([]),
            {"entry": 1, "new": 1, "newer": 0, "repeated": 0, "superseded": 0},
        ),
    ]

    def test_each_member_is_of_its_type_or_the_answer_is_foreign(self) -> None:
        refused = 0
        for ask, good in self.answers:
            with hostile(says(spelled(dumped(good)))) as server:
                office = Office(server.address, pauses=ONCE)
                ask(office)
                for bad in mutations(good):
                    server.doing = says(spelled(dumped(bad)))
                    try:
                        ask(office)
                    except (OfficeError, NotFound) as fault:
                        self.assertIsInstance(fault, Foreign)
                        refused += 1
        self.assertGreater(refused, 500)

    def test_contents_that_are_no_object_are_foreign(self) -> None:
        for content in (
            b"",
            b"[" * 100_000,
            b'{"a":' * 100_000,
            b"\xff\xfe",
            b'{"entries":' + b"9" * 100_000 + b',"notices":[]}',
            b'{"entries":NaN,"notices":[]}',
            b"null",
            b"[]",
            b'{"entries":7,"notices":[]}x',
        ):
            with self.subTest(content=content[:20]), hostile(says(spelled(content))) as server:
                with self.assertRaises(Foreign):
                    Office(server.address, pauses=ONCE).notices()

    def test_what_is_told_of_an_answer_is_short_and_printable(self) -> None:
        members = {"error": "x\x1b[2J\u009b" + "y" * 10_000, "which": "\ud800"}
        for status in ("409 Conflict", "422 No"):
            with hostile(says(spelled(dumped(members), status=status))) as server:
                with self.assertRaises(Refusal) as caught:
                    Office(server.address, pauses=ONCE).notices()
            told = str(caught.exception)
            self.assertLess(len(told), 600)
            self.assertTrue(told.isprintable(), told)

    def test_only_json_is_read_as_json(self) -> None:
        for kind in ("text/html", "text/plain", "application/octet-stream"):
            with hostile(says(spelled(NOTICES, kind))) as server:
                with self.assertRaises(Foreign):
                    Office(server.address, pauses=ONCE).notices()
        with hostile(says(spelled(NOTICES, "application/json; charset=utf-8"))) as server:
            self.assertEqual(Office(server.address, pauses=ONCE).notices(), [])
        with hostile(says(spelled(b"<html>", "text/html"))) as server:
            with self.assertRaises(Foreign):
                Office(server.address, pauses=ONCE).object_text("SLO", "a")

    def test_a_feed_of_a_mebibyte_costs_no_guessing(self) -> None:
        content = bytes(range(256)) * 4096
        with hostile(says(spelled(content, "application/octet-stream"))) as server:
            begin = time.monotonic()
            found = Office(server.address, pauses=ONCE).answer("GET", ["entries"], {"from": 0})
            self.assertEqual((found.content, found.members), (content, None))
            self.assertLess(time.monotonic() - begin, 0.5)


def dumped(value: object) -> bytes:
    return json.dumps(value).encode()


def mutations(value: Any) -> list[Any]:
    """The value with each of its members gone, and each replaced by what is odd there."""
    if isinstance(value, dict):
        found: list[Any] = []
        for key in value:
            rest = {name: member for name, member in value.items() if name != key}
            found += [rest, *({**rest, key: bad} for bad in [*ODD, *mutations(value[key])])]
        return found
    if isinstance(value, list):
        return [[bad] for bad in [*ODD, *(mutations(value[0]) if value else [])]]
    return []


class TogetherTest(unittest.TestCase):
    """Many questions on one link."""

    def office(self) -> OfficeServer:
        office = self.enterContext(running_office(ORIGIN))
        office.client().define(SHOP.encode())
        return office

    def cutting(self, office: OfficeServer) -> Cutting:
        proxy = Cutting(office.port)
        self.addCleanup(proxy.close)
        return proxy

    def test_a_thousand_and_one_questions(self) -> None:
        office = self.office()
        proxy = self.cutting(office)
        kinds = [("Service", "shop"), ("SLI", "good"), ("SLI", "none")]
        asked = [questions.object_text(*kinds[number % 3]) for number in range(1_001)]
        found = Office(proxy.address, pauses=ONCE).asked(asked)
        texts = {kind: office.client().object_text(*kind) for kind in kinds[:2]}
        self.assertEqual(len(found), 1_001)
        for number, outcome in enumerate(found):
            if number % 3 == 2:
                with self.assertRaises(NotFound):
                    outcome.get()
            else:
                self.assertEqual(outcome.get(), texts[kinds[number % 3]])
        self.assertEqual(proxy.links, 2)
        self.assertEqual(len(proxy.questions), 1_001)
        self.assertEqual(Office(proxy.address, pauses=ONCE).asked([]), [])

    def test_a_link_that_is_cut_at_any_byte_is_gone_on_with(self) -> None:
        office = self.office()
        proxy = self.cutting(office)
        client = Office(proxy.address, pauses=Pauses(tries=2, first=0.0))
        asked: list[questions.Question[Any]] = [
            questions.object_text("Service", "shop"),
            questions.notices(),
            questions.budgets("none"),
            questions.object_text("SLI", "good"),
        ]
        whole = [str(outcome) for outcome in client.asked(asked)]
        self.assertEqual(proxy.links, 1)
        length = proxy.came
        self.assertGreater(length, 500)
        for cut in range(1, length):
            proxy.cuts = [cut]
            self.assertEqual([str(outcome) for outcome in client.asked(asked)], whole)
        self.assertEqual(proxy.links, 1 + 2 * (length - 1))

    def test_a_link_that_always_closes_early_ends(self) -> None:
        office = self.office()
        proxy = self.cutting(office)
        proxy.cuts = [40] * 100
        pauses: list[float] = []
        client = Office(
            proxy.address, pauses=Pauses(tries=3, first=1.0, factor=2.0), sleep=pauses.append
        )
        with self.assertRaisesRegex(NoAnswer, "the answer was cut"):
            client.asked([questions.notices()] * 5)
        self.assertEqual((proxy.links, pauses), (3, [1.0, 2.0]))

    def test_an_answer_a_link_is_enough(self) -> None:
        with hostile(says(spelled(NOTICES).replace(b"keep-alive", b"close"))) as server:
            found = Office(server.address, pauses=ONCE).asked([questions.notices()] * 7)
            self.assertEqual([outcome.get() for outcome in found], [[]] * 7)
            self.assertEqual(len(server.heads), 7)

    def test_what_passes_is_asked_again(self) -> None:
        busy = spelled(b'{"error":"no_memory"}', status="503 Service Unavailable")
        answers = [spelled(NOTICES) + busy + spelled(NOTICES), spelled(NOTICES)]
        pauses: list[float] = []
        with hostile(lambda link, head: link.sendall(answers.pop(0))) as server:
            office = Office(server.address, pauses=Pauses(tries=2), sleep=pauses.append)
            found = office.asked([questions.notices()] * 3)
            self.assertEqual([outcome.get() for outcome in found], [[]] * 3)
        self.assertEqual(len(server.heads), 2)

    def test_together_they_have_a_time(self) -> None:
        def slowly(link: socket.socket, head: bytes) -> None:
            while True:
                for byte in spelled(NOTICES):
                    link.sendall(bytes([byte]))
                    time.sleep(0.01)

        with hostile(slowly) as server:
            begin = time.monotonic()
            with self.assertRaisesRegex(NoAnswer, "no answer in time"):
                Office(server.address, timeout=0.3, pauses=ONCE).asked([questions.notices()] * 50)
            self.assertLess(time.monotonic() - begin, 3.0)

    def test_long_answers_and_many_questions_hold_nobody(self) -> None:
        """The other side reads no question while it writes an answer, as an office does."""
        text = spelled(b"x" * 200_000, "application/yaml")

        def one_by_one(link: socket.socket, head: bytes) -> None:
            while head:
                while b"\r\n\r\n" in head:
                    head = head.partition(b"\r\n\r\n")[2]
                    link.sendall(text)
                more = link.recv(1_000)
                head = more and head + more

        with hostile(one_by_one) as server:
            asked = [questions.object_text("SLO", f"slo-{number:050}") for number in range(300)]
            found = Office(server.address, timeout=20.0, pauses=ONCE).asked(asked)
            self.assertEqual({len(outcome.get()) for outcome in found}, {200_000})

    def test_through_nginx_as_shipped(self) -> None:
        needed("openssl"), needed("nginx")
        office = self.office()
        front = local_front(self, office.port)
        trusted = front.certificate
        client = Office(front.address, credentials=("team", "secret"), verify=trusted, pauses=ONCE)
        found = client.asked([questions.object_text("SLI", "good")] * 1_200)
        text = office.client().object_text("SLI", "good")
        self.assertEqual([outcome.get() for outcome in found], [text] * 1_200)
        wrong = Office(front.address, verify=trusted, pauses=ONCE)
        with self.assertRaisesRegex(Foreign, "status 401"):
            wrong.asked([questions.notices()])[0].get()

    def test_what_comes_unasked_is_no_answer(self) -> None:
        """An answer too many on a kept link isn't taken for that of the next question."""
        more = spelled(b'{"entries":1,"objects":[]}')

        def twice(link: socket.socket, head: bytes) -> None:
            link.sendall(spelled(NOTICES) + more)
            link.recv(1)

        with hostile(twice) as server:
            client = Office(server.address, pauses=ONCE)
            with client.kept_link():
                self.assertEqual(client.notices(), [])
                self.assertEqual(client.notices(), [])
            self.assertEqual(len(server.heads), 2)

    def test_a_kept_link_that_was_closed_meanwhile_is_opened_anew(self) -> None:
        office = self.office()
        proxy = self.cutting(office)
        client = Office(proxy.address, pauses=ONCE)
        with client.kept_link():
            proxy.cuts = [len(spelled(NOTICES))]
            client.notices()
            threading.Event().wait(0.1)
            self.assertEqual(client.notices(), [])
            self.assertEqual(client.notices(), [])
        self.assertEqual(proxy.links, 2)


if __name__ == "__main__":
    unittest.main()
