"""Who takes the alerts: what counts as taken, what is told of the receiver, the form of a webhook."""

from __future__ import annotations

import json
import re
import tempfile
import unittest
from collections.abc import Sequence
from datetime import datetime
from pathlib import Path
from typing import Any, Optional

from notify_support import Desk, Manager
from support import free_port, until

from hostile import Hostile, chunked, hostile, says, spelled
from slo_tools.notify.config import ReceiverConfig, read_config
from slo_tools.notify.receiver import Alertmanager, NotTaken, Receiver, Sending, Webhook
from slo_tools.notify.state import OpenAlert
from slo_tools.notify.webhook_form import fingerprint, message_of
from slo_tools.settings import ConfigFault

SECRET = "/services/T0AAA/SECRETWEBHOOK"
SINCE = 29_000_000
LABELS = {"alertname": "SloBurn", "notifier": "slo-notify", "office": "shop", "slo": "answers"}


def alert(**labels: str) -> OpenAlert:
    link = "http://desk.example.org/#/shop/answers"
    return OpenAlert({**LABELS, **labels}, {"summary": "Ümläute \u2028 too"}, SINCE, link)


NEWS = [Sending(alert(), None, True)]


def both(address: str, timeout: float = 5.0) -> list[Receiver]:
    config = ReceiverConfig("webhook", address + SECRET)
    manager = ReceiverConfig("alertmanager", address + SECRET)
    return [Webhook(config, timeout), Alertmanager(manager, timeout, 60)]


class TakenTest(unittest.TestCase):
    def not_taken(self, receiver: Receiver) -> str:
        with self.assertRaises(NotTaken) as caught:
            receiver.send(NEWS, SINCE)
        self.assertNotIn("SECRET", str(caught.exception))
        return str(caught.exception)

    def test_a_redirect_takes_nothing(self) -> None:
        with hostile(says(spelled(b"[]"))) as elsewhere:
            for status in (301, 302, 303, 307, 308):
                more = f"Location: {elsewhere.address}/login\r\n"
                with hostile(says(spelled(b"", status=f"{status} Go", more=more))) as server:
                    for receiver in both(server.address):
                        told = self.not_taken(receiver)
                        self.assertIn(f"{server.address}: status {status}: it sends", told)
            self.assertEqual(elsewhere.heads, [])

    def test_what_is_taken(self) -> None:
        table: list[tuple[int, list[int]]] = [
            (200, [0, 1]),
            (201, [0]),
            (204, [0]),
            (400, []),
            (500, []),
        ]
        for status, taken in table:
            more = "Date: Tue, 01 Dec 2026 12:00:00 GMT\r\n"
            answer = spelled(b"SECRET of a page", status=f"{status} Done", more=more)
            with hostile(says(answer)) as server:
                for number, receiver in enumerate(both(server.address)):
                    if number in taken:
                        date = receiver.send(NEWS, SINCE)
                        self.assertEqual(date, "Tue, 01 Dec 2026 12:00:00 GMT")
                    else:
                        told = self.not_taken(receiver)
                        self.assertEqual(told, f"{server.address}: status {status}")

    def test_an_answer_that_is_cut_takes_nothing(self) -> None:
        whole = spelled(b"ok", "text/plain")
        for length in range(0, len(whole)):
            with hostile(says(whole[:length])) as server:
                for receiver in both(server.address):
                    self.not_taken(receiver)

    def test_a_receiver_that_is_away_is_told_by_its_host_alone(self) -> None:
        address = f"http://127.0.0.1:{free_port()}"
        for receiver in both(address):
            self.assertEqual(self.not_taken(receiver), f"{address}: no connection")
            with self.assertRaisesRegex(NotTaken, f"^{re.escape(address)}: no connection$"):
                receiver.date()

    def test_lists_of_another_form_tell_nothing(self) -> None:
        for content in (
            b"{}",
            b"null",
            b"[1]",
            b"[{}]",
            b'[{"labels":[]}]',
            b'[{"labels":{"notifier":1}}]',
            b"[" * 100_000,
            b"<html>",
            b"\xff",
        ):
            with hostile(says(spelled(content))) as server:
                manager = both(server.address)[1]
                if content == b"{}":
                    self.assertEqual(manager.opened("shop"), [])
                else:
                    with self.assertRaisesRegex(NotTaken, "can't be read"):
                        manager.opened("shop")
        told = json.dumps([{"labels": {**LABELS, "office": name}} for name in ("shop", "b")])
        for answer in (spelled(told.encode()), chunked(told.encode(), 7)):
            with hostile(says(answer)) as server:
                self.assertEqual(both(server.address)[1].opened("shop"), [LABELS])
                server.doing = says(answer[:-1])
                with self.assertRaises(NotTaken):
                    both(server.address)[1].opened("shop")


class ConfiguredTest(unittest.TestCase):
    def setUp(self) -> None:
        self.folder = Path(self.enterContext(tempfile.TemporaryDirectory(prefix="slo-tools-")))
        (self.folder / "token").write_text("t0ken\n")

    def config(self, receiver: str, office: str = "") -> Path:
        path = self.folder / "notify.toml"
        path.write_text(
            f'state = "state.json"\n[[office]]\nname = "shop"\naddress = "http://127.0.0.1:1"\n'
            f"{office}\n{receiver}\n"
        )
        return path

    def test_a_token_is_sent(self) -> None:
        for kind in ("alertmanager", "webhook"):
            with hostile(says(spelled(b"[]"))) as server:
                path = self.config(
                    f'[{kind}]\naddress = "{server.address}"\ntoken_file = "token"',
                    'token_file = "token"',
                )
                config = read_config(path)
                self.assertEqual(config.offices[0].login.token, "t0ken")
                made = {"alertmanager": Alertmanager, "webhook": Webhook}[kind]
                words = (config.receiver, 5.0, 60)[: 3 if kind == "alertmanager" else 2]
                made(*words).send(NEWS, SINCE)
                self.assertIn(b"\r\nAuthorization: Bearer t0ken\r\n", server.heads[0])

    def test_what_is_refused(self) -> None:
        webhook = '[webhook]\naddress = "http://127.0.0.1:1/SECRET"'
        password = 'user = "a"\npassword_file = "token"\n'
        for receiver, why in (
            ('[webhook]\naddress = "http://u:SECRET@a/"', "address has a name or a password"),
            ('[webhook]\naddress = "hooks.example.org/SECRET"', "webhook.address is no address"),
            (f'{webhook}\n{password}token_file = "token"', "webhook.token_file and user: one of"),
            (f'{webhook}\nca = "nothing.pem"', "webhook.ca names no file of certificates"),
            (f'{webhook}\nca = "token"', "webhook.ca names no file of certificates"),
            (f'{webhook}\ntoken = "a"', "webhook.token is no key"),
        ):
            with self.subTest(receiver), self.assertRaisesRegex(ConfigFault, why) as caught:
                read_config(self.config(receiver))
            self.assertNotIn("SECRET", str(caught.exception))


class SilentRounds(Desk):
    def test_the_address_stands_in_no_text(self) -> None:
        clock, office, hook = self.timed()
        rounds = self.hooked(clock, office, hook)
        hook.close()
        self.assertFalse(rounds.round())
        place, _, path = hook.address.rpartition("/")
        self.assertEqual(path, "hook")
        for told in (json.dumps(self.overview()), self.said.getvalue()):
            self.assertIn(f"{place}: no connection", told)
            self.assertNotIn(hook.address, told)


class Strict:
    """A receiver as one writes it for Alertmanager's webhook, version 4: each member of its type,
    and none else."""

    MESSAGE: dict[str, type] = {
        "alerts": list,
        "commonAnnotations": dict,
        "commonLabels": dict,
        "externalURL": str,
        "groupKey": str,
        "groupLabels": dict,
        "receiver": str,
        "status": str,
        "truncatedAlerts": int,
        "version": str,
    }
    ALERT: dict[str, type] = {
        "annotations": dict,
        "endsAt": str,
        "fingerprint": str,
        "generatorURL": str,
        "labels": dict,
        "startsAt": str,
        "status": str,
    }

    def read(self, body: bytes) -> dict[str, Any]:
        told = json.loads(body)
        self._typed(told, self.MESSAGE)
        assert told["version"] == "4" and told["alerts"], told
        firing = False
        for each in told["alerts"]:
            self._typed(each, self.ALERT)
            assert re.fullmatch(r"[0-9a-f]{16}", each["fingerprint"]), each
            begin, end = moment(each["startsAt"]), moment(each["endsAt"])
            assert each["status"] == ("firing" if end.year == 1 else "resolved"), each
            assert end.year == 1 or begin <= end, each
            firing = firing or each["status"] == "firing"
            for common, own in (("commonLabels", "labels"), ("commonAnnotations", "annotations")):
                for key, value in told[common].items():
                    assert each[own][key] == value, each
        assert told["status"] == ("firing" if firing else "resolved"), told
        return dict(told)

    def _typed(self, members: dict[str, Any], types: dict[str, type]) -> None:
        assert {key: type(value) for key, value in members.items()} == types, members
        for value in members.values():
            if isinstance(value, dict):
                assert all(isinstance(text, str) for pair in value.items() for text in pair)


def moment(text: str) -> datetime:
    """A moment as Go writes it."""
    assert re.fullmatch(r"\d{4}-\d\d-\d\dT\d\d:\d\d:\d\d(\.\d+)?(Z|[+-]\d\d:\d\d)", text), text
    return datetime.fromisoformat(re.sub(r"\.\d+", "", text).replace("Z", "+00:00"))


class FormTest(unittest.TestCase):
    def setUp(self) -> None:
        self.bodies: list[bytes] = []
        self.server = Hostile(self._keep)
        self.addCleanup(self.server.close)

    def _keep(self, link: Any, head: bytes) -> None:
        length = int(re.findall(rb"(?i)content-length: (\d+)", head)[0])
        body = head.partition(b"\r\n\r\n")[2]
        while len(body) < length:
            body += link.recv(65_536)
        self.bodies.append(body)
        link.sendall(b"HTTP/1.1 200 OK\r\nContent-Length: 0\r\nConnection: close\r\n\r\n")

    def sent(self, alerts: Sequence[tuple[OpenAlert, Optional[int]]]) -> dict[str, Any]:
        """What a webhook is sent, read by the strict receiver."""
        hook = Webhook(ReceiverConfig("webhook", f"{self.server.address}{SECRET}"), 5.0)
        hook.send([Sending(each, ended, True) for each, ended in alerts], SINCE + 9)
        return Strict().read(self.bodies.pop())

    def test_what_begins_and_what_ends(self) -> None:
        first, second = alert(policy="a"), alert(policy="b")
        told = self.sent([(first, None), (second, SINCE + 5)])
        self.assertEqual([each["status"] for each in told["alerts"]], ["firing", "resolved"])
        self.assertEqual(
            [each["endsAt"] for each in told["alerts"]],
            ["0001-01-01T00:00:00Z", "2025-02-19T21:25:00Z"],
        )
        self.assertEqual(told["alerts"][0]["startsAt"], "2025-02-19T21:20:00Z")
        self.assertEqual(told["commonLabels"], LABELS)
        self.assertEqual(told["externalURL"], "http://desk.example.org/")
        self.assertEqual(self.sent([(second, SINCE - 5)])["status"], "resolved")

    def test_as_a_real_alertmanager_tells_it(self) -> None:
        """Its own webhook's message has the same members and types, and the same fingerprints."""
        folder = Path(self.enterContext(tempfile.TemporaryDirectory(prefix="slo-tools-")))
        manager = Manager(folder)
        (folder / "am.yml").write_text(
            "route: {receiver: hook, group_wait: 0s, group_interval: 1s}\n"
            f'receivers: [{{name: hook, webhook_configs: [{{url: "{self.server.address}/"}}]}}]\n'
        )
        manager.start()
        self.addCleanup(manager.kill)
        config = ReceiverConfig("alertmanager", manager.address)
        now = int(datetime.now().timestamp()) // 60
        fires = OpenAlert(dict(LABELS), {"summary": "s"}, now, "http://a/#b")
        Alertmanager(config, 5.0, 60).send([Sending(fires, None, True)], now)
        until(lambda: bool(self.bodies), 20, "no message of Alertmanager's")
        theirs = Strict().read(self.bodies.pop(0))
        ours = self.sent([(fires, None)])
        self.assertEqual(types_of(ours), types_of(theirs))
        for key in ("fingerprint", "endsAt", "startsAt", "labels", "annotations", "generatorURL"):
            self.assertEqual(ours["alerts"][0][key], theirs["alerts"][0][key], key)
        self.assertEqual((ours["version"], ours["status"]), (theirs["version"], theirs["status"]))
        labels = Alertmanager(config, 5.0, 60).opened("shop")
        self.assertEqual(labels, [LABELS])

    def test_fingerprints(self) -> None:
        # FNV-1a of nothing, and of the bytes `a`, 255, `b`, 255, worked out by hand.
        self.assertEqual(fingerprint({}), "cbf29ce484222325")
        sum_ = 0xCBF29CE484222325
        for byte in (97, 255, 98, 255):
            sum_ = ((sum_ ^ byte) * 0x100000001B3) & 0xFFFFFFFFFFFFFFFF
        self.assertEqual(fingerprint({"a": "b"}), f"{sum_:016x}")
        self.assertNotEqual(fingerprint({"a": "b"}), fingerprint({"b": "a"}))
        self.assertEqual(fingerprint({"b": "1", "a": "2"}), fingerprint({"a": "2", "b": "1"}))

    def test_common_is_what_all_say(self) -> None:
        told = message_of([(alert(a="1"), None), (alert(b="1"), None)])
        self.assertEqual(told["commonLabels"], LABELS)


def types_of(value: Any) -> Any:
    """The shape of a message: its members by name, with their types."""
    if isinstance(value, dict):
        free = {"labels", "annotations", "groupLabels", "commonLabels", "commonAnnotations"}
        return {key: dict if key in free else types_of(each) for key, each in value.items()}
    if isinstance(value, list):
        return [types_of(each) for each in value]
    return type(value)


if __name__ == "__main__":
    unittest.main()
