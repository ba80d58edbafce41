"""Offices that misbehave, between slo-notify and one that is right."""

from __future__ import annotations

import http.client
import http.server
import json
import random
import socket
import threading
import time
from typing import Any, Optional

ODD: tuple[Any, ...] = (
    None,
    True,
    -1,
    1.5,
    10**30,
    "",
    "a/b",
    "1/0",
    "abc",
    "\u0091",
    [],
    {},
    [[]],
    [None],
    [1, "2"],
)
CONTENTS = (
    b"",
    b"{}",
    b"[]",
    b"null",
    b"NaN",
    b'{"entries":null,"objects":null}',
    b'{"entries":3,"objects":[{"kind":"SLO","name":"a b"}]}',
    b'{"status":"ok","version":"another service"}',
    b"<html>Please log in</html>",
    b"[" * 100_000,
    b"\xff\xfe\x00",
    b"OSLOFEED" + b"\xff" * 30,
)


class _Server(http.server.ThreadingHTTPServer):
    """A server whose links the other side may close as it likes."""

    daemon_threads = True

    def handle_error(self, request: Any, client_address: Any) -> None:
        pass


class Mutator:
    """Passes questions on to an office, and spoils one answer of some: cut, of another type, with
    members that are missing, odd or of another kind, with another status."""

    def __init__(self, port: int, seed: int) -> None:
        self.dice = random.Random(seed)
        self.port = port
        self.answers = 0
        self.one_of = 12
        # An answer that is given to each question.
        self.always: Optional[bytes] = None
        # A path whose answer is no text that can be read, and how long each answer takes.
        self.spoils = ""
        self.seconds = 0.0
        mutator = self

        class Handler(http.server.BaseHTTPRequestHandler):
            protocol_version = "HTTP/1.1"
            # An answer is written at once.
            wbufsize = 65_536
            disable_nagle_algorithm = True

            def do_GET(self) -> None:
                mutator.pass_on(self)

            def do_POST(self) -> None:
                mutator.pass_on(self)

            def log_message(self, *words: object) -> None:
                pass

        self.server = _Server(("127.0.0.1", 0), Handler)
        threading.Thread(target=self.server.serve_forever, daemon=True).start()

    @property
    def address(self) -> str:
        return f"http://127.0.0.1:{self.server.server_port}"

    def close(self) -> None:
        self.server.shutdown()
        self.server.server_close()

    def pass_on(self, asked: http.server.BaseHTTPRequestHandler) -> None:
        link = http.client.HTTPConnection("127.0.0.1", self.port, timeout=10)
        body = asked.rfile.read(int(asked.headers.get("Content-Length", "0")))
        link.request(asked.command, asked.path, body=body, headers={"Connection": "close"})
        answer = link.getresponse()
        content, kind = answer.read(), answer.headers.get("Content-Type", "")
        link.close()
        self.answers += 1
        status, length = answer.status, None
        time.sleep(self.seconds)
        if self.spoils and asked.path == self.spoils:
            content = b"a: [\n"
        elif self.always is not None:
            status, kind, content = 200, "application/json", self.always
        elif self.one_of and self.dice.randrange(self.one_of) == 0:
            status, kind, content, length = self.spoilt(status, kind, content)
        asked.send_response(status)
        asked.send_header("Content-Type", kind)
        asked.send_header("Content-Length", str(len(content) if length is None else length))
        asked.end_headers()
        asked.wfile.write(content)
        if length is not None:
            asked.close_connection = True

    def spoilt(
        self, status: int, kind: str, content: bytes
    ) -> tuple[int, str, bytes, Optional[int]]:
        dice = self.dice
        way = dice.randrange(8)
        if way == 0:
            return status, kind, content[: dice.randrange(len(content) + 1)], None
        if way == 1:
            # The link is closed in the middle.
            return status, kind, content[: len(content) // 2], len(content) + 1
        if way == 2:
            return dice.choice([201, 204, 301, 400, 401, 404, 500, 502, 507]), kind, content, None
        if way == 3:
            return status, dice.choice(["text/html", "application/json", ""]), content, None
        if way == 4:
            return status, kind, dice.choice(CONTENTS), None
        if kind == "application/json":
            return status, kind, json.dumps(self.changed(json.loads(content))).encode(), None
        place = dice.randrange(len(content) + 1)
        odd = bytes([dice.randrange(256)])
        return status, kind, content[:place] + odd + content[place + 1 :], None

    def changed(self, told: Any) -> Any:
        """JSON with one place that is another."""
        dice = self.dice
        if isinstance(told, dict) and told and dice.randrange(4):
            name = dice.choice(sorted(told))
            if dice.randrange(4) == 0:
                return {key: value for key, value in told.items() if key != name}
            return {**told, name: self.changed(told[name])}
        if isinstance(told, list) and told and dice.randrange(4):
            place = dice.randrange(len(told))
            return [*told[:place], self.changed(told[place]), *told[place + 1 :]]
        return dice.choice(ODD)


class Dribbler:
    """Takes links and sends a byte of an answer each half second, which never ends."""

    HEAD = b"HTTP/1.1 200 OK\r\nContent-Type: application/json\r\nContent-Length: 1000000\r\n\r\n{"

    def __init__(self) -> None:
        self.door = socket.create_server(("127.0.0.1", 0))
        self.is_over = False
        threading.Thread(target=self.serve, daemon=True).start()

    @property
    def address(self) -> str:
        return f"http://127.0.0.1:{self.door.getsockname()[1]}"

    def serve(self) -> None:
        while not self.is_over:
            try:
                link = self.door.accept()[0]
            except OSError:
                return
            threading.Thread(target=self.dribble, args=[link], daemon=True).start()

    def dribble(self, link: socket.socket) -> None:
        with link:
            for byte in self.HEAD + b" " * 1000:
                if self.is_over:
                    return
                try:
                    link.sendall(bytes([byte]))
                except OSError:
                    return
                time.sleep(0.5)

    def close(self) -> None:
        self.is_over = True
        self.door.close()
