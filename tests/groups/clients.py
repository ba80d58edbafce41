"""Clients that people have: curl, Python's own, wrk, ab, and nginx in front of the office, by the example.

A client that isn't installed is skipped.
"""
from __future__ import annotations

import http.client
import json
import re
import shutil
import socket
import ssl
import subprocess
import time
import urllib.error
import urllib.request
from collections.abc import Iterator
from contextlib import contextmanager
from pathlib import Path

from office import EXAMPLES, Office, Server, free_port, minute_now
from report import Report, Skipped

ORIGIN = minute_now() - 20_000
# The name of the example's host.
HOST = "office.example.org"


def need(*names: str) -> None:
    for name in names:
        if not shutil.which(name):
            raise Skipped(f"{name} isn't installed")


def rows(count: int, revision: int = 1, source: str = "web", first: int = 0) -> bytes:
    return "".join(f"shop-good,{source},{ORIGIN + first + n},{revision},{9990 + n % 10},10000\n" for n in range(count)).encode()


class Curl:
    """Requests by curl, with files of a folder."""

    def __init__(self, base: str, folder: Path, *words: str) -> None:
        self.base, self.folder, self.words = base, folder, words

    def file(self, name: str, data: bytes) -> str:
        path = self.folder / name
        path.write_bytes(data)
        return str(path)

    def ask(self, *words: str, data: bytes = b"") -> tuple[int, bytes, int, float]:
        """The status, the body, the number of links and the seconds."""
        told = ["-s", "-S", "-w", "\n%{http_code} %{num_connects} %{time_total}"]
        done = subprocess.run(["curl", *told, *self.words, *words], input=data, capture_output=True, timeout=60)
        assert done.returncode == 0, done.stderr
        body, _, last = done.stdout.rpartition(b"\n")
        status, links, seconds = last.split()
        return int(status), body, int(links), float(seconds)


def by_curl(report: Report, server: Server, folder: Path) -> None:
    curl = Curl(server.base, folder)
    with report.case("curl: --data-binary takes objects and a batch of 1,000 rows"):
        need("curl")
        texts = (EXAMPLES / "targets.yaml").read_bytes() + b"---\n" + (EXAMPLES / "shop.yaml").read_bytes()
        status, body, _, _ = curl.ask("--data-binary", "@" + curl.file("objects.yaml", texts), f"{server.base}/objects")
        assert status == 200 and json.loads(body)["applied"] == 7, body
        batch = curl.file("rows.csv", rows(1000))
        status, body, _, _ = curl.ask("--data-binary", f"@{batch}", f"{server.base}/samples")
        assert status == 200 and json.loads(body)["new"] == 1000, body
    if not shutil.which("curl"):
        return
    with report.case("curl: Expect: 100-continue isn't looked at, and the body comes"):
        status, body, _, _ = curl.ask("--data-binary", f"@{batch}", "-H", "Expect: 100-continue", f"{server.base}/samples")
        assert status == 200 and json.loads(body)["entry"] is None, body
    with report.case("curl: -T file puts a zone, and an exclusion that -X DELETE lifts"):
        status, body, _, _ = curl.ask("-T", curl.file("zone", b"EST5EDT,M3.2.0,M11.1.0"), f"{server.base}/zones/America/New_York")
        assert status == 200 and json.loads(body)["entry"] is not None, body
        exclusion = curl.file("exclusion", f'{{"from":{ORIGIN},"slo":"shop-slo","to":{ORIGIN + 1}}}'.encode())
        for words in (["-T", exclusion], ["-X", "DELETE"]):
            status, body, _, _ = curl.ask(*words, f"{server.base}/exclusions/m1")
            assert status == 200, body
    with report.case("curl: -T - is chunked, which is refused"):
        status, body, _, _ = curl.ask("-T", "-", f"{server.base}/exclusions/m2", data=b"{}")
        assert status == 501 and body == b'{"error":"message"}', (status, body)
    with report.case("curl: two requests go over one link"):
        status, body, links, _ = curl.ask(f"{server.base}/burns/shop-slo/0?lookback=1h", f"{server.base}/budgets/shop-slo")
        assert status == 200 and links <= 1 and b'"burn"' in body, (status, links, body)
    with report.case("curl: a body of 3 MiB gets its 413 whole"):
        status, body, _, _ = curl.ask("--data-binary", "@" + curl.file("large", b"x" * (3 << 20)), "-H", "Expect:", f"{server.base}/samples")
        assert status == 413 and body.startswith(b'{"error":"message"}'), (status, body)
    with report.case("curl: an unknown path"):
        status, body, _, _ = curl.ask(f"{server.base}/nothing")
        assert status == 404 and body == b'{"error":"not_found"}', body


def by_http_client(report: Report, server: Server) -> None:
    with report.case("http.client: one link for many requests, a refusal among them"):
        link = http.client.HTTPConnection("127.0.0.1", server.port, timeout=30)
        for number in range(5):
            link.request("POST", "/samples", body=rows(10, source="py", first=10 * number))
            answer = link.getresponse()
            told = json.loads(answer.read())
            assert answer.status == 200 and told["new"] == 10, told
        held = link.sock
        link.request("GET", "/budgets/shop-slo")
        assert json.loads(link.getresponse().read())["budgets"][0]["objective"] == 0
        assert link.sock is held, "another link was made"
        link.request("PUT", "/exclusions/m3", body="{}")
        answer = link.getresponse()
        assert (answer.status, answer.read()) == (400, b'{"error":"body"}')
        link.request("POST", "/samples", body=iter([b"a", b"b"]), encode_chunked=True, headers={"Transfer-Encoding": "chunked"})
        assert link.getresponse().status == 501
        link.close()
    with report.case("http.client: of a thousand answers none closes the link but the last"):
        link = http.client.HTTPConnection("127.0.0.1", server.port, timeout=30)
        for number in range(1000):
            link.request("GET", "/burns/shop-slo/0?lookback=1h")
            answer = link.getresponse()
            answer.read()
            assert answer.status == 200 and (number == 999 or not answer.will_close), number
        link.close()


def by_urllib(report: Report, server: Server) -> None:
    with report.case("urllib: GET, POST without a body, and a refusal with its text"):
        with urllib.request.urlopen(f"{server.base}/objects/SLO/shop-slo", timeout=30) as answer:
            assert answer.headers["Content-Type"] == "application/yaml" and b"shop-slo" in answer.read()
        with urllib.request.urlopen(urllib.request.Request(f"{server.base}/tick", method="POST"), timeout=30) as answer:
            assert json.loads(answer.read())["notices"] >= 0
        try:
            urllib.request.urlopen(f"{server.base}/objects/SLO/none", timeout=30)
            raise AssertionError("no refusal")
        except urllib.error.HTTPError as refusal:
            assert (refusal.code, refusal.read()) == (404, b'{"error":"not_found"}')


def by_loads(report: Report, server: Server) -> None:
    """Clients that ask as fast as they can: no request may fail."""
    target = f"{server.base}/burns/shop-slo/0?lookback=1h"
    for links in (4, 16):
        with report.case(f"wrk: {links} links, no error"):
            need("wrk")
            done = subprocess.run(["wrk", "-t2", f"-c{links}", "-d2s", "--timeout", "30s", target], capture_output=True, text=True, timeout=60)
            assert "requests in" in done.stdout and "Non-2xx" not in done.stdout and "Socket errors" not in done.stdout, done.stdout
    kinds: dict[str, list[str]] = {"": [], ", links kept": ["-k"]}
    for kind, words in kinds.items():
        with report.case(f"ab: 2,000 requests{kind}, none failed"):
            need("ab")
            done = subprocess.run(["ab", "-q", "-n", "2000", "-c", "8", *words, target], capture_output=True, text=True, timeout=60)
            failed = re.search(r"Failed requests:\s+(\d+)", done.stdout)
            assert done.returncode == 0 and failed and failed[1] == "0" and "Non-2xx" not in done.stdout, done.stdout + done.stderr


def nginx_text(folder: Path, port: int, addresses: dict[int, int], more: str = "") -> str:
    """The example and what stands beside it, at other ports and with files of a folder."""
    text = (EXAMPLES / "serve" / "nginx.conf").read_text()
    if more:
        (line,) = told_lines(more, "proxy_pass")
        text, places = re.subn(r"proxy_pass http://127\.0\.0\.1:8080/?;", lambda _: line, text)
        assert places == 2, f"the example asks the office at {places} places"
    text += more
    replaced = [("listen 443 ssl", f"listen 127.0.0.1:{port} ssl"), (f"https://{HOST}", f"https://{HOST}:{port}"), ("/etc/nginx/", f"{folder}/")]
    replaced += [(f"127.0.0.1:{told}", f"127.0.0.1:{used}") for told, used in addresses.items()]
    for old, new in replaced:
        assert old in text, f"the example has no {old}"
        text = text.replace(old, new)
    paths = "".join(f"{name}_temp_path {folder}/{name};\n" for name in ("client_body", "proxy", "fastcgi", "uwsgi", "scgi"))
    return f"pid {folder}/pid;\nerror_log {folder}/errors;\nevents {{}}\nhttp {{\naccess_log off;\n{paths}{text}\n}}\n"


def told_lines(text: str, word: str) -> list[str]:
    """The lines with this word that the comments of an example tell to put elsewhere."""
    return re.findall(rf"(?m)^# +({word} .*;)$", text)


def password(path: Path, user: str, word: str) -> None:
    hashed = subprocess.run(["openssl", "passwd", "-apr1", word], check=True, capture_output=True, text=True).stdout
    path.write_text(f"{user}:{hashed}")


@contextmanager
def front(folder: Path, addresses: dict[int, int], more: str = "", changed: tuple[str, str] = ("", "")) -> Iterator[int]:
    """nginx by the example, with a certificate and a password made here; gives its port."""
    need("curl", "nginx", "openssl")
    port = free_port()
    subprocess.run(["openssl", "req", "-x509", "-newkey", "rsa:2048", "-nodes", "-days", "2", "-subj", "/CN=localhost",
                    "-keyout", folder / "office.key", "-out", folder / "office.crt"], check=True, capture_output=True)
    password(folder / "office.passwords", "team", "secret")
    for it in (folder, *folder.parents[:1]):
        it.chmod(0o755)
    (folder / "nginx.conf").write_text(nginx_text(folder, port, addresses, more).replace(*changed))
    child = subprocess.Popen(["nginx", "-c", folder / "nginx.conf", "-g", "daemon off;"], stderr=subprocess.PIPE)
    try:
        for _ in range(100):
            with socket.socket() as tried:
                if tried.connect_ex(("127.0.0.1", port)) == 0:
                    break
            time.sleep(0.1)
        else:
            raise AssertionError("nginx doesn't listen")
        yield port
    finally:
        child.terminate()
        child.wait(timeout=10)


def slow_clients(port: int) -> list[ssl.SSLSocket]:
    """Twenty clients that stop inside a body."""
    trust = ssl.create_default_context()
    trust.check_hostname, trust.verify_mode = False, ssl.CERT_NONE
    found = []
    for _ in range(20):
        link = trust.wrap_socket(socket.create_connection(("127.0.0.1", port)))
        head = f"POST /samples HTTP/1.1\r\nHost: {HOST}:{port}\r\nAuthorization: Basic dGVhbTpzZWNyZXQ=\r\nContent-Length: 100\r\n\r\nshop"
        link.sendall(head.encode())
        found.append(link)
    return found


def behind_nginx(report: Report, server: Server, folder: Path) -> None:
    with report.case("nginx: TLS and a password, batches, chunked bodies, slow clients"), front(folder, {8080: server.port}) as port:
        stranger, curl = through(port, folder), through(port, folder, "team:secret")
        base = curl.base
        assert stranger.ask(f"{base}/objects")[0] == 401, "an answer without a password"
        status, body, _, _ = curl.ask(f"{base}/burns/shop-slo/0?lookback=1h")
        assert status == 200 and b'"burn"' in body, (status, body)
        status, body, _, _ = curl.ask("--data-binary", "@" + curl.file("more.csv", rows(1000, source="front")), f"{base}/samples")
        assert status == 200 and json.loads(body)["new"] == 1000, (status, body)
        status, body, _, _ = curl.ask("-T", "-", f"{base}/zones/Etc/Front", data=b"EST5")
        assert status == 200 and b'"entry":' in body, (status, body)
        waiting = slow_clients(port)
        status, body, _, seconds = curl.ask(f"{base}/budgets/shop-slo")
        assert status == 200 and seconds < 5, f"{status} after {seconds} s while 20 clients wait"
        for link in waiting:
            link.close()


def through(port: int, folder: Path, user: str = "") -> Curl:
    """Requests to the example's host, by a user with a password or by nobody."""
    return Curl(f"https://{HOST}:{port}", folder, "-k", "--resolve", f"{HOST}:{port}:127.0.0.1", *(["-u", user] if user else []))


def teams(report: Report, folders: list[Path]) -> None:
    """An office a team by the example: each is asked for what it would be asked without nginx."""
    more, nobody = (EXAMPLES / "serve" / "teams.conf").read_text(), free_port()
    offices = [Office(report.program, report.folder(name), ORIGIN) for name in ("shop", "search")]
    with offices[0].serving() as shop, offices[1].serving() as search:
        office_objects(shop)
        addresses = {8079: nobody, 8081: shop.port, 8082: search.port}
        (line,) = told_lines(more, "auth_basic_user_file")
        own = ("    location / {\n", f"    location / {{\n        {line}\n".replace("/etc/nginx/", f"{folders[1]}/"))
        with report.case("nginx: a team's password opens its own office alone"), front(folders[1], addresses, more, own) as port:
            for name in ("shop", "search"):
                password(folders[1] / f"{name}.passwords", name, f"of-{name}")
            asked = [(user, f"/{name}/notices") for user in ("shop:of-shop", "team:secret") for name in ("shop", "search", "none", "office/search")]
            found = [through(port, folders[1], user).ask(f"https://{HOST}:{port}{path}")[0] for user, path in asked]
            assert found == [200, 401, 403, 401, 401, 401, 403, 200], found
        with report.case("nginx: an office a team, by the first word of a path"), front(folders[0], addresses, more) as port:
            each_team(through(port, folders[0], "team:secret"), shop, search)


def each_team(curl: Curl, shop: Server, search: Server) -> None:
    asked = ["/objects", "/objects/SLO/shop-slo", f"/budgets/shop-slo?at={ORIGIN + 9}", "/burns/shop-slo/0?lookback=1h", "/notices?a=%20b", "/zones/Europe%2FBerlin",
             f"/alerts/shop-slo/0/workbook-page?from={ORIGIN}&to={ORIGIN + 60}", "/nothing", "/office/notices", "//", "/../search/notices"]
    for method, path in [*(("GET", it) for it in asked), ("DELETE", "/objects/SLO/none"), ("POST", "/nothing"), ("POST", "/samples")]:
        words = ("-X", method, "--path-as-is")
        direct = [curl.ask(*words, f"{it.base}{path}")[:2] for it in (shop, search)]
        assert [curl.ask(*words, f"{curl.base}/{name}{path}")[:2] for name in ("shop", "search")] == direct, f"{method} {path}: not {direct}"
    batch = curl.file("rows.csv", rows(1000))
    status, body, _, _ = curl.ask("--data-binary", f"@{batch}", f"{curl.base}/shop/samples")
    assert (status, json.loads(body)) == (200, {"entry": 1, "new": 1000, "newer": 0, "repeated": 0, "superseded": 0}), (status, body)
    assert curl.ask("--data-binary", f"@{batch}", f"{curl.base}/search/samples")[0] == 422, "rows of another team's indicator"
    status, body, _, _ = curl.ask("-T", "-", f"{curl.base}/search/zones/Etc/Front", data=b"EST5")
    assert (status, body) == (200, b'{"entry":0}'), (status, body)
    told = f"/budgets/shop-slo?at={ORIGIN + 1000}"
    assert curl.ask(f"{curl.base}/office/shop{told}")[:2] == curl.ask(f"{shop.base}{told}")[:2], "not the page's office"
    assert curl.ask("-X", "POST", f"{curl.base}/office/shop/tick")[0] == 403, "a change by the page's path"
    for path in ("/none/notices", "/shopping/notices", "/notices", "/shop", "/office/notices", "/office/none/notices", "//shop/notices"):
        status, body, _, _ = curl.ask("--path-as-is", f"{curl.base}{path}")
        assert (status, body) == (404, b"no team of this name has an office here\n"), (path, status, body)
    search.stop()
    assert [curl.ask(f"{curl.base}/{name}/notices")[0] for name in ("search", "shop")] == [502, 200]


def run(report: Report) -> None:
    office = Office(report.program, report.folder("office"), ORIGIN)
    with office.serving() as server:
        by_curl(report, server, report.folder("curl"))
        if not server_has_objects(server):
            office_objects(server)
        by_http_client(report, server)
        by_urllib(report, server)
        by_loads(report, server)
        behind_nginx(report, server, report.folder("nginx"))
    with report.case("the server ran to the end"):
        assert server.child.returncode == -9, server.child.returncode
    teams(report, [report.folder(name) for name in ("nginx-teams", "nginx-passwords")])


def server_has_objects(server: Server) -> bool:
    with urllib.request.urlopen(f"{server.base}/objects", timeout=30) as answer:
        return bool(json.loads(answer.read())["objects"])


def office_objects(server: Server) -> None:
    """What curl would have defined, where there is no curl."""
    texts = (EXAMPLES / "targets.yaml").read_bytes() + b"---\n" + (EXAMPLES / "shop.yaml").read_bytes()
    urllib.request.urlopen(urllib.request.Request(f"{server.base}/objects", data=texts), timeout=30).close()
