"""The engines of the feed's tests: Prometheus, ClickHouse, an exporter, and documents that name them."""

from __future__ import annotations

import contextlib
import json
import logging
import subprocess
import threading
import time
import urllib.parse
from collections.abc import Iterable, Mapping, Sequence
from dataclasses import dataclass, field
from http.server import BaseHTTPRequestHandler, ThreadingHTTPServer
from pathlib import Path
from typing import Any, Optional, Union

from support import TOOLS, Child, answers, free_port, needed, until

PROMETHEUS_FILE = """
global:
  scrape_interval: {interval}s
  scrape_timeout: {timeout}s
scrape_configs:
{jobs}
"""
JOB = """  - job_name: {name}
    static_configs:
      - targets: [{targets}]
"""


@dataclass
class PrometheusServer(Child):
    """A Prometheus with short intervals."""

    folder: Path
    jobs: Mapping[str, Iterable[str]] = field(default_factory=dict)
    interval: int = 5
    timeout: int = 2
    port: int = field(default_factory=free_port)

    @property
    def url(self) -> str:
        return f"http://127.0.0.1:{self.port}"

    @property
    def data(self) -> Path:
        return self.folder / "data"

    def start(self) -> PrometheusServer:
        self.folder.mkdir(parents=True, exist_ok=True)
        jobs = "".join(
            JOB.format(name=name, targets=", ".join(f"'{t}'" for t in targets))
            for name, targets in self.jobs.items()
        )
        file = self.folder / "prometheus.yml"
        text = PROMETHEUS_FILE.format(interval=self.interval, timeout=self.timeout, jobs=jobs)
        file.write_text(text if jobs else text.replace("scrape_configs:\n", ""))
        words = [
            needed("prometheus"),
            f"--config.file={file}",
            f"--storage.tsdb.path={self.data}",
            f"--web.listen-address=127.0.0.1:{self.port}",
            "--storage.tsdb.retention.time=1y",
        ]
        self._start(words, self.folder, self.folder / "log")
        until(lambda: answers(f"{self.url}/-/ready"), 60, "Prometheus isn't ready")
        return self

    def history(self, text: str) -> None:
        """Put samples of the past into its blocks, before it is started."""
        self.folder.mkdir(parents=True, exist_ok=True)
        file = self.folder / "history.om"
        file.write_text(text + "# EOF\n")
        words = [needed("promtool"), "tsdb", "create-blocks-from", "openmetrics"]
        subprocess.run(
            [*words, "--quiet", str(file), str(self.data)], check=True, stdout=subprocess.DEVNULL
        )


CLICKHOUSE_FILE = """<yandex>
  <logger><level>warning</level><log>{folder}/server.log</log>
    <errorlog>{folder}/error.log</errorlog></logger>
  <listen_host>127.0.0.1</listen_host>
  <http_port>{http}</http_port><tcp_port>{port}</tcp_port>
  <interserver_http_port>{between}</interserver_http_port>
  <path>{folder}/data/</path><tmp_path>{folder}/tmp/</tmp_path>
  <user_files_path>{folder}/files/</user_files_path>
  <format_schema_path>{folder}/schemas/</format_schema_path>
  <mark_cache_size>268435456</mark_cache_size>
  <users_config>{folder}/users.xml</users_config>
  <default_profile>default</default_profile><default_database>default</default_database>
  <timezone>UTC</timezone>
  <remote_servers><both>{shards}</both></remote_servers>
</yandex>
"""
SHARD = """<shard><replica><host>127.0.0.1</host><port>{port}</port></replica></shard>"""
CLICKHOUSE_USERS = """<yandex>
  <profiles><default><max_threads>2</max_threads></default>
    <readonly><readonly>1</readonly><max_threads>2</max_threads></readonly></profiles>
  <users>
    <default><password></password><networks><ip>127.0.0.1</ip></networks>
      <profile>default</profile><quota>default</quota></default>
    <feed><password>counts</password><networks><ip>127.0.0.1</ip></networks>
      <profile>readonly</profile><quota>default</quota></feed>
  </users>
  <quotas><default/></quotas>
</yandex>
"""


@dataclass
class ClickHouseServer(Child):
    """A ClickHouse with a user `feed` that may only read; with the servers at other ports it is a
    cluster `both`."""

    folder: Path
    port: int = field(default_factory=free_port)
    others: Sequence[int] = ()

    def start(self) -> ClickHouseServer:
        for name in ("data", "tmp", "files", "schemas"):
            (self.folder / name).mkdir(parents=True, exist_ok=True)
        file = self.folder / "config.xml"
        ports = {"port": self.port, "http": free_port(), "between": free_port()}
        shards = "".join(SHARD.format(port=port) for port in (self.port, *self.others))
        file.write_text(CLICKHOUSE_FILE.format(folder=self.folder, shards=shards, **ports))
        (self.folder / "users.xml").write_text(CLICKHOUSE_USERS)
        server = needed("clickhouse-server")
        self._start([server, f"--config-file={file}"], self.folder, self.folder / "log")
        until(self._answers, 60, "ClickHouse doesn't answer")
        return self

    def _answers(self) -> bool:
        try:
            return bool(self.run("SELECT 1") == [(1,)])
        except Exception:
            return False

    def run(self, query: str, rows: Optional[list[Any]] = None) -> Any:
        """Run a query as the user who may write."""
        from clickhouse_driver import Client

        logging.getLogger("clickhouse_driver").setLevel(logging.CRITICAL)
        client = Client("127.0.0.1", port=self.port, send_receive_timeout=600)
        try:
            return client.execute(query, rows) if rows is not None else client.execute(query)
        finally:
            client.disconnect()


@dataclass
class Exporter:
    """A target with counters, which keeps account of what it was asked and what it said.

    `counters` maps a series as `requests_total{code="200"}` to its value. `served` has the
    moment and the values of each scrape that was answered.
    """

    port: int = field(default_factory=free_port)
    counters: dict[str, int] = field(default_factory=dict)
    served: list[tuple[float, dict[str, int]]] = field(default_factory=list)
    delay: float = 0.0
    broken: bool = False
    lock: threading.Lock = field(default_factory=threading.Lock)
    _server: Optional[ThreadingHTTPServer] = None

    @property
    def target(self) -> str:
        return f"127.0.0.1:{self.port}"

    def count(self, series: str, events: int) -> None:
        with self.lock:
            self.counters[series] = self.counters.get(series, 0) + events

    def reset(self) -> None:
        """Begin again at nothing, as a process that was started anew."""
        with self.lock:
            self.counters.clear()

    def start(self) -> Exporter:
        exporter = self

        class Answering(BaseHTTPRequestHandler):
            def do_GET(self) -> None:
                if exporter.broken:
                    self.send_error(503)
                    return
                with exporter.lock:
                    values = dict(exporter.counters)
                moment = time.time()
                time.sleep(exporter.delay)
                body = "".join(f"{name} {value}\n" for name, value in values.items()).encode()
                self.send_response(200)
                self.send_header("Content-Type", "text/plain; version=0.0.4")
                self.send_header("Content-Length", str(len(body)))
                self.end_headers()
                self.wfile.write(body)
                exporter.served.append((moment, values))

            def log_message(self, *_: object) -> None:
                pass

        self._server = ThreadingHTTPServer(("127.0.0.1", self.port), Answering)
        threading.Thread(target=self._server.serve_forever, daemon=True).start()
        return self

    def stop(self) -> None:
        if self._server is not None:
            self._server.shutdown()
            self._server.server_close()
            self._server = None


Chunks = Union[bytes, Iterable[bytes]]


@dataclass
class FakePrometheus:
    """What speaks as a Prometheus does, and as a test wants: `odd` are the contents of answers to
    queries that name a word, in pieces as they are sent. Whatever else is asked rises by 10 each
    20 seconds."""

    odd: dict[str, tuple[int, Chunks]] = field(default_factory=dict)
    port: int = field(default_factory=free_port)
    asked: list[tuple[str, Optional[str]]] = field(default_factory=list)
    _server: Optional[ThreadingHTTPServer] = None

    @property
    def url(self) -> str:
        return f"http://127.0.0.1:{self.port}"

    def start(self) -> FakePrometheus:
        fake = self

        class Answering(BaseHTTPRequestHandler):
            protocol_version = "HTTP/1.1"

            def do_GET(self) -> None:
                self.do_POST()

            def do_POST(self) -> None:
                text = self.rfile.read(int(self.headers.get("Content-Length", "0"))).decode()
                keys = {k: v[0] for k, v in urllib.parse.parse_qs(text).items()}
                fake.asked.append((keys.get("query", ""), self.headers.get("Authorization")))
                status, content = fake.answer(keys)
                self.send_response(status)
                if isinstance(content, bytes):
                    self.send_header("Content-Length", str(len(content)))
                    content = [content]
                else:
                    self.send_header("Transfer-Encoding", "chunked")
                    content = (b"%x\r\n%b\r\n" % (len(piece), piece) for piece in content)
                self.end_headers()
                with contextlib.suppress(OSError):
                    for piece in content:
                        self.wfile.write(piece)
                self.close_connection = True

            def log_message(self, *_: object) -> None:
                pass

        self._server = ThreadingHTTPServer(("127.0.0.1", self.port), Answering)
        threading.Thread(target=self._server.serve_forever, daemon=True).start()
        return self

    def answer(self, keys: Mapping[str, str]) -> tuple[int, Chunks]:
        query = keys.get("query", "")
        for word, answer in self.odd.items():
            if word in query:
                return answer
        if query == "time()":
            return 200, success("scalar", [time.time(), str(time.time())])
        if "query" not in keys:
            return 200, json.dumps({"status": "success", "data": {"activeTargets": []}}).encode()
        end = float(keys.get("time", "0"))
        first = int((end - 7200) // 20 + 1)
        samples = [[n * 20, str(n * 10)] for n in range(first, int(end // 20) + 1)]
        metric = {"__name__": "good", "job": "web", "instance": "web:1"}
        return 200, success("matrix", [{"metric": metric, "values": samples}])

    def stop(self) -> None:
        if self._server is not None:
            self._server.shutdown()
            self._server.server_close()
            self._server = None


def success(kind: str, result: object) -> bytes:
    """An answer of Prometheus that found something."""
    data = {"resultType": kind, "result": result}
    return json.dumps({"status": "success", "data": data}).encode()


def feed(
    config: Path, *words: str, seconds: float = 300, check: Optional[int] = 0
) -> subprocess.CompletedProcess[str]:
    """Run slo-feed to its end; `check` is the exit status that it has to have."""
    ended = subprocess.run(
        ["/usr/bin/python3", str(TOOLS / "bin" / "slo-feed"), "--config", str(config), *words],
        capture_output=True,
        text=True,
        timeout=seconds,
    )
    if check is not None and ended.returncode != check:
        raise AssertionError(f"slo-feed {words}: status {ended.returncode}\n{ended.stderr}")
    return ended


def config_file(folder: Path, office: str, rest: str = "") -> Path:
    folder.mkdir(parents=True, exist_ok=True)
    file = folder / "feed.toml"
    file.write_text(
        f'[office]\naddress = "{office}"\n[feed]\nstate = "{folder}/state.json"\n{rest}'
    )
    return file


def sli(name: str, source: str, part: str, total: str, word: str = "good") -> str:
    """The document of an SLI of counters."""
    return f"""---
apiVersion: openslo/v1
kind: SLI
metadata:
  name: {name}
spec:
  ratioMetric:
    counter: true
    {word}:
      metricSource:
        metricSourceRef: {source}
        type: Metrics
        spec:
          query: '{part}'
    total:
      metricSource:
        metricSourceRef: {source}
        type: Metrics
        spec:
          query: '{total}'
"""


def data_source(name: str, kind: str, **details: object) -> str:
    lines = "".join(f"    {key}: '{value}'\n" for key, value in details.items())
    return f"""---
apiVersion: openslo/v1
kind: DataSource
metadata:
  name: {name}
spec:
  type: {kind}
  connectionDetails:
{lines}"""
