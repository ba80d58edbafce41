"""A copy of an office by slo-follow of tools/: what it says, what it has while its office and itself are killed at random,
and that it tells an office with another history."""
from __future__ import annotations

import json
import os
import random
import shutil
import signal
import socket
import subprocess
import threading
import time
from collections.abc import Callable, Iterator
from contextlib import contextmanager
from pathlib import Path

import objects
from feeds import journal, tick
from groups.clients import HOST, front
from groups.following import compare, made, service
from groups.tools import lacking
from office import TOP, Lost, Office, Server, define, message, minute_now
from report import Report, Skipped

TOOL = TOP / "tools" / "bin" / "slo-follow"
NOBODY = "http://127.0.0.1:9"
# Its statuses.
DONE, NO_OFFICE, NO_COPY, DAMAGED, DIVERGED = 0, 3, 4, 5, 9


class Follower:
    """slo-follow with a configuration, and the folder of its copy."""

    def __init__(self, report: Report, name: str) -> None:
        self.room = report.folder(name)
        self.folder = self.room / "copy"
        self.program = report.program
        self.copy = Office(report.program, self.folder)
        self.words = dict(os.environ, PYTHONDONTWRITEBYTECODE="1")

    def start(self, base: str, *words: str, more: str = "") -> subprocess.Popen[str]:
        """It runs in a group of processes of its own."""
        config = self.room / "slo-follow.toml"
        config.write_text(f'[office]\naddress = "{base}"\n{more}\n[copy]\nfolder = "copy"\nevery = 1\nprogram = "{self.program}"\n')
        return subprocess.Popen(["/usr/bin/python3", TOOL, "--config", config, *words], env=self.words, stdout=subprocess.PIPE, stderr=subprocess.PIPE, text=True, start_new_session=True)

    def run(self, base: str, *words: str, more: str = "") -> tuple[int, str]:
        """The status of one asking, and the line that it ends with."""
        child = self.start(base, "--once", *words, more=more)
        out, said = child.communicate(timeout=120)
        return child.returncode, (said if child.returncode else out).splitlines()[-1]

    def records(self) -> list[bytes]:
        """What the copy has, where there is one already."""
        return self.copy.records() if self.copy.journal.exists() else []

    def state(self) -> dict[str, int | str | None]:
        told: dict[str, int | str | None] = json.loads((self.folder / "follow.json").read_text())
        return told


@contextmanager
def page(answer: bytes) -> Iterator[str]:
    """A server that answers each request with these bytes."""

    def serve() -> None:
        while True:
            try:
                link, _ = door.accept()
            except OSError:
                return
            with link:
                link.recv(65536)
                link.sendall(answer)

    with socket.create_server(("127.0.0.1", 0)) as door:
        threading.Thread(target=serve, daemon=True).start()
        yield f"http://127.0.0.1:{door.getsockname()[1]}"
        door.shutdown(socket.SHUT_RDWR)


def answer(content: bytes, length: int | None = None) -> bytes:
    """An answer of these bytes, by its head of so many."""
    size = len(content) if length is None else length
    return f"HTTP/1.1 200 OK\r\nContent-Length: {size}\r\nConnection: close\r\n\r\n".encode() + content


HTML = answer(b"<html>come in</html>" * 3)


def same(got: tuple[int, str], wanted: tuple[int, str]) -> None:
    assert got == wanted, f"{got}, wanted {wanted}"


def rows(server: Server, origin: int, first: int, count: int) -> None:
    link = server.link()
    for n in range(first, first + count):
        assert link.ask(message("POST", "/samples", f"good,web,{origin + n},1,1,2\n")).status == 200


def ticked(office: Office, count: int = 1) -> None:
    """The office, which isn't served, ticks."""
    assert all(it.status == 200 for it in office.ask([message("POST", "/tick")] * count))


def askings(report: Report) -> None:
    """One asking after another: what is said of an office that is there, is gone, is another one, or no office."""
    origin = minute_now() - 10_000
    office, follower = Office(report.program, report.folder("office"), origin), Follower(report, "follower")
    office.ask([define(objects.ratio("good"))])
    with report.case("no office, and no copy yet"):
        status, line = follower.run(NOBODY)
        assert status == NO_OFFICE and line.endswith("; the copy has no entries"), line
        assert not follower.copy.journal.exists()
    with report.case("a page that is no feed makes no copy"), page(HTML) as base:
        same(follower.run(base), (NO_OFFICE, "slo-follow: no feed (the answer is no feed); the copy has no entries"))
        assert not follower.copy.journal.exists()
    with report.case("a copy is made, and kept"), office.serving() as server:
        (follower.folder / "made").mkdir()
        same(follower.run(server.base), (DONE, "1 entries came, 1 are there"))
        same(follower.run(server.base), (DONE, "0 entries came, 1 are there"))
        rows(server, origin, 0, 3)
        same(follower.run(server.base), (DONE, "3 entries came, 4 are there"))
        assert follower.records() == office.records()
        assert sorted(it.name for it in follower.folder.iterdir()) == ["follow.json", "office.journal"]
    with report.case("the office is gone, and how long it is"):
        told = follower.state()
        assert isinstance(told["all_came"], int)
        (follower.folder / "follow.json").write_text(json.dumps({**told, "all_came": told["all_came"] - 100}))
        status, line = follower.run(NOBODY)
        seconds = int(line.partition("; the copy has 4 entries, all that there were ")[2].removesuffix(" seconds ago"))
        assert status == NO_OFFICE and 100 <= seconds < 160, line
    with report.case("a page, or a feed that is cut, changes nothing"):
        data = office.ask([message("GET", "/entries?from=0")])[0].body
        for said in (HTML, answer(data[:-9]), answer(data[:-9], len(data))):
            with page(said) as base:
                status, line = follower.run(base)
            assert status == NO_OFFICE and line.startswith("slo-follow: no feed ("), line
            assert len(follower.records()) == 4
    with report.case("another origin"), Office(report.program, report.folder("other"), origin - 1).serving() as server:
        follower.copy.journal.write_bytes(journal(origin, []))
        (follower.folder / "follow.json").unlink()
        status, line = follower.run(server.base)
        assert status == DIVERGED and f"other origin {origin - 1}, the copy has {origin}: " in line, line
    with report.case("a history of more feeds than one"):
        records = [service(origin, 700_000, n) for n in range(5)]
        large = Follower(report, "large-copy")
        with made(report, "large", origin, records).serving() as server:
            same(large.run(server.base), (DONE, "5 entries came, 5 are there"))
        assert large.records() == records
    with report.case("plain http to another machine needs a word"):
        status, line = follower.run("http://office.example.org:8080")
        assert status == 2 and "office.address is plain http to another machine" in line, line


def restored(office: Office, follower: Follower, origin: int) -> None:
    """The office is put back to a back-up, and goes on until it has more entries than before."""
    office.journal.write_bytes(journal(origin, office.records()[:3]))
    rows_now = [message("POST", "/samples", f"good,web,{origin + 100 + n},1,0,1000\n") for n in range(8)]
    assert all(it.status == 200 for it in office.ask(rows_now))


def fewer(office: Office, follower: Follower, origin: int) -> None:
    """The office is put back to a back-up."""
    office.journal.write_bytes(journal(origin, office.records()[:3]))


def ticked_copy(office: Office, follower: Follower, origin: int) -> None:
    """The copy ticks once by itself, the office takes a row."""
    ticked(follower.copy)
    assert office.ask([message("POST", "/samples", f"good,web,{origin + 50},1,1,2\n")])[0].status == 200


def renewed(office: Office, follower: Follower, origin: int) -> None:
    """The office is made anew of what it exports, and goes on."""
    requests = office.run("export", "1")
    assert requests.returncode == 0, requests
    office.journal.write_bytes(journal(origin, []))
    done = office.run("pipe", data=requests.stdout)
    assert done.returncode == 0 and b"HTTP/1.1 4" not in done.stdout, done
    ticked(office, 9)


WAYS: dict[str, Callable[[Office, Follower, int], None]] = {
    "the office was restored, and has more entries than before": restored,
    "the office was restored": fewer,
    "the copy ticked by itself": ticked_copy,
    "the office was renewed": renewed,
}


def divergences(report: Report) -> None:
    """An office and a copy with different histories: said by each asking, and the copy stays as it was."""
    origin = minute_now() - 10_000
    for number, (name, part) in enumerate(WAYS.items()):
        with report.case(f"another history: {name}"):
            office, follower = Office(report.program, report.folder(f"way-{number}"), origin), Follower(report, f"way-{number}-copy")
            office.ask([define(objects.ratio("good"))])
            with office.serving() as server:
                rows(server, origin, 0, 5)
                assert follower.run(server.base)[0] == DONE
            part(office, follower, origin)
            before = follower.copy.journal.read_bytes()
            with office.serving() as server:
                for _ in range(2):
                    status, line = follower.run(server.base)
                    assert status == DIVERGED and "the office has another history than its copy" in line, (status, line)
                    assert follower.copy.journal.read_bytes() == before, "the copy's journal was changed"
                    rows(server, origin, 60, 3)
                assert follower.state()["diverged"], follower.state()
                assert follower.run(server.base)[0] == DIVERGED
                follower.copy.journal.rename(follower.folder / "before.journal")
                status, line = follower.run(server.base)
                assert status == DONE and follower.records() == office.records(), line
                assert follower.state()["diverged"] is None


def far_back(report: Report) -> None:
    """An entry that differs further back than an asking looks: the comparison of all entries sees it."""
    origin = minute_now() - 20_000
    entries = [tick(origin + n // 4) for n in range(40_000)]
    office, follower = made(report, "far", origin, [tick(origin), *entries[1:]]), Follower(report, "far-copy")
    follower.copy.journal.write_bytes(journal(origin, [*entries[:100], tick(origin + 26), *entries[101:]]))
    with report.case("an entry that differs far back: all are compared once a day, and by a word"), office.serving() as server:
        recent = {"entries": 40_000, "all_came": None, "compared": int(time.time()) - 60, "diverged": None}
        (follower.folder / "follow.json").write_text(json.dumps(recent))
        same(follower.run(server.base), (DONE, "0 entries came, 40000 are there"))
        status, line = follower.run(server.base, "--whole")
        assert status == DIVERGED and "slo-follow: diverges at 100: " in line, line
        (follower.folder / "follow.json").write_text(json.dumps({**recent, "compared": int(time.time()) - 90_000}))
        assert follower.run(server.base)[0] == DIVERGED
        assert follower.run(server.base)[0] == DIVERGED, "it is forgotten"


@contextmanager
def small_disk(folder: Path, blocks: int) -> Iterator[None]:
    """A file system of so many blocks of 4 KiB over a folder."""
    if os.geteuid() != 0 or not shutil.which("mount"):
        raise Skipped("root alone mounts a file system")
    done = subprocess.run(["mount", "-t", "tmpfs", "-o", f"size={4 * blocks}k", "tmpfs", folder], capture_output=True, text=True)
    if done.returncode:
        raise Skipped(f"no file system can be mounted here: {done.stderr.strip()}")
    try:
        yield
    finally:
        subprocess.run(["umount", folder], check=True)


def full_disk(report: Report) -> None:
    """A copy on a disk with few free blocks: all came, or it isn't said. Ten entries that need a block each, or none."""
    for size, sizes in ((1, (1, 2, 3, 4, 5, 6)), (100, (2, 4, 6, 8, 9, 10, 11, 12, 13, 20))):
        origin = minute_now() - 10_000
        office = Office(report.program, report.folder(f"full-{size}"), origin)
        office.ask([define(objects.ratio("good"))])
        batches = ["".join(f"good,web{n},{origin + m},1,1,2\n" for m in range(size)) for n in range(10)]
        assert all(it.status == 200 for it in office.ask(message("POST", "/samples", it) for it in batches))
        with report.case(f"a disk with few free blocks, batches of {size}: what is missing is told"), office.serving() as server:
            seen = {on_small_disk(Follower(report, f"full-{size}-{blocks}"), server, office, origin, blocks) for blocks in sizes}
            assert seen == {DONE, NO_COPY}, seen


def on_small_disk(follower: Follower, server: Server, office: Office, origin: int, blocks: int) -> int:
    """The status of an asking whose copy, of one entry, lies on a disk of so many blocks."""
    with small_disk(follower.folder, blocks):
        follower.copy.journal.write_bytes(journal(origin, office.records()[:1]))
        status, line = follower.run(server.base)
        there = follower.records()
        assert there == office.records()[: len(there)], "no front"
        if status == DONE:
            assert (line, len(there)) == ("10 entries came, 11 are there", 11), (blocks, line, len(there))
        else:
            assert status == NO_COPY, (blocks, status, line)
    return status


class Writer(threading.Thread):
    """Sends row after row over one link, until the link ends, and counts what was acknowledged."""

    def __init__(self, server: Server, origin: int, sent: int) -> None:
        super().__init__(daemon=True)
        self.link, self.origin, self.sent, self.acknowledged = server.link(), origin, sent, 0

    def run(self) -> None:
        while True:
            row = message("POST", "/samples", f"good,web,{self.origin + self.sent % 9_000},{self.sent // 9_000 + 1},1,2\n")
            try:
                answer = self.link.ask(row)
            except Lost:
                return
            assert answer.status == 200, answer
            self.sent += 1
            self.acknowledged = answer.told["entry"] + 1
            time.sleep(0.001)


def end(child: subprocess.Popen[str], chance: random.Random) -> None:
    """Kill slo-follow, with the office's program that it runs, or alone."""
    if chance.random() < 0.5:
        os.killpg(child.pid, signal.SIGKILL)
    else:
        child.kill()
    child.communicate()


def killed(report: Report) -> None:
    """An office that takes rows is killed at random while a copy follows it by a program that stays and by askings one by
    one, which are killed too, or not."""
    rounds = 50 if report.whole else 5
    origin = minute_now() - 10_000
    office, follower = Office(report.program, report.folder("killed"), origin), Follower(report, "killed-copy")
    office.ask([define(objects.ratio("good"))])
    chance = random.Random(11)
    sent = least = fetched = stayed = 0
    with office.serving() as server:
        begun = time.monotonic()
        follower.run(server.base)
        most = 6 * (time.monotonic() - begun)

    def follow(server: Server, acknowledged: int) -> int:
        """How many entries the copy says that it has, where an asking came to its end."""
        child = follower.start(server.base, "--once")
        if chance.random() < 0.3:
            time.sleep(most / 6 * chance.random())
            end(child, chance)
            return 0
        out, said = child.communicate(timeout=120)
        assert child.returncode in (DONE, NO_OFFICE, NO_COPY), said
        if child.returncode:
            return 0
        told = int(out.split()[-3])
        assert told >= acknowledged, f"{told} entries, and {acknowledged} were acknowledged before"
        return told

    def stay(server: Server) -> int:
        """How many entries come by a program that stays, until the office or itself is killed."""
        before = len(follower.records())
        child = follower.start(server.base)
        begun, lasts = time.monotonic(), most / 2 * chance.random()
        while server.child.poll() is None and time.monotonic() < begun + lasts:
            assert child.poll() is None, child.communicate()
            time.sleep(0.01)
        end(child, chance)
        return len(follower.records()) - before

    with report.case(f"an office killed {rounds} times: the copy is a front, and what was fetched is there"):
        for number in range(rounds):
            with office.serving() as server:
                writer = Writer(server, origin, sent)
                writer.start()
                timer = threading.Timer(most * (0.2 + 0.8 * chance.random()), server.child.kill)
                timer.start()
                while server.child.poll() is None:
                    stayed += stay(server)
                    told = follow(server, writer.acknowledged)
                    least, fetched = max(least, told), fetched + (told > 0)
                writer.join()
            there, copy = office.records(), follower.records()
            assert len(there) >= writer.acknowledged, f"round {number}: {len(there)} entries of {writer.acknowledged} acknowledged ones"
            assert copy == there[: len(copy)], f"round {number}: no front"
            assert len(copy) >= least, f"round {number}: {len(copy)} entries of {least} fetched ones"
            sent = len(there) - 1
        assert fetched >= max(1, rounds // 10), f"{fetched} fetches came to their end"
        assert stayed > 0, "nothing came by the program that stays"
    with report.case("the copy catches up, and answers as the office does"):
        with office.serving() as server:
            status, line = follower.run(server.base)
        assert (status, line.split()[-3:]) == (DONE, [str(len(office.records())), "are", "there"]), line
        compare(office, follower.copy, ["/notices", "/objects", "/objects/SLI/good", "/entries?from=0"], minute_now() + 1)


def behind_nginx(report: Report) -> None:
    """TLS and a password in front of the office, as the example has it."""
    origin = minute_now() - 10_000
    office, follower, folder = Office(report.program, report.folder("behind"), origin), Follower(report, "behind-copy"), report.folder("nginx")
    office.ask([define(objects.ratio("good"))])
    named = (f"server_name {HOST};", "server_name localhost;")
    with report.case("nginx: TLS and a password"), office.serving() as server, front(folder, {8080: server.port}, changed=named) as port:
        secret = folder / "secret"
        secret.write_text("secret\n")
        trust, base = f'ca = "{folder / "office.crt"}"\n', f"https://localhost:{port}"
        login = f'user = "team"\npassword_file = "{secret}"\n'
        rows(server, origin, 0, 3)
        for more in (login, trust):
            status, line = follower.run(base, more=more)
            assert status == NO_OFFICE and line.startswith("slo-follow: no feed ("), line
        same(follower.run(base, more=trust + login), (DONE, "4 entries came, 4 are there"))
        assert follower.records() == office.records()


def run(report: Report) -> None:
    if missing := lacking():
        report.skipped.append(("all of them", f"{', '.join(missing)} isn't installed"))
        return
    askings(report)
    divergences(report)
    far_back(report)
    full_disk(report)
    killed(report)
    behind_nginx(report)
