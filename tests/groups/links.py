"""Links that wait, that are slow, and that are too many; and an office that has few descriptors."""
from __future__ import annotations

import os
import random
import resource
import subprocess
import threading
import time
from collections.abc import Callable
from functools import partial
from pathlib import Path

from office import EXAMPLES, Link, Lost, Office, Server, free_port, message, minute_now
from report import Report, Skipped

ORIGIN = minute_now() - 20_000
ASKED = message("GET", "/burns/shop-slo/0?lookback=1h")
# As many links as there may be.
MOST_LINKS = 1_000
# What an answer may take on a machine that does other things too. It is far below what a link that waits, or a slow one,
# may hold a worker for.
SOON = 1.5
# What it may take behind slow links, for nineteen of twenty clients.
AT_ONCE = 0.1
# What all links together may keep of messages that aren't whole, and the most that a body may have.
MOST_KEPT, MOST_BODY = 16 << 20, 1 << 20
# A service whose text is long.
LONG, LONG_BYTES = "long", 200_000


def service(name: str, size: int) -> bytes:
    """A document of at most so many bytes."""
    head = f"apiVersion: openslo/v1\nkind: Service\nmetadata:\n  name: {name}\n  annotations:\n"
    notes = "".join(f"    note{n}: {'n' * 80}\n" for n in range((size - 200) // 95))
    return f"{head}{notes}spec: {{}}\n".encode()


def seconds(link: Link, data: bytes = ASKED) -> float:
    """The time that an answer takes."""
    begun = time.monotonic()
    answer = link.ask(data)
    assert answer.status == 200, answer
    return time.monotonic() - begun


def is_closed(link: Link) -> bool:
    link.socket.settimeout(3)
    try:
        return link.socket.recv(1) == b""
    except TimeoutError:
        return False
    except ConnectionError:
        return True


def is_open_no_more(link: Link) -> bool:
    """Whether it is closed by now."""
    link.socket.setblocking(False)
    try:
        return link.socket.recv(1) == b""
    except BlockingIOError:
        return False
    except ConnectionError:
        return True
    finally:
        link.socket.settimeout(60)


def idle_links(report: Report, server: Server) -> None:
    for count in (4, 200):
        with report.case(f"behind {count} idle links a client is answered at once, and each of them too"):
            idle = [server.link() for _ in range(count)]
            took = [seconds(link) for link in (server.link(), *idle)]
            time.sleep(1)
            took += [seconds(link) for link in reversed(idle)]
            assert max(took) < SOON, f"{max(took):.2f} s"
            for link in idle:
                link.cut()
    with report.case("four that ask now and then hold nobody"):
        polls, took = [server.link() for _ in range(4)], []
        for _ in range(10):
            took += [seconds(link) for link in polls]
            time.sleep(0.2)
            took.append(seconds(server.link()))
        assert max(took) < SOON, f"{max(took):.2f} s"


def too_many(report: Report, server: Server) -> None:
    with report.case("above 1,000 the link that waits for the longest time is closed"):
        most = resource.getrlimit(resource.RLIMIT_NOFILE)[1]
        resource.setrlimit(resource.RLIMIT_NOFILE, (min(4 * MOST_LINKS, most), most))
        links = [server.link() for _ in range(MOST_LINKS)]
        assert seconds(links[0]) < SOON
        last = server.link()
        assert seconds(last) < SOON
        assert is_closed(links[1]), "it waits on"
        assert max(seconds(link) for link in (links[0], *links[2::50], links[-1])) < SOON
        for link in (last, *links):
            link.cut()


def streams(report: Report, server: Server) -> None:
    with report.case("messages that are cut anywhere have an answer each, over many waits"):
        link, chance = server.link(), random.Random(7)
        posted = message("POST", "/samples", rows(6_000))
        sent, wanted = (ASKED * 40 + posted) * 5, 205
        while sent:
            size = chance.choice((1, 10, 67, 500, 2_000))
            link.send(sent[:size])
            sent = sent[size:]
            time.sleep(chance.choice((0, 0, 0.001, 0.008)))
        answers = [link.answer() for _ in range(wanted)]
        assert [it.status for it in answers] == [200] * wanted
        assert [at for at, it in enumerate(answers) if b'"repeated"' in it.body] == list(range(40, wanted, 41))
    with report.case("one link has more than a thousand answers where it pauses now and then"):
        link = server.link()
        for number in range(1_500):
            if number % 100 == 50:
                time.sleep(0.05)
            assert link.ask(ASKED).status == 200, number


def rows(size: int) -> bytes:
    """Rows of about so many bytes, of which each minute may come again and again."""
    text = b"".join(b"shop-good,web,%d,1,9990,10000\n" % (ORIGIN + n) for n in range(1_000))
    return (text * (size // len(text) + 1))[:size].rpartition(b"\n")[0] + b"\n"


def drip(server: Server, stop: threading.Event, count: int) -> None:
    """Has so many links, each of which sends a byte each half second, in a head or in a body, and comes again when it is
    closed."""
    posted = message("POST", "/samples", rows(1_000))
    links = [server.link() for _ in range(count)]
    sent = [0] * count
    while not stop.is_set():
        for at, link in enumerate(links):
            data = posted if at % 2 else ASKED
            size = posted.index(b"\r\n\r\n") + 4 if at % 2 and not sent[at] else 1
            try:
                link.send(data[sent[at] : sent[at] + size])
                sent[at] += size
            except Lost:
                link.cut()
                links[at], sent[at] = server.link(), 0
            if stop.wait(0.5 / count):
                break
    for link in links:
        link.cut()


def behind_slow_links(server: Server, count: int) -> list[float]:
    """What answers take behind so many such links: of 40 clients, or of some where it takes long."""
    stop = threading.Event()
    took: list[float] = []
    slow_ones = threading.Thread(target=drip, args=(server, stop, count))
    slow_ones.start()
    try:
        time.sleep(2)
        while len(took) < 3 or len(took) < 40 and sum(took) < 20:
            link = server.link()
            took.append(seconds(link))
            link.cut()
            time.sleep(0.05)
    finally:
        stop.set()
        slow_ones.join()
    return took


def in_pieces(link: Link, data: bytes, count: int, pause: float) -> None:
    size = -(-len(data) // count)
    for at in range(0, len(data), size):
        link.send(data[at : at + size])
        time.sleep(pause)


def memory(server: Server) -> int:
    """The bytes that the server has in memory."""
    with open(f"/proc/{server.child.pid}/statm") as told:
        return int(told.read().split()[1]) * resource.getpagesize()


def slow_links(report: Report, server: Server) -> None:
    with report.case("behind 100 links that send a byte each half second a client is answered within 100 ms"):
        took = sorted(behind_slow_links(server, 100))
        assert took[-3] < AT_ONCE and took[-1] < SOON, f"{took[len(took) // 2]:.3f} s, {took[-3]:.3f} s, {took[-1]:.3f} s"
    with report.case("four messages that stand still hold nobody, and have their answers when they go on"):
        slow = [server.link() for _ in range(4)]
        for link in slow:
            link.send(ASKED[:-1])
        time.sleep(0.2)
        assert (took_last := seconds(server.link())) < SOON, f"{took_last:.1f} s"
        assert max(seconds(link, ASKED[-1:]) for link in slow) < SOON
    with report.case("a message that comes in pieces over 3 s is answered whole and once"):
        link, other = server.link(), server.link()
        posted = message("POST", "/samples", rows(2_000))
        in_pieces(link, posted, 20, 0.15)
        pieces = link.answer()
        assert (pieces.status, b'"repeated"' in pieces.body) == (200, True), pieces
        assert link.ask(ASKED).body == other.ask(ASKED).body
    with report.case("two messages, and a third behind them, are answered in turn wherever a wait cuts them"):
        three = message("POST", "/samples", rows(100)) + ASKED + ASKED
        wanted = [server.link().ask(ASKED).body] * 2
        for cut in range(1, len(three), 7):
            link = server.link()
            link.send(three[:cut])
            time.sleep(0.01)
            link.send(three[cut:])
            answers = [link.answer() for _ in range(3)]
            assert [it.status for it in answers] == [200] * 3 and [it.body for it in answers[1:]] == wanted, cut
            link.cut()
    with report.case("a body of nearly the most bytes is answered, in slow pieces as at once"):
        link = server.link()
        in_pieces(link, message("POST", "/objects", service("slow", MOST_BODY - 1_000)), 20, 0.1)
        assert (slow_one := link.answer()).status == 200, slow_one
        at_once = server.link().ask(message("POST", "/objects", service("fast", MOST_BODY - 1_000)))
        assert at_once.status == 200, at_once
    with report.case("what slow links keep is bounded: the longest waiting is closed for a new one"):
        posted, before = message("POST", "/objects", service("slow", MOST_BODY - 1_000)), memory(server)
        links = []
        for _ in range(100):
            links.append(server.link())
            links[-1].send(posted[:-1])
            time.sleep(0.02)
        assert seconds(server.link()) < SOON
        assert memory(server) - before < 4 * MOST_KEPT, f"{memory(server) - before} bytes"
        waiting = [at for at, link in enumerate(links) if not is_open_no_more(link)]
        assert 0 not in waiting and 10 <= len(waiting) <= 16, f"{waiting} wait"
        links[-1].send(posted[-1:])
        assert links[-1].answer().status == 200
        for link in links:
            link.cut()


def slow_messages(report: Report, server: Server) -> None:
    with report.case("a message has 10 s from its first byte to its last"):
        link = server.link()
        link.send(ASKED[:-1])
        time.sleep(4)
        assert seconds(link, ASKED[-1:]) < SOON
        silent, busy = server.link(), server.link()
        silent.send(ASKED[:-1])
        for byte in ASKED[:11]:
            busy.send(bytes([byte]))
            time.sleep(0.8)
        assert not any(map(is_open_no_more, (silent, busy)))
        time.sleep(4)
        assert is_closed(silent) and is_closed(busy), "one waits on"


def slow_takers(report: Report, server: Server) -> None:
    with report.case("one that takes nothing of long answers for 10 s is closed"):
        link = server.link()
        link.send(message("GET", f"/objects/Service/{LONG}") * 500)
        time.sleep(12)
        taken = 0
        try:
            while piece := link.socket.recv(1 << 20):
                taken += len(piece)
        except ConnectionError:
            pass
        assert 0 < taken < 100 * LONG_BYTES, f"{taken} bytes"


def late_requests(report: Report, office: Office) -> None:
    with report.case("a request that comes after 75 idle seconds, as links that wait too long are closed, has its answer"):
        library = next(Path("/usr/lib").glob("*/faketime/libfaketime.so.1"), None)
        if library is None:
            raise Skipped("faketime isn't installed")
        clock = office.folder / "clock"
        clock.write_text("+0s")
        turned = {"LD_PRELOAD": str(library), "FAKETIME_TIMESTAMP_FILE": str(clock), "FAKETIME_NO_CACHE": "1"}
        with office.serving(os.environ | turned) as server:
            link = server.link()
            seconds(link)
            time.sleep(0.1)
            clock.write_text("+80s")
            assert seconds(link) < SOON


def few_descriptors(report: Report, office: Office) -> None:
    for few in (6, 7, 8, 9, 12, 20):
        with report.case(f"with {few} descriptors it answers whoever comes, or ends with its line"):
            port = free_port()
            words = ["sh", "-c", f'ulimit -n {few} && exec "$@"', "sh", str(office.program), "serve", str(port)]
            child = subprocess.Popen(words, cwd=office.folder, stdout=subprocess.PIPE, stderr=subprocess.PIPE)
            assert child.stdout and child.stderr
            links, status = [], None
            if child.stdout.readline() == b"ready\n":
                for _ in range(8):
                    try:
                        links.append(Link(port, 5))
                        seconds(links[-1])
                    except (Lost, OSError):
                        status = child.wait(timeout=30)
                        break
            else:
                status = child.wait(timeout=30)
            if status is None:
                assert child.poll() is None
                child.kill()
                child.wait()
            else:
                said = child.stderr.read()
                assert (status, said) in ((8, b"slo_office: doors fault\n"), (4, b"slo_office: disk fault\n")), (status, said)
            for link in links:
                link.cut()


def quick_links(report: Report, server: Server) -> None:
    idle_links(report, server)
    streams(report, server)
    too_many(report, server)


def filled_office(report: Report, name: str) -> Office:
    """An office with an SLO, and a service whose text is long."""
    office = Office(report.program, report.folder(name), ORIGIN)
    texts = (EXAMPLES / "targets.yaml").read_bytes() + b"---\n" + (EXAMPLES / "shop.yaml").read_bytes()
    long = service(LONG, LONG_BYTES)
    assert [it.status for it in office.ask([message("POST", "/objects", text) for text in (texts, long)])] == [200, 200]
    return office


def over_server(report: Report, part: Callable[[Report, Server], None]) -> None:
    """A part over an office of its own, so that its links hold up no other part's."""
    with filled_office(report, part.__name__).serving() as server:
        part(report, server)
        with report.case(f"the server of {part.__name__} ran to the end"):
            assert server.child.poll() is None


def run(report: Report) -> None:
    over_server(report, quick_links)
    over_server(report, slow_links)
    late_requests(report, filled_office(report, "late"))
    waiting = [partial(over_server, report, it) for it in (slow_messages, slow_takers)]
    report.side_by_side([*waiting, lambda: few_descriptors(report, filled_office(report, "few"))], 3)
