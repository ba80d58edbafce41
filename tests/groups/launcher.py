"""The launcher in a copy of the checkout, with a release of the program and without the toolchain on the path."""
from __future__ import annotations

import hashlib
import os
import shutil
import subprocess
import time
from collections.abc import Callable
from pathlib import Path

from office import TOP
from report import Report, Skipped

BUDGET = ["budget", "0.999", "0", "1440"]
FIELDS = "Package: slo-office\nVersion: {}\nArchitecture: amd64\nMaintainer: nobody <nobody@localhost>\nDescription: the program alone\n"


class Checkout:
    """A copy of what the launcher looks at."""

    def __init__(self, room: Path) -> None:
        self.top = room
        for name in ("crates", "docs", "examples", "release"):
            shutil.copytree(TOP / name, room / name, ignore=shutil.ignore_patterns("out", "*.deb"))
        for name in ("crates.txt", "HANDLES", "VERSION", "slo_office"):
            shutil.copy2(TOP / name, room / name)
        self.version = (room / "VERSION").read_text().strip()

    def run(self, *words: str, path: str = "/usr/bin:/bin") -> subprocess.CompletedProcess[bytes]:
        """The launcher, with the example as the input."""
        words_of = {"PATH": path, "HOME": str(self.top)}
        data = (self.top / "examples" / "day.csv").read_bytes()
        return subprocess.run([self.top / "slo_office", *words], input=data, capture_output=True, env=words_of, timeout=120)

    def sum(self) -> str:
        return subprocess.run([self.top / "release" / "sources"], check=True, capture_output=True, text=True).stdout.strip()

    def release(self, program: bytes, sources: str, told: bytes) -> None:
        """A package of these bytes, and an account of these sources and of a program."""
        room = self.top / "package"
        shutil.rmtree(room, ignore_errors=True)
        (room / "DEBIAN").mkdir(parents=True)
        (room / "DEBIAN" / "control").write_text(FIELDS.format(self.version))
        (room / "usr" / "bin").mkdir(parents=True)
        (room / "usr" / "bin" / "slo_office").write_bytes(program)
        (room / "usr" / "bin" / "slo_office").chmod(0o755)
        path = self.top / "release" / f"slo-office_{self.version}_amd64.deb"
        subprocess.run(["dpkg-deb", "-Zgzip", "--build", room, path], check=True, stdout=subprocess.DEVNULL)
        told_sum = hashlib.sha256(told).hexdigest()
        (self.top / "release" / "SOURCES").write_text(f"version {self.version}\nsources {sources}\ntoolchain none\nprogram {told_sum}\n")
        shutil.rmtree(self.top / "out", ignore_errors=True)


def refuses(checkout: Checkout, line: bytes) -> None:
    done = checkout.run(*BUDGET)
    assert done.returncode == 1 and not done.stdout and line in done.stderr, done


OTHERS = b"these sources aren't those that release/ was made of"
# Some file systems tell moments in steps, so what was changed just now is summed up again.
SETTLED = 60
# What a call may take of the processor without a sum: it looks at 2,600 files, and reads none.
LOOK = 0.15


class Counted:
    """The launcher's `sha256sum`, which tells how many files it was given."""

    def __init__(self, room: Path) -> None:
        self.log = room / "summed"
        tool = room / "sha256sum"
        room.mkdir()
        tool.write_text(f'#!/bin/sh\necho $# >>{self.log}\nexec /usr/bin/sha256sum "$@"\n')
        tool.chmod(0o755)
        self.path = f"{room}:/usr/bin:/bin"

    def files(self, checkout: Checkout) -> int:
        """How many files are summed up by a call that does its work."""
        self.log.write_text("")
        done = checkout.run(*BUDGET, path=self.path)
        assert done.returncode == 0 and done.stdout.count(b"\n") == 8, done
        return sum(map(int, self.log.read_text().split()))

    def settle(self, checkout: Checkout) -> None:
        """Until a call sums nothing up."""
        end = time.monotonic() + SETTLED
        while self.files(checkout) > 0:
            assert time.monotonic() < end, "each call sums all files up"
            time.sleep(0.2)


def sums(report: Report, checkout: Checkout, program: bytes) -> None:
    """The sum that a call keeps for the next one, and each change that makes it worth nothing."""
    counted = Counted(checkout.top / "tool")
    crate = checkout.top / "crates" / "slo_limits"
    source = crate / "src" / "lib.rt"
    checkout.release(program, checkout.sum(), program)
    with report.case("a call sums up what changed, and the next one reads no file"):
        assert counted.files(checkout) > 2000
        counted.settle(checkout)
        spent = []
        for _ in range(3):
            used = os.times()
            assert checkout.run(*BUDGET).returncode == 0
            now = os.times()
            spent.append(now.children_user + now.children_system - used.children_user - used.children_system)
        assert min(spent) < LOOK, spent
    with report.case("times that were set are looked at again"):
        os.utime(source)
        assert counted.files(checkout) > 2000
        counted.settle(checkout)

    def told(case: str, change: Callable[[], object], back: Callable[[], object]) -> None:
        with report.case(f"a kept sum stands for nothing behind {case}"):
            counted.settle(checkout)
            change()
            try:
                refuses(checkout, OTHERS)
            finally:
                back()
            counted.settle(checkout)

    original, times = source.read_bytes(), (source.stat().st_atime_ns, source.stat().st_mtime_ns)
    changed = original.replace(b"the", b"tha", 1)
    assert changed != original and len(changed) == len(original)

    def write(data: bytes) -> None:
        source.write_bytes(data)
        os.utime(source, ns=times)

    def replace(data: bytes) -> None:
        beside = crate / "beside"
        beside.write_bytes(data)
        os.utime(beside, ns=times)
        beside.replace(source)

    told("a change in place with the old time", lambda: write(changed), lambda: write(original))
    told("another file in its place with the old time", lambda: replace(changed), lambda: replace(original))
    told("a new file", lambda: (crate / "src" / "new.rt").touch(), (crate / "src" / "new.rt").unlink)
    told("a file that is gone", source.unlink, lambda: write(original))
    away, other = checkout.top / "away", checkout.top / "other"
    shutil.copytree(crate, other)
    (other / "src" / "lib.rt").write_bytes(changed)
    shutil.copystat(source, other / "src" / "lib.rt")

    def exchange(put: Path, keep: Path) -> None:
        crate.rename(keep)
        put.rename(crate)

    told("a folder that was moved away for another one, and back", lambda: exchange(other, away), lambda: exchange(away, other))
    with report.case("a kept sum goes with no copy of the checkout"):
        counted.settle(checkout)
        write(changed)
        for words in (["-a"], ["-r"]):
            copy = Checkout.__new__(Checkout)
            copy.top = checkout.top.with_name("copy")
            subprocess.run(["cp", *words, checkout.top, copy.top], check=True)
            refuses(copy, OTHERS)
            shutil.rmtree(copy.top)
        write(original)


def run(report: Report) -> None:
    checkout = Checkout(report.folder("checkout"))
    with report.case("--version and --help need no program"):
        assert checkout.run("--version").stdout == f"slo_office {checkout.version}\n".encode()
        told = checkout.run("--help").stdout.decode()
        assert all(f"\n  {it}" in told for it in ("budget TARGET FROM TO", "check", "init [ORIGIN]", "migrate", "pipe", "serve PORT", "report [AT]", "generate N")), told
    program = report.program.read_bytes()
    changed = bytearray(program)
    changed[len(changed) // 2] ^= 1
    with report.case("without a release of these sources and without the toolchain it says what is lacking"):
        (checkout.top / "release" / "SOURCES").unlink(missing_ok=True)
        refuses(checkout, b"there is no `rt` on the path")
    with report.case("a release of these sources is run within two seconds"):
        if not shutil.which("dpkg-deb"):
            raise Skipped("dpkg-deb isn't installed")
        checkout.release(program, checkout.sum(), program)
        begun, used = time.monotonic(), os.times()
        done = checkout.run(*BUDGET)
        took, spent = time.monotonic() - begun, os.times()
        assert done.returncode == 0 and done.stdout.count(b"\n") == 8 and not done.stderr, done
        busy = spent.children_user + spent.children_system - used.children_user - used.children_system
        assert took < 2 or busy < 1, f"{took:.2f} s, {busy:.2f} s of processor"
        assert checkout.run("--path").stdout == f"{checkout.top}/out/slo_office\n".encode()
        assert (checkout.top / "out" / "slo_office").read_bytes() == program
    if not shutil.which("dpkg-deb"):
        return
    with report.case("times of files start nothing"):
        for path in (checkout.top / "crates").rglob("*.rt"):
            os.utime(path)
        done = checkout.run(*BUDGET)
        assert done.returncode == 0 and not done.stderr, done
    sums(report, checkout, program)
    with report.case("a package whose program has one byte changed isn't run"):
        checkout.release(bytes(changed), checkout.sum(), program)
        refuses(checkout, b"isn't the one that release/SOURCES tells of")
    with report.case("sources with one byte changed don't run the released program"):
        checkout.release(program, checkout.sum(), program)
        with open(checkout.top / "crates" / "slo_limits" / "src" / "lib.rt", "a") as source:
            source.write("\n")
        refuses(checkout, OTHERS)
