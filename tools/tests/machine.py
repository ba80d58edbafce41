"""An empty Debian of a test's own: made by debootstrap, with systemd booted in a container.

Its network is its own, so that it listens where a page says and reaches nobody: what its commands
install was fetched before. All that it changes is gone with it. Of this machine nothing is changed
but the folder in which the empty Debian is kept for the next time: `out/machine` of this folder, or
the one that SLO_TOOLS_MACHINE names. The packages are those of `release`, or of the folder that
SLO_TOOLS_RELEASE names.
"""

from __future__ import annotations

import hashlib
import os
import shutil
import subprocess
import unittest
from collections.abc import Iterator, Sequence
from contextlib import contextmanager, suppress
from dataclasses import dataclass
from pathlib import Path
from typing import IO, Optional

import support

SUITE = "bookworm"
MIRROR = "http://deb.debian.org/debian"
# What an installed Debian has beyond debootstrap's least, as far as a page stands on it.
EMPTY = "ca-certificates,dbus,procps,sudo,systemd-sysv"
# What the pages' commands install beside our packages and what these depend on.
SERVERS = ("curl", "nginx-light", "prometheus", "prometheus-alertmanager")
MARK = "\001"
ROOM = Path(os.environ.get("SLO_TOOLS_MACHINE") or Path(__file__).parent / "out" / "machine")
RELEASE = Path(os.environ.get("SLO_TOOLS_RELEASE") or support.TOP / "release")

# A person of this machine, who types yes where apt asks. The test's script is the last thing that
# starts, and the machine goes off with its end.
FILES = {
    "etc/sudoers.d/team": "team ALL=(ALL) NOPASSWD: ALL\n",
    "etc/hostname": "empty\n",
    "etc/hosts": "127.0.0.1 localhost empty\n",
    "etc/apt/apt.conf.d/90yes": 'APT::Get::Assume-Yes "true";\n',
    "etc/systemd/system/script.service": """[Unit]
Description=The script of a test
After=basic.target
SuccessAction=poweroff-force
FailureAction=poweroff-force

[Service]
Type=oneshot
User=team
WorkingDirectory=/home/team
Environment=HOME=/home/team LANG=C.UTF-8 PATH=/usr/local/bin:/usr/bin:/bin
ExecStart=/bin/bash /results/script
StandardOutput=append:/results/output
StandardError=append:/results/output
""",
}


def needed() -> None:
    """Everything that a machine takes, or the test is skipped by name."""
    if os.geteuid() != 0:
        raise unittest.SkipTest("root alone starts a machine of its own")
    for name in ("debootstrap", "systemd-nspawn", "unshare"):
        if support.installed(name) is None:
            raise unittest.SkipTest(f"{name} isn't installed")
    if len(packages()) != 2:
        raise unittest.SkipTest(f"{RELEASE} hasn't the two packages: release/make makes them")


def packages() -> list[Path]:
    return sorted(RELEASE.glob("*.deb"))


def empty_machine() -> Path:
    """The root of the empty machine, which is made where it isn't there yet, in some minutes."""
    fields = [_told("dpkg-deb", "--field", it, "Depends", "Recommends") for it in packages()]
    recipe = "\n".join([SUITE, EMPTY, *SERVERS, *fields, *FILES.values()])
    root = ROOM / f"debian-{hashlib.sha256(recipe.encode()).hexdigest()[:8]}"
    if not root.exists():
        ROOM.mkdir(parents=True, exist_ok=True)
        for old in ROOM.glob("debian-*"):
            shutil.rmtree(old)
        half = root.with_name(f"half-{os.getpid()}")
        try:
            _make(half)
            if not root.exists():
                half.rename(root)
        except (subprocess.CalledProcessError, subprocess.TimeoutExpired) as fault:
            line = (str(fault.stderr or fault.stdout or "").strip().splitlines() or [""])[-1]
            why = f"no empty Debian could be made: {fault.cmd[0]}: {line}"
            raise unittest.SkipTest(why) from fault
        finally:
            shutil.rmtree(half, ignore_errors=True)
    return root


def _make(root: Path) -> None:
    _told("debootstrap", "--variant=minbase", f"--include={EMPTY}", SUITE, root, MIRROR)
    _told("chroot", root, "useradd", "--create-home", "--shell", "/bin/bash", "team")
    for name, text in FILES.items():
        (root / name).write_text(text)
    _told("chroot", root, "systemctl", "enable", "dbus.service")
    wanted = root / "etc/systemd/system/multi-user.target.wants/script.service"
    wanted.parent.mkdir(exist_ok=True)
    wanted.symlink_to("/etc/systemd/system/script.service")
    # What will be installed is fetched now, with all that it recommends.
    for it in packages():
        shutil.copy(it, root / "tmp")
    ours = [f"/tmp/{it.name}" for it in packages()]
    fetch = ["chroot", root, "apt-get", "--download-only", "install", *SERVERS, *ours]
    _told(*fetch, environment={**os.environ, "DEBIAN_FRONTEND": "noninteractive"})
    for name in ours:
        (root / name.removeprefix("/")).unlink()


def _told(*words: object, environment: Optional[dict[str, str]] = None) -> str:
    ended = subprocess.run(
        [str(word) for word in words],
        check=True,
        capture_output=True,
        text=True,
        env=environment,
        timeout=1800,
    )
    return ended.stdout


@contextmanager
def group_of_its_own() -> Iterator[list[Path]]:
    """Control groups for a container where no systemd of this machine gives them; they are removed
    with all that the container leaves below them."""
    top = Path("/sys/fs/cgroup")
    trees = [top] if (top / "cgroup.procs").exists() else [top / "systemd", top / "unified"]
    trees = [tree for tree in trees if tree.is_dir()]
    groups = [tree / f"slo-tools-{os.getpid()}" for tree in trees]
    for group in groups:
        group.mkdir()
    try:
        yield groups
    finally:
        for group in groups:
            inner = sorted(it for it in group.rglob("*") if it.is_dir())
            for it in [*reversed(inner), group]:
                it.rmdir()


@dataclass(frozen=True)
class Said:
    """What a command wrote, and its status."""

    text: str
    status: int


def said_on_empty_machine(folder: Path, commands: Sequence[str], seconds: float) -> list[Said]:
    """What each command says that a person types, in one shell, on the empty machine."""
    script = "".join(f"{line}\nprintf '{MARK}%s{MARK}' $?\n" for line in commands)
    parts = run_on_empty_machine(folder, script, seconds).split(MARK)
    said = [Said(text, int(status)) for text, status in zip(parts[::2], parts[1::2])]
    assert len(said) == len(commands), f"{parts[-1]}\n{(folder / 'console').read_text()}"
    return said


def run_on_empty_machine(folder: Path, script: str, seconds: float) -> str:
    """What a script says that a person runs in their home on the empty machine. The packages lie
    there."""
    results = folder / "results"
    results.mkdir()
    for it in packages():
        shutil.copy(it, results)
    front = "sudo install -m 644 -o team /results/*.deb .\n"
    (results / "script").write_text(front + script)
    (results / "output").touch()
    words = [
        "systemd-nspawn",
        "--quiet",
        "--boot",
        f"--directory={empty_machine()}",
        "--volatile=overlay",
        "--private-network",
        "--register=no",
        "--link-journal=no",
        "--resolv-conf=off",
        "--timezone=off",
        "--console=pipe",
        f"--bind={results}:/results",
    ]
    with (folder / "console").open("wb") as console:
        if Path("/run/systemd/system").exists():
            _run(words, console, seconds)
        else:
            with group_of_its_own() as groups:
                joins = "".join(f"echo $$ > {it}/cgroup.procs\n" for it in groups)
                # What systemd-nspawn keeps in /run is its own.
                shell = joins + 'mount -t tmpfs -o mode=755 tmpfs /run\nexec "$@"\n'
                apart = ["unshare", "--mount", "--propagation", "private", "sh", "-e", "-c", shell]
                _run([*apart, "sh", *words, "--keep-unit"], console, seconds)
    return (results / "output").read_text()


def _run(words: list[str], console: IO[bytes], seconds: float) -> None:
    running = subprocess.Popen(words, stdin=subprocess.DEVNULL, stdout=console, stderr=console)
    try:
        running.wait(seconds)
    finally:
        # Twice: the first one asks the machine to go off.
        for _ in range(2):
            if running.poll() is None:
                running.terminate()
                with suppress(subprocess.TimeoutExpired):
                    running.wait(20)
