"""The package of release/: what is in it, and how it is installed, run and removed, in a root of its own.

dpkg puts it into a folder, as root alone can. The unit isn't started by systemd: its commands are run here, in its state
folder, by another user than root.
"""
from __future__ import annotations

import gzip
import os
import re
import shutil
import subprocess
from pathlib import Path

from office import MOST_SECONDS, TOP, Link, Office, free_port, message, minute_now
from report import Report, Skipped

NOBODY = 65534
UNIT = "usr/lib/systemd/system/slo_office.service"
INIT = "usr/lib/systemd/system/slo_office-init.service"


# Where the packages lie, as for the tools' tests.
RELEASE = Path(os.environ.get("SLO_TOOLS_RELEASE") or TOP / "release")
DOCUMENTS = "usr/share/doc/slo-office"
LINK = re.compile(r"\]\(([^)#\s]*)(?:#([^)]*))?\)")
# A place that a text names, without the dot of its sentence.
NAMED = re.compile(r"/usr/(?:share|lib)/(?:doc/)?slo-office[\w./-]*[\w-]")
# At least as many links and named places as the pages have.
SOME = 100


def packages() -> list[Path]:
    return sorted(RELEASE.glob("*.deb"))


def done(*words: str | Path, **more: object) -> str:
    ran = subprocess.run(words, capture_output=True, text=True, timeout=MOST_SECONDS, **more)  # type: ignore[call-overload]
    assert ran.returncode == 0, f"{words}: {ran.stdout}{ran.stderr}"
    return str(ran.stdout)


class Root:
    """A folder that dpkg takes for the root of a system."""

    def __init__(self, folder: Path) -> None:
        self.folder = folder
        # the other user has to come through to the state folder
        for it in (folder, folder.parent):
            it.chmod(0o755)
        for name in ("info", "updates"):
            (folder / "var/lib/dpkg" / name).mkdir(parents=True)
        (folder / "var/lib/dpkg/status").touch()

    def dpkg(self, *words: str | Path) -> str:
        return done("dpkg", f"--root={self.folder}", "--force-depends", "--force-script-chrootless", "--log=/dev/null", *words)


def fields(path: Path) -> dict[str, list[str]]:
    """The fields of a unit, each with all its values."""
    found: dict[str, list[str]] = {}
    for line in path.read_text().splitlines():
        name, equals, value = line.partition("=")
        if equals and not line.startswith("#"):
            found.setdefault(name, []).append(value)
    return found


class State:
    """The state folder of the units, and their commands by a user that isn't root."""

    def __init__(self, root: Root) -> None:
        self.root = root
        self.folder = root.folder / "var/lib/slo_office"
        self.journal = self.folder / "office.journal"
        self.first, self.second = (fields(root.folder / it) for it in (INIT, UNIT))
        for it in (self.first, self.second):
            assert it["DynamicUser"] == ["yes"] and it["StateDirectory"] == ["slo_office"], it
            assert it["WorkingDirectory"] == ["/var/lib/slo_office"], it

    def empty(self) -> None:
        shutil.rmtree(self.folder, ignore_errors=True)
        self.folder.mkdir(parents=True, mode=0o700)
        os.chown(self.folder, NOBODY, NOBODY)

    def words(self, line: str, origin: str = "") -> list[str]:
        """The words of a unit's command, as systemd makes them: a variable without a value is none."""
        found = [origin if it == "$ORIGIN" else it for it in line.split()]
        return [it.replace("/usr/bin/slo_office", f"{self.root.folder}/usr/bin/slo_office") for it in found if it]

    def prepare(self, origin: str = "", stop: int | None = None) -> int:
        """The commands of the first unit, up to one that fails or is stopped; the last status."""
        assert self.first["ConditionPathExists"] == ["!/var/lib/slo_office/office.journal"]
        for line in self.first["ExecStart"][:stop]:
            ran = subprocess.run(self.words(line, origin), cwd=self.folder, user=NOBODY, group=NOBODY, capture_output=True, timeout=MOST_SECONDS)
            if ran.returncode:
                return ran.returncode
        return 0

    def origin(self) -> int:
        return int.from_bytes(self.journal.read_bytes()[9:13], "big")

    def is_upgraded(self) -> bool:
        """Whether its first record is the upgrade, of kind 9."""
        records = Office(self.root.folder / "usr/bin/slo_office", self.folder).records()
        return bool(records) and records[0][4] == 9


def makes_journals(report: Report, root: Root) -> None:
    """What the first unit makes, and never touches."""
    state = State(root)
    with report.case("its first unit makes an upgraded office, of the clock's minute"):
        state.empty()
        begun = minute_now()
        assert state.prepare() == 0
        assert begun <= state.origin() <= minute_now() and state.is_upgraded()
        assert [it.name for it in state.folder.iterdir()] == ["office.journal"]
        assert state.journal.stat().st_uid == NOBODY
    with report.case("a journal that is there stays as it is, also where the commands run"):
        before = state.journal.read_bytes()
        assert state.prepare("29000000") != 0
        assert state.journal.read_bytes() == before
    with report.case("stopped behind each command it is begun anew, and never is there half an office"):
        commands = len(state.first["ExecStart"])
        assert commands > 3
        for stop in range(1, commands):
            state.empty()
            state.prepare(stop=stop)
            if not state.journal.exists():
                assert state.prepare() == 0, stop
            assert state.is_upgraded(), stop
    with report.case("a history from an earlier minute, by /etc/default/slo_office"):
        assert state.first["EnvironmentFile"] == ["-/etc/default/slo_office"]
        origin = minute_now() - 44_640
        state.empty()
        assert state.prepare(str(origin)) == 0
        assert state.origin() == origin and state.is_upgraded()
    with report.case("an origin that isn't one makes no journal, and the office isn't started"):
        assert state.second["Requires"] == ["slo_office-init.service"]
        for wrong in ("yesterday", str(minute_now() + 60)):
            state.empty()
            assert state.prepare(wrong) != 0 and not state.journal.exists(), wrong


def start(root: Root) -> None:
    """The second unit's command over what the first one made."""
    state = State(root)
    state.empty()
    assert state.prepare() == 0
    port = str(free_port())
    assert state.second["ExecStart"] == ["/usr/bin/slo_office serve 8080"], state.second["ExecStart"]
    program = root.folder / "usr/bin/slo_office"
    child = subprocess.Popen([program, "serve", port], cwd=state.folder, user=NOBODY, group=NOBODY, stdout=subprocess.PIPE)
    try:
        assert child.stdout and child.stdout.readline() == b"ready\n"
        # the upgrade is entry 0
        assert Link(int(port)).ask(message("POST", "/tick")).told == {"entry": 1, "notices": 0}
    finally:
        child.terminate()
        child.wait()


def office_package(report: Report, path: Path) -> None:
    root = Root(report.folder("root"))
    with report.case("dpkg installs it"):
        if os.geteuid() != 0:
            raise Skipped("dpkg installs as root alone")
        root.dpkg("--install", path)
        told = Office(root.folder / "usr/bin/slo_office", report.folder("tried")).run("generate", "1")
        assert told.stdout.startswith(b"requests 6\nok 6\n"), told
    if not (root.folder / "usr/bin/slo_office").exists():
        return
    with report.case("man reads its page"):
        if not shutil.which("man"):
            raise Skipped("man isn't installed")
        page = done("man", "-l", root.folder / "usr/share/man/man1/slo_office.1.gz", env={"PATH": os.environ["PATH"], "MANWIDTH": "100", "MANPAGER": "cat"})
        assert "an error budget office" in page and "budget TARGET FROM TO" in page, page[:300]
    with report.case("bash completes its words"):
        script = f". {root.folder}/usr/share/bash-completion/completions/slo_office; COMP_WORDS=(slo_office ge); COMP_CWORD=1; _slo_office; echo $COMPREPLY"
        assert done("bash", "-c", script) == "generate\n"
    with report.case("systemd takes its units"):
        if not shutil.which("systemd-analyze"):
            raise Skipped("systemd isn't installed")
        units = [root.folder / it for it in (UNIT, INIT)]
        ran = subprocess.run(["systemd-analyze", "verify", "--man=no", *units], capture_output=True, text=True)
        # the program isn't installed in this system: a line about the text of a unit has a number
        wrong = [it for it in ran.stderr.splitlines() if re.search(r"slo_office\S*:\d+:", it)]
        assert not wrong, "\n".join(wrong)
    makes_journals(report, root)
    with report.case("its units' commands run by a user of their own"):
        start(root)
    with report.case("removal leaves the journal, and so does purge"):
        kept = (root.folder / "var/lib/slo_office/office.journal").read_bytes()
        root.dpkg("--remove", "slo-office")
        assert not (root.folder / "usr/bin/slo_office").exists()
        root.dpkg("--purge", "slo-office")
        assert (root.folder / "var/lib/slo_office/office.journal").read_bytes() == kept


def anchors(page: Path) -> set[str]:
    """What a page's headings are called in links."""
    heads = re.findall(r"(?m)^#+ (.+)$", page.read_text())
    return {re.sub(r"[^\w -]", "", it.lower()).replace(" ", "-") for it in heads}


def pages(report: Report, found: list[Path]) -> None:
    """The pages of both packages as they lie when both are installed: where they lead, and what they name."""
    root = report.folder("both")
    for path in found:
        subprocess.run(["dpkg-deb", "-x", path, root], check=True)
    with report.case("each link of the installed pages leads to a page of the packages, and to a heading there"):
        links, dead = 0, []
        for page in root.rglob("*.md"):
            for target, anchor in LINK.findall(page.read_text()):
                if "://" in target:
                    continue
                links += 1
                there = page.parent / target if target else page
                if not there.exists() or (anchor and anchor not in anchors(there)):
                    dead.append(f"{page.relative_to(root)}: {target}#{anchor}")
        assert links > SOME and not dead, f"{len(dead)} of {links}: {dead[:10]}"
    with report.case("each place that an installed text names is there"):
        texts = [it for it in root.rglob("*") if it.is_file() and it.suffix != ".gz" and it.name != "slo_office"]
        named = {(name, it) for it in texts for name in NAMED.findall(it.read_text(errors="replace"))}
        named |= {(name, it) for it in root.rglob("*.1.gz") for name in NAMED.findall(gzip.decompress(it.read_bytes()).decode())}
        lacking = [f"{it.relative_to(root)}: {name}" for name, it in named if not (root / name.lstrip("/")).exists()]
        assert len(named) > 10 and not lacking, lacking
    with report.case("all pages and examples lie in one folder"):
        lying = [it.relative_to(root) for it in (root / "usr/share/doc").rglob("*") if it.is_file()]
        assert any(it.name == "desk.md" for it in lying)
        apart = [it for it in lying if not it.is_relative_to(DOCUMENTS) and it.name not in ("changelog.gz", "copyright")]
        assert not apart, apart


def run(report: Report) -> None:
    found = packages()
    with report.case("each package has lintian without an error"):
        if not found:
            raise Skipped("release/ has no package: release/make makes it")
        if not shutil.which("lintian"):
            raise Skipped("lintian isn't installed")
        ran = subprocess.run(["lintian", "--allow-root", *found], capture_output=True, text=True)
        assert not re.search(r"(?m)^E: ", ran.stdout), ran.stdout
    if len(found) == 2:
        pages(report, found)
    for path in found:
        if path.name.startswith("slo-office_"):
            office_package(report, path)
