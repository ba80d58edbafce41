"""Runs a program as its tracer: the clock reads what is wanted, reads are short, and calls fail or end the program.

Linux on x86-64 alone, by `ptrace`; nothing has to be installed. The program's calls of the kernel are stopped at; the
page by which the C library reads the clock without a call is hidden from it first.
"""
from __future__ import annotations

import ctypes
import errno
import os
import platform
import signal
import struct
import subprocess
import threading
from collections import Counter
from collections.abc import Mapping, Sequence
from dataclasses import dataclass, field
from pathlib import Path

TRACEME, GETREGS, SETREGS, SYSCALL, SETOPTIONS = 0, 12, 13, 24, 0x4200
SYSGOOD, EXITKILL = 1, 0x100000
AT_IGNORE, AT_SYSINFO_EHDR = 1, 33
REGISTERS = ("r15 r14 r13 r12 rbp rbx r11 r10 r9 r8 rax rcx rdx rsi rdi orig_rax rip cs eflags rsp ss fs_base gs_base"
             " ds es fs gs").split()
NUMBERS = {0: "read", 1: "write", 9: "mmap", 12: "brk", 17: "pread64", 18: "pwrite64", 74: "fsync", 75: "fdatasync", 77: "ftruncate", 228: "clock_gettime"}
DISK = ("pread64", "pwrite64", "fsync", "fdatasync", "ftruncate")
KILL = "kill"
# A run that takes longer is ended.
MOST_SECONDS = 600
SKIPPED = (1 << 64) - 1

libc = ctypes.CDLL(None, use_errno=True)
libc.ptrace.restype = ctypes.c_long
libc.ptrace.argtypes = [ctypes.c_long, ctypes.c_long, ctypes.c_void_p, ctypes.c_void_p]


class Registers(ctypes.Structure):
    _fields_ = [(name, ctypes.c_ulonglong) for name in REGISTERS]


@dataclass
class Outside:
    """What a run meets: the clock's readings in minutes, of which the last stays; how many bytes a read of the input
    gives at most; and calls that fail with an error of the kernel, or end the program as they begin. A call is named
    with its number from 0: `input` and `output` are reads and writes of these, `disk` all calls on the journal, and each
    call of the kernel has a count of its own."""

    readings: Sequence[int] = ()
    piece: int | None = None
    faults: Mapping[tuple[str, int], int | str] = field(default_factory=dict)


@dataclass
class Ran:
    """What came of a run; a status below 0 is a signal. `calls` counts its calls by name."""

    status: int
    output: bytes
    errors: bytes
    calls: Counter[str]


class Absent(Exception):
    """Why no program can be traced here."""


def ptrace(what: int, pid: int, address: int = 0, data: object = 0) -> None:
    if libc.ptrace(what, pid, address, data) == -1:
        number = ctypes.get_errno()
        raise OSError(number, os.strerror(number))


def hide_clock_page(pid: int, registers: Registers) -> None:
    """Takes the kernel's page out of what the program is told of, so that it asks the kernel for the time."""
    with open(f"/proc/{pid}/mem", "r+b", buffering=0) as memory:
        at = registers.rsp
        memory.seek(at)
        count = struct.unpack("<Q", memory.read(8))[0]
        at += 8 * (count + 2)

        def word(place: int) -> int:
            memory.seek(place)
            return int(struct.unpack("<Q", memory.read(8))[0])

        while word(at):
            at += 8
        at += 8
        while (kind := word(at)) != 0:
            if kind == AT_SYSINFO_EHDR:
                memory.seek(at)
                memory.write(struct.pack("<Q", AT_IGNORE))
            at += 16


class Tracer:
    """A traced program, from its first instruction to its end."""

    def __init__(self, pid: int, outside: Outside) -> None:
        self.pid, self.outside = pid, outside
        self.calls: Counter[str] = Counter()
        self.registers = Registers()
        self.answer: int | None = None
        self.clock: int | None = None

    def load(self) -> None:
        ptrace(GETREGS, self.pid, 0, ctypes.byref(self.registers))

    def store(self) -> None:
        ptrace(SETREGS, self.pid, 0, ctypes.byref(self.registers))

    def run(self) -> int:
        """Lets the program run to its end, and gives its status as `waitpid` does."""
        status = os.waitpid(self.pid, 0)[1]
        if os.WIFSTOPPED(status):
            ptrace(SETOPTIONS, self.pid, 0, SYSGOOD | EXITKILL)
            self.load()
            hide_clock_page(self.pid, self.registers)
        inside, deliver = False, 0
        while not (os.WIFEXITED(status) or os.WIFSIGNALED(status)):
            try:
                ptrace(SYSCALL, self.pid, 0, deliver)
            except ProcessLookupError:
                pass  # it was killed as the call began
            status, deliver = os.waitpid(self.pid, 0)[1], 0
            if not os.WIFSTOPPED(status):
                continue
            if os.WSTOPSIG(status) == signal.SIGTRAP | 0x80:
                self.load()
                self.leave() if inside else self.enter()
                inside = not inside
            elif os.WSTOPSIG(status) != signal.SIGTRAP:
                deliver = os.WSTOPSIG(status)
        return status

    def is_of_journal(self) -> bool:
        try:
            return os.readlink(f"/proc/{self.pid}/fd/{self.registers.rdi}").endswith("office.journal")
        except OSError:
            return False

    def names(self, call: str) -> list[str]:
        """The names that a call has here; calls on other files than the journal have none."""
        if call in DISK:
            return [call, "disk"] if self.is_of_journal() else []
        found = [call]
        if call == "read" and self.registers.rdi == 0:
            found.append("input")
        if call == "write" and self.registers.rdi == 1:
            found.append("output")
        return found

    def enter(self) -> None:
        """A call begins."""
        self.answer = self.clock = None
        call = NUMBERS.get(self.registers.orig_rax)
        if call is None:
            return
        if call == "clock_gettime" and self.registers.rdi == 0 and self.outside.readings:
            place = min(self.calls["clock"], len(self.outside.readings) - 1)
            self.clock = 60 * self.outside.readings[place] + 30
            self.calls["clock"] += 1
        for name in self.names(call):
            fate = self.outside.faults.get((name, self.calls[name]))
            self.calls[name] += 1
            if fate == KILL:
                os.kill(self.pid, signal.SIGKILL)
            elif isinstance(fate, int):
                self.answer = -fate
                self.registers.orig_rax = SKIPPED
                self.store()
        if call == "read" and self.registers.rdi == 0 and self.outside.piece:
            self.registers.rdx = min(self.registers.rdx, self.outside.piece)
            self.store()

    def leave(self) -> None:
        """A call ends."""
        if self.answer is not None:
            self.registers.rax = self.answer & SKIPPED
            self.store()
        if self.clock is not None:
            with open(f"/proc/{self.pid}/mem", "r+b", buffering=0) as memory:
                memory.seek(self.registers.rsi)
                memory.write(struct.pack("<qq", self.clock, 0))


def run(program: Path, words: Sequence[str], folder: Path, data: bytes = b"", outside: Outside | None = None) -> Ran:
    """Runs the program in a folder over an input, in these circumstances."""
    if platform.machine() != "x86_64" or platform.system() != "Linux":
        raise Absent("programs are traced on Linux on x86-64 alone")
    paths = [folder / f".{name}" for name in ("input", "output", "errors")]
    paths[0].write_bytes(data)
    with open(paths[0], "rb") as source, open(paths[1], "wb") as sink, open(paths[2], "wb") as errors:
        child = subprocess.Popen([program, *words], cwd=folder, stdin=source, stdout=sink, stderr=errors,
                                 preexec_fn=lambda: libc.ptrace(TRACEME, 0, None, None))
    tracer = Tracer(child.pid, outside or Outside())
    watch = threading.Timer(MOST_SECONDS, child.kill)
    watch.start()
    try:
        status = tracer.run()
    except OSError as why:
        child.kill()
        child.wait()
        if why.errno in (errno.EPERM, errno.EIO, errno.ENOSYS):
            raise Absent(f"programs can't be traced here: {why}") from None
        raise
    finally:
        watch.cancel()
    child.returncode = os.waitstatus_to_exitcode(status)
    output, told = paths[1].read_bytes(), paths[2].read_bytes()
    for path in paths:
        path.unlink()
    return Ran(child.returncode, output, told, tracer.calls)
