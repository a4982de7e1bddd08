"""Runs the program once: what it wrote, its status, and what it took."""

import os
import select
import signal
import sys
import time
from dataclasses import dataclass

# What the bound of memory allows beside 20 bytes for each byte of input.
ALLOWED = 64 << 20
BYTES_FOR_ONE = 20
ENVIRONMENT = {"PATH": "/usr/bin:/bin", "LANG": "C.UTF-8"}
# What a program in Rust says as it panics, and what the C library and the sanitizers say as they end a program.
PANIC_TEXTS = (b"panicked at", b"RUST_BACKTRACE", b"overflowed its stack", b"AddressSanitizer", b"double free", b"corrupted size", b"malloc():", b"core dumped")
STATUSES = (0, 1, 2)
# A run gets no more than this, so that one that asks for all memory harms nobody.
MOST_ADDRESSES = 6 << 30


@dataclass
class Ended:
    """How a run ended. The status is that of the process, negative where a signal ended it, and None where its time was up."""

    status: int | None
    out: bytes
    error: bytes
    seconds: float
    processor: float
    memory: int

    def crash(self):
        """Why this is a crash, or the empty text."""
        if self.status is None:
            return f"it had not ended after {self.seconds:.0f} seconds"
        if self.status < 0:
            return f"signal {signal.Signals(-self.status).name}"
        if self.status not in STATUSES:
            return f"status {self.status}"
        found = next((text for text in PANIC_TEXTS if text in self.error), None)
        return f"it wrote {found.decode()!r}" if found else ""


def room():
    """A folder in memory, where the system has one: what a warehouse writes is synced."""
    return "/dev/shm" if os.access("/dev/shm", os.W_OK) else None


def memory_file(data=b""):
    """A file in memory with these bytes, read from its start."""
    file = os.memfd_create("fuzz")
    view = memoryview(data)
    while view:
        view = view[os.write(file, view) :]
    os.lseek(file, 0, os.SEEK_SET)
    return file


def content_of(file):
    size = os.fstat(file).st_size
    return os.pread(file, size, 0) if size else b""


# How many times the limit a run may last that hasn't had so much of the processor, as on a machine with much other work.
PATIENCE = 10


def ends_in_time(process, limit):
    """Whether a process ends before it has had so many seconds of the processor, and before the patience with it is over."""
    handle = os.pidfd_open(process)
    try:
        for _ in range(PATIENCE):
            if select.select([handle], [], [], limit)[0]:
                return True
            if processor_of(process) > limit / 2:
                return False
        return False
    finally:
        os.close(handle)


def processor_of(process):
    """The processor seconds that a process has had."""
    with open(f"/proc/{process}/stat", encoding="utf-8", errors="replace") as file:
        fields = file.read().rpartition(")")[2].split()
    return (int(fields[11]) + int(fields[12])) / os.sysconf("SC_CLK_TCK")


def run(words, given=b"", limit=20.0):
    """Runs a program on these bytes, as standard input, for so many seconds of the processor at most."""
    files = [memory_file(given), memory_file(), memory_file()]
    try:
        actions = [(os.POSIX_SPAWN_DUP2, file, place) for place, file in enumerate(files)]
        began = time.monotonic()
        process = os.posix_spawn(words[0], words, ENVIRONMENT, file_actions=actions)
        in_time = ends_in_time(process, limit)
        if not in_time:
            os.kill(process, signal.SIGKILL)
        _, status, used = os.wait4(process, 0)
        seconds = time.monotonic() - began
        status = os.waitstatus_to_exitcode(status) if in_time else None
        return Ended(status, content_of(files[1]), content_of(files[2]), seconds, used.ru_utime + used.ru_stime, used.ru_maxrss << 10)
    finally:
        for file in files:
            os.close(file)


def memory_bound(size):
    """The most bytes that a run on an input of this size may hold."""
    return BYTES_FOR_ONE * size + ALLOWED


# A program of its own, so that the memory of this one doesn't count: what a process had before it became the program does.
LAUNCHER = """
import os, resource, sys, select, signal, time
limit, given, out, error, words = float(sys.argv[1]), sys.argv[2], sys.argv[3], sys.argv[4], sys.argv[5:]
began = time.monotonic()
process = os.fork()
if process == 0:
    resource.setrlimit(resource.RLIMIT_AS, (MOST, MOST))
    os.dup2(os.open(given, os.O_RDONLY), 0)
    os.dup2(os.open(out, os.O_WRONLY | os.O_CREAT | os.O_TRUNC, 0o600), 1)
    os.dup2(os.open(error, os.O_WRONLY | os.O_CREAT | os.O_TRUNC, 0o600), 2)
    os.execv(words[0], words)
handle, in_time = os.pidfd_open(process), False
for _ in range(PATIENCE):
    in_time = bool(select.select([handle], [], [], limit)[0])
    if in_time:
        break
    fields = open(f"/proc/{process}/stat").read().rpartition(")")[2].split()
    if int(fields[11]) + int(fields[12]) > limit / 2 * os.sysconf("SC_CLK_TCK"):
        break
if not in_time:
    os.kill(process, signal.SIGKILL)
_, status, used = os.wait4(process, 0)
print(os.waitstatus_to_exitcode(status) if in_time else "none", time.monotonic() - began, used.ru_utime + used.ru_stime, used.ru_maxrss)
""".replace("MOST", str(MOST_ADDRESSES)).replace("PATIENCE", str(PATIENCE))


def measured(words, given, folder, limit=600.0):
    """Runs a program on a file, from a small process, so that its memory alone is measured. `folder` takes what it writes."""
    out, error = os.path.join(folder, "out"), os.path.join(folder, "error")
    ended = run([sys.executable, "-I", "-S", "-c", LAUNCHER, str(limit), given, out, error, *words], limit=limit * 2 + 60)
    words = ended.out.split()
    if len(words) != 4:
        raise OSError(f"the run wasn't measured: {ended.error.decode(errors='replace')}")
    status = None if words[0] == b"none" else int(words[0])
    with open(out, "rb") as a, open(error, "rb") as b:
        return Ended(status, a.read(4_096), b.read(4_096), float(words[1]), float(words[2]), int(words[3]) << 10)
