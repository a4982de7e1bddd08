#!/usr/bin/env python3
"""Runs `focusd run --dir` over folders that are missing, closed to it, in use, full, or damaged.

    tools/folders.py
    tools/folders.py --only odd in-use

runs all parts, or those that are named:

    odd       a folder that isn't there, a file in its place, a folder or a pipe in place of a file, one file as both, a file past 2^40
              bytes, a folder that may not be written, one that is empty, one that has a warehouse already where --create is given, and
              standard streams that are closed
    in-use    a second process over a folder while a first one has it open, also where its standard error is a terminal, a pseudo terminal here
    full      a disk that is full at each moment of a run: a limit on the length of files, and, for the superuser, a small file system
    cut       the files of a warehouse cut at each byte, and made longer
    bytes     each of the first N bytes (2,000) of the files changed

Each has to end in the line of a fault on standard error and status 1, or in right answers. Damage is checked against the rules of the
two files: the gates, the header of a side, the length and the place of each frame. What those say is known to the tool, so it knows which
fault has to come, or how many entries have to stand. Only what a changed byte within an entry or within the body of a side means is not
known to it: there the program may answer `S2 Corrupt`, or by another content, since the format has no checksums. It says how often.
A run that asks questions alone changes no file.

It needs a built program. Exit status: 0 where all was right, 1 where it wasn't, 2 where nothing could be run.
"""

import os
import pty
import random
import resource
import shutil
import signal
import subprocess
import sys
import tempfile
import threading
import time
from concurrent.futures import ThreadPoolExecutor
from dataclasses import dataclass

from command_line import add_jobs, add_program, parser_of, status_of
from store_runs import QUESTIONS, SIDES, CannotRun, Case, Ended, acknowledged, add_room, commands, contents_of, lay, program_at, room_of, run, shown

ASKED = b"".join(QUESTIONS)
# About how many limits on the length of files are tried.
LIMITS = 40
PARTS = ["odd", "in-use", "full", "cut", "bytes"]
# A side that is shorter counts as closed.
LEAST_SIDE = 26
MOST_PAYLOAD = 8_388_608
ONE_FAULT = "focusd: {}\n"
# What stands behind the fault of a folder in use, where standard error is a terminal.
HELD = "{}: another process has this folder open\n"


class Report:
    """What was tried and what was wrong."""

    def __init__(self):
        self.tried, self.wrong, self.lock = 0, 0, threading.Lock()

    def judge(self, name, fault):
        with self.lock:
            self.tried += 1
            if fault:
                self.wrong += 1
                if self.wrong <= 20:
                    print(f"WRONG: {name}: {fault}", flush=True)


def is_fault(ended, *faults):
    """Whether a run ended with one of these lines and status 1, and with no answer."""
    return ended.status == 1 and not ended.said and ended.error.decode() in [ONE_FAULT.format(fault) for fault in faults]


def fault_unless(ended, *faults):
    return "" if is_fault(ended, *faults) else f"it should answer {' or '.join(faults)}, and it answers\n{ended}"


def odd(program, room, report, case):
    """Folders that can't be opened."""
    there = os.path.join(room, "there")
    os.makedirs(there)
    made = run(program, there, b"".join(case.commands), "--create")
    report.judge("a run that creates a warehouse", "" if made.status == 0 and made.said == b"".join(case.answers) else str(made))
    kept = contents_of(there)
    report.judge("--create over a warehouse", fault_unless(run(program, there, ASKED, "--create"), "S7 Exists"))
    report.judge("the warehouse after that", answers_fault(run(program, there, ASKED), case.histories[-1]))
    missing = os.path.join(room, "missing")
    for options in ([], ["--create"]):
        report.judge(f"a missing folder {options}", fault_unless(run(program, missing, ASKED, *options), "K1 Io"))
    report.judge("a missing folder is made", "it is there now" if os.path.exists(missing) else "")
    file = os.path.join(room, "file")
    with open(file, "wb") as it:
        it.write(b"a file")
    for options in ([], ["--create"]):
        report.judge(f"a file in place of the folder {options}", fault_unless(run(program, file, ASKED, *options), "K1 Io"))
    for side in SIDES:
        for make in (os.mkdir, os.mkfifo):
            odd_one = os.path.join(room, f"{side}-{make.__name__}")
            lay(odd_one, kept)
            os.remove(os.path.join(odd_one, side))
            make(os.path.join(odd_one, side))
            for options in ([], ["--create"]):
                report.judge(f"{make.__name__} in place of {side} {options}", fault_unless(run(program, odd_one, ASKED, *options), "K1 Io"))
    empty = os.path.join(room, "empty")
    os.makedirs(empty)
    report.judge("an empty folder", fault_unless(run(program, empty, ASKED), "S1 NoHouse"))
    report.judge("--create after that", answers_fault(run(program, empty, b"".join(case.commands), "--create"), b"".join(case.answers)))
    report.judge("a warehouse beside other files", beside_others(program, room, kept, case))
    linked = os.path.join(room, "linked")
    lay(os.path.join(room, "elsewhere"), kept)
    os.makedirs(linked)
    for side in SIDES:
        os.symlink(os.path.join(room, "elsewhere", side), os.path.join(linked, side))
    report.judge("links to the files", answers_fault(run(program, linked, ASKED), case.histories[-1]))
    report.judge("a folder that may not be written", not_writable(program, room, kept, case))
    twice = os.path.join(room, "twice")
    lay(twice, (kept[0], None))
    os.symlink("left", os.path.join(twice, "right"))
    report.judge("one file as both sides", fault_unless(run(program, twice, ASKED), "S2 Corrupt"))
    for side in SIDES:
        report.judge(f"a {side} past the limit", too_long(program, os.path.join(room, f"long-{side}"), kept, side))
    for name in (".", "../there/", "./."):
        report.judge(f"the folder {name!r}", answers_fault(run(program, name, ASKED, cwd=there), case.histories[-1]))
    report.judge("the folder ''", fault_unless(run(program, "", ASKED), "K1 Io"))
    streams(program, os.path.join(room, "streams"), report, case)


def answers_fault(ended, answers):
    right = ended.status == 0 and not ended.error and ended.said == answers
    return "" if right else f"it should answer\n{shown(answers)}and it answers\n{ended}"


def too_long(program, folder, kept, side):
    """A file of one byte more than 2^40, most of it a hole."""
    lay(folder, kept)
    try:
        os.truncate(os.path.join(folder, side), 2**40 + 1)
    except OSError:
        print("a file past the limit: left out, as the file system can't hold one")
        return ""
    return fault_unless(run(program, folder, ASKED), "K1 Io")


def streams(program, room, report, case):
    """Runs whose standard streams are closed, or whose answers nobody reads: what is meant for a stream must not land in a file."""
    script, closed = os.path.join(room, "script"), {"<&-": 1, ">&-": 1, "2>&-": 0, ">&- 2>&-": 1, "<&- >&- 2>&-": 1}
    os.makedirs(room)
    with open(script, "wb") as file:
        file.write(b"".join(case.commands))
    for place, (words, status) in enumerate([*closed.items(), ("| true", 1)]):
        folder = os.path.join(room, str(place))
        os.makedirs(folder)
        after = f"exec {words}; " if words != "| true" else ""
        line = f"{after}'{program}' run --dir '{folder}' --create{'' if words.startswith('<') else f' <{script}'}"
        line = line if after else f"( {line}; echo $? >'{folder}.status' ) | true; exit $(cat '{folder}.status')"
        ended = subprocess.run(["sh", "-c", line], capture_output=True, timeout=60, check=False)
        found = run(program, folder, ASKED)
        entries = next((n for n, history in enumerate(case.histories) if history == found.said), None)
        fault = "" if ended.returncode == status and entries is not None and (status or entries == case.entries) else f"status {ended.returncode}, and then:\n{found}"
        report.judge(f"a run with {words}", fault)


def beside_others(program, room, kept, case):
    """Files of other names are left alone."""
    folder = os.path.join(room, "others")
    lay(folder, kept)
    for name in ("notes.txt", "left~", "Left"):
        with open(os.path.join(folder, name), "wb") as it:
            it.write(b"kept")
    fault = answers_fault(run(program, folder, ASKED), case.histories[-1])
    names = sorted(os.listdir(folder))
    return fault or ("" if names == sorted([*SIDES, "notes.txt", "left~", "Left"]) else f"the folder has {names} now")


def not_writable(program, room, kept, case):
    """A folder and files that may be read and not written."""
    folder, before = os.path.join(room, "closed"), []
    lay(folder, kept)
    if os.getuid() == 0:
        before = ["setpriv", "--reuid", "65534", "--regid", "65534", "--clear-groups", "--"]
    modes(folder, 0o777, 0o666)
    # Another user has to reach the program and the folder.
    os.chmod(os.path.dirname(room), 0o755)
    if before and (not shutil.which("setpriv") or run(program, folder, ASKED, before=before).said != case.histories[-1]):
        print("a folder that may not be written: left out, as no other user can run the program here")
        return ""
    for folder_mode, file_mode in ((0o555, 0o444), (0o777, 0o444), (0o777, 0o222), (0o444, 0o666), (0, 0)):
        modes(folder, folder_mode, file_mode)
        ended = run(program, folder, ASKED, before=before)
        modes(folder, 0o777, 0o666)
        fault = fault_unless(ended, "K1 Io") or ("" if contents_of(folder) == kept else "the files changed")
        if fault:
            return f"folder {folder_mode:o}, files {file_mode:o}: {fault}"
    return ""


def modes(folder, folder_mode, file_mode):
    """Sets who may do what with a folder and its files."""
    os.chmod(folder, 0o777)
    for side in SIDES:
        os.chmod(os.path.join(folder, side), file_mode)
    os.chmod(folder, folder_mode)


def in_use(program, room, report, case):
    """A second process over a folder that a first one has open."""
    folder = os.path.join(room, "held")
    os.makedirs(folder)
    first = subprocess.Popen([program, "run", "--dir", folder, "--create"], stdin=subprocess.PIPE, stdout=subprocess.PIPE, stderr=subprocess.PIPE)
    for _ in range(3_000):
        if is_open(first.pid, os.path.join(folder, "right")):
            break
        time.sleep(0.01)
    else:
        raise CannotRun("the first process doesn't open its files")
    # The file is opened before the side is made; what a second process changed would be seen in the first one's answers.
    for options in ([], ["--create"]):
        report.judge(f"a folder in use {options}", fault_unless(run(program, folder, ASKED, *options), "K1 Io"))
        report.judge(f"a folder in use {options}, on a terminal", held_fault(folder, run_on_terminal(program, folder, ASKED, *options)))
    said, error = first.communicate(b"".join(case.commands))
    report.judge("the process that has it open", "" if said == b"".join(case.answers) and not error else shown(said + error))
    report.judge("the folder afterwards", answers_fault(run(program, folder, ASKED), case.histories[-1]))


def run_on_terminal(program, folder, script, *options):
    """Runs a script over a folder with a pseudo terminal as standard error."""
    ours, theirs = pty.openpty()
    try:
        ended = run(program, folder, script, *options, capture_output=False, stdout=subprocess.PIPE, stderr=theirs)
    finally:
        os.close(theirs)
    try:
        return Ended(ended.status, ended.said or b"", shown_on(ours))
    finally:
        os.close(ours)


def shown_on(terminal):
    """What a terminal was given, once nobody else has it open. It ends each line with a carriage return, which is left out."""
    given = []
    while True:
        try:
            piece = os.read(terminal, 4_096)
        except OSError:
            # Linux answers so, once nobody has the other end.
            piece = b""
        if not piece:
            return b"".join(given).replace(b"\r\n", b"\n")
        given.append(piece)


def held_fault(folder, ended):
    """What is wrong with a run on a terminal over a folder that another process has open."""
    wanted = ONE_FAULT.format("K1 Io") + HELD.format(folder)
    right = ended.status == 1 and not ended.said and ended.error.decode() == wanted
    return "" if right else f"it should show\n{wanted}and it shows\n{ended}"


def is_open(process, path):
    """Whether a process has a file open."""
    folder = f"/proc/{process}/fd"
    try:
        return any(os.path.realpath(os.path.join(folder, name)) == path for name in os.listdir(folder))
    except OSError:
        return False


def full_at(program, folder, case, create, limit):
    """Runs a script where no file may grow past a length."""

    def set_limit():
        signal.signal(signal.SIGXFSZ, signal.SIG_IGN)
        resource.setrlimit(resource.RLIMIT_FSIZE, (limit, limit))

    return run(program, folder, b"".join(case.commands), *(["--create"] if create else []), preexec_fn=set_limit, restore_signals=False)


def full_fault(program, folder, case, ended):
    """What is wrong with a run on a full disk, and with what stands after it."""
    if is_fault(ended, "S3 Device"):
        found = run(program, folder, ASKED)
        return "" if is_fault(found, "S1 NoHouse") or found.said == case.histories[0] else f"after a fault in create:\n{found}"
    if ended.status != 0 or ended.error:
        return f"it ends with\n{ended}"
    said = ended.said.split(b"store S3 Device\n")
    if len(said) > 2 or len(said) == 2 and (b"accepted" in said[1] or b"checkpointed" in said[1]):
        return f"after a fault it goes on:\n{ended}"
    least = acknowledged(said[0]) or 0
    found = run(program, folder, ASKED)
    entries = next((n for n in (least, least + 1) if n <= case.entries and found.said == case.histories[n]), None)
    if found.status != 0 or found.error or entries is None:
        return f"{least} entries were acknowledged, and there stands\n{found}"
    rest, answers = case.rest(entries)
    return answers_fault(run(program, folder, b"".join(rest)), b"".join(answers)) or answers_fault(run(program, folder, ASKED), case.histories[-1])


def full(program, room, report, case, jobs):
    """A disk that is full."""
    whole = os.path.join(room, "whole")
    os.makedirs(whole)
    run(program, whole, b"".join(case.commands), "--create")
    longest = max(len(content or b"") for content in contents_of(whole))
    limits = sorted({1, 2, 25, 26, 44, 45, 46, longest - 1, longest, *range(50, longest, max(1, longest // LIMITS))})

    def one(limit):
        folder = os.path.join(room, f"limit-{limit}")
        os.makedirs(folder)
        report.judge(f"files of at most {limit} bytes", full_fault(program, folder, case, full_at(program, folder, case, True, limit)))
        shutil.rmtree(folder)

    with ThreadPoolExecutor(jobs) as pool:
        list(pool.map(one, limits))
    small_disk(program, room, report, case)


def small_disk(program, room, report, case):
    """A small file system that is filled up but for a few blocks."""
    disk = os.path.join(room, "disk")
    os.makedirs(disk)
    mounted = os.getuid() == 0 and subprocess.run(["mount", "-t", "tmpfs", "-o", "size=256k", "focusd-test", disk], capture_output=True, check=False)
    if not mounted or mounted.returncode:
        print("full: no small file system can be mounted here; files of limited length alone were tried")
        return
    try:
        for blocks in (0, 1, 2, 3, 4, 6):
            folder = os.path.join(disk, f"warehouse-{blocks}")
            os.makedirs(folder)
            free = os.statvfs(disk).f_bavail * os.statvfs(disk).f_bsize
            with open(os.path.join(disk, "filling"), "wb") as file:
                file.write(bytes(max(0, free - 4_096 * blocks)))
            ended = run(program, folder, b"".join(case.commands), "--create")
            os.remove(os.path.join(disk, "filling"))
            report.judge(f"a disk with {blocks} free blocks", full_fault(program, folder, case, ended))
            shutil.rmtree(folder)
    finally:
        subprocess.run(["umount", disk], check=False)


# Damage.


@dataclass
class Frame:
    at: int
    payload: bytes
    # How many entries stand after it.
    entries: int


class Files:
    """The two files of a warehouse, and what their gates, headers and frames say: where they stand and how many entries they hold."""

    def __init__(self, contents, entries):
        """`entries` is how many stand in all."""
        self.contents, self.entries = contents, entries
        self.bodies, self.frames = {}, {}
        self.used = max(SIDES, key=lambda side: self.generation(side) if self.is_open(side) else 0)
        for side in SIDES:
            if self.is_open(side):
                self.read(side)
        frames = self.frames[self.used]
        for place, frame in enumerate(frames):
            frame.entries = entries - len(frames) + place + 1
        other = SIDES[1 - SIDES.index(self.used)]
        # A checkpoint holds all that the side before it held.
        for place, frame in enumerate(self.frames.get(other, [])):
            frame.entries = self.first(self.used) - len(self.frames[other]) + place + 1

    def of(self, side):
        return self.contents[SIDES.index(side)] or b""

    def is_open(self, side):
        return len(self.of(side)) >= LEAST_SIDE and self.of(side)[0] == 1

    def generation(self, side):
        return int.from_bytes(self.of(side)[9:17], "little")

    def read(self, side):
        file = self.of(side)
        at = 25 + int.from_bytes(file[17:25], "little")
        self.bodies[side], self.frames[side] = file[25:at], []
        while file[at] == 1:
            size = int.from_bytes(file[at + 1 : at + 5], "little")
            self.frames[side].append(Frame(at, file[at + 5 : at + 5 + size], 0))
            at += 5 + size

    def first(self, side):
        """How many entries the body of a side holds."""
        last = self.entries if side == self.used else self.first(self.used)
        return last - len(self.frames[side])

    def verdict(self, damaged):
        """What has to be answered over damaged files: a fault, a number of entries, or none where it isn't known."""
        found = {}
        for side, file in zip(SIDES, damaged):
            file = file or b""
            if len(file) < LEAST_SIDE or file[0] != 1:
                continue
            size = int.from_bytes(file[17:25], "little")
            if file[1:9] not in (b"FWHOUSE1", b"FWHOUSE2") or file[9:17] == bytes(8) or 25 + size >= len(file):
                return "S2 Corrupt"
            found[side] = int.from_bytes(file[9:17], "little"), size, file
        if not found:
            return "S1 NoHouse"
        if len(found) == 2 and len({generation for generation, _, _ in found.values()}) == 1:
            return "S2 Corrupt"
        side = max(found, key=lambda side: found[side][0])
        _, size, file = found[side]
        at, known = 25 + size, {frame.at: frame for frame in self.frames.get(side, [])}
        if file[25:at] != self.bodies.get(side):
            return None
        entries = self.first(side)
        while at < len(file) and file[at] == 1:
            length = int.from_bytes(file[at + 1 : at + 5], "little")
            if at + 5 > len(file) or not 1 <= length <= MOST_PAYLOAD or at + 5 + length >= len(file):
                return "S2 Corrupt"
            if at not in known or known[at].payload != file[at + 5 : at + 5 + length]:
                return None
            entries = known[at].entries
            at += 5 + length
        return entries if at < len(file) else "S2 Corrupt"


class Damages:
    """Damaged files, opened."""

    def __init__(self, program, room, report, case, files):
        self.program, self.room, self.report, self.case, self.files = program, room, report, case, files
        self.outcomes, self.lock = {}, threading.Lock()

    def count(self, outcome):
        with self.lock:
            self.outcomes[outcome] = self.outcomes.get(outcome, 0) + 1

    def one(self, item):
        name, damaged = item
        folder = os.path.join(self.room, f"damaged-{threading.get_ident()}")
        lay(folder, damaged)
        ended, verdict = run(self.program, folder, ASKED), self.files.verdict(damaged)
        self.report.judge(name, self.fault(ended, verdict, contents_of(folder), damaged))

    def fault(self, ended, verdict, after, damaged):
        if after != tuple(b"" if content is None else content for content in damaged):
            return f"the files were changed:\n{ended}"
        if isinstance(verdict, str):
            self.count(verdict)
            return fault_unless(ended, verdict)
        if verdict is not None:
            self.count("all entries" if verdict == self.files.entries else "the entries before the damage")
            return answers_fault(ended, self.case.histories[verdict])
        if is_fault(ended, "S2 Corrupt"):
            self.count("S2 Corrupt, in the content")
            return ""
        self.count("another content")
        return "" if ended.status == 0 and not ended.error and ended.said.startswith(b"state ") else f"it ends with\n{ended}"

    def all(self, name, items, jobs):
        with ThreadPoolExecutor(jobs) as pool:
            list(pool.map(self.one, items))
        said = ", ".join(f"{outcome} {count}" for outcome, count in sorted(self.outcomes.items()))
        print(f"{name}: {said}", flush=True)
        self.outcomes = {}


def replaced(contents, side, content):
    """The contents with another one for a side."""
    return tuple(content if one == side else kept for one, kept in zip(SIDES, contents))


def damage(program, room, report, case, options):
    """Files that are cut, made longer, or changed in a byte."""
    folder = os.path.join(room, "sound")
    os.makedirs(folder)
    made = run(program, folder, b"".join(case.commands), "--create")
    if made.status != 0:
        raise CannotRun(f"no warehouse can be made:\n{made}")
    files = Files(contents_of(folder), case.entries)
    damages, choice = Damages(program, room, report, case, files), random.Random(1)
    if "cut" in options.only:
        cuts, longer = [], []
        for side in SIDES:
            whole = files.of(side)
            cuts += [(f"{side} cut to {size} bytes", replaced(files.contents, side, whole[:size])) for size in range(len(whole))]
            for size in (1, 2, 5, 26, 4_096):
                for more in (bytes(size), b"\1" * size, choice.randbytes(size), whole[:size]):
                    longer.append((f"{side} made longer by {len(more)} bytes", replaced(files.contents, side, whole + more)))
        damages.all("cut", cuts, options.jobs)
        damages.all("made longer", longer, options.jobs)
    if "bytes" in options.only:
        for side in SIDES:
            whole, items = files.of(side), []
            for at in range(min(options.bytes, len(whole))):
                for byte in {whole[at] ^ 1, choice.choice([b for b in range(256) if b != whole[at]])}:
                    changed = whole[:at] + bytes([byte]) + whole[at + 1 :]
                    items.append((f"byte {at} of {side} {whole[at]} changed to {byte}", replaced(files.contents, side, changed)))
            damages.all(f"a byte of {side} changed, {'in use' if side == files.used else 'not in use'}", items, options.jobs)


def try_parts(options):
    """Tries the parts that the options name: the exit status."""
    program, report = program_at(options.program), Report()
    with tempfile.TemporaryDirectory(prefix="folders-", dir=room_of(options.room)) as room:
        if "odd" in options.only:
            odd(program, os.path.join(room, "odd"), report, Case(commands(1, 4)))
            print(f"odd folders: {report.tried} tried so far, {report.wrong} wrong", flush=True)
        if "in-use" in options.only:
            in_use(program, room, report, Case(commands(2, 4)))
            print(f"a folder in use: {report.tried} tried so far, {report.wrong} wrong", flush=True)
        if "full" in options.only:
            full(program, room, report, Case(commands(3, 12)), options.jobs)
            print(f"full disks: {report.tried} tried so far, {report.wrong} wrong", flush=True)
        if {"cut", "bytes"} & set(options.only):
            damage(program, room, report, Case(commands(5, 14)), options)
    print(f"{report.tried} tried, {report.wrong} wrong")
    return 1 if report.wrong else 0


def main():
    parser = parser_of(__doc__)
    add_program(parser)
    parser.add_argument("--bytes", type=int, default=2_000, metavar="N", help="how many bytes of each file are changed (default: 2000)")
    add_jobs(parser, "runs")
    parser.add_argument("--only", nargs="+", choices=PARTS, default=PARTS, metavar="PART", help="the parts that are tried (default: all)")
    add_room(parser)
    options = parser.parse_args()
    return status_of("tools/folders.py", lambda: try_parts(options), CannotRun)


if __name__ == "__main__":
    sys.exit(main())
