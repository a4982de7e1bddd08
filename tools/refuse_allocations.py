#!/usr/bin/env python3
"""Runs the built tests, and the built programs on scripts, with one allocation refused, each allocation in turn.

    tools/refuse_allocations.py                             all of them
    tools/refuse_allocations.py --most 100 fw_test_values   the tests of one crate, and fewer of their allocations

The tests are those that tools/prove.py built into out/tests (NAME: a crate, `program` or `fw_simulate`). A test whose allocation
is refused has to end in one of two ways: it passes (it looked at the answer, and at what stands after it), or it ends
with an error that says that memory ran out: the test answers it, or stops after printing it, in its crate's src/ended.rt.
An assertion that fails is an answer that changed in place of the error, and so is a crash.

The program, out/focusd, is run on the scripts of examples/cases. It has to end in one of three ways: with the answers
that stand beside the script; with one answer `no memory`, and all others as if that command did not stand in the
script; or with `focusd: NoMemory` and status 1, and no answer.

The program out/fw_simulate is run on each script of crates/fw_simulate/stdin, and on one of each kind of tools/sweep.py. It has to end with the
answers of a run with no allocation refused; or with others, at or behind a line that says that memory ran out, or that the device failed, as a
volume in memory does that can't grow; or with `fw_simulate: no memory` and status 1, and none but right answers.

Where a run allocates more than --most times, the first --most are refused, and as many as half of that, spread over the rest. `--most 0` refuses each.

What stands before an allocation is run once for many of them, by tools/refuse_allocation.c: at each a copy of the process goes on with the refusal.
Where that can't be, as beside other threads or with a file that is open, the program is run anew.

Exit status: 0 where every run was as it has to be, 1 where one wasn't, 2 where nothing could be run.
"""

import os
import re
import resource
import shutil
import signal
import struct
import subprocess
import sys
import tempfile
from concurrent.futures import ThreadPoolExecutor

from command_line import PROGRAM, TOP, add_jobs, parser_of
from store_runs import answers_of
from sweep import SAMPLES

TESTS = os.path.join(TOP, "out", "tests")
CASES = os.path.join(TOP, "examples", "cases")
SIMULATOR = os.path.join(TOP, "out", "fw_simulate")
SCRIPTS = os.path.join(TOP, "crates", "fw_simulate", "stdin")
SHIM = os.path.join(TOP, "tools", "refuse_allocation.c")
# The errors by which a test may end under a refused allocation: those that say that memory ran out, and a device that
# failed because a volume in memory could not grow.
OUT_OF_MEMORY = {"AllocError", "AllocFailed", "NoMemory", "Io", "Device", "OutOfMemory"}
# What a test prints that stops in its crate's src/ended.rt. Its process is then ended by SIGABRT.
STOPPED = re.compile(r"^test stopped at src/ended\.rt:\d+:\d+$", re.M)
# How the program ends where memory runs out before the first command.
NOT_BEGUN = b"focusd: NoMemory\n"
# What a command is answered that ran out of memory.
NO_MEMORY = b"no memory\n"
# How the simulator ends where memory runs out, and what else it may answer then.
NOT_SIMULATED = b"fw_simulate: no memory\n"
OUT_OF_MEMORY_LINE = re.compile(rb"no memory|NoMemory|S3 Device|unknown")
# The crates of tests on threads, which are run only where they are named: where memory for a thread can't be had, the toolchain's `join` makes its
# two calls one after the other, and calls that wait for each other then wait for ever.
ON_THREADS = {"fw_test_threads"}
# How many allocations of a test are refused where the command line doesn't say.
MOST = 400
# How long one run of a test may take, in seconds.
LIMIT = 60
# How many allocations one process refuses, each in a copy of itself: their outputs are kept until it has ended.
TOGETHER = 1_000
# What stands before the outputs of a copy: the allocation's number, the status of the process, and for each of its two outputs how many bytes the
# process had written there before it, and how many the copy wrote.
END = struct.Struct("=Qq4Q")
NOT_TRIED = -1


def numbers(allocations, most):
    """Which allocations of so many are refused; each of them where `most` is 0."""
    most = most or allocations
    first = list(range(1, min(allocations, most) + 1))
    rest, spread = allocations - most, most // 2
    step = max(1, rest // spread) if spread else 1
    return first + [most + 1 + place * step for place in range(min(spread, rest))]


def environment(shim, number, cell):
    return {"PATH": "/usr/bin:/bin", "LANG": "C.UTF-8", "LD_PRELOAD": shim, "REFUSE": str(number), "REFUSE_COUNT": cell.name}


def new_cell(room):
    """A file with a number of 8 bytes, which is 0."""
    cell = tempfile.NamedTemporaryFile(dir=room)
    cell.write(bytes(8))
    cell.flush()
    return cell


def run(words, given, number, shim, room):
    """One run of a program with this allocation refused (0: none): its allocations, its status, and its two outputs."""
    with new_cell(room) as cell, tempfile.TemporaryDirectory(dir=room) as work:
        try:
            done = subprocess.run(
                words, cwd=work, env=environment(shim, number, cell), input=given, capture_output=True, timeout=LIMIT, check=False
            )  # fmt: skip
        except subprocess.TimeoutExpired:
            return 0, None, b"", f"it had not ended after {LIMIT} seconds".encode()
        cell.seek(0)
        return struct.unpack("=Q", cell.read(8))[0], done.returncode, done.stdout, done.stderr


class NotRun(Exception):
    """A process that refuses allocations in copies of itself didn't end as it has to."""


def copies(words, given, piece, shim, room):
    """Runs of a program, each with one of the allocations of a piece refused and begun as a copy of one process: for each its number, its status and
    its two outputs. The status is NOT_TRIED where there can be no copy."""
    with new_cell(room) as cell, tempfile.NamedTemporaryFile(dir=room) as ends, tempfile.TemporaryDirectory(dir=room) as work:
        with tempfile.TemporaryFile(dir=room) as input, tempfile.TemporaryFile(dir=room) as out, tempfile.TemporaryFile(dir=room) as error:
            input.write(given)
            input.seek(0)
            more = {"REFUSE_STEP": str(piece[1] - piece[0]), "REFUSE_LAST": str(piece[-1]), "REFUSE_ENDS": ends.name}
            done = subprocess.run(words, cwd=work, env=environment(shim, piece[0], cell) | more, stdin=input, stdout=out, stderr=error, check=False)
            before = [content_of(file) for file in (out, error)]
        if done.returncode != 0:
            raise NotRun(f"{' '.join(words)}: status {done.returncode} where copies of it have allocations refused:\n{shown(before[1])}")
        for number, status, kept, written in read_ends(ends):
            outputs = [all[:size] + more for all, size, more in zip(before, kept, written)]
            yield number, status, *outputs


def content_of(file):
    file.seek(0)
    return file.read()


def read_ends(ends):
    """What copies wrote down as they ended."""
    while head := ends.read(END.size):
        number, status, *sizes = END.unpack(head)
        written = [ends.read(size) for size in sizes[2:]]
        if status != NOT_TRIED:
            status = os.waitstatus_to_exitcode(status)
        yield number, None if status == -signal.SIGALRM else status, sizes[:2], written


def pieces(numbers):
    """Numbers that grow, cut into those that grow by the same step, of which no piece has more than are refused together."""
    found = []
    for number in numbers:
        piece = found[-1] if found else []
        if piece and len(piece) < TOGETHER and (len(piece) == 1 or number - piece[-1] == piece[1] - piece[0]):
            piece.append(number)
        else:
            found.append([number])
    return found


def runs(words, given, piece, shim, room):
    """Runs of a program, each with one of the allocations of a piece refused: for each its number, its status and its two outputs."""
    alone = list(piece)
    if len(piece) > 1:
        alone = []
        for number, status, out, error in copies(words, given, piece, shim, room):
            if status == NOT_TRIED:
                alone.append(number)
            else:
                yield number, status, out, error
    for number in alone:
        yield number, *run(words, given, number, shim, room)[1:]


def is_right(status, said):
    """Whether a test under a refused allocation ended as it has to."""
    error = re.search(r"^error: (\w+(?:\(\w+)*)", said, re.M)
    if status is None or status == 0 or error is None:
        return status == 0
    is_answered, is_stopped = status > 0, status == -signal.SIGABRT and STOPPED.search(said) is not None
    # An error may hold the one that it comes of, as `Store(NoMemory)` does.
    return (is_answered or is_stopped) and not OUT_OF_MEMORY.isdisjoint(error.group(1).split("("))


def shown(text):
    return text.decode("utf-8", "replace")


def commands_of(script):
    """The commands of a script, each with the lines of its entry."""
    lines, commands = script.splitlines(keepends=True), []
    while lines:
        command = [lines.pop(0)]
        words = command[0].rstrip(b"\n").split(b" ")
        if words[0] in (b"post", b"commit", b"add", b"policy") and len(words) == 4 and re.fullmatch(rb"[0-9]{1,7}", words[3]):
            count = int(words[3]) if int(words[3]) <= 1_000_000 else 0
            command, lines = command + lines[:count], lines[count:]
        commands.append(b"".join(command))
    return commands


class Swept:
    """A program on an input, which is run with its allocations refused."""

    def __init__(self, name, words, given, shim, room):
        self.name, self.words, self.given, self.shim, self.room = name, words, given, shim, room
        self.allocations, self.right, self.wrong = 0, b"", []

    def begin(self):
        """The run with no allocation refused."""
        self.allocations, status, self.right, error = run(self.words, self.given, 0, self.shim, self.room)
        if status != 0 or not self.is_whole(self.right):
            self.wrong.append(f"{self.name} fails with no allocation refused:\n{shown(self.right + error)}")
            self.allocations = 0

    def refuse(self, piece):
        """The runs with one of these allocations refused, each in turn."""
        found = {}
        for number, status, said, error in runs(self.words, self.given, piece, self.shim, self.room):
            key = status, said, error
            if key not in found:
                found[key] = self.is_right(status, said, error)
            if not found[key]:
                self.wrong.append(f"{self.name} with allocation {number} of {self.allocations} refused: status {status}\n{shown(said + error)}")

    def is_whole(self, said):
        """Whether the run with no allocation refused wrote all that it should."""
        return True

    def is_right(self, status, said, error):
        """Whether a run under a refused allocation ended as it has to."""
        raise NotImplementedError


class Test(Swept):
    def is_right(self, status, said, error):
        return is_right(status, shown(said + error))


class Case(Swept):
    """The program on a script of examples/cases."""

    def __init__(self, *given):
        super().__init__(*given)
        self.commands = commands_of(self.given)
        self.without = {}

    def is_whole(self, said):
        return len(answers_of(said)) == len(self.commands)

    def answers_without(self, missed):
        """The answers to the script without the command at this place."""
        if missed not in self.without:
            kept = [command for place, command in enumerate(self.commands) if place != missed]
            self.without[missed] = answers_of(run(self.words, b"".join(kept), 0, self.shim, self.room)[2])
        return self.without[missed]

    def is_right(self, status, said, error):
        if status == 1 and error == NOT_BEGUN and not said:
            return True
        return status == 0 and (said == self.right or self.has_missed_one(answers_of(said)))

    def has_missed_one(self, answers):
        """Whether one command ran out of memory, and nothing else is different."""
        if answers.count(NO_MEMORY) != 1:
            return False
        missed = answers.index(NO_MEMORY)
        return answers[:missed] + answers[missed + 1 :] == self.answers_without(missed)


class Simulated(Swept):
    """The simulator on a script."""

    def is_right(self, status, said, error):
        return is_simulated(self.right, status, said, error)


def scripts_of_simulator():
    """The scripts that the simulator is run on, by the numbers of their places."""
    with open(SCRIPTS, "rb") as file:
        lines = [line for line in file.read().splitlines(keepends=True) if not line.startswith(b"#")]
    scripts, script = [], b""
    for line in lines:
        script += line
        if line == b"end\n":
            scripts.append(script)
            script = b""
    return scripts + ["".join(f"{line}\n" for line in sample).encode() for sample in SAMPLES]


def is_simulated(right, status, said, error):
    """Whether a run of the simulator under a refused allocation ended as it has to."""
    if status == 1 and error == NOT_SIMULATED:
        return right.startswith(said)
    lines, wanted = said.splitlines(), right.splitlines()
    first = next((place for place, pair in enumerate(zip(lines, wanted)) if pair[0] != pair[1]), None)
    if status != 0 or first is None:
        return status == 0 and said == right
    # A group that is answered `unknown` is stored or not: so the first other line may stand behind such an answer.
    return any(OUT_OF_MEMORY_LINE.search(line) for line in lines[: first + 1]) and len(lines) <= len(wanted) + 1


def tests_of(program):
    """The full names of a program's tests."""
    listed = subprocess.run([program, "--list"], stdout=subprocess.PIPE, check=True, text=True).stdout
    return [line.removesuffix(": test") for line in listed.splitlines() if line.endswith(": test")]


def swept_of(name, shim, room):
    """What is run of a name, and how that is called."""
    if name == "program":
        cases = sorted(it for it in os.listdir(CASES) if it.endswith(".script"))
        return [Case(it, [PROGRAM, "run"], read(os.path.join(CASES, it)), shim, room) for it in cases], "cases"
    if name == "fw_simulate":
        return [Simulated(name, [SIMULATOR], script, shim, room) for script in scripts_of_simulator()], "scripts"
    program = os.path.join(TESTS, name)
    return [Test(f"{name}: test {test}", [program, test], b"", shim, room) for test in tests_of(program)], "tests"


def read(path):
    with open(path, "rb") as file:
        return file.read()


def sweep(name, options, shim, room, pool):
    """Runs what a name stands for, with its allocations refused: how many were, and what is wrong."""
    swept, kind = swept_of(name, shim, room)
    list(pool.map(Swept.begin, swept))
    chosen = [(it, piece) for it in swept for piece in pieces(numbers(it.allocations, options.most))]
    list(pool.map(lambda it: it[0].refuse(it[1]), chosen))
    allocations, refused = sum(it.allocations for it in swept), sum(len(piece) for _, piece in chosen)
    which = "each of them was refused" if refused == allocations else f"{refused:,} were refused"
    print(f"{name}: {len(swept)} {kind} make {allocations:,} allocations; {which}, one a run", flush=True)
    return refused, [wrong for it in swept for wrong in it.wrong]


def main():
    parser = parser_of(__doc__)
    parser.add_argument("--most", type=int, default=MOST, metavar="N", help=f"how many allocations of a test to refuse; 0: each (default: {MOST})")
    add_jobs(parser, "tests")
    parser.add_argument("names", nargs="*", metavar="NAME", help="a crate whose tests to run, `program` or `fw_simulate` (default: all but the tests on threads)")
    options = parser.parse_args()
    compiler = shutil.which("cc") or shutil.which("gcc") or shutil.which("clang")
    built = sorted(os.listdir(TESTS)) if os.path.isdir(TESTS) else []
    names = options.names or [*(name for name in built if name not in ON_THREADS), "program", "fw_simulate"]
    if not compiler or not built:
        lacking = "C compiler" if not compiler else "built test in out/tests: run tools/prove.py first"
        print(f"tools/refuse_allocations.py: there is no {lacking}", file=sys.stderr)
        return 2
    # A test that is stopped leaves no core.
    resource.setrlimit(resource.RLIMIT_CORE, (0, 0))
    faults = refused = 0
    with tempfile.TemporaryDirectory(prefix="refuse-") as room:
        shim = os.path.join(room, "refuse.so")
        subprocess.run([compiler, "-O1", "-shared", "-fPIC", "-o", shim, SHIM, "-ldl"], check=True)
        with ThreadPoolExecutor(max(1, options.jobs)) as pool:
            for name in names:
                more, wrong = sweep(name, options, shim, room, pool)
                refused += more
                faults += len(wrong)
                print("".join(f"{it}\n" for it in wrong[:20]), end="", flush=True)
    print(f"{refused:,} allocations refused, {faults} wrong answers")
    return 1 if faults or not refused else 0


if __name__ == "__main__":
    sys.exit(main())
