"""What the tools share that run `focusd` over real files: scripts with their right answers, recorded runs, and the disk model.

A recorded run is the list of the program's calls on the two files, on their folder, on its input and on its output, in the order
in which the system carried them out. `strace` records it, and can make one of the calls fail. On Debian 12: apt-get install strace.
"""

import io
import os
import random
import re
import shutil
import subprocess
import sys
import threading
from dataclasses import dataclass, field

from command_line import TOP, parser_of

sys.path.insert(0, os.path.join(TOP, "examples"))
import expected  # noqa: E402

SIDES = ("left", "right")
# How long one run may take, in seconds.
LIMIT = 120
# The calls that are recorded: all by which a process can change or read a file. A question mark passes over one that the machine lacks.
TRACED = """
    openat ?open ?creat ?openat2 read pread64 readv preadv ?preadv2 write pwrite64 writev pwritev ?pwritev2 fsync fdatasync
    ?sync_file_range sync ?syncfs ftruncate truncate ?fallocate ?rename ?renameat ?renameat2 ?unlink unlinkat ?link linkat ?symlink
    symlinkat ?mkdir mkdirat ?copy_file_range sendfile splice flock ?statx ?newfstatat fstat mmap ?io_uring_setup ?io_uring_enter
""".split()
# Calls that change neither a file nor what a crash leaves of it.
HARMLESS = {"read", "pread64", "flock", "statx", "newfstatat", "fstat"}


class CannotRun(Exception):
    """Why a tool can't do its work here."""


# Scripts and their right answers.

HEADER = (
    "BilledCost,EffectiveCost,BillingCurrency,ChargeCategory,ChargePeriodStart,ChargePeriodEnd,ConsumedQuantity,ConsumedUnit,SkuId,"
    "SubAccountId,Tags"
)
TEAMS = ["web", "data", "platform", "ops", ""]
HOURS = 6
RANGE = b"2024-01-01T00:00Z 2024-01-01T06:00Z"
CHECKPOINT = b"checkpoint\n"
# What is asked of a warehouse to compare it: the counts, reports by two keys, and each line.
QUESTIONS = [b"state\n", b"report team " + RANGE + b"\n", b"report env " + RANGE + b"\n", b"lines " + RANGE + b"\n"]


def row(choice):
    """A right row of a CSV."""
    hour = choice.randrange(HOURS)
    billed = f"{choice.randrange(10**choice.randrange(1, 12)) / 10**9:.9f}"
    start, end = (f"2024-01-01T{at:02}:00:00Z" for at in (hour, hour + 1))
    team, env = choice.choice(TEAMS), choice.choice(["prod", "test"])
    tags = f'"{{""team"":""{team}"",""env"":""{env}""}}"' if choice.random() < 0.9 else ""
    category = choice.choice(["Usage"] * 8 + ["Tax", "Credit"])
    return f"{billed},{billed},USD,{category},{start},{end},{choice.randrange(1, 9)},Hours,{choice.choice(['vm', 'db', 'disk'])},{choice.choice(['', 'shop'])},{tags}"


def entry(word, origin, number, lines):
    return f"{word} {origin} {number} {len(lines)}\n".encode() + "".join(line + "\n" for line in lines).encode()


def post(choice, origin, number, rows=None):
    return entry("post", origin, number, [HEADER] + [row(choice) for _ in range(rows or choice.randrange(1, 5))])


def commitment(choice, origin, number, name):
    start = choice.randrange(HOURS)
    lines = [f'id = "{name}"']
    terms = [f'start = "2024-01-01T{start:02}:00Z"', f"hours = {choice.randrange(1, 5)}", f'capacity = "{choice.randrange(1, 9)}"']
    if choice.random() < 0.5:
        lines += ['category = "Usage"', *terms, 'unit = "Hours"', choice.choice(['skus = ["vm"]', 'skus = ["db", "vm"]'])]
    else:
        lines += ['category = "Spend"', *terms, f"rates = {{ vm = {choice.randrange(1, 10**6)} }}"]
    lines += ["[tags]", 'team = "platform"', "[[purchase]]", f'at = "2024-01-01T{start:02}:00Z"', f'billed = "{choice.randrange(10**6) / 10**6}"']
    return entry("commit", origin, number, lines)


def added(choice, origin, number, name):
    """A purchase that is added to the commitment of this name, paid within its term or not."""
    at = f"2024-01-01T{choice.randrange(HOURS):02}:{choice.randrange(60):02}Z"
    return entry("add", origin, number, [f'id = "{name}"', f'at = "{at}"', f'billed = "{choice.randrange(10**6) / 10**6}"'])


def withdrawal(origin, number, target):
    """The post of this number that its origin withdraws."""
    return f"withdraw {origin} {number} {target}\n".encode()


def policy(choice, origin, number):
    shares = "proportional = true" if choice.random() < 0.5 else "to = { web = 3, data = 1 }"
    return entry("policy", origin, number, ['key = "team"', "[[rule]]", 'from = "platform"', shares])


def commands(seed, entries):
    """A script of so many entries that are accepted, with checkpoints, repeated and refused entries, and questions between them. Of each third seed
    the second entry withdraws the first, where there are more than three."""
    choice = random.Random(seed)
    made, numbers, names = [], {"billing": 0, "ops.eu-1": 0, "a_b": 0}, []
    # The posts that count, and those that were withdrawn, by origin and number.
    posts, withdrawn = [], []
    begins = ("post", "withdraw") if entries > 3 and seed % 3 == 1 else ()
    pair, paid = choice.randrange(1, max(2, entries)), choice.randrange(len(begins) + 1, max(2, entries))
    for place in range(entries):
        origin = choice.choice(list(numbers))
        chance = choice.random()
        if place < len(begins):
            kind = begins[place]
        # One purchase at least is added, to a commitment that comes right before it or earlier.
        elif names and (place == paid or 0.8 <= chance < 0.9):
            kind = "add"
        elif place == paid - 1 or 0.75 <= chance < 0.85:
            kind = "commit"
        elif posts and 0.6 <= chance < 0.75:
            kind = "withdraw"
        else:
            kind = "post" if chance < 0.75 else "policy"
        if kind == "withdraw":
            withdrawn.append(posts.pop(choice.randrange(len(posts))))
            origin = withdrawn[-1][0]
        number = numbers[origin] = numbers[origin] + 1
        if kind == "withdraw":
            made.append(withdrawal(origin, number, withdrawn[-1][1]))
        elif kind == "add":
            made.append(added(choice, origin, number, choice.choice(names)))
        elif kind == "commit":
            names.append(f"cd-{place}")
            made.append(commitment(choice, origin, number, names[-1]))
        elif kind == "post":
            posts.append((origin, number))
            made.append(post(choice, origin, number))
        else:
            made.append(policy(choice, origin, number))
        if choice.random() < 0.1:
            made.append(post(choice, origin, number))
        if choice.random() < 0.05:
            made.append(post(choice, origin, number + 2))
        if choice.random() < 0.05:
            made.append(re.sub(rb"(,USD,)\w+", rb"\1Usagf", post(choice, origin, number + 1)))
        if choice.random() < 0.05:
            made.append(added(choice, "nobody", 1, "none"))
        if choice.random() < 0.05:
            made.append(withdrawal("nobody", 1, 1))
        if withdrawn and choice.random() < 0.1:
            again, target = choice.choice(withdrawn)
            made.append(withdrawal(again, numbers[again] + 1, target))
        if choice.random() < 0.2:
            made.append(choice.choice(QUESTIONS))
        if place == pair:
            made += [CHECKPOINT, CHECKPOINT]
        elif choice.random() < 0.2:
            made.append(CHECKPOINT)
    return made


@dataclass
class Case:
    """A script, its right answers, and the right answers to the questions after each number of accepted entries."""

    commands: list
    answers: list = field(default_factory=list)
    histories: list = field(default_factory=list)
    # After how many commands each number of entries was accepted.
    places: list = field(default_factory=list)

    def __post_init__(self):
        asked = [QUESTIONS]
        for command in self.commands:
            asked.append([] if command == CHECKPOINT else [command, *QUESTIONS])
        text = b"".join(one for some in asked for one in some)
        answers = (answer.encode() for answer in expected.answers(iter(io.BytesIO(text).readline, b"")))
        for place, some in enumerate(asked):
            answer = next(answers) if place and some else b"checkpointed\n"
            if place:
                self.answers.append(answer)
            said = b"".join(next(answers) for _ in QUESTIONS) if some else None
            if place == 0 or answer.startswith(b"accepted "):
                self.histories.append(said)
                self.places.append(place)

    @property
    def entries(self):
        return len(self.histories) - 1

    def rest(self, entries):
        """The commands after so many accepted entries, and their answers."""
        place = self.places[entries]
        return self.commands[place:], self.answers[place:]


def answers_of(text):
    """The answers of a run, one for each command: a line, or `bytes N` and the N bytes behind it."""
    answers = []
    while text:
        line, _, rest = text.partition(b"\n")
        size = int(line[6:]) if line.startswith(b"bytes ") else 0
        answers.append(line + b"\n" + rest[:size])
        text = rest[size:]
    return answers


def shown(text, most=1_000):
    """A text for a person, cut where it is long."""
    text = text if isinstance(text, str) else text.decode("utf-8", "replace")
    return text if len(text) <= most else f"{text[:most]}.. ({len(text)} characters)"


# Runs.


def program_at(path):
    """The real path of a built program."""
    program = os.path.realpath(path)
    if not os.access(program, os.X_OK):
        raise CannotRun(f"there is no program at {program}")
    return program


def killing(description, runs, option, count, what):
    """The options of a tool that kills runs of PROGRAM: how many runs, how much there is to do in one, and the seed."""
    parser = parser_of(description)
    parser.add_argument("program", metavar="PROGRAM", help="the built program")
    parser.add_argument("--runs", type=int, default=runs, metavar="N", help=f"how many runs (default: {runs})")
    parser.add_argument(option, type=int, default=count, metavar="N", help=f"{what} (default: {count})")
    parser.add_argument("--seed", type=int, default=1, metavar="N", help="the exports and the times (default: 1)")
    return parser.parse_args()


def killed_until_done(words, longest, dice, at_kill=lambda: None):
    """Starts a program again and again, and kills each run (SIGKILL) after a random time, until one ends by itself: how many were killed."""
    kills = 0
    while True:
        child = subprocess.Popen(words, stdout=subprocess.PIPE, stderr=subprocess.PIPE)
        try:
            _, error = child.communicate(timeout=dice.uniform(0, longest))
        except subprocess.TimeoutExpired:
            child.kill()
            child.communicate()
            kills += 1
            at_kill()
            continue
        if child.returncode != 0:
            sys.exit(f"status {child.returncode} after {kills} kills: {error.decode()}")
        return kills


@dataclass
class Ended:
    """How a run ended: its status (below 0 where a signal ended it, none where it had not ended in time) and its two outputs."""

    status: int | None
    said: bytes
    error: bytes

    def __str__(self):
        return f"status {self.status}\n{shown(self.said)}{shown(self.error)}"


def run(program, folder, script, *options, before=(), **more):
    """Runs a script over a folder. What it writes is kept, unless `more` says where it goes."""
    words = [*before, program, "run", "--dir", folder, *options]
    try:
        done = subprocess.run(words, input=script, timeout=LIMIT, check=False, **{"capture_output": True, **more})
    except subprocess.TimeoutExpired as why:
        return Ended(None, why.stdout or b"", f"it had not ended after {LIMIT} seconds\n".encode())
    return Ended(done.returncode, done.stdout, done.stderr)


@dataclass
class Call:
    """A call that a run made."""

    name: str
    # left, right, folder, in, out, or the empty text for anything else.
    where: str
    # Counted from 1 among the run's calls of this name.
    number: int
    at: int = 0
    data: bytes = b""
    # The call's result: below 0 where it failed, none where the run ended within it.
    result: int | None = 0
    # Whether an opening made the file.
    made: bool = False

    def __str__(self):
        what = f" of {len(self.data)} bytes at {self.at}" if self.name in ("write", "pwrite64") else ""
        return f"{self.name} {self.number} ({self.where}){what} = {self.result}"


LINE = re.compile(r"(\d+) +(\w+)\((.*)\) += (-?\d+|\?|0x[0-9a-f]+)(.*)")
TEXT = re.compile(r'"((?:\\x[0-9a-f]{2})*)"(\.\.\.)?')
PATH = re.compile(r"<((?:\\x[0-9a-f]{2}|[^>])*)>")


def unescaped(text):
    """The bytes of a text of strace, in which each byte stands as \\xHH."""
    return bytes.fromhex(text.replace("\\x", ""))


def lines_of(trace):
    """The lines of a trace, one for each call, with those that another thread cut in two joined."""
    begun = {}
    with open(trace, encoding="ascii", errors="backslashreplace") as file:
        for line in file:
            line = line.rstrip("\n")
            process, _, rest = line.partition(" ")
            if line.endswith("<unfinished ...>"):
                begun[process] = line.removesuffix("<unfinished ...>").rstrip()
            elif found := re.match(r" *<\.\.\. \w+ resumed>", rest):
                yield begun.pop(process) + rest[found.end() :]
            elif not rest.lstrip().startswith(("+++", "---")):
                yield line
    for line in begun.values():
        yield line + ") = ?"


def calls_of(trace, folder):
    """The calls of a recorded run that concern the folder, its files, the input or the output."""
    calls, numbers = [], {}
    places = {os.path.join(folder, side): side for side in SIDES} | {folder: "folder"}
    for line in lines_of(trace):
        found = LINE.match(line)
        if not found:
            raise CannotRun(f"strace wrote a line that this tool doesn't know: {line[:200]}")
        name, words, result = found[2], found[3], found[4]
        numbers[name] = numbers.get(name, 0) + 1
        paths = [unescaped(path) if "\\x" in path else path.encode() for path in PATH.findall(words + found[5])]
        texts = [unescaped(text) for text, _ in TEXT.findall(words)]
        where = next((places[path] for path in map(os.fsdecode, paths + texts) if path in places), "")
        if not where and re.match(r"[01]\b", words) and name in ("read", "write"):
            where = "in" if words[0] == "0" else "out"
        if not where:
            if any(path.startswith(os.fsencode(folder) + b"/") for path in paths + texts):
                raise CannotRun(f"a call on a file that this tool doesn't know: {line[:200]}")
            continue
        call = Call(name, where, numbers[name], result=None if result == "?" else int(result, 0))
        if name in ("write", "pwrite64"):
            if where in ("folder", *SIDES) and name == "write" or any(cut for _, cut in TEXT.findall(words)):
                raise CannotRun(f"a write that this tool doesn't know: {line[:200]}")
            call.data = texts[-1] if texts else b""
            call.at = int(words.rpartition(", ")[2]) if name == "pwrite64" else 0
        elif name == "openat":
            call.made = "O_CREAT" in words
            if "O_TRUNC" in words:
                raise CannotRun(f"an opening that cuts the file: {line[:200]}")
        elif name not in HARMLESS | {"fsync", "fdatasync"}:
            raise CannotRun(f"a call that this tool doesn't know: {line[:200]}")
        calls.append(call)
    return calls


def record(program, folder, script, *options, inject=None, room=None):
    """Runs a script over a folder under strace, with one call made to fail (`inject`, in strace's words): how it ended, and its calls."""
    if not shutil.which("strace"):
        raise CannotRun("there is no strace (Debian: apt-get install strace)")
    folder = os.path.realpath(folder)
    trace = os.path.join(room or os.path.dirname(folder), os.path.basename(folder) + ".trace")
    words = ["strace", "-f", "-qq", "-y", "-xx", "-s", str(1 << 22), "-e", "signal=none", "-e", "trace=" + ",".join(TRACED), "-o", trace]
    ended = run(program, folder, script, *options, before=[*words, *(["-e", f"inject={inject}"] if inject else []), "--"])
    try:
        return ended, calls_of(trace, folder)
    finally:
        os.remove(trace)


# The disk model.

# How many mixtures of unsynced writes are tried where there are several.
MIXTURES = 24


@dataclass
class File:
    """One of the two files: what its last sync left, and the writes since then. None stands for no file."""

    synced: bytes | None = None
    now: bytearray | None = None
    writes: list = field(default_factory=list)
    # Whether it was made, and the folder not synced since then.
    is_new: bool = False

    def write(self, at, data):
        self.now[len(self.now) :] = bytes(max(0, at - len(self.now)))
        self.now[at : at + len(data)] = data
        self.writes.append((at, data))

    def sync(self):
        self.synced, self.writes = bytes(self.now), []

    def with_writes(self, chosen):
        """What the last sync left, with some of the writes made."""
        content = bytearray(self.synced)
        for at, data in chosen:
            content[len(content) :] = bytes(max(0, at - len(content)))
            content[at : at + len(data)] = data
        return bytes(content)

    def leaves(self, choice):
        """Contents that a crash may leave, each with a name. The first is as synced, the second as read."""
        if self.now is None:
            return [("no file", None)]
        if not self.writes:
            return [("synced", bytes(self.now))] + ([("no file", None)] if self.is_new else [])
        now, old, found = bytes(self.now), self.synced, []
        found += [("old", old), ("new", now)]
        if len(self.writes) > 1:
            found += [(f"without write {i}", self.with_writes(self.writes[:i] + self.writes[i + 1 :])) for i in range(len(self.writes))]
            found += [(f"{i} writes", self.with_writes(self.writes[:i])) for i in range(1, len(self.writes))]
            found += [(f"mixture {i}", self.mixed(choice)) for i in range(MIXTURES)]
        for i, (at, data) in enumerate(self.writes):
            found += [(f"write {i} {name}", self.torn(i, bytes_)) for name, bytes_ in fillings(at, data, old, choice)]
        if len(now) > len(old):
            ends = {len(old), len(old) + 1, len(now) - 1, *(choice.randint(len(old), len(now)) for _ in range(3))}
            found += [(f"end at {end}", now[:end]) for end in sorted(ends)]
            found += [(f"end at {end}, zeros", old + bytes(end - len(old))) for end in sorted(ends)]
        return found + ([("no file", None)] if self.is_new else [])

    def mixed(self, choice):
        """All writes made, each with bytes that its range may hold."""
        writes = []
        for at, data in self.writes:
            _, bytes_ = choice.choice([("new", data), ("new", data), *fillings(at, data, self.synced, choice)])
            writes.append((at, bytes_))
        return self.with_writes(writes)

    def torn(self, place, data):
        """All writes made, with these bytes in the range of one."""
        writes = list(self.writes)
        writes[place] = (writes[place][0], data)
        return self.with_writes(writes)


def fillings(at, data, old, choice):
    """What may stand in the range of a write beside the new bytes: old ones, bytes torn at a place, or neither."""
    size = len(data)
    was = (old[at : at + size] + bytes(size))[:size]
    yield "old", was
    for byte in (0, 1, 2, 7, 255) if size == 1 else (0, 1, 255):
        yield f"all {byte}", bytes([byte]) * size
    yield "random", choice.randbytes(size)
    if size == 1:
        return
    for cut in sorted({1, size - 1, *(choice.randrange(1, size) for _ in range(2))}):
        yield f"new up to {cut}", data[:cut] + was[cut:]
        yield f"new from {cut}", was[:cut] + data[cut:]
    low = choice.randrange(size)
    high = choice.randint(low + 1, size)
    yield f"random from {low} to {high}", data[:low] + choice.randbytes(high - low) + data[high:]
    yield "shifted", data[1:] + data[:1]


class Disk:
    """The two files in the course of recorded runs."""

    def __init__(self, left=None, right=None):
        self.files = {side: File(content, None if content is None else bytearray(content)) for side, content in zip(SIDES, (left, right))}

    def apply(self, call):
        """What a call changes. A write that failed counts as made and not synced, and a sync that failed as none."""
        file = self.files.get(call.where)
        if call.name == "pwrite64":
            done = call.result if call.result is not None and call.result > 0 else 0
            if done:
                file.write(call.at, call.data[:done])
            if done < len(call.data):
                # What failed may be there after a crash, but a read doesn't show it.
                shown_now = bytearray(file.now)
                file.write(call.at + done, call.data[done:])
                file.now = shown_now
        elif call.name in ("fsync", "fdatasync") and call.result == 0:
            if file:
                file.sync()
            elif call.where == "folder":
                for one in self.files.values():
                    one.is_new = False
        elif call.name == "openat" and call.made and file and file.now is None and call.result is not None and call.result >= 0:
            file.synced, file.now, file.is_new = b"", bytearray(), True

    def is_settled(self):
        return not any(file.writes for file in self.files.values())

    def as_read(self):
        return tuple(None if file.now is None else bytes(file.now) for file in self.files.values())

    def images(self, choice):
        """Pairs of contents that a crash may leave, each with a name."""
        left, right = (file.leaves(choice) for file in self.files.values())
        found = {}
        for i in range(max(len(left), len(right))):
            # One side as synced or as read, or any of its contents, beside each content of the other.
            for a, b in {(i, 0), (0, i), (i, 1), (1, i), (i, choice.randrange(len(right))), (choice.randrange(len(left)), i)}:
                if a < len(left) and b < len(right):
                    found.setdefault((left[a][1], right[b][1]), f"left {left[a][0]}, right {right[b][0]}")
        return [(name, contents) for contents, name in found.items()]


def lay(folder, contents):
    """Makes a folder hold these two files and nothing else."""
    os.makedirs(folder, exist_ok=True)
    for side, content in zip(SIDES, contents):
        path = os.path.join(folder, side)
        if content is None:
            if os.path.exists(path):
                os.remove(path)
        else:
            with open(path, "wb") as file:
                file.write(content)


def contents_of(folder):
    """The two files of a folder."""
    found = []
    for side in SIDES:
        try:
            with open(os.path.join(folder, side), "rb") as file:
                found.append(file.read())
        except FileNotFoundError:
            found.append(None)
    return tuple(found)


ACKNOWLEDGED = re.compile(rb"^(?:accepted|state) (\d+)\b", re.M)


def acknowledged(said):
    """How many entries the answers so far say to be stored; none where there is no answer yet."""
    return max(map(int, ACKNOWLEDGED.findall(said)), default=None)


def role(call):
    """What a write is for."""
    if call.at == 0:
        return "opening" if call.data == b"\1" else "closing"
    if call.at == 1:
        return "filling"
    return "gate" if call.data == b"\1" else "frame"


class Progress:
    """How far a warehouse has come in the course of recorded runs, by their calls and answers."""

    def __init__(self, disk, least, entries):
        self.disk, self.least = disk, least
        self.frames = self.gates = entries
        self.is_made, self.said = least is not None, b""

    def apply(self, call):
        self.disk.apply(call)
        if call.name == "pwrite64":
            kind = role(call)
            self.frames += kind == "frame"
            self.gates += kind == "gate"
            self.is_made |= kind == "opening"
        if call.where == "out":
            self.said += call.data
        entries = [self.least, acknowledged(self.said)]
        if self.disk.is_settled() and self.is_made:
            entries.append(min(self.frames, self.gates))
        self.least = max((n for n in entries if n is not None), default=None)


@dataclass
class Image:
    """What a crash may leave, and what has to be found in it."""

    case: Case
    contents: tuple
    name: str
    # How many entries it has to hold at the least; none where there need not be a warehouse yet.
    least: int | None
    # How many it may hold at the most.
    most: int

    def fault(self, program, folder):
        """How many entries the program finds, and what is wrong with its answers."""
        lay(folder, self.contents)
        found = run(program, folder, b"".join(QUESTIONS))
        if self.least is None and found.status == 1 and found.error == b"focusd: S1 NoHouse\n" and not found.said:
            again = run(program, folder, QUESTIONS[0], "--create")
            return None, "" if again.status == 0 and again.said == b"state 0 0 0 0\n" else f"it can't be created again:\n{again}"
        for entries in range(self.least or 0, min(self.most, self.case.entries) + 1):
            if found.status == 0 and not found.error and found.said == self.case.histories[entries]:
                return entries, ""
        return None, f"it has to hold {self.least or 0} to {self.most} entries, and answers:\n{found}"

    def rest_fault(self, program, folder, entries):
        """What is wrong with the rest of the script, after the image was opened, and with what stands after it."""
        rest, answers = self.case.rest(entries)
        ended = run(program, folder, b"".join(rest))
        if ended.status != 0 or ended.error or ended.said != b"".join(answers):
            return f"it held {entries} entries, and the rest of the script is answered:\n{ended}"
        found = run(program, folder, b"".join(QUESTIONS))
        if found.status != 0 or found.error or found.said != self.case.histories[-1]:
            return f"it held {entries} entries, the rest was answered, and then it answers:\n{found}"
        return ""


def order_faults(calls):
    """Where a run answers while a write isn't synced, or opens a gate before what stands behind it is synced."""
    disk, faults = Disk(), []
    for side in SIDES:
        disk.files[side] = File(b"", bytearray())
    for place, call in enumerate(calls):
        if call.where == "out" and not disk.is_settled() and re.match(rb"accepted|checkpointed|state", call.data):
            faults.append(f"call {place}, {call}: {shown(call.data)!r} is answered while a write isn't synced")
        if call.name == "pwrite64" and call.data == b"\1" and not disk.is_settled():
            faults.append(f"call {place}, {call}: a gate is opened while a write isn't synced")
        disk.apply(call)
    return faults


def own_folder(room, name):
    """An empty folder of this thread."""
    folder = os.path.join(room, str(threading.get_ident()), name)
    shutil.rmtree(folder, ignore_errors=True)
    os.makedirs(folder)
    return folder


def add_room(parser):
    parser.add_argument("--room", metavar="DIR", help="where folders are made (default: in memory, /dev/shm, where there is one)")


def room_of(chosen):
    """The folder in which the runs work: the one given, else one in memory where the system has it."""
    if chosen:
        return chosen
    return "/dev/shm" if os.access("/dev/shm", os.W_OK) else None
