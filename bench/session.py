"""What the benchmarks share: their command lines, the machine that they run on, and turns of programs."""

import os
import platform
import re
import shlex
import shutil
import signal
import subprocess
import sys
import tempfile
import time

HERE = os.path.dirname(os.path.abspath(__file__))
ROOT = os.path.dirname(HERE)
sys.path.insert(0, os.path.join(ROOT, "tools"))
from command_line import PROGRAM, add_program, parser_of, say, status_of, whole_number  # noqa: E402

PEERS = os.path.join(HERE, "peers")
DEBIAN_CRATES = "/usr/share/cargo/registry"
FOCUSD, RUST = "focusd", "plain Rust"


class Stopped(Exception):
    """Why nothing can be measured, and what to do."""


# ---- command lines


def parser_of_turns(description, turns, limit=None, program=PROGRAM, what="turns of each program"):
    """A parser with the options of a script that takes turns; --limit where a run may take so many seconds."""
    parser = parser_of(description)
    add_program(parser, program)
    parser.add_argument("--turns", type=whole_number, default=turns, help=f"{what} (default: {turns})")
    if limit:
        parser.add_argument("--limit", type=whole_number, default=limit, help=f"seconds for one run (default: {limit})")
    parser.add_argument("--date", default="", help="the date that the result carries")
    parser.add_argument("--scratch", default=os.path.join(HERE, "scratch"), help="where data, builds and files are kept (default: bench/scratch)")
    return parser


def add_export(parser):
    """The size and the seed of an export that is made."""
    parser.add_argument("--rows", type=whole_number, default=1_000_000, help="default: 1,000,000")
    parser.add_argument("--seed", type=whole_number, default=7, help="default: 7")


def script_name():
    """The name of the script that runs."""
    return os.path.basename(sys.argv[0])


def status_after(run, options):
    """The exit status of a script: what `run` returns, or 2 where nothing can be measured."""
    return status_of(script_name(), lambda: run(options), Stopped)


def built(program):
    """The absolute path of a built focusd."""
    if not os.access(program, os.X_OK):
        raise Stopped(f"{program} isn't there: build it by `examples/run --proved`")
    return os.path.abspath(program)


# ---- the machine


def first_line(*command):
    try:
        ran = subprocess.run(command, capture_output=True, text=True)
    except OSError:
        return None
    return ran.stdout.strip().partition("\n")[0] or None


def found_in(path, pattern):
    try:
        with open(path, encoding="utf-8") as file:
            found = re.search(pattern, file.read(), re.M)
    except OSError:
        return None
    return found[1] if found else None


def machine():
    """Lines on what was measured where."""
    model = found_in("/proc/cpuinfo", r"^model name\s*: (.*)$") or platform.machine()
    memory = found_in("/proc/meminfo", r"^MemTotal:\s*(\d+) kB$")
    system = found_in("/etc/os-release", r'^PRETTY_NAME="?(.*?)"?$') or platform.system()
    gigabytes = f", {int(memory) / 1e6:.0f} GB" if memory else ""
    yield f"Machine: {os.cpu_count()} cores ({model}){gigabytes}, {system}"
    sqlite = first_line("sqlite3", "--version")
    versions = [
        first_line("rt", "version"),
        first_line("rustc", "--version"),
        sqlite and f"SQLite {sqlite.split()[0]}",
        f"Python {platform.python_version()}",
    ]
    yield "Versions: " + ", ".join(it for it in versions if it)


def load():
    return " ".join(f"{it:.1f}" for it in os.getloadavg()[:2])


def load_since(before):
    """A line on the load of the machine before and now."""
    return f"Load of the machine before and after: {before}; {load()}"


def print_head(options, *more):
    """Prints the lines above a result: the command, its date, the machine, and more."""
    print(f"Command: `{shlex.join(['python3', f'bench/{script_name()}', *sys.argv[1:]])}`  ")
    for line in [*[f"Date: {options.date}"] * bool(options.date), *machine(), *more]:
        print(f"{line}  ")


# ---- turns


class Turns:
    """The turns of a program so far, and what went wrong with it, after which it takes none."""

    def __init__(self, name):
        self.name, self.turns, self.fault = name, [], None

    def keep(self, turn, options):
        """Judges a turn, and keeps it where its answer is right."""
        if turn.status is None:
            self.fault = f"stopped after {options.limit} s"
        elif turn.status:
            self.fault = f"failed with status {turn.status}: {turn.complaint.strip()[-200:]}"
        else:
            self.fault = self.judge(turn.output)
        if not self.fault:
            self.turns.append(turn)
            say(f"  {self.name}: {turn.seconds:.3f} s")

    @property
    def seconds(self):
        """The least of all turns by the clock."""
        return min(turn.seconds for turn in self.turns)


def in_turns(programs, options, what=""):
    """Each of these programs in each turn. What is measured and the number of the turn go to standard error."""
    for turn in range(options.turns):
        say(f"{what}turn {turn + 1} of {options.turns}")
        yield from programs


class Turn:
    """What one run of a program took and gave; the status is None where it was stopped."""

    def __init__(self, seconds, status=None, output=b"", complaint=b"", clock=b""):
        self.seconds, self.status, self.output = seconds, status, output
        self.complaint = complaint.decode("utf-8", "replace")
        # The last line that GNU time wrote, nothing where it is missing.
        words = clock.split()[-3:]
        self.is_clocked = len(words) == 3
        if self.is_clocked:
            self.peak = int(words[0]) * 1024
            self.processor_seconds = float(words[1]) + float(words[2])


def measure(command, stdin, options):
    """Runs a command once."""
    clock = shutil.which("time")
    with tempfile.NamedTemporaryFile(dir=options.scratch) as told, open(stdin, "rb") as script:
        # GNU time tells the peak of the program alone; a child of this process would begin with its size.
        words = [clock, "-q", "-f", "%M %U %S", "-o", told.name, *command] if clock else command
        start = time.perf_counter()
        pipes = {"stdout": subprocess.PIPE, "stderr": subprocess.PIPE}
        started = subprocess.Popen(words, stdin=script, start_new_session=True, **pipes)
        try:
            output, complaint = started.communicate(timeout=options.limit)
        except subprocess.TimeoutExpired:
            os.killpg(started.pid, signal.SIGKILL)
            started.communicate()
            return Turn(options.limit)
        seconds = time.perf_counter() - start
        return Turn(seconds, started.returncode, output, complaint, told.read())


def build_rust(options, notes, name="expert", crates=("csv", "serde-json")):
    """The path of a plain Rust program of bench/peers, built over Debian's crates; None where it can't be built."""
    if not shutil.which("cargo"):
        notes.append(f"{RUST}: there is no cargo")
        return None
    if not os.path.isdir(DEBIAN_CRATES):
        notes.append(f"{RUST}: Debian's {' and '.join(f'librust-{it}-dev' for it in crates)} aren't installed")
        return None
    # The programs share modules, so they lie beside each other.
    folder, target = os.path.join(options.scratch, "peers"), os.path.join(options.scratch, "target")
    shutil.copytree(PEERS, folder, dirs_exist_ok=True)
    words = ["cargo", "build", "--release", "--offline", "--quiet", "--target-dir", target]
    words += ["--config", 'source.crates-io.replace-with="debian"']
    words += ["--config", f'source.debian.directory="{DEBIAN_CRATES}"']
    say(f"building the plain Rust program {name}")
    ran = subprocess.run(words, cwd=os.path.join(folder, name), capture_output=True, text=True)
    if ran.returncode:
        notes.append(f"{RUST}: not built: {ran.stderr.strip()[-300:]}")
        return None
    return os.path.join(target, "release", name)


def verdict(is_met):
    return "met" if is_met else "missed"
