#!/usr/bin/env python3
"""Has `rt ci` prove every crate, and tries the must-fail edits that are due, within a budget.

    tools/prove.py                      proves every crate and its tests, and tries edits for 15 minutes of the processor, by their costs
    tools/prove.py --budget MINUTES     another budget
    tools/prove.py --all                tries every edit
    tools/prove.py --owed               tries every edit that is due, crate by crate, and writes down each crate that is done; it can be stopped and run again
    tools/prove.py --program            tries none: proves and builds focusd and the crates that it stands on, and no more
    tools/prove.py --list               says which edits are due, which a run would try, and what stays owed; runs nothing
    tools/prove.py --landed COMMIT      writes down that the run of this commit passed and landed
    tools/prove.py --anew               takes nothing that `rt ci` has passed on this machine: to measure what a run from nothing costs

`rt ci` proves from nothing, but for what it has passed on this machine, of the same files over the same libraries: that it takes as it is, and says so. It
runs over a copy of the tree without edits. The edits are tried beside it, many of them in one check (tools/edits.py), each crate's once the crate is proved.

An edit is due once its own text changed, or a file that it turns, layout and imports aside, or a definition that this file goes by: since the commit up to which its crate's edits are
known to be refused (tools/edits-tried), or under another logic of the toolchain. First come the edits whose text is new, then the crates with edits that are due, those first whose edits were
tried longest ago, then the others in the same order, until the budget is spent. What is left over stays due.

It leaves the built programs in out/focusd, out/fw_first_look and out/fw_simulate, the built tests in out/tests/, and all that `rt ci` printed in out/proofs.log.

Exit status: 0 where all was proved and passed, and every edit that was tried was refused; 1 otherwise; 2 where nothing could be run.
"""

import os
import re
import shutil
import signal
import subprocess
import sys
import tempfile
import threading
import time
from concurrent.futures import ThreadPoolExecutor

import due
from changes import GitError, files_of, is_edit, output_of
from command_line import add_top, parser_of
from crates_txt import below, deps_of, lines_of
from due import DueError, Records
from edits import REFUSED, Edit, Lanes, run_crate
from meter import Meter, processor, table

# Runs `rt ci`.
RT_CI = os.path.join(os.path.dirname(os.path.abspath(__file__)), "rt_ci.py")
# The crates that are programs: what is built of them is kept.
PROGRAMS = ("focusd", "fw_first_look", "fw_simulate")
# The budget for edits, in minutes of the processor.
BUDGET = 15
# What a proof takes at the most, in bytes. `rt ci` goes by sizes of files, and reckons with two and three times as much for a crate that stands on many others: it would
# prove one or two of those at a time, and leave the other processors idle.
MOST_MEMORY = 5_000_000_000
# A line of `rt ci` that says no more than that all is well with one item.
ITEM = re.compile(r"(fn|struct|enum|union|impl|trait|type|const|static) \S.*: (proved|assumed)$|statements |crate .*: modules ")
# A line of `rt ci` that says that a crate is proved and built.
BUILT = re.compile(r"rt: (\w+) (proved|is kept: .*)$")


class ProveError(Exception):
    """Why nothing could be run."""


def counts(by_crate):
    """How many edits there are of each crate, as text."""
    return " ".join(f"{crate} ({len(paths)})" for crate, paths in sorted(by_crate.items()) if paths) or "none"


def number(by_crate):
    return sum(map(len, by_crate.values()))


def show_plan(plan, every, budget):
    """Prints what is due, what runs and what stays owed."""
    print(f"must-fail edits: {every}, of which {number(plan.due)} are due, {number(plan.new)} of them new since the last landing; {plan.why}")
    limit = f", within {budget:g}" if budget is not None else ""
    print(f"  tried: {number(plan.runs)}, for about {plan.seconds / 60:.0f} minutes of the processor{limit}: {counts(plan.runs)}")
    print(owed_line(plan), flush=True)


def owed_line(plan):
    """How many edits stay owed, and how old the oldest is."""
    owed = plan.owed()
    oldest = plan.oldest(owed) if owed else None
    age = f"; the oldest of {oldest}, tried up to a commit of {plan.dates.get(oldest) or 'no known date'}" if oldest else ""
    return f"must-fail edits owed: {number(owed)}, of {len(owed)} crates{age}{': ' + counts(owed) if owed else ''}"


def copy_tree(top, to, crates):
    """Copies the tree without edits: of crates/ these crates."""
    for path in files_of(top):
        parts = path.split("/")
        if parts[0] == "crates" and len(parts) > 1 and parts[1] not in crates or is_edit(path):
            continue
        target = os.path.join(to, path)
        os.makedirs(os.path.dirname(target), exist_ok=True)
        shutil.copy2(os.path.join(top, path), target, follow_symlinks=False)


def is_shown(line, of_program):
    """Whether a line of `rt ci` goes to standard output: all but the thousands that say that one item is proved."""
    return not ITEM.match(line) and not (of_program and not line.startswith("rt: ") and " passed, " not in line)


def free_memory():
    """The memory of the machine that is free, in bytes."""
    with open("/proc/meminfo", encoding="ascii") as file:
        return 1024 * int(re.search(r"^MemAvailable:\s+(\d+) kB$", file.read(), re.M)[1])


def lanes_of(processors, free):
    """How many proofs run side by side: one a processor, as many as memory holds."""
    return max(1, min(processors, free // MOST_MEMORY))


class Tries:
    """Tries the edits of crates, each crate's once it is proved in the room."""

    def __init__(self, top, room, runs, on_done=lambda crate: None):
        self.top, self.room, self.runs, self.on_done = top, room, runs, on_done
        self.processors = len(os.sched_getaffinity(0))
        # Half of the processors while `rt ci` works, each check with a lower priority than a proof.
        self.lanes, self.pool = Lanes(max(1, self.processors // 2)), ThreadPoolExecutor(self.processors)
        self.outcomes, self.tallies, self.waiting, self.printing = {}, {}, {}, threading.Lock()

    def say(self, line):
        with self.printing:
            print(line, flush=True)

    def built(self, crate):
        if crate in self.runs and crate not in self.waiting:
            self.waiting[crate] = self.pool.submit(self._try, crate)

    def _try(self, crate):
        edits = [Edit.read(os.path.join(self.top, path)) for path in sorted(self.runs[crate])]
        outcomes, self.tallies[crate] = run_crate(self.room, crate, edits, self.lanes, sample=due.SAMPLE, say=self.say)
        self.outcomes.update(outcomes)
        if all(outcome.kind == REFUSED for outcome in outcomes.values()):
            self.on_done(crate)

    def finish(self):
        """Waits for all that was begun, and says how many edits were refused: whether all were, of every crate that was to be tried."""
        self.lanes.widen(self.processors)
        for waiting in self.waiting.values():
            waiting.result()
        self.pool.shutdown()
        lacking = sorted(set(self.runs) - set(self.waiting))
        for crate in lacking:
            self.say(f"{crate}: its edits were not tried, as it is not proved")
        refused = sum(outcome.kind == REFUSED for outcome in self.outcomes.values())
        wrong = len(self.outcomes) - refused
        if self.outcomes:
            spent, checks = (sum(getattr(tally, name) for tally in self.tallies.values()) for name in ("spent", "checks"))
            self.say(f"must-fail edits: {checks} checks, {spent / 60:.1f} minutes of the processor")
        self.say(f"edits: {refused} passed, {wrong + len(lacking)} failed")
        return not wrong and not lacking

    def stop(self):
        """Ends what is still being tried, where the run ends before it."""
        self.lanes.close()
        self.pool.shutdown(wait=False, cancel_futures=True)


def run_proofs(room, log_path, flags, of_program, number_of_crates, tries):
    """Runs `rt ci` in the room, and the edits beside it: the exit status, the steps, minutes by the clock of `rt ci` alone and of all, and processor seconds."""
    began, used = time.monotonic(), processor()
    meter, proved = Meter(), 0
    lanes = lanes_of(len(os.sched_getaffinity(0)), free_memory())
    process = subprocess.Popen(
        [sys.executable, "-B", RT_CI, *flags], cwd=room, env={"RT_JOBS": str(lanes), **os.environ}, stdin=subprocess.DEVNULL, stdout=subprocess.PIPE, stderr=subprocess.STDOUT,
        start_new_session=True,
    )  # fmt: skip
    try:
        with open(log_path, "wb") as log:
            for raw in process.stdout:
                log.write(raw)
                line = raw.decode("utf-8", "replace").rstrip("\n")
                built = BUILT.match(line)
                if built:
                    tries.built(built[1])
                if of_program and re.match(r"rt: \w+ proved$", line):
                    proved += 1
                    line = f"[{proved:2} of {number_of_crates}] {line[4:]}, {time.monotonic() - began:.0f} s after the start"
                elif not is_shown(line, of_program):
                    continue
                tries.say(line)
        status = process.wait()
        proofs = time.monotonic() - began
        all_refused = tries.finish()
    finally:
        if process.poll() is None:
            os.killpg(process.pid, signal.SIGKILL)
            process.wait()
        tries.stop()
        steps = meter.stop()
    return status or int(not all_refused), steps, proofs, time.monotonic() - began, processor() - used


def keep(room, out):
    """Keeps the built programs and the built tests."""
    for name in sorted(os.listdir(os.path.join(room, "crates"))):
        made = os.path.join(room, "crates", name, "out")
        tests = os.path.join(made, f"{name}_tests")
        if os.path.isfile(tests):
            shutil.copy2(tests, os.path.join(out, "tests", name))
        if name in PROGRAMS and os.path.isfile(os.path.join(made, name)):
            shutil.copy2(os.path.join(made, name), os.path.join(out, name))


def stop_at_once(*_):
    """Lets a run that is told to stop end `rt ci`, and remove its folder, on the way out."""
    sys.exit(2)


def head_of(top):
    """The commit that is checked out."""
    head = output_of(["git", "rev-parse", "HEAD"], top)
    if head is None:
        raise ProveError("git names no commit")
    return head.strip()


def landed(top, commit, kit):
    """Writes down that a commit landed: of the crates whose edits its run tried, none are due any more."""
    commit = (output_of(["git", "rev-parse", f"{commit}^{{commit}}"], top) or "").strip()
    if not commit:
        raise ProveError("there is no such commit")
    with tempfile.TemporaryDirectory(prefix="focusd-landed-") as room:
        at = os.path.join(room, "tree")
        if output_of(["git", "worktree", "add", "--detach", at, commit], top) is None:
            raise ProveError(f"git can't check {commit} out")
        try:
            plan = due.plan(at, kit, BUDGET * 60)
            records = Records.read(at)
        finally:
            output_of(["git", "worktree", "remove", "--force", at], top)
    records.landing, records.kit = commit, kit
    records.tried.update({crate: commit for crate in plan.done()})
    mine = Records.read(top)
    # What was tried here since then stays as it is written down.
    records.tried.update({crate: tried for crate, tried in mine.tried.items() if output_of(["git", "merge-base", "--is-ancestor", commit, tried], top) is not None})
    records.write(top)
    print(f"{due.RECORDS}: {commit[:12]} landed; {len(plan.done())} crates were tried up to it. {owed_line(plan)}")


def recorder(top, kit):
    """What writes a crate down as tried up to the commit that is checked out."""
    commit, turn = head_of(top), threading.Lock()
    if output_of(["git", "status", "--porcelain", "--", "crates", "crates.txt"], top):
        raise ProveError("what is tried is written down with a commit: commit what changed in crates/ first")

    def done(crate):
        with turn:
            records = Records.read(top)
            records.tried[crate] = commit
            records.write(top)

    return done


def main():
    signal.signal(signal.SIGTERM, stop_at_once)
    parser = parser_of(__doc__)
    which = parser.add_mutually_exclusive_group()
    which.add_argument("--all", action="store_true", help="try every must-fail edit")
    which.add_argument("--owed", action="store_true", help="try every edit that is due, and write down each crate that is done")
    which.add_argument("--program", action="store_true", help="prove and build focusd, and try no edit")
    which.add_argument("--landed", metavar="COMMIT", help="write down that the run of this commit passed and landed")
    parser.add_argument("--list", action="store_true", help="say which edits are due and what would be tried, and run nothing")
    parser.add_argument("--anew", action="store_true", help="prove all anew, to measure it")
    parser.add_argument("--budget", type=float, default=BUDGET, metavar="MINUTES", help=f"minutes of the processor for edits (default: {BUDGET})")
    add_top(parser)
    options = parser.parse_args()
    top = os.path.abspath(options.top)
    budget = None if options.all or options.owed else options.budget
    try:
        kit = (output_of(["rt", "version"], top) or "").strip()
        if not kit:
            raise ProveError("the toolchain's command rt isn't there: install it first")
        if options.landed:
            landed(top, options.landed, kit)
            return 0
        lines = lines_of(top)
        crates = {"focusd", *below("focusd", deps_of(lines))} if options.program else set(lines)
        done, runs = (lambda crate: None), {}
        if not options.program:
            plan = due.plan(top, kit, None if budget is None else budget * 60, only_due=options.owed, tries_all=options.all)
            runs = plan.runs
            show_plan(plan, sum(map(is_edit, files_of(top))), budget)
        if options.list:
            return 0
        if options.owed:
            done = recorder(top, kit)
    except (ProveError, DueError, GitError, OSError) as error:
        print(f"tools/prove.py: {error}", file=sys.stderr)
        return 2
    out = os.path.join(top, "out")
    shutil.rmtree(os.path.join(out, "tests"), ignore_errors=True)
    os.makedirs(os.path.join(out, "tests"))
    for program in PROGRAMS:
        if os.path.exists(os.path.join(out, program)):
            os.remove(os.path.join(out, program))
    with tempfile.TemporaryDirectory(prefix="focusd-prove-") as room:
        copy_tree(top, room, crates)
        if options.program:
            with open(os.path.join(room, "crates.txt"), "w", encoding="utf-8") as file:
                file.writelines(f"{line}\n" for crate, line in lines.items() if crate in crates)
        tries = Tries(top, room, runs, done)
        status, steps, proofs, wall, spent = run_proofs(room, os.path.join(out, "proofs.log"), ["--anew"] if options.anew else [], options.program, len(crates), tries)
        keep(room, out)
    if not options.program:
        print("\nWhat each crate cost, in seconds: of the processor, and by the clock (wall)")
        print(table(steps))
        print(owed_line(plan))
    print(f"rt ci: {proofs / 60:.1f} minutes by the clock; with the edits {wall / 60:.1f}, and {spent / 60:.1f} processor minutes", flush=True)
    return status


if __name__ == "__main__":
    sys.exit(main())
