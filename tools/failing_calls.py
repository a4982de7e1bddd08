#!/usr/bin/env python3
"""Makes each call of a run on its warehouse's files fail, one a run, and looks at the answers and at what stands afterwards.

    tools/failing_calls.py
    tools/failing_calls.py --entries 4 --images 3    shorter scripts, and fewer images of each run

A script of entries and checkpoints is run twice by `focusd run --dir`: with --create, and over a folder that has a warehouse. In each,
every opening, lock, read, write and sync of the folder and its files, each read of the script and each write of the answers is made to
fail, with EIO and, where the system can give it, ENOSPC. A read of a file is also cut short, and each call on the files is
interrupted (EINTR), which must not show.

The answers have to be these: `focusd: K1 Io` where the folder can't be opened; `focusd: S3 Device` where the warehouse in it can't be
synced or read; `focusd: F1 Read` or `F2 Write` where the script or the answers can't be, with status 1 each; and where an entry or a
checkpoint fails, `store S3 Device` for it, `store S4 Failed` for the entries and checkpoints after it, and the reports as before it.
Nothing may be written after the failure. Then the folder is opened again, as it is and as a crash may leave it: each entry that was
acknowledged is there, and at most the one that failed is there too. The rest of the script, sent again, has to be answered.

It needs strace (Debian 12: apt-get install strace) and a built program. The runs of a seed are the same each time.
Exit status: 0 where all runs were right, 1 where one wasn't, 2 where nothing could be run.
"""

import io
import os
import random
import sys
import tempfile
import threading
from concurrent.futures import ThreadPoolExecutor

from command_line import add_jobs, add_program, parser_of, status_of
from store_runs import (
    CHECKPOINT, QUESTIONS, CannotRun, Case, Disk, Image, Progress, add_room, commands, contents_of, expected, lay, own_folder, program_at, record, role,
    room_of, run, shown,
)  # fmt: skip

# How many entries the run that creates a warehouse stores; the run over a folder that has one begins after as many and stores as many more.
ENTRIES = 7
OPENING = {"openat", "flock", "statx", "newfstatat", "fstat", "fsync"}


def errors_of(call):
    """The ways in which a call is made to fail, in strace's words, each with whether the program has to try again."""
    yield "error=EIO", False
    if call.name in ("openat", "pwrite64", "fdatasync", "fsync", "write"):
        yield "error=ENOSPC", False
    if call.name == "openat":
        yield "error=EACCES", False
    if call.name == "pread64":
        yield "retval=0", False
    # The script and the answers are left out: without a handler of signals the system doesn't interrupt their reads and writes.
    if call.name in ("openat", "pread64", "pwrite64", "fdatasync", "fsync"):
        yield "error=EINTR", True


class Plan:
    """A script over a folder, its right answers, and which command each call of its recorded run belongs to."""

    def __init__(self, name, case, start, entries, options):
        self.name, self.case, self.start, self.entries, self.options = name, case, start, entries, options
        self.commands, self.answers = case.rest(entries)
        self.script = b"".join(self.commands)

    def places(self, calls):
        """The place of the command to which each call belongs; `opening` for those before the script is read."""
        accepted = [place for place, answer in enumerate(self.answers) if answer.startswith(b"accepted ")]
        checkpoints = [place for place, command in enumerate(self.commands) if command == CHECKPOINT]
        places, current, is_open, is_made = [], "opening", False, False
        for call in calls:
            if call.where == "in":
                is_open, current = True, "reading"
            elif call.where == "out":
                current = "writing"
            elif is_open and call.name == "pwrite64" and role(call) == "frame":
                current = accepted.pop(0)
            elif is_open and (call.name == "pread64" or call.name == "pwrite64" and role(call) in ("closing", "filling")) and not is_made:
                current, is_made = checkpoints.pop(0), True
            if call.name == "pwrite64" and role(call) == "opening":
                is_made = False
            places.append(current)
        return places

    def answers_without(self, place):
        """The right answers where the command at a place meets a device fault."""
        before = [command for command in self.case.commands[: len(self.case.commands) - len(self.commands)] + self.commands[:place] if command != CHECKPOINT]
        questions = [command for command in self.commands[place + 1 :] if command in QUESTIONS]
        text = b"".join(before + questions)
        said = [answer.encode() for answer in expected.answers(iter(io.BytesIO(text).readline, b""))][len(before) :]
        answers = [*self.answers[:place], b"store S3 Device\n"]
        for command, answer in zip(self.commands[place + 1 :], self.answers[place + 1 :]):
            if command in QUESTIONS:
                answers.append(said.pop(0))
            else:
                answers.append(answer if answer.startswith(b"refused V") else b"store S4 Failed\n")
        return b"".join(answers)


class Trial:
    """All runs of a plan."""

    def __init__(self, plan, program, room, images_each, most_wrong):
        self.plan, self.program, self.room, self.images_each, self.most_wrong = plan, program, room, images_each, most_wrong
        self.runs = self.images = 0
        self.wrong, self.lock = [], threading.Lock()
        folder = self.folder()
        lay(folder, plan.start)
        ended, self.calls = record(program, folder, plan.script, *plan.options)
        if ended.status != 0 or ended.error or ended.said != b"".join(plan.answers):
            raise CannotRun(f"{plan.name}: the run is wrong where nothing fails:\n{ended}")
        self.places = plan.places(self.calls)

    @property
    def is_over(self):
        """Whether so much is wrong that no more is tried."""
        return self.most_wrong is not None and len(self.wrong) >= self.most_wrong

    def folder(self):
        return own_folder(self.room, "run")

    def expected(self, call, place):
        """The status, the answers and the error line where a call fails."""
        if place == "opening":
            return 1, b"", b"focusd: K1 Io\n" if call.name in OPENING else b"focusd: S3 Device\n"
        if place == "reading":
            return 1, b"", b"focusd: F1 Read\n"
        if place == "writing":
            return 1, None, b"focusd: F2 Write\n"
        return 0, self.plan.answers_without(place), b""

    def faults(self, index, how, again):
        """What is wrong with the run in which one call fails."""
        call, place, folder = self.calls[index], self.places[index], self.folder()
        lay(folder, self.plan.start)
        inject = f"{call.name}:{how}:when={call.number}"
        ended, calls = record(self.program, folder, self.plan.script, *self.plan.options, inject=inject)
        status, said, error = (0, b"".join(self.plan.answers), b"") if again else self.expected(call, place)
        if said is None:
            # Some of the answers may have been written before, and the rest of them may be tried again when the program ends.
            right = b"".join(self.plan.answers)
            said = ended.said if right.startswith(ended.said) else right
        if (ended.status, ended.said, ended.error) != (status, said, error):
            yield f"it should answer\n{shown(said)}{shown(error)}with status {status}, and it answers\n{ended}"
        progress = Progress(Disk(*self.plan.start), None if "--create" in self.plan.options else self.plan.entries, self.plan.entries)
        failed, later = False, []
        for one in calls:
            if failed and one.name in ("pwrite64", "fdatasync") and place != "writing":
                later.append(one)
            progress.apply(one)
            failed |= not again and (one.name, one.number) == (call.name, call.number)
        if later:
            yield f"after the failure it makes the call {later[0]}"
        if progress.disk.as_read() != contents_of(folder):
            raise CannotRun(f"{inject}: the recorded calls don't make the files that the run left")
        choice = random.Random(index)
        images = [("the folder as it is", contents_of(folder))]
        made = progress.disk.images(choice)
        images += choice.sample(made, min(self.images_each, len(made)))
        for name, contents in images:
            folder = self.folder()
            image = Image(self.plan.case, contents, name, progress.least, progress.frames)
            entries, fault = image.fault(self.program, folder)
            if not fault and entries is not None:
                fault = image.rest_fault(self.program, folder, entries)
            with self.lock:
                self.images += 1
            if fault:
                yield f"{name}: {fault}"

    def check(self, item):
        index, how, again = item
        if self.is_over:
            return
        faults = []
        try:
            for fault in self.faults(index, how, again):
                faults.append(fault)
        except CannotRun as why:
            faults.append(str(why))
        with self.lock:
            self.runs += 1
            for fault in faults:
                self.wrong.append(f"{self.plan.name}: call {index}, {self.calls[index]}, of {self.places[index]} with {how}:\n{fault}")
                if len(self.wrong) <= 20:
                    print("WRONG:", self.wrong[-1], flush=True)


def settled(program, folder, case, entries):
    """The files after the commands up to a number of entries."""
    ended = run(program, folder, b"".join(case.commands[: case.places[entries]]), "--create")
    if ended.status != 0:
        raise CannotRun(f"no warehouse can be made:\n{ended}")
    return contents_of(folder)


def try_all(options):
    """Tries all calls of both plans: the exit status."""
    program, wrong = program_at(options.program), 0
    with tempfile.TemporaryDirectory(prefix="failing-calls-", dir=room_of(options.room)) as room:
        small = Case(commands(options.seed, options.entries))
        longer = Case(commands(options.seed + 1, 2 * options.entries))
        os.makedirs(os.path.join(room, "start"))
        start = settled(program, os.path.join(room, "start"), longer, options.entries)
        plans = [Plan("creating", small, (None, None), 0, ["--create"]), Plan("opening", longer, start, options.entries, [])]
        for plan in plans:
            trial = Trial(plan, program, room, options.images, options.most_wrong)
            known = [i for i, call in enumerate(trial.calls) if call.name != "mmap"]
            items = [(i, how, again) for i in known for how, again in errors_of(trial.calls[i])]
            with ThreadPoolExecutor(options.jobs) as pool:
                list(pool.map(trial.check, items))
            print(f"{plan.name}: {len(known)} calls, failed in {trial.runs} runs, {trial.images} folders opened again, {len(trial.wrong)} wrong", flush=True)
            wrong += len(trial.wrong)
    return 1 if wrong else 0


def main():
    parser = parser_of(__doc__)
    add_program(parser)
    parser.add_argument("--seed", type=int, default=1, metavar="N", help="the script (default: 1)")
    parser.add_argument("--entries", type=int, default=ENTRIES, metavar="N", help=f"how many entries each of the two runs stores (default: {ENTRIES})")
    parser.add_argument("--most-wrong", type=int, default=None, metavar="N", help="end a plan where so much is wrong (default: try all)")
    parser.add_argument("--images", type=int, default=6, metavar="N", help="how many images a run leaves that are opened beside the folder itself (default: 6)")
    add_jobs(parser, "runs")
    add_room(parser)
    options = parser.parse_args()
    return status_of("tools/failing_calls.py", lambda: try_all(options), CannotRun)


if __name__ == "__main__":
    sys.exit(main())
