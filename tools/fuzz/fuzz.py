#!/usr/bin/env python3
"""Runs focusd on inputs that are changed by chance, and an oracle beside it; what they answer has to be the same to the byte.

    tools/fuzz/fuzz.py --corpus                       runs the corpus and the cases that were found before, each alone and all together
    tools/fuzz/fuzz.py --seconds 600 --jobs 2         changes inputs by chance for ten minutes
    tools/fuzz/fuzz.py --runs 20000 --reader csv      so many inputs of one reader (scripts, csv, toml, json, folders or command-lines; it may be repeated)
    tools/fuzz/fuzz.py --case tools/fuzz/found/NAME   runs a kept case, and prints what is wrong

A crash, a run that doesn't end, one that holds more than 20 bytes for each byte of input and 64 MB, and an answer that isn't the oracle's are
made smaller and kept in a folder of their own below tools/fuzz/found, with the seed. README.md says what each reader runs.

By --peer PROGRAM another program, as bench/peers/expert, runs the scripts of the readers csv and json too, and has to answer the same.

By --memory FOLDER inputs that went a new way through the oracle are kept there, and taken from there by the next run.

It prints how often each answer came, so that those that never came are seen. Inputs depend on the seed, the number of jobs, the readers, and
on what --memory has; how many there are depends on --seconds or --runs. SIGTERM ends it early, with what it has counted.

Exit status: 0 where nothing was wrong, 1 where something was, 2 where the program can't be run.
"""

import argparse
import collections
import hashlib
import json
import multiprocessing
import os
import random
import re
import resource
import signal
import sys
import tempfile
import time

HERE = os.path.dirname(os.path.abspath(__file__))
sys.path[:0] = [HERE, os.path.dirname(HERE)]
import oracle  # noqa: E402
import shrink  # noqa: E402
from command_line import TOP, add_program, parser_of  # noqa: E402
from readers import READERS, Session  # noqa: E402
from running import room  # noqa: E402

FOUND = os.path.join(HERE, "found")
# How many cases of one kind are kept.
MOST_ALIKE = 2
MOST_TRIES = 500
# What further inputs are made of, of a reader and a job: at most so many inputs, of so many bytes together.
MOST_POOL = 4_000
MOST_POOL_BYTES = 32 << 20
SHARES = {"scripts": 3, "csv": 4, "toml": 4, "json": 2, "folders": 6, "command-lines": 2}


def answers_known():
    """Each answer that docs/FORMATS.md names, as it is counted."""
    entries = ["E1", "E2", "E3", *(f"J{n}" for n in range(1, 10))]
    contents = ["H1", "H2", *(f"V{n}" for n in range(1, 16)), "C1", "C2", "C3", *(f"P{n}" for n in range(1, 6))]
    words = ["accepted", "already", "gap", "state", "bytes", "checkpointed", "bad command", "bad end"]
    amounts = [fault.split(" ")[0] for fault in oracle.AMOUNT_FAULTS]
    refusals = [f"refused {code}" for code in contents + entries + ["Q1", "Q2"]]
    others = ["sound", "D1", "D2", "F1", "F2", "F3", "G1", "G2", "G3", "K1", "S1", "S2", "S3", "S6", "S7", "S8"]
    lines = ["command line: help", "command line: wrong", "command line: runs"]
    return words + refusals + amounts + others + lines + ["status 0", "status 1", "status 2"]


# What these readers can't bring about, and what does.
ELSEWHERE = {
    "refused E3": "aims.py: a post of more than 4 MiB", "refused J1": "examples/make_limits.py", "refused J5": "examples/test_commands.py", "F1": "tools/failing_calls.py", "F2": "examples/test_commands.py",
    "F3": "a script past 2^30 bytes", "G1": "examples/test_commands.py", "G2": "tools/refuse_allocations.py", "G3": "tools/refuse_allocations.py",
    "S3": "tools/failing_calls.py", "S6": "tools/folders.py, part full", "S8": "examples/test_commands.py", "D1": "examples/test_commands.py",
}  # fmt: skip


class Tally:
    """What was run and answered."""

    def __init__(self):
        self.answers, self.executions, self.inputs, self.peak = collections.Counter(), 0, 0, 0
        self.processor, self.kept = 0.0, []

    def add(self, session):
        self.answers.update(session.answers)
        self.executions += session.executions
        self.inputs += session.inputs
        self.peak = max(self.peak, session.peak)

    def print_out(self, seconds):
        rate = f"{self.executions / seconds:.0f} executions and {self.inputs / seconds:.0f} inputs a second" if seconds else ""
        print(f"{self.inputs:,} inputs in {self.executions:,} executions, {seconds:.0f} s: {rate}; the most that a run held: {self.peak >> 10:,} kB")
        print(f"{self.processor:,.1f} processor seconds, of the program and of what runs it")
        known = answers_known()
        came = [f"{name} {self.answers[name]:,}" for name in known if self.answers[name]]
        print("\nanswers:\n" + "\n".join(wrapped(came)))
        others = sorted(set(self.answers) - set(known))
        if others:
            print("\nothers:\n" + "\n".join(wrapped(f"{name} {self.answers[name]:,}" for name in others)))
        never = [name for name in known if not self.answers[name]]
        print("\nnever: " + ("; ".join(f"{name} ({ELSEWHERE[name]})" if name in ELSEWHERE else name for name in never) or "none"))


def processor():
    """The processor seconds of this process, and of those that it ran."""
    used = [resource.getrusage(who) for who in (resource.RUSAGE_SELF, resource.RUSAGE_CHILDREN)]
    return sum(it.ru_utime + it.ru_stime for it in used)


def wrapped(items, width=100):
    line = ""
    for item in items:
        if line and len(line) + len(item) + 2 > width:
            yield line + ","
            line = ""
        line += (", " if line else "  ") + item
    if line:
        yield line


class Finder:
    """Makes what is wrong smaller and keeps it."""

    def __init__(self, options, told):
        self.options, self.told = options, told
        self.session = Session(options.program, options.limit, options.peer)
        self.alike = collections.Counter()

    def found(self, reader, inputs, place, why):
        """Keeps the inputs that are needed for a fault."""
        kind = (reader.name, re.sub(r"[0-9]+", "0", why)[:90])
        self.alike[kind] += 1
        if self.alike[kind] > MOST_ALIKE:
            return None

        def fails(one):
            return bool(reader.faults([one], self.session))

        alone = [inputs[place]] if place is not None else inputs
        one = next((one for one in alone if fails(one)), None)
        if one is not None:
            kept = [reader.smaller(one, fails, MOST_TRIES)]
        else:
            tries = shrink.Tries(lambda some: bool(reader.faults(list(some), self.session)), MOST_TRIES // 5)
            kept = shrink.fewest(list(inputs), tries, tuple) if tries(tuple(inputs)) else list(inputs)
        faults = reader.faults(kept, self.session)
        return self.keep(reader, kept, faults[0][1] if faults else f"it came once and not again: {why}")

    def keep(self, reader, inputs, why):
        digest = hashlib.sha256(repr(inputs).encode()).hexdigest()[:10]
        folder = os.path.join(self.options.found, f"{reader.name}-{digest}")
        try:
            os.makedirs(folder)
        except FileExistsError:  # It was kept before, perhaps by another job.
            return None
        for number, one in enumerate(inputs):
            reader.write(os.path.join(folder, f"{number}{reader.extension}"), one)
        with open(os.path.join(folder, "case.json"), "w", encoding="utf-8") as file:
            json.dump({"reader": reader.name, "why": why, **self.told}, file, indent=1)
            file.write("\n")
        return folder, why


def case_of(folder):
    """The reader and the inputs of a kept case."""
    with open(os.path.join(folder, "case.json"), encoding="utf-8") as file:
        reader = READERS[json.load(file)["reader"]]
    names = sorted((name for name in os.listdir(folder) if name != "case.json"), key=lambda name: int(name.split(".")[0]))
    return reader, [reader.read(os.path.join(folder, name)) for name in names]


def remembered(memory, reader):
    return list(reader.kept_in(os.path.join(memory, reader.name)).values()) if memory else []


def remember(memory, reader, one):
    folder = os.path.join(memory, reader.name)
    os.makedirs(folder, exist_ok=True)
    reader.write(os.path.join(folder, hashlib.sha256(repr(one).encode()).hexdigest()[:16] + reader.extension), one)


def size_of(one):
    """How many bytes an input has."""
    return sum(map(size_of, one)) if isinstance(one, (tuple, list)) else len(one or b"")


def work(options, number, answers):
    """One job: changes inputs until its time or its runs are over."""
    stopped = []
    signal.signal(signal.SIGTERM, lambda *_: stopped.append(True))
    signal.pthread_sigmask(signal.SIG_UNBLOCK, {signal.SIGTERM})
    with tempfile.TemporaryDirectory(dir=room()) as folder:
        os.chdir(folder)
        session, chance = Session(options.program, options.limit, options.peer), random.Random(f"{options.seed}/{number}")
        finder = Finder(options, {"seed": options.seed, "job": number, "jobs": options.jobs})
        pools = {reader.name: list(reader.corpus().values()) + remembered(options.memory, reader) for reader in options.readers}
        sizes = {name: size_of(pool) for name, pool in pools.items()}
        # The ways that the corpus goes are known.
        for reader in options.readers:
            learn(reader, pools[reader.name], session)
        session = Session(options.program, options.limit, options.peer)
        kept, end, turn = [], time.monotonic() + (options.seconds or 10**9), 0
        most = options.runs // options.jobs if options.runs else 10**12
        while not stopped and time.monotonic() < end and session.inputs < most and len(kept) < options.most:
            turn += 1
            (reader,) = chance.choices(options.readers, [SHARES[reader.name] / reader.together for reader in options.readers])
            pool = pools[reader.name]
            inputs = [reader.mutated(chance, pool) for _ in range(reader.together)]
            faults = reader.faults(inputs, session, chance)
            session.inputs += len(inputs)
            for place in reader.new:
                size = size_of(inputs[place])
                if len(pool) >= MOST_POOL or sizes[reader.name] + size > MOST_POOL_BYTES:
                    continue
                sizes[reader.name] += size
                pool.append(inputs[place])
                if options.memory:
                    remember(options.memory, reader, inputs[place])
            finder.told |= {"turn": turn, "executions": session.executions, "inputs": session.inputs}
            for place, why in faults[:3]:
                case = finder.found(reader, inputs, place, why)
                if case:
                    kept.append(case)
                    print(f"FOUND {os.path.relpath(case[0], TOP)} by execution {session.executions:,}: {case[1]}", flush=True)
        session.answers.update({fault.split(" ")[0]: count for fault, count in oracle.AMOUNT_FAULTS.items()})
        os.chdir("/")
        answers.put((session, kept, processor()))


def learn(reader, inputs, session):
    for at in range(0, len(inputs), reader.together):
        reader.faults(inputs[at : at + reader.together], session, random.Random(0))


def fuzz(options):
    """Runs the jobs: the tally."""
    tally, began = Tally(), time.monotonic()
    context = multiprocessing.get_context("fork")
    answers = context.Queue()
    jobs = [context.Process(target=work, args=(options, number, answers)) for number in range(options.jobs)]
    # A signal waits until this process and each job know what to do at it.
    signal.pthread_sigmask(signal.SIG_BLOCK, {signal.SIGTERM})
    for job in jobs:
        job.start()
    signal.signal(signal.SIGTERM, lambda *_: [job.terminate() for job in jobs])
    signal.pthread_sigmask(signal.SIG_UNBLOCK, {signal.SIGTERM})
    left = len(jobs)
    while left:
        try:
            session, kept, used = answers.get(timeout=5)
        except Exception:  # noqa: BLE001 (queue.Empty, of a module that this one doesn't need)
            if any(job.exitcode for job in jobs):
                raise OSError("a job ended by itself") from None
            continue
        tally.add(session)
        tally.processor += used
        tally.kept += kept
        left -= 1
    for job in jobs:
        job.join()
    tally.print_out(time.monotonic() - began)
    return tally


def run_corpus(options):
    """Runs the corpus and the kept cases: each input alone, and those of a reader together."""
    tally, began, wrong = Tally(), time.monotonic(), 0
    with tempfile.TemporaryDirectory(dir=room()) as folder:
        os.chdir(folder)
        session = Session(options.program, options.limit, options.peer)
        for reader in options.readers:
            corpus = reader.corpus()
            groups = [(name, [one]) for name, one in corpus.items()]
            inputs = list(corpus.values())
            groups += [("all together", inputs[at : at + reader.together]) for at in range(0, len(inputs), reader.together) if reader.together > 1]
            for name, inputs in groups:
                session.inputs += len(inputs)
                for place, why in reader.faults(inputs, session):
                    wrong += 1
                    print(f"WRONG: {reader.name}/{name}{'' if place is None else f', input {place}'}: {why}")
        for name in sorted(os.listdir(options.found) if os.path.isdir(options.found) else []):
            if os.path.isfile(os.path.join(options.found, name, "case.json")):
                reader, inputs = case_of(os.path.join(options.found, name))
                session.inputs += len(inputs)
                for _, why in reader.faults(inputs, session) if reader in options.readers else []:
                    wrong += 1
                    print(f"WRONG: {os.path.relpath(options.found, TOP)}/{name}: {why}")
        session.answers.update({fault.split(" ")[0]: count for fault, count in oracle.AMOUNT_FAULTS.items()})
        os.chdir("/")
    tally.add(session)
    tally.processor = processor()
    tally.print_out(time.monotonic() - began)
    print(f"\n{wrong} wrong")
    return wrong


def run_case(options):
    reader, inputs = case_of(os.path.abspath(options.case))
    with tempfile.TemporaryDirectory(dir=room()) as folder:
        os.chdir(folder)
        faults = reader.faults(inputs, Session(options.program, options.limit, options.peer))
        os.chdir("/")
    for _, why in faults:
        print(why)
    print("nothing is wrong" if not faults else f"{len(faults)} wrong")
    return len(faults)


def whole_number(text):
    if not text.isascii() or not text.isdecimal() or int(text) == 0:
        raise argparse.ArgumentTypeError(f"{text!r} is no whole number from 1 on")
    return int(text)


def read_command_line(words=None):
    parser = parser_of(__doc__)
    add_program(parser)
    parser.add_argument("--reader", action="append", choices=list(READERS), help="only this reader; may be given several times (default: all)")
    what = parser.add_mutually_exclusive_group()
    what.add_argument("--corpus", action="store_true", help="only the corpus and the kept cases")
    what.add_argument("--case", metavar="FOLDER", help="only this kept case")
    what.add_argument("--seconds", type=whole_number, help="for how long (default: 60)")
    what.add_argument("--runs", type=whole_number, help="how many inputs, in place of a time")
    parser.add_argument("--seed", type=int, default=1, help="of the inputs (default: 1)")
    parser.add_argument("--jobs", type=whole_number, default=1, help="how many at a time (default: 1)")
    parser.add_argument("--limit", type=float, default=20.0, help="how many seconds of the processor a run may take (default: 20)")
    parser.add_argument("--most", type=whole_number, default=20, help="a job ends after it has kept so many cases (default: 20)")
    parser.add_argument("--memory", metavar="FOLDER", help="keeps inputs that went a new way, and takes those of earlier runs")
    parser.add_argument("--peer", metavar="PROGRAM", help="another program that answers scripts of posts, as bench/peers/expert: it has to answer the same")
    parser.add_argument("--found", metavar="FOLDER", default=FOUND, help="where cases are kept (default: tools/fuzz/found)")
    options = parser.parse_args(words)
    options.program, options.found = os.path.abspath(options.program), os.path.abspath(options.found)
    options.memory = os.path.abspath(options.memory) if options.memory else None
    options.peer = os.path.abspath(options.peer) if options.peer else None
    options.readers = [READERS[name] for name in options.reader or READERS]
    if not (options.corpus or options.case or options.runs):
        options.seconds = options.seconds or 60
    return options


def main():
    options = read_command_line()
    if not os.access(options.program, os.X_OK):
        print(f"fuzz.py: {options.program} is no program", file=sys.stderr)
        return 2
    try:
        if options.corpus:
            return 1 if run_corpus(options) else 0
        if options.case:
            return 1 if run_case(options) else 0
        tally = fuzz(options)
        print(f"\n{len(tally.kept)} cases kept")
        return 1 if tally.kept else 0
    except OSError as why:
        print(f"fuzz.py: {why}", file=sys.stderr)
        return 2


if __name__ == "__main__":
    sys.exit(main())
