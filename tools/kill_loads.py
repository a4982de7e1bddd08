#!/usr/bin/env python3
"""Kills loads at random, opens the warehouse again, and looks whether each file is in it once.

    tools/kill_loads.py out/focusd
    tools/kill_loads.py out/focusd --runs 20 --files 64

All runs go over one folder. Each run starts `PROGRAM load` with a set of new files, and kills it (SIGKILL) after a random time. Its standard
error is a terminal, so it says there how many files it has stored so far. Some runs make a checkpoint, which is killed too, or not. When the
warehouse is opened again it has to have as many of the run's files as the killed load said, or more. Then the same files are loaded again, without
a kill. Each has to be answered `accepted` or `already 1`, and `already 1` where the killed load had answered `accepted`; `stale` has to be 0;
the warehouse has to have as many entries more as files are answered `accepted`, and after each run as many as files were loaded in all. At the end a
report has to have the costs of each file once. A program that has not ended after a minute is an error.

PROGRAM may be several words, as one that runs another.
"""
import os
import random
import re
import shlex
import subprocess
import sys
import tempfile
import time

from command_line import parser_of

HEADER = "BilledCost,EffectiveCost,BillingCurrency,ChargeCategory,ChargePeriodStart,ChargePeriodEnd,Tags\n"
START, END = "2024-01-01T00:00:00Z", "2024-01-01T01:00:00Z"
REPORT = b"report file 2024-01-01T00:00Z 2024-01-01T01:00Z\n"
# How long a program may take to end, in seconds.
LIMIT = 60
ANALYSTS = 4


def wrong(text):
    sys.exit(f"kill_loads: {text}")


def write_file(path, name, most, dice):
    """A file of at most so many rows, which carry its name as a tag. Returns what its rows cost, in whole units."""
    costs = [dice.randrange(1, 1000) for _ in range(dice.randrange(1, most + 1))]
    with open(path, "w") as out:
        out.write(HEADER)
        for cost in costs:
            out.write(f'{cost},{cost},USD,Usage,{START},{END},"{{""file"":""{name}""}}"\n')
    return sum(costs)


def finished(words, given=b""):
    """What a program that has to end by itself, with status 0, writes."""
    try:
        done = subprocess.run(words, input=given, capture_output=True, timeout=LIMIT, check=False)
    except subprocess.TimeoutExpired:
        wrong(f"it had not ended after {LIMIT} seconds: {shlex.join(words[:8])}")
    if done.returncode != 0:
        wrong(f"status {done.returncode}: {shlex.join(words[:8])}: {done.stderr.decode()}")
    return done.stdout


def killed(words, seconds):
    """What a program writes that is killed after so many seconds, what it writes to the terminal, and whether it was killed."""
    ours, terminal = os.openpty()
    child = subprocess.Popen(words, stdout=subprocess.PIPE, stderr=terminal)
    os.close(terminal)
    try:
        written, was_killed = child.communicate(timeout=seconds)[0], False
    except subprocess.TimeoutExpired:
        child.kill()
        written, was_killed = child.communicate()[0], True
    told = b""
    # A terminal that nobody holds any more is read to its end, which is an error.
    try:
        while part := os.read(ours, 65536):
            told += part
    except OSError:
        pass
    os.close(ours)
    return written, told, was_killed


def stored(told, count):
    """How many files a load said it had stored, of so many."""
    found = re.findall(rb"(\d+) of (\d+) (?:files are|file is) stored\r?\n", told)
    if any(int(of) != count for _, of in found):
        wrong(f"it told of another number of files than {count}: {told!r}")
    return max((int(files) for files, _ in found), default=0)


def answers(text):
    """The answer of each file, of the whole lines of a text, by its number; and the words of the other lines."""
    by_file, others = {}, {}
    for line in text.decode().split("\n")[:-1]:
        word, _, rest = line.partition(" ")
        if word.isdigit():
            by_file[int(word)] = rest
        else:
            others[word] = rest
    return by_file, others


def entries(program, folder):
    """How many entries the warehouse has."""
    return int(finished([*program, "run", "--dir", folder], b"state\n").split()[1])


def check_again(text, acknowledged, count, before):
    """What is wrong with the answers to files that were loaded again."""
    by_file, others = answers(text)
    if sorted(by_file) != list(range(1, count + 1)):
        return f"not each file was answered once: {text!r}"
    strange = {number: answer for number, answer in by_file.items() if answer not in ("accepted", "already 1")}
    if strange:
        return f"answers that can't be: {strange}"
    lost = [number for number in acknowledged if by_file[number] != "already 1"]
    if lost:
        return f"files {lost} had been accepted, and were lost"
    if others.get("stale") != "0":
        return f"stale views: {others}"
    after = before + sum(answer == "accepted" for answer in by_file.values())
    if int(others["state"].split()[0]) != after:
        return f"{others['state']} is not {after} entries"
    return None


def main():
    options = parser_of(__doc__)
    options.add_argument("program", nargs="+", metavar="PROGRAM", help="the built program, or the words of a command that runs it")
    options.add_argument("--runs", type=int, default=200, metavar="N", help="how many loads (default: 200)")
    options.add_argument("--files", type=int, nargs="+", default=[8, 64], metavar="N", help="how many files a load has: one of these numbers (default: 8 64)")
    options.add_argument("--rows", type=int, default=200, metavar="N", help="how many rows a file has at the most (default: 200)")
    options.add_argument("--seed", type=int, default=1, metavar="N", help="the files and the times (default: 1)")
    given = options.parse_args()
    dice = random.Random(given.seed)
    program = [os.path.abspath(given.program[0]), *given.program[1:]]
    kills = checkpoints = answered = acknowledged = found = 0
    costs = {}
    longest = 0.05
    with tempfile.TemporaryDirectory() as top:
        folder = f"{top}/costs"
        os.mkdir(folder)
        finished([*program, "run", "--dir", folder, "--create"])
        for run in range(given.runs):
            count = dice.choice(given.files)
            paths = [f"{top}/{number}.csv" for number in range(1, count + 1)]
            for number, path in enumerate(paths, 1):
                name = f"run-{run}.{number}"
                costs[name] = write_file(path, name, given.rows, dice)
            load = [*program, "load", "--dir", folder, "--analysts", str(ANALYSTS), "--origin", f"run-{run}", *paths]
            text, told, was_killed = killed(load, dice.uniform(0, 1.2 * longest))
            kills += was_killed
            accepted = [number for number, answer in answers(text)[0].items() if answer == "accepted"]
            answered += len(accepted)
            said = stored(told, count)
            acknowledged += said
            if dice.randrange(4) == 0:
                checkpoints += 1
                killed([*program, "checkpoint", "--dir", folder], dice.choice([LIMIT, dice.uniform(0, longest)]))
            before = entries(program, folder)
            there = before - (len(costs) - count)
            found += there
            if there < said:
                wrong(f"run {run} of seed {given.seed}: {said} files were said to be stored, and {there} are there")
            started = time.time()
            problem = check_again(finished(load), accepted, count, before)
            if problem is None and entries(program, folder) != len(costs):
                problem = f"the warehouse has not the {len(costs)} entries that it was given"
            if problem is not None:
                wrong(f"run {run} of seed {given.seed}: {problem}")
            longest = max(0.5 * longest, time.time() - started)
        report = finished([*program, "run", "--dir", folder], REPORT).decode().splitlines()[2:]
        charged = {line.split(",")[0]: line.split(",")[1] for line in report}
        if charged != {name: f"{cost}.000000000" for name, cost in costs.items()}:
            wrong("the report has not the costs of each file once")
    print(
        f"{given.runs} loads of {given.files} files, {kills} killed, {checkpoints} checkpoints: {len(costs)} files, each there once; "
        f"{acknowledged} were said to be stored and {answered} were answered before a kill or an end, {found} were there when the warehouse was opened again"
    )


if __name__ == "__main__":
    main()
