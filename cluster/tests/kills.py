#!/usr/bin/python3
"""Kills workers and the client at random, while a cluster imports and reports, and compares what it answers in the end with one warehouse.

    python3 -B cluster/tests/kills.py out/focusd
    python3 -B cluster/tests/kills.py out/focusd --kills 10 --rows 20000 --local 2

Each round makes a cluster, imports two exports and asks for a report. Meanwhile a worker, or the client, is killed (SIGKILL) after a random time, and
again. Its nanny starts a worker again; the client is run again with the same words. In the end the report, the coverage and the number of rows have
to be those of one warehouse that holds all: the same bytes, and nothing twice. Seeds are fixed and printed.

It needs python3-distributed. Exit status: 0 all is right, 1 something isn't.
"""

import os
import random
import re
import shutil
import signal
import subprocess
import sys
import tempfile
import time

from bills import COMMAND, POLICY, one_warehouse, printed, run_cluster, sku_sets, write_export, write_terms, write_text

import dask
import distributed
from command_line import parser_of, say, whole_number

HOURS = 96
RANGE = ("--from", "2024-09-01", "--to", "2024-09-06")
REPORT = ("report", "--tag", "team", *RANGE, "--by", "day", "--format", "json")
COVERAGE = ("coverage", *RANGE, "--format", "csv")


class Killer:
    """Runs commands and kills what works on them."""

    def __init__(self, cluster, program, choice, kills):
        self.cluster, self.program, self.choice, self.left = cluster, program, choice, kills
        self.workers = self.clients = self.again = 0

    def kill_a_worker(self):
        """Kills the process of a worker that runs; its nanny starts another."""
        running = [nanny.process.pid for nanny in self.cluster.workers.values() if nanny.process and nanny.process.pid]
        if not running:
            return
        try:
            os.kill(self.choice.choice(running), signal.SIGKILL)
        except ProcessLookupError:
            return
        self.workers += 1
        self.left -= 1

    def run(self, folder, *words, most):
        """Runs a command until it ends well, with at most so many kills: what it prints."""
        killed = 0
        line = [COMMAND, words[0], "--dir", folder, "--scheduler", self.cluster.scheduler_address, "--program", self.program, "--quiet", *words[1:]]
        while True:
            client = subprocess.Popen([sys.executable, "-B", *line], stdout=subprocess.PIPE, stderr=subprocess.PIPE)
            while True:
                is_over = killed >= most or self.left <= 0
                try:
                    out, error = client.communicate(timeout=None if is_over else self.choice.uniform(0.2, 4))
                    break
                except subprocess.TimeoutExpired:
                    killed += 1
                    if self.choice.random() < 0.6:
                        self.kill_a_worker()
                        continue
                    client.kill()
                    client.communicate()
                    self.clients += 1
                    self.left -= 1
                    out = None
                    break
            if out is None:
                continue
            if client.returncode == 0:
                say(f"{words[0]} ended well after {killed} kills, {self.left} are left")
                return out
            # A worker that died may end a command with a fault that says to run it again.
            if b"run the command again" not in error and b"isn't finished" not in error:
                sys.exit(f"{' '.join(words)} ended with status {client.returncode}: {error.decode()}")
            self.again += 1


def main():
    parser = parser_of(__doc__)
    parser.add_argument("program", metavar="PROGRAM", help="the built program")
    parser.add_argument("--kills", type=whole_number, default=100, help="how many kills (default: 100)")
    parser.add_argument("--rows", type=whole_number, default=100_000, help="the rows of a bill (default: 100,000)")
    parser.add_argument("--local", type=whole_number, default=4, metavar="N", help="how many workers (default: 4)")
    parser.add_argument("--seed", type=int, default=1, help="when what is killed (default: 1)")
    options = parser.parse_args()
    program = os.path.abspath(options.program)
    dask.config.set({"distributed.scheduler.allowed-failures": 1_000})
    with tempfile.TemporaryDirectory(prefix="kills-") as room:
        exports = [write_export(f"{room}/{seed}.csv", options.rows // seed, HOURS, seed=seed) for seed in (1, 2)]
        terms = write_terms(f"{room}/terms", 12, sku_sets(options.rows, HOURS), HOURS)
        terms.append(write_text(f"{room}/policy.toml", POLICY))
        whole = one_warehouse(program, f"{room}/whole", exports, terms)
        wanted = [printed(program, words[0], "--dir", whole, *words[1:]) for words in (REPORT, COVERAGE)]
        rows = int(printed(program, "run", "--dir", whole, given=b"state\n").split()[2])
        more = {"dashboard_address": ":0", "silence_logs": 60, "local_directory": f"{room}/scratch"}
        with distributed.LocalCluster(n_workers=options.local, threads_per_worker=2, processes=True, **more) as cluster:
            killer, rounds = Killer(cluster, program, random.Random(options.seed), options.kills), 0
            while killer.left > 0:
                rounds += 1
                folder, shape = f"{room}/costs", random.Random(rounds).choice([("--by", "hour"), ("--by", "day"), ("--by", "day", "--into", "3")])
                killer.run(folder, "add", "--create", *shape, *terms, most=2)
                for number, export in enumerate(exports, 1):
                    killer.run(folder, "import", "--origin", f"export-{number}", export, most=5)
                found = [killer.run(folder, *words, most=3) for words in (REPORT, COVERAGE)]
                status = run_cluster("status", "--dir", folder, scheduler=cluster.scheduler_address, program=program)
                if found != wanted or not re.search(rf"\nRows +{rows:,}, ", status.stdout.decode()) or status.returncode:
                    said = f"{status.stdout.decode()}{status.stderr.decode()}"
                    sys.exit(f"round {rounds}, {' '.join(shape)}: the same answers: {[*map(bytes.__eq__, found, wanted)]}, wanted {rows:,} rows\n{said}")
                print(f"round {rounds}, {' '.join(shape)}: the same bytes; so far {killer.workers} workers and {killer.clients} clients were killed", flush=True)
                shutil.rmtree(folder)
                time.sleep(0.1)
    print(
        f"seed {options.seed}: {rounds} rounds of {rows:,} rows, {killer.workers} workers and {killer.clients} clients killed, "
        f"{killer.again} commands run again after a fault: the same bytes each time, and nothing twice"
    )
    return 0


if __name__ == "__main__":
    sys.exit(main())
