#!/usr/bin/env python3
"""Runs a short fixed selection of what the tools over real files try: the step of `tools/test` that looks at what real files hold.

    tools/real_files.py
    tools/real_files.py --program out/focusd --jobs 2

In this order: crash images of a few short scripts (tools/crash_images.py), each call on the files made to fail (tools/failing_calls.py), and
runs over one folder that are killed (tools/kill_runs.py). What is tried follows from fixed seeds, not from how fast the machine is. Each tool
prints what it tried. The first one that finds anything wrong ends the step.

    tools/real_files.py --self-test

runs the step once with the program as it is, and once for each way in which its volume may be wrong and still keep its contract: it doesn't
sync, it syncs the other file, it loses a write, and so on. A library that is loaded before the program (tools/wrong_volume.c, built by `cc`)
makes its calls wrong. Of a wrong volume the step has to end with status 1.

    tools/real_files.py --prepare

only looks whether strace is there and can do its work. Where there is none, and the user is root and has apt-get, it is installed.

It needs strace (Debian 12: apt-get install strace) and a built program.
Exit status: 0 where all was right, 1 where it wasn't, 2 where nothing could be run.
"""

import os
import shutil
import subprocess
import sys
import tempfile
import time

from command_line import TOP, add_jobs, add_program, parser_of, status_of
from store_runs import CannotRun, program_at

# What the step runs. A tool that finds so much wrong tries no more.
STEP = [
    ["crash_images.py", "--scripts", "3", "--entries", "6", "--seed", "6", "--most-wrong", "3"],
    ["failing_calls.py", "--entries", "4", "--images", "3", "--most-wrong", "3"],
    ["kill_runs.py", "--runs", "100"],
]
# In which ways a volume is made wrong for the self-test, in the words of wrong_volume.c.
WRONG = [
    "it doesn't sync",
    "it syncs the other file",
    "it loses the fourth write",
    "it loses each tenth write",
    "it doesn't sync the folder",
    "it takes a failed sync for done",
    "it takes a failed write for done",
    "it takes a failed read for done",
]
SHIM = os.path.join(TOP, "tools", "wrong_volume.c")
INSTALL = ["apt-get", "install", "-y", "strace"]
MISSING = "there is no strace. On Debian 12 this installs it: apt-get install strace"


def install():
    """Installs strace, where the user may."""
    if os.geteuid() != 0 or not shutil.which("apt-get"):
        return
    print("there is no strace: it is installed", flush=True)
    environment = {**os.environ, "DEBIAN_FRONTEND": "noninteractive"}
    # A machine that never asked for the list of packages knows of none.
    for words in (INSTALL, ["apt-get", "update"], INSTALL):
        if not shutil.which("strace"):
            subprocess.run(words, env=environment, stdin=subprocess.DEVNULL, check=False)


def prepare():
    """Raises `CannotRun` where there is no strace that can do its work, and none could be installed."""
    if not shutil.which("strace"):
        install()
    if not shutil.which("strace"):
        raise CannotRun(MISSING)
    words = ["strace", "-f", "-qq", "-y", "-xx", "-e", "trace=openat", "-e", "inject=openat:error=EIO:when=9999", "-o", os.devnull, "--", "true"]
    tried = subprocess.run(words, capture_output=True, text=True, check=False)
    if tried.returncode != 0:
        raise CannotRun(f"strace can't follow a process here, or can't make a call fail: {tried.stderr.strip()[-500:]}")


def step(program, jobs, keep=None, **how):
    """Runs the tools until one finds anything wrong: its name, its status, and what it printed where it was kept. No name where none does."""
    for name, *words in STEP:
        if keep and name == "crash_images.py":
            words += ["--keep", keep]
        if name != "kill_runs.py":
            words += ["--jobs", str(jobs)]
        print(f"- {name} {' '.join(words)}", flush=True)
        began = time.monotonic()
        done = subprocess.run([sys.executable, "-B", os.path.join(TOP, "tools", name), "--program", program, *words], check=False, **how)
        print(f"  {time.monotonic() - began:.0f} seconds", flush=True)
        if done.returncode != 0:
            return name, done.returncode, done.stdout
    return "", 0, None


def wrapped(program, library, how, room):
    """A program whose volume is wrong in this way."""
    path = os.path.join(room, "focusd")
    with open(path, "w", encoding="utf-8") as file:
        file.write(f'#!/bin/sh\nexec env LD_PRELOAD="{library}" WRONG_VOLUME="{how}" "{program}" "$@"\n')
    os.chmod(path, 0o755)
    return path


def self_test(program, jobs, room):
    """Runs the step over the program as it is, and over each wrong volume: those that were judged wrongly."""
    compiler = shutil.which("cc")
    if not compiler:
        raise CannotRun("the self-test needs a C compiler (Debian 12: apt-get install gcc)")
    library = os.path.join(room, "wrong_volume.so")
    subprocess.run([compiler, "-O1", "-shared", "-fPIC", "-o", library, SHIM, "-ldl"], check=True)
    missed = []
    for how in ["nothing is wrong", *WRONG]:
        print(f"== {how}", flush=True)
        said_where = {"stdout": subprocess.PIPE, "stderr": subprocess.STDOUT, "text": True}
        name, status, said = step(wrapped(program, library, how, room), jobs, os.path.join(room, "kept"), **said_where)
        if name:
            print("\n".join(said.splitlines()[:6]))
        # A tool that fell over itself has status 1 too.
        seen = status == 1 and "WRONG" in said and "Traceback" not in said
        print(f"{how}: {f'seen by {name}, with status 1' if seen else f'{name} ends with status {status}' if name else 'not seen'}", flush=True)
        if not seen if how in WRONG else name:
            missed.append(how)
    return missed


def run_step(options):
    """Looks for strace, and runs the step or the self-test: the exit status."""
    prepare()
    if options.prepare:
        return 0
    program, began = program_at(options.program), time.monotonic()
    if options.self_test:
        with tempfile.TemporaryDirectory(prefix="real-files-") as room:
            missed = self_test(program, options.jobs, room)
        print(f"judged wrongly: {'; '.join(missed)}" if missed else "each wrong volume was found wrong, and the right one right")
        status = 1 if missed else 0
    else:
        name, status, _ = step(program, options.jobs)
        print(f"{name} {'found something wrong' if status == 1 else f'ended with status {status}'}" if name else "real files: all as it has to be")
    print(f"{time.monotonic() - began:.0f} seconds by the clock, {options.jobs} jobs")
    return status


def main():
    parser = parser_of(__doc__)
    add_program(parser)
    add_jobs(parser, "runs")
    parser.add_argument("--prepare", action="store_true", help="only look for strace, and install it where it is missing")
    parser.add_argument("--self-test", action="store_true", help="run the step over wrong volumes, and see that it finds each wrong")
    options = parser.parse_args()
    return status_of("tools/real_files.py", lambda: run_step(options), CannotRun)


if __name__ == "__main__":
    sys.exit(main())
