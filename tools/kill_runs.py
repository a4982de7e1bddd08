#!/usr/bin/env python3
"""Kills runs over one warehouse at random times, and looks at what stands after each.

    tools/kill_runs.py
    tools/kill_runs.py --runs 100 --room /a/folder/on/the/disk

One long script of entries and checkpoints is sent to one folder, a piece at a time. Each piece begins a few commands before the first
that was not acknowledged, so that entries are sent again, and its run of `focusd run --dir` is killed (SIGKILL) after a random time.
Then `state` is asked for: each entry that an answer had acknowledged has to be there, no entry that was not sent, and none twice. After
each 25th run two reports and all lines are compared with those that examples/expected.py computes, and so at the end, when each entry is
sent once more and has to be answered `already`.

The scripts and the times of a seed are the same in each run; where a run is when its time is up is not. The folder is made in --room,
which should be on a disk whose syncs take time.
Exit status: 0 where all was right, 1 where it wasn't, 2 where nothing could be run.
"""

import io
import random
import subprocess
import sys
import tempfile

from command_line import add_program, parser_of, status_of
from store_runs import CHECKPOINT, QUESTIONS, CannotRun, acknowledged, answers_of, commands, expected, program_at, run, shown

# How many reports and lines are compared: after each so many runs.
COMPARED = 25
# How many commands a piece has at the most, and how many of them may have been acknowledged before.
PIECE = 24
OVERLAP = 4


class Wrong(Exception):
    """What is wrong with an answer or with a warehouse."""


class Sent:
    """The long script: its commands, their right answers, and the warehouse that expected.py keeps of the first entries."""

    def __init__(self, seed, entries):
        made = [command for command in commands(seed, entries) if command not in QUESTIONS]
        judged = self.answered(b"".join(command for command in made if command != CHECKPOINT))
        answers = [b"checkpointed\n" if command == CHECKPOINT else next(judged) for command in made]
        # An entry whose number comes too early would be accepted where it is sent again later.
        kept = [place for place, answer in enumerate(answers) if not answer.startswith(b"gap ")]
        self.commands, self.answers = [made[place] for place in kept], [answers[place] for place in kept]
        # The place of each entry that is accepted.
        self.places = [place for place, answer in enumerate(self.answers) if answer.startswith(b"accepted ")]

    @staticmethod
    def answered(text):
        return (answer.encode() for answer in expected.answers(iter(io.BytesIO(text).readline, b"")))

    def before(self, entries):
        """The commands up to the first entry after so many."""
        return self.places[entries] if entries < len(self.places) else len(self.commands)

    def history(self, entries):
        """The answers to the questions after so many entries."""
        kept = [command for command in self.commands[: self.before(entries)] if command != CHECKPOINT]
        return b"".join(list(self.answered(b"".join(kept + QUESTIONS)))[len(kept) :])


class Killing:
    """The runs over one folder."""

    def __init__(self, program, folder, sent, choice):
        self.program, self.folder, self.sent, self.choice = program, folder, sent, choice
        self.known, self.killed = None, 0
        # The longest time after which a run is killed, in seconds. It moves so that two runs of three are killed before their end.
        self.patience = 0.1

    def piece(self, number):
        """A run of a piece of the script that is killed: how many entries may stand after it."""
        begin = max(0, self.sent.before(self.known or 0) - self.choice.randrange(OVERLAP + 1))
        end = min(len(self.sent.commands), begin + self.choice.randrange(1, PIECE))
        script = b"".join(self.sent.commands[begin:end])
        words = [self.program, "run", "--dir", self.folder, *(["--create"] if self.known is None else [])]
        process = subprocess.Popen(words, stdin=subprocess.PIPE, stdout=subprocess.PIPE, stderr=subprocess.PIPE)
        try:
            said, error = process.communicate(script, self.choice.random() * self.patience)
            self.patience *= 0.9
        except subprocess.TimeoutExpired:
            process.kill()
            said, error = process.communicate()
            self.killed += 1
            self.patience *= 1.05
        if error or process.returncode not in (0, -9):
            raise Wrong(f"run {number} ended with status {process.returncode} and {shown(error)}")
        for place, answer in enumerate(answers_of(said[: said.rfind(b"\n") + 1]), begin):
            self.judge(number, place, answer)
        told = acknowledged(said)
        if told is not None:
            self.known = max(self.known or 0, told)
        return max(self.known or 0, sum(place < end for place in self.sent.places))

    def judge(self, number, place, answer):
        """Refuses an answer that is neither the right one nor that to an entry which is there already, or whose number another one has by now."""
        right = self.sent.answers[place]
        if answer != right and not (right.startswith((b"accepted ", b"already ", b"refused J")) and answer.startswith(b"already ")):
            raise Wrong(f"run {number} answers {shown(answer)} to {shown(self.sent.commands[place])}where {shown(right)}is right")

    def look(self, number, most):
        """Asks for the state, and compares it and now and then the reports."""
        questions = QUESTIONS if number % COMPARED == 0 else QUESTIONS[:1]
        found = run(self.program, self.folder, b"".join(questions))
        if self.known is None and found.status == 1 and found.error == b"focusd: S1 NoHouse\n":
            return
        told = acknowledged(found.said)
        if found.status != 0 or found.error or told is None or not (self.known or 0) <= told <= most:
            raise Wrong(f"after run {number} it has to hold {self.known or 0} to {most} entries, and answers\n{found}")
        self.known = told
        if len(questions) > 1 and found.said != self.sent.history(told):
            raise Wrong(f"after run {number} it holds {told} entries, and its reports are others:\n{found}")

    def end(self):
        """Sends one more piece and then each entry again, and compares: how many entries there are."""
        begin = self.sent.before(self.known or 0)
        piece = self.sent.commands[begin : begin + PIECE]
        ended = run(self.program, self.folder, b"".join(piece), *(["--create"] if self.known is None else []))
        if ended.status != 0 or ended.error:
            raise Wrong(f"a last piece of the script is answered\n{ended}")
        entries = [self.sent.commands[place] for place in self.sent.places if place < begin + PIECE]
        again = run(self.program, self.folder, b"".join(entries))
        if again.status != 0 or any(not answer.startswith(b"already ") for answer in answers_of(again.said)):
            raise Wrong(f"entries that are sent again are answered\n{again}")
        found = run(self.program, self.folder, b"".join(QUESTIONS))
        if found.status != 0 or found.error or found.said != self.sent.history(len(entries)):
            raise Wrong(f"at the end it answers\n{found}")
        return len(entries)


def kill_all(options):
    """Kills one run after the other, and looks at what stands: the exit status."""
    program = program_at(options.program)
    with tempfile.TemporaryDirectory(prefix="kill-runs-", dir=options.room) as folder:
        sent = Sent(options.seed, 6 * options.runs)
        killing = Killing(program, folder, sent, random.Random(options.seed))
        try:
            for number in range(1, options.runs + 1):
                killing.look(number, killing.piece(number))
                if number % 50 == 0:
                    print(f"{number} runs, {killing.killed} of them killed before their end, {killing.known or 0} entries", flush=True)
            entries = killing.end()
        except Wrong as why:
            print(f"WRONG: {why}")
            return 1
    print(f"{options.runs} runs, {killing.killed} of them killed before their end: {entries} entries are there, each once")
    return 0


def main():
    parser = parser_of(__doc__)
    add_program(parser)
    parser.add_argument("--runs", type=int, default=500, metavar="N", help="how many runs (default: 500)")
    parser.add_argument("--seed", type=int, default=1, metavar="N", help="the script and the times (default: 1)")
    parser.add_argument("--room", metavar="DIR", help="where the folder is made (default: where temporary files are)")
    options = parser.parse_args()
    return status_of("tools/kill_runs.py", lambda: kill_all(options), CannotRun)


if __name__ == "__main__":
    sys.exit(main())
