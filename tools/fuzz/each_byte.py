#!/usr/bin/env python3
"""Runs the program on each front of some texts, and on each text that differs from one of them in one byte, beside the oracle.

    tools/fuzz/each_byte.py                            # all texts: hundreds of thousands of inputs
    tools/fuzz/each_byte.py --only csv --part 3/16     # every 16th input of one text, from the third on

The texts are the script of crates/focusd/stdin, the CSV of its post, the TOML of its commitment and of its policy, and the TOML of a purchase that
is added, of examples/cases. CSVs, policies and purchases are sent behind that script, many in a run. A script is run by itself, and a commitment
behind the post alone.

It prints for each text how many fronts and changes there are, and how often each answer came. An answer that isn't the oracle's is printed with
what was run. Exit status: 0 where there was none, 1 where there was one, 2 where the program can't be run.
"""

import argparse
import collections
import multiprocessing
import os
import sys
import tempfile
from dataclasses import dataclass

HERE = os.path.dirname(os.path.abspath(__file__))
sys.path[:0] = [HERE, os.path.dirname(HERE)]
import oracle  # noqa: E402
from command_line import TOP, add_jobs, add_program, parser_of, status_of  # noqa: E402
from readers import ASKED, Compared, Session, clipped, entry  # noqa: E402
from running import room  # noqa: E402

# How many inputs a job takes at a time.
SHARE = 1_000
MOST_SHOWN = 20


def read(*parts):
    with open(os.path.join(TOP, *parts), "rb") as file:
        return file.read()


@dataclass
class Text:
    """A text: the word that sends it, where it is no script; what is sent before it; and how many are sent in a run."""

    bytes: bytes
    word: bytes = b""
    before: bytes = b""
    together: int = 1


def texts():
    script = read("crates", "focusd", "stdin")
    entries = {command.text.split(b" ")[0]: command for command in oracle.commands_of(script)}
    case = oracle.commands_of(read("examples", "cases", "a-purchase-that-is-added.script"))
    added = next(command for command in case if command.text.startswith(b"add "))
    return {
        "script": Text(script),
        "csv": Text(entries[b"post"].content, b"post", script, 40),
        "commitment": Text(entries[b"commit"].content, b"commit", entries[b"post"].text.replace(b" 2 ", b" 1 ", 1)),
        "policy": Text(entries[b"policy"].content, b"policy", script, 40),
        "purchase": Text(added.content, b"add", script, 40),
    }


def count_of(text):
    """How many fronts and changes a text has. The whole text is one of the fronts."""
    return len(text) + 1, 255 * len(text)


def input_at(text, number):
    """The front or the change with this number."""
    if number <= len(text):
        return text[:number]
    at, by = divmod(number - len(text) - 1, 255)
    return text[:at] + bytes([(text[at] + by + 1) % 256]) + text[at + 1 :]


def script_of(text, inputs):
    """The script that sends inputs, each by an origin of its own, and then asks."""
    if not text.word:
        return b"".join(inputs)
    return text.before + b"".join(entry(text.word, b"x%d" % at, one) for at, one in enumerate(inputs)) + ASKED


def differences(session, text, inputs):
    """What is wrong with the answers to inputs that are run together; where anything is, each of them is run by itself too."""
    script = script_of(text, inputs)
    compared = Compared(script)
    before = len(list(oracle.commands_of(text.before)))
    session.count(compared.labels[before : before + len(inputs)] if text.word else compared.labels)
    fault = compared.fault(session.run(["run"], script))
    alarm = session.take_alarm()
    if not alarm and not fault:
        return []
    if len(inputs) > 1:
        alone = [found for one in inputs for found in differences(session, text, [one])]
        if alone:
            return alone
    return [(inputs, alarm or fault[1])]


def job(given):
    """One share of the inputs of a text: how many there were, the answers, and what is wrong."""
    program, name, numbers = given
    text = texts()[name]
    with tempfile.TemporaryDirectory(dir=room()) as folder:
        os.chdir(folder)
        session, wrong = Session(program, 20.0), []
        for at in range(0, len(numbers), text.together):
            wrong += differences(session, text, [input_at(text.bytes, number) for number in numbers[at : at + text.together]])
        os.chdir("/")
    return name, len(numbers), session.answers, wrong


def shares(options):
    first, step = options.part
    for name, text in texts().items():
        if not options.only or name in options.only:
            numbers = range(first, sum(count_of(text.bytes)), step)
            for at in range(0, len(numbers), SHARE):
                yield options.program, name, numbers[at : at + SHARE]


def run(options):
    if not os.access(options.program, os.X_OK):
        raise OSError(f"{options.program} is no program")
    inputs, answers, wrong = collections.Counter(), collections.defaultdict(collections.Counter), []
    with multiprocessing.get_context("fork").Pool(options.jobs) as pool:
        for name, count, labels, found in pool.imap_unordered(job, shares(options)):
            inputs[name] += count
            answers[name].update(labels)
            for ones, why in found:
                wrong.append(name)
                if len(wrong) <= MOST_SHOWN:
                    print(f"WRONG: {name}: {why}\n  of {clipped(repr(ones))}", flush=True)
    for name, count in inputs.items():
        fronts, changes = count_of(texts()[name].bytes)
        print(f"\n{name}: {fronts - 1:,} bytes, so {fronts:,} fronts and {changes:,} changes; {count:,} were run, of which {wrong.count(name)} were wrong")
        print("  " + ", ".join(f"{label} {times:,}" for label, times in sorted(answers[name].items())))
    print(f"\n{sum(inputs.values()):,} inputs, {len(wrong)} wrong")
    return 1 if wrong else 0


def part_of(text):
    try:
        first, step = map(int, text.split("/"))
    except ValueError:
        first, step = 1, 0
    if not 0 < first <= step:
        raise argparse.ArgumentTypeError(f"{text!r} is no part, as 3/16")
    return first - 1, step


def main():
    parser = parser_of(__doc__)
    add_program(parser)
    add_jobs(parser, "how many inputs are run")
    parser.add_argument("--only", nargs="+", choices=list(texts()), default=[], metavar="TEXT", help=f"only these of {', '.join(texts())}")
    parser.add_argument("--part", type=part_of, default=(0, 1), metavar="K/N", help="only the Kth of each N inputs (default: all)")
    options = parser.parse_args()
    options.program = os.path.abspath(options.program)
    return status_of("each_byte.py", lambda: run(options), OSError)


if __name__ == "__main__":
    sys.exit(main())
