"""What the programs of bench/ and tools/ share of their command lines: the help, common options, and how a program ends that can't do its work."""

import argparse
import os
import sys
import unittest

TOP = os.path.dirname(os.path.dirname(os.path.abspath(__file__)))
# focusd as tools/prove.py leaves it.
PROGRAM = os.path.join(TOP, "out", "focusd")


def parser_of(description):
    """A parser whose help has the lines of a docstring as they stand."""
    return argparse.ArgumentParser(description=description, formatter_class=argparse.RawDescriptionHelpFormatter)


def add_program(parser, default=PROGRAM):
    parser.add_argument("--program", default=default, help=f"the built program (default: {os.path.relpath(default, TOP)})")


def add_top(parser):
    parser.add_argument("--top", default=TOP, metavar="FOLDER", help="the repository (default: this one)")


def add_jobs(parser, what):
    """How many of something are done at a time: one for each processor, where the command line doesn't say."""
    parser.add_argument("--jobs", type=int, default=len(os.sched_getaffinity(0)), metavar="J", help=f"{what} at a time (default: one for each processor)")


def whole_number(text):
    """The whole number from 1 on that a word is."""
    if not text.isdecimal() or int(text) < 1:
        raise argparse.ArgumentTypeError(f"{text!r} is not a whole number from 1")
    return int(text)


def say(text):
    """Prints a line on standard error at once."""
    print(text, file=sys.stderr, flush=True)


def options_of_tests(parser):
    """The options of a program of tests. All that isn't the parser's is left to `unittest.main`: the names of tests, and its options."""
    parser.epilog = "Further words name what is run, as CLASS or CLASS.TEST (default: all tests), or are options of unittest, as -v."
    options, sys.argv[1:] = parser.parse_known_args()
    return options


def run_tests(doc):
    """Runs the tests of the program that was started, whose help is a docstring."""
    options_of_tests(parser_of(doc))
    unittest.main()


def status_of_faults(faults, counts):
    """The exit status of a check that found these faults: it prints each of them, and last what was counted."""
    for fault in faults:
        print(fault)
    print(counts)
    return 1 if faults else 0


def status_of(name, run, errors):
    """The exit status that `run` returns, or 2 where one of these errors says why nothing can be done."""
    try:
        return run()
    except errors as why:
        say(f"{name}: {why}")
        return 2
