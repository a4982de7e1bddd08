#!/usr/bin/env python3
"""Runs `rt ci` in the folder at hand, and has it work out the checksum of each crate's sources once.

    tools/rt_ci.py            what `rt ci` does and prints, with its exit status

Release 13b of the toolchain works out that checksum for each library that it builds, before and after, by going each way down to each crate below. For
the crates on top these are tens of thousands of ways, and a minute or more each time, while what stands on the crate waits. `rt ci` makes no use of
it: what is proved, tried and run is the same. Another release is run as it is.
"""

import importlib.machinery
import importlib.util
import os
import shutil
import sys

from command_line import parser_of, say

RELEASE = "rattle-kit-13b "


def loaded(path):
    """The toolchain's command as a module."""
    loader = importlib.machinery.SourceFileLoader("rt", path)
    module = importlib.util.module_from_spec(importlib.util.spec_from_loader("rt", loader))
    loader.exec_module(module)
    return module


def once(stamp):
    """The same checksum, which is worked out once for each folder of a crate."""
    known = {}

    def stamp_of(crate):
        if crate.folder not in known:
            known[crate.folder] = stamp(crate)
        return known[crate.folder]

    return stamp_of


def is_release(path):
    """Whether the toolchain of a command is the release that this knows."""
    try:
        with open(os.path.join(os.path.dirname(path), "..", "KIT-ID"), encoding="utf-8") as file:
            return file.read().startswith(RELEASE)
    except OSError:
        return False


def main():
    _, flags = parser_of(__doc__).parse_known_args()
    path = shutil.which("rt")
    if not path:
        say("tools/rt_ci.py: the toolchain's command rt isn't there: install it first")
        return 2
    path = os.path.realpath(path)
    if flags or not is_release(path):
        os.execv(path, ["rt", "ci", *flags])
    rt = loaded(path)
    rt.rtlib.Crate.stamp = once(rt.rtlib.Crate.stamp)
    return rt.main(["ci"])


if __name__ == "__main__":
    sys.exit(main())
