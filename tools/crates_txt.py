"""What crates.txt says: the crates of a repository, and what each stands on."""

import os


def lines_in(text):
    """The line of each crate, by its name, without remarks."""
    lines = (line.split("#")[0].strip() for line in text.splitlines())
    return {line.split(":")[0].split()[0]: line for line in lines if line}


def lines_of(top):
    """The line of each crate of a repository."""
    with open(os.path.join(top, "crates.txt"), encoding="utf-8") as file:
        return lines_in(file.read())


def deps_of(lines):
    """What each crate stands on, by these lines."""
    return {name: line.partition(":")[2].split() for name, line in lines.items()}


def below(name, deps):
    """The crates of the repository that a crate stands on, in however many steps."""
    found, waiting = set(), list(deps[name])
    while waiting:
        at = waiting.pop()
        if at in deps and at not in found:
            found.add(at)
            waiting += deps[at]
    return found
