"""What changed in a repository since a commit, as far as must-fail edits go: which edits are new, and which turn code whose contract may
say something else."""

import functools
import os
import re
import subprocess
from dataclasses import dataclass

# A line of a source file that imports names.
IMPORT = re.compile(r"\s*(pub |ghost |unfoldable )*use \S.*[;}]$|\s*use \S+( as \S+)?$")


class GitError(Exception):
    """Why git could not say what is asked."""


def output_of(words, top):
    """What a command prints, or None where it fails."""
    done = subprocess.run(words, cwd=top, stdout=subprocess.PIPE, stderr=subprocess.DEVNULL, check=False)
    return None if done.returncode else done.stdout.decode("utf-8", "surrogateescape")


def files_of(top):
    """The files of the working tree that git doesn't ignore."""
    listed = output_of(["git", "ls-files", "-z", "--cached", "--others", "--exclude-standard"], top)
    if listed is None:
        raise GitError(f"git can't list the files of {top}")
    return sorted({path for path in listed.split("\0") if path and os.path.lexists(os.path.join(top, path))})


@dataclass
class Changes:
    """What is another than in a commit: the files of crates that are, edits aside, and the edits that are new."""

    files: set
    edits: set


def is_edit(path):
    """Whether a path is that of a must-fail edit."""
    return re.fullmatch(r"crates/[^/]+/must-fail/[^/]+\.edit", path) is not None


def crate_of(path):
    """The crate in whose folder a path lies."""
    return path.split("/")[1]


def old_edits(top, commit):
    """The edits of a commit, each as its crate and the hash of its text."""
    listed = output_of(["git", "ls-tree", "-r", "-z", commit, "--", "crates"], top) or ""
    entries = (line.split("\t", 1) for line in listed.split("\0") if line)
    return {(crate_of(path), entry.split()[2]) for entry, path in entries if is_edit(path)}


def words_of(text):
    """The words of a source file, however they stand on its lines, but for those that import names. A line with a comment or a text is one word."""
    lines = [line.strip() for line in text.splitlines() if line.strip() and not IMPORT.match(line)]
    return [word for line in lines for word in ([line] if re.search(r'//|--|"', line) else line.split())]


def has_the_same_words(top, commit, path):
    """Whether a source file is another than in a commit in its layout alone, or in the lines that import names, as where what it uses has moved to another crate."""
    old = output_of(["git", "show", f"{commit}:{path}"], top)
    if old is None or not path.endswith((".rt", ".antt")):
        return False
    with open(os.path.join(top, path), encoding="utf-8", errors="replace") as file:
        return words_of(old) == words_of(file.read())


def changes_since(top, commit):
    """What changed since a commit, layout and imports aside; None where the commit isn't here. An edit that is gone, or that has only another name, is no change."""
    named = output_of(["git", "diff", "--name-status", "--no-renames", "-z", commit, "--", "crates"], top)
    new = output_of(["git", "ls-files", "-z", "--others", "--exclude-standard", "crates"], top)
    if named is None or new is None:
        return None
    words = named.split("\0")
    paths = [(status, path) for status, path in zip(words[::2], words[1::2])] + [("A", path) for path in new.split("\0")]
    paths = [(status, path) for status, path in paths if path.count("/") > 1 and not (status == "M" and has_the_same_words(top, commit, path))]
    added = sorted(path for status, path in paths if is_edit(path) and status != "D")
    hashes = (output_of(["git", "hash-object", "--", *added], top) or "").split() if added else []
    known = old_edits(top, commit)
    return Changes({path for _, path in paths if not is_edit(path)}, {path for path, text in zip(added, hashes) if (crate_of(path), text) not in known})


def texts_of(top, commit, path):
    """A file as it is and as it was in a commit, where it is or was."""
    old = output_of(["git", "show", f"{commit}:{path}"], top) if commit else None
    try:
        with open(os.path.join(top, path), encoding="utf-8", errors="replace") as file:
            return [file.read()] + ([old] if old else [])
    except FileNotFoundError:
        return [old] if old else []


def files_named(crate, text):
    """The files of its crate that a source file names by its imports: definitions, and modules with types that it sees by their views and functions that it calls."""
    found = {f"crates/{crate}/specs/{module}.antt" for module in re.findall(rf"\bRattle\.{crate}\.specs\.([A-Z]\w*)", text)}
    for words in re.findall(r"\bcrate((?:::[a-z]\w*)+)", text):
        modules = words.split("::")[1:]
        found |= {f"crates/{crate}/src/{'/'.join(modules[:count])}.rt" for count in range(1, len(modules) + 1)}
    for group in re.findall(r"\bcrate::\{([^}]*)\}", text):
        found |= {f"crates/{crate}/src/{module}.rt" for module in re.findall(r"\b([a-z]\w*)", group)}
    return found


@functools.lru_cache(maxsize=None)
def definitions_named(top, commit, crate, path):
    """The files of definitions of its crate that a source file goes by: those that it names, now or in a commit, those that these name, and those that the modules name from which it imports."""
    found, waiting = set(), [path]
    while waiting:
        named = {name for text in texts_of(top, commit, waiting.pop()) for name in files_named(crate, text)}
        waiting += named - found
        found |= named
    return {name for name in found if name.endswith(".antt")}


def is_turned(top, commit, edit, files):
    """Whether one of the files that an edit turns is among these, or a definition that such a file goes by, now or in a commit."""
    crate = crate_of(edit)
    with open(os.path.join(top, edit), encoding="utf-8", errors="replace") as file:
        turned = {f"crates/{crate}/{line[6:].strip()}" for line in file if line.startswith("file: ")}
    definitions = {path for path in files if path.startswith(f"crates/{crate}/specs/")}
    return bool(turned & files) or bool(definitions) and any(definitions & definitions_named(top, commit, crate, path) for path in turned)
