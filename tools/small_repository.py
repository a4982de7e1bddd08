"""A small repository in a folder of its own, for the tests of tools that read one."""

import os
import subprocess
import tempfile


def write(top, files):
    """Writes files below a folder."""
    for path, text in files.items():
        os.makedirs(os.path.dirname(os.path.join(top, path)), exist_ok=True)
        with open(os.path.join(top, path), "w", encoding="utf-8") as file:
            file.write(text)


def made_for(test, files):
    """The folder of a repository with these files, which is removed after the test."""
    folder = tempfile.TemporaryDirectory()
    test.addCleanup(folder.cleanup)
    subprocess.run(["git", "init", "--quiet", folder.name], check=True)
    write(folder.name, files)
    return folder.name
