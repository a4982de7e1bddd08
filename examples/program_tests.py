"""What the tests of the built program share: runs of the program, folders for files and warehouses, and the command line."""

import pathlib
import subprocess
import sys
import tempfile
import unittest

HERE = pathlib.Path(__file__).resolve().parent
sys.path.append(str(HERE.parent / "tools"))
from command_line import options_of_tests, parser_of  # noqa: E402

PROGRAM = ""


def program():
    """The path of the program."""
    return PROGRAM


def focusd_bytes(*words, given=b"", **options):
    """The status, standard output and standard error of a run, standard output in bytes. The options are those of `subprocess.run`."""
    given = given.encode() if isinstance(given, str) else given
    ran = subprocess.run([PROGRAM, *map(str, words)], input=given, capture_output=True, **options)
    return ran.returncode, ran.stdout, ran.stderr.decode()


def focusd(*words, given=b"", **options):
    """The status, standard output and standard error of a run."""
    status, printed, said = focusd_bytes(*words, given=given, **options)
    return status, printed.decode(), said


def temporary_folder(add_cleanup):
    """A temporary folder. Its removal is added to the cleanups of a test or of a class."""
    made = tempfile.TemporaryDirectory()
    add_cleanup(made.cleanup)
    return pathlib.Path(made.name).resolve()


class Case(unittest.TestCase):
    """Tests that each have a folder of their own, in which the program runs."""

    def setUp(self):
        self.top = temporary_folder(self.addCleanup)

    def focusd(self, *words, given=b""):
        """The status, standard output and standard error of a run in the folder."""
        return focusd(*words, given=given, cwd=self.top)

    def do(self, *words, given=b"", said=""):
        """What a run prints that ends well. On standard error it says just this."""
        status, printed, found = self.focusd(*words, given=given)
        self.assertEqual((status, found), (0, said), words)
        return printed

    def new_folder(self, name):
        """Makes a folder in the folder, and returns its path."""
        made = self.top / name
        made.mkdir()
        return made

    def file(self, name, content):
        """Writes a file into the folder, and returns its name there."""
        (self.top / name).write_bytes(content.encode() if isinstance(content, str) else content)
        return name


class OneFolder(unittest.TestCase):
    """Tests that share one folder, the room of their class."""

    @classmethod
    def setUpClass(cls):
        cls.room = temporary_folder(cls.addClassCleanup)


def run_tests(doc, **numbers):
    """Runs the tests of the module that was started over the program that the command line names; its help is a docstring.

    Each further name is that of a number of the module, which an option sets: RUNS is set by --runs. Its value is what the help says of it.
    """
    global PROGRAM
    module = sys.modules["__main__"]
    parser = parser_of(doc)
    parser.add_argument("program", metavar="PROGRAM", help="the built program")
    for name, what in numbers.items():
        parser.add_argument(f"--{name.lower()}", type=int, default=getattr(module, name), metavar="N", help=f"{what} (default: %(default)s)")
    options = options_of_tests(parser)
    PROGRAM = str(pathlib.Path(options.program).resolve())
    for name in numbers:
        setattr(module, name, getattr(options, name.lower()))
    unittest.main()
