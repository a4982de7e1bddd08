"""The command line of `focusd-cluster`."""

import argparse
import contextlib
import os
import re
import shutil
import sys

from focusd_cluster import adding, asking, importing
from focusd_cluster.engine import Engine, engine_of
from focusd_cluster.faults import Fault, WrongWords
from focusd_cluster.filling import Shape, open_cluster
from focusd_cluster.hours import BYS
from focusd_cluster.manifest import Cluster

ABOUT = """Keeps a bill that one warehouse can't hold in many, and reports over all of them.

The folder of a cluster lies on storage that all workers share, under the same path. Each command needs workers: those of a scheduler of
dask.distributed (--scheduler tcp://10.0.0.1:8786), or processes on this machine (--local 4).

    focusd-cluster add --dir costs --create --by day --local 4 commitment.toml policy.toml
    focusd-cluster import --dir costs --local 4 --origin aws-2024-09 september-*.csv
    focusd-cluster report --dir costs --local 4 --tag team --from 2024-09 --to 2024-10
    focusd-cluster coverage --dir costs --local 4 --from 2024-09 --to 2024-10
    focusd-cluster status --dir costs --local 4

A command that was stopped is run again: it goes on, and nothing counts twice. docs/CLUSTER.md has more.
Exit status: 0 done, 1 a fault, which is printed, and no number is, 2 the command line is wrong.
"""
T = "a month (2024-01), a date (2024-01-31) or a whole hour (2024-01-31T14:00Z)"


def whole_number(text: str) -> int:
    """The whole number from 1 to 1,000 that a word is."""
    if not re.fullmatch(r"[0-9]{1,4}", text) or not 1 <= int(text) <= 1_000:
        raise argparse.ArgumentTypeError(f"{text!r} is not a whole number from 1 to 1,000")
    return int(text)


def currency(text: str) -> str:
    """Three capital letters."""
    if not re.fullmatch(r"[A-Z]{3}", text):
        raise argparse.ArgumentTypeError(f"{text!r} is not three capital letters, e.g. USD")
    return text


def parser() -> argparse.ArgumentParser:
    """The parser of the command line."""
    top = argparse.ArgumentParser("focusd-cluster", description=ABOUT, formatter_class=argparse.RawDescriptionHelpFormatter)
    commands = top.add_subparsers(dest="command", required=True, metavar="COMMAND")
    every = argparse.ArgumentParser(add_help=False)
    every.add_argument("--dir", required=True, metavar="DIR", help="the folder of the cluster")
    engine = every.add_mutually_exclusive_group(required=True)
    engine.add_argument("--scheduler", metavar="ADDRESS", help="the scheduler whose workers are used")
    engine.add_argument("--local", type=whole_number, metavar="N", help="N worker processes on this machine")
    every.add_argument("--program", default="focusd", metavar="PATH", help="focusd, as this machine and each worker find it (default: focusd on the path)")
    every.add_argument("--quiet", action="store_true", help="prints no progress")
    making = argparse.ArgumentParser(add_help=False)
    making.add_argument("--create", action="store_true", help="makes the cluster where the folder holds none")
    making.add_argument("--currency", type=currency, metavar="CUR", help="of a cluster that is made (default: USD)")
    making.add_argument("--by", choices=BYS, help="of a cluster that is made: how its hours are cut into shards (default: day)")
    making.add_argument("--into", type=whole_number, metavar="N", help="of a cluster that is made: into how many piles an hour's rows are cut (default: 1)")
    ranged = argparse.ArgumentParser(add_help=False)
    ranged.add_argument("--from", dest="low", required=True, metavar="T", help=f"when the range begins: {T}")
    ranged.add_argument("--to", dest="high", required=True, metavar="T", help="when it ends; the hour that begins then is not in it")

    one = commands.add_parser("import", parents=[every, making], help="cuts exports, and imports the parts into their shards")
    one.add_argument("--origin", required=True, metavar="NAME", help="names the export; each has a name of its own")
    one.add_argument("files", nargs="+", metavar="FILE", help="a CSV export that all workers can read under this path")
    one = commands.add_parser("add", parents=[every, making], help="takes commitments, purchases and policies; without files sends what shards lack")
    one.add_argument("--yes", action="store_true", help="lets a policy take the place of another key's, and adds an equal purchase again")
    one.add_argument("files", nargs="*", metavar="FILE", help="a TOML, as `focusd add` takes it")
    one = commands.add_parser("report", parents=[every, ranged], help="sums the costs of a range by the values of a tag")
    one.add_argument("--tag", required=True, metavar="KEY", help="the tag whose values are the groups")
    one.add_argument("--by", choices=BYS, help="cuts the range")
    one.add_argument("--top", type=whole_number, metavar="N", help="shows the N groups that are charged most")
    one.add_argument("--format", choices=["table", "csv", "json", "html"], default="table")
    one = commands.add_parser("coverage", parents=[every, ranged], help="shows how well commitments were used in a range")
    one.add_argument("--format", choices=["table", "csv"], default="table")
    commands.add_parser("status", parents=[every], help="says what the cluster holds, and looks at each shard")
    return top


def say_nothing(_: str) -> None:
    """Progress that nobody asked for."""


def say(text: str) -> None:
    """A line of progress."""
    print(f"focusd-cluster: {text}", file=sys.stderr, flush=True)


def run(options: argparse.Namespace) -> int:
    """Runs a command under the lock of its cluster: the exit status."""
    program = shutil.which(options.program)
    if not program:
        raise Fault(f"{options.program}: there is no such program. What to do: give focusd by --program, or put it on the path")
    # A name without a slash is looked for on the path of each worker.
    program = os.path.abspath(program) if "/" in options.program else options.program
    cluster = Cluster(options.dir)
    changes = options.command in ("import", "add")
    if changes and options.create:
        with contextlib.suppress(FileExistsError):
            os.mkdir(cluster.folder)
    with cluster.locked(alone=changes):
        if changes:
            open_cluster(cluster, options.create, Shape(options.currency, options.by, options.into))
        else:
            cluster.load()
        with engine_of(options.scheduler, options.local or 1) as engine:
            return answered(cluster, engine, program, options)


def answered(cluster: Cluster, engine: Engine, program: str, options: argparse.Namespace) -> int:
    """Prints what a command says: the exit status."""
    progress = say_nothing if options.quiet else say
    if options.command == "import":
        print(importing.import_export(cluster, engine, program, options.origin, options.files, progress, say))
    elif options.command == "add":
        for line in adding.add_files(cluster, program, options.files, options.yes):
            print(line)
        print(adding.send_terms(cluster, engine, program, progress))
    elif options.command == "report":
        sys.stdout.buffer.write(asking.report(cluster, engine, program, options))
        sys.stdout.buffer.flush()
    elif options.command == "coverage":
        print(asking.coverage(cluster, engine, program, options), end="")
    else:
        text, faults = asking.status(cluster, engine, program)
        print(text, end="")
        if faults:
            raise Fault("\n".join(faults))
    return 0


def main(words: list[str] | None = None) -> int:
    """Runs the command line: the exit status."""
    options = parser().parse_args(words)
    try:
        return run(options)
    except (WrongWords, Fault) as why:
        for line in str(why).splitlines():
            print(f"focusd-cluster: {line}", file=sys.stderr)
        return 2 if isinstance(why, WrongWords) else 1
    except BrokenPipeError:
        # Whoever reads has ended. Python would flush standard output once more at its own end.
        os.dup2(os.open(os.devnull, os.O_WRONLY), sys.stdout.fileno())
        return 1
