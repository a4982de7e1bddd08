#!/usr/bin/env python3
"""Measures reports by several keys, under filters and maps, beside one by one tag, and beside SQLite and plain Rust over the same rows; prints the
result as Markdown.

    python3 bench/selections.py --date 2026-01-31 > result.md
    python3 bench/selections.py --rows 100000 --turns 1 --program out/quick/focusd
    python3 bench/selections.py --random 200        asks so many random questions too, of up to four keys and four filters, some of mapped values or of
                                                    some of the hours
    python3 bench/selections.py --pairs 100000      rows of so many pairs of two tags, and not those of a common export
    python3 bench/selections.py --instructions      counts instructions too, by valgrind: minutes, but the same on a busy machine

An export is imported once into a folder. Then each question is asked of the folder in turns, as people ask it: the processor time of a question is
that of its whole command, which opens the warehouse too. `status` opens it and asks nothing. Two programs take their turns between the commands,
and have the rows ready: their times are those of the questions alone, to be held against what a command takes beyond `status`. SQLite has the rows
that `focusd export` writes in a file, amounts as whole nanos and each key in a column of its own, so it reads no tags when it is asked; maps are
`case` in its SQL. Plain Rust (peers/selections) has those of the export that was imported in memory, in columns of codes. It is left out where it
can't be built, and isn't asked of some of the hours. The sums of all three must be equal, to the nano.
Progress goes to standard error.

Exit status: 0 all answers are right, 1 one isn't, 2 a wrong command line or a machine on which nothing can be measured.
"""
import csv
import dataclasses
import json
import os
import random
import re
import shutil
import sqlite3
import statistics
import subprocess
import sys
import tempfile
import time

from bench import HOURS, MAKE_EXPORT, SPLIT_EXPORT, START, make
from commands import Runs, dicts
from growth import stamp
from session import ROOT, RUST, Stopped, add_export, build_rust, built, found_in, load, load_since, parser_of_turns, print_head, say, status_after, verdict
from store import written

sys.path.insert(0, os.path.join(ROOT, "examples"))
import expected  # noqa: E402

# The goal: a report by two keys under a filter beside one by one tag.
MOST_TIMES_ONE = 2.5
KEYS = ("team", "environment", "SubAccountId", "SkuId")
TAGS = KEYS[:2]
COSTS = ("BilledCost", "EffectiveCost")
# What stands for the values of a key: some are renamed, some joined, some made small, and the empty text has a word of its own.
MAPS = {
    "environment": {"fold": True, "empty": "unknown", "values": {"production": "live", "staging": "test"}},
    "team": {"fold": False, "empty": "nobody", "values": {"web": "apps", "mobile": "apps", "data": "platform"}},
    "SkuId": {"fold": True, "empty": None, "values": {}},
}
# The rows of --pairs: so many environments of each team.
ENVIRONMENTS, PAIR_STEP = 250, 7_919
HEADER = "BilledCost,EffectiveCost,BillingCurrency,ChargeCategory,ChargePeriodStart,ChargePeriodEnd,SkuId,SubAccountId,Tags"


def in_sql(text):
    return "'" + text.replace("'", "''") + "'"


def maps_text():
    """The maps as a file for focusd."""
    lines = []
    for key, it in MAPS.items():
        lines += ["[[map]]", f"key = {json.dumps(key)}"]
        lines += ["fold = true"] * it["fold"]
        lines += [f"empty = {json.dumps(text)}" for text in [it["empty"]] if text]
        stand = ", ".join(f"{json.dumps(value)} = {json.dumps(text)}" for value, text in it["values"].items())
        lines += [f"values = {{ {stand} }}"] * bool(stand)
    return "\n".join(lines) + "\n"


@dataclasses.dataclass(frozen=True)
class Question:
    """Keys, tags first; filters, each with its key, whether it has to be one of the values, and these; whether the maps are applied; and the first
    hour and the one behind the last, where not all hours count."""

    keys: tuple
    filters: tuple = ()
    is_mapped: bool = False
    hours: tuple = ()

    @property
    def names(self):
        """The columns of focusd's groups: a report by one tag alone has another way, and another name."""
        is_alone = len(self.keys) == 1 and self.keys[0] in TAGS and not self.filters and not self.is_mapped
        return ("Group",) if is_alone else self.keys

    @property
    def head(self):
        """The first line of focusd's CSV."""
        return ",".join([*self.names, *COSTS, *["ChargedCost"] * (self.names == ("Group",))])

    def words(self, maps):
        """As the command line says it, with the file of maps."""
        words = [word for key in self.keys for word in ("--tag" if key in TAGS else "--column", key)]
        words += [word for key, is_one, values in self.filters for value in values for word in ("--where" if is_one else "--where-not", f"{key}={value}")]
        words += [word for option, hour in zip(("--from", "--to"), self.hours) for word in (option, f"{hour}:00Z")]
        return words + ["--map", maps] * self.is_mapped

    def column(self, key):
        """What SQL has for the values of a key."""
        if not self.is_mapped or key not in MAPS:
            return key
        it = MAPS[key]
        text = f"lower({key})" if it["fold"] else key
        stand = {**({"": it["empty"]} if it["empty"] else {}), **it["values"]}
        if not stand:
            return text
        cases = " ".join(f"when {in_sql(value)} then {in_sql(given)}" for value, given in stand.items())
        return f"case {text} {cases} else {text} end"

    def sql(self):
        columns = ", ".join(map(self.column, self.keys))
        conditions = [f"{self.column(key)} {'' if is_one else 'not '}in ({', '.join(map(in_sql, values))})" for key, is_one, values in self.filters]
        conditions += [f"hour {which} {in_sql(hour)}" for which, hour in zip((">=", "<"), self.hours)]
        rest = "where " + " and ".join(conditions) if conditions else ""
        return f"select {columns}, sum(billed), sum(effective) from rows {rest} group by {columns}"

    def line(self):
        """As plain Rust reads it."""
        filters = [{"key": key, "is_one": is_one, "values": values} for key, is_one, values in self.filters]
        return json.dumps({"keys": self.keys, "filters": filters, "maps": MAPS if self.is_mapped else {}}) + "\n"


OF_A_TEAM, OF_SOMEBODY = ("team", False, ("",)), ("team", False, ("nobody",))
ONE, TWO, FILTERED, COLUMNS = "one tag", "two tags", "two tags under a filter", "a tag and two columns"
QUESTIONS = {
    ONE: Question(("team",)),
    TWO: Question(TAGS),
    FILTERED: Question(TAGS, (OF_A_TEAM,)),
    COLUMNS: Question(("team", "SkuId", "SubAccountId")),
}
MAPPED = {
    f"{ONE}, mapped": Question(("team",), is_mapped=True),
    f"{TWO}, mapped": Question(TAGS, is_mapped=True),
    f"{FILTERED}, mapped": Question(TAGS, (OF_SOMEBODY,), is_mapped=True),
    f"{COLUMNS}, mapped": Question(("team", "SkuId", "SubAccountId"), is_mapped=True),
}
ALL = {**QUESTIONS, **MAPPED}


def export_of(options):
    """The path of an export, made where it isn't there yet."""
    if options.pairs:
        return written(os.path.join(options.scratch, f"pairs-{options.pairs}-{options.rows}-{options.seed}.csv"), records_of_pairs(options))
    path = os.path.join(options.scratch, f"medium-{options.rows}-{options.seed}.csv")
    words = ["--rows", str(options.rows), "--hours", str(HOURS), "--seed", str(options.seed), "--start", START]
    make(path, [sys.executable, MAKE_EXPORT, *words, "--form", "medium", "--quotes", "needed", "--no-mark"])
    return path


def records_of_pairs(options):
    """Rows of so many pairs of two tags, each pair in turn."""
    yield f"{HEADER}\n".encode()
    numbers = random.Random(options.seed)
    for place in range(options.rows):
        hour, pair = place * HOURS // options.rows, place * PAIR_STEP % options.pairs
        team, environment = divmod(pair, ENVIRONMENTS)
        cost = f"{numbers.randrange(1, 10**9) / 10**9:.9f}"
        tags = f'"{{""team"":""team-{team}"",""environment"":""env-{environment}""}}"'
        yield f"{cost},{cost},USD,Usage,{stamp(hour)}:00Z,{stamp(hour + 1)}:00Z,vm-{place % 30},{place % 4},{tags}\n".encode()


class Sqlite:
    """The rows that focusd exports in a file of SQLite."""

    name = "SQLite"

    def __init__(self, exported, path):
        say("loading SQLite")
        self.base = sqlite3.connect(path)
        self.base.execute("create table rows (billed integer, effective integer, hour text, team text, environment text, SubAccountId text, SkuId text)")
        with open(exported, encoding="utf-8", newline="") as file:
            self.base.executemany("insert into rows values (?, ?, ?, ?, ?, ?, ?)", map(self.row, csv.DictReader(file)))
        self.base.commit()

    @staticmethod
    def row(row):
        tags = json.loads(row["Tags"] or "{}")
        texts = [tags.get(key) or "" for key in TAGS]
        return (*(expected.nanos(row[cost]) for cost in COSTS), hour_in(row["ChargePeriodStart"]), *texts, row["SubAccountId"], row["SkuId"])

    @staticmethod
    def takes(_):
        return True

    def ask(self, question):
        """The groups of a question, and the processor seconds that they take."""
        began = time.process_time()
        found = self.base.execute(question.sql()).fetchall()
        seconds = time.process_time() - began
        size = len(question.keys)
        return {row[:size]: row[size:] for row in found}, seconds

    def values(self, question, key):
        """The values that a key has under a question."""
        return [value for (value,) in self.base.execute(f"select distinct {question.column(key)} from rows order by 1")]

    def close(self):
        self.base.close()


class PlainRust:
    """Plain Rust that has the rows of a script in memory, and is asked in turn."""

    name = RUST

    @staticmethod
    def takes(question):
        return not question.hours

    def __init__(self, program, script):
        say("loading plain Rust")
        self.program, self.script = program, script
        self.running = subprocess.Popen([program, script], stdin=subprocess.PIPE, stdout=subprocess.PIPE)
        say(f"  {self.running.stdout.readline().decode().strip()}")

    def ask(self, question):
        """The groups of a question, and the processor seconds that they take."""
        self.running.stdin.write(question.line().encode())
        self.running.stdin.flush()
        size, nanos = map(int, self.running.stdout.readline().split())
        return sums_in(self.running.stdout.read(size), question.keys), nanos / 1e9

    def instructions(self, questions, room):
        """The instructions of each question, of one run that is asked them all."""
        path, answer = os.path.join(room, "counted"), "selections::answer"
        words = ["valgrind", "--tool=callgrind", f"--callgrind-out-file={path}", f"--toggle-collect={answer}", f"--dump-after={answer}"]
        given = "".join(question.line() for question in questions).encode()
        subprocess.run([*words, self.program, self.script], input=given, stdout=subprocess.DEVNULL, stderr=subprocess.DEVNULL, check=True)
        return [int(found_in(f"{path}.{number}", r"^summary: (\d+)$")) for number in range(1, len(questions) + 1)]

    def close(self):
        self.running.stdin.close()
        self.running.wait()
        self.running.stdout.close()


def hour_in(time):
    """The hour of a time, as 2024-01-31T14:00."""
    return f"{time[:13]}:00"


def exported_of(program, folder, path):
    """The path of a file with the rows that focusd exports."""
    say("exporting")
    with open(path, "wb") as file:
        subprocess.run([program, "export", "--dir", folder], stdout=file, stderr=subprocess.DEVNULL, check=True)
    return path


def peers_of(export, exported, room, options, notes):
    """The programs beside focusd, with the rows of an export, and with those that focusd exports of them."""
    peers = [Sqlite(exported, os.path.join(room, "rows.db"))]
    program = build_rust(options, notes, "selections")
    if program:
        script = os.path.splitext(export)[0] + ".posts"
        make(script, [sys.executable, SPLIT_EXPORT, export, "--origin", "bench"])
        peers.append(PlainRust(program, script))
    return peers


def times(own, other):
    """How many times as much, nothing where the other was too short for the clock."""
    return f"{own / other:.2f}" if other else ""


def sums_in(printed, names):
    """The sums of each group that a CSV has."""
    return {tuple(it[name] for name in names): tuple(expected.nanos(it[cost]) for cost in COSTS) for it in dicts(printed)}


def random_question(sqlite, chance):
    """Keys, filters and maps by chance."""
    keys = tuple(sorted(chance.sample(KEYS, chance.randrange(1, 5)), key=KEYS.index))
    is_mapped = chance.random() < 0.4
    filters = []
    for key in chance.sample(KEYS, chance.randrange(0, 3)):
        values = sqlite.values(Question(keys, is_mapped=is_mapped), key)
        chosen = chance.sample(values, min(len(values), chance.choice([1, 1, 2, 3])))
        filters.append((key, chance.random() < 0.5, tuple(chosen)))
    return Question(keys, tuple(filters), is_mapped, random_hours(chance))


def random_hours(chance):
    """Some hours by chance, or all."""
    if chance.random() < 0.5:
        return ()
    first, last = sorted(chance.sample(range(HOURS), 2))
    return tuple(stamp(hour) for hour in (first, last))


class Asked:
    """Questions that were asked, what each took, and how many groups it has."""

    def __init__(self, runs, peers, folder, maps):
        self.runs, self.peers, self.folder, self.maps = runs, peers, folder, maps
        self.taken, self.beside, self.counts = {}, {}, {}

    def ask(self, name, question):
        words = question.words(self.maps)
        ran = self.runs.run(name, "report", "--dir", self.folder, *words, "--format", "csv", shown=False)
        self.taken.setdefault(name, []).append(ran.processor_seconds)
        self.runs.expect(f"{' '.join(words)}: the columns", ran.output.decode().splitlines()[:1] == [question.head])
        sums = sums_in(ran.output, question.names)
        self.counts[name] = len(sums)
        for peer in self.peers:
            if not peer.takes(question):
                continue
            found, seconds = peer.ask(question)
            self.beside.setdefault((name, peer.name), []).append(seconds)
            self.runs.expect(f"{' '.join(words)}: the sums of {peer.name}", sums == found)

    def ask_nothing(self):
        self.taken.setdefault("status", []).append(self.runs.run("status", "status", "--dir", self.folder, shown=False).processor_seconds)

    def median(self, name):
        return statistics.median(self.taken[name])

    def alone(self, name):
        """What a question takes beyond opening."""
        return statistics.median(own - opening for own, opening in zip(self.taken[name], self.taken["status"]))

    def peer(self, name, peer):
        return statistics.median(self.beside[name, peer])

    def instructions(self, question=None):
        """The instructions of a question's command, or of `status`."""
        words = ["report", *question.words(self.maps), "--format", "csv"] if question else ["status"]
        ran = subprocess.run(["valgrind", "--tool=callgrind", "--callgrind-out-file=/dev/null", self.runs.program, *words, "--dir", self.folder],
                             stdout=subprocess.DEVNULL, stderr=subprocess.PIPE, text=True, check=True)
        return int(re.search(r"Collected : (\d+)", ran.stderr)[1])

    def table_of_instructions(self, room):
        """What the questions alone take, by instructions, which don't depend on what else the machine does."""
        rust = next((peer for peer in self.peers if peer.name == RUST), None)
        beside = dict(zip(ALL, rust.instructions(ALL.values(), room))) if rust else {}
        opening, one = self.instructions(), None
        yield f"| millions of instructions | focusd, beyond the {opening / 1e6:,.0f} of `status` | times one tag | {RUST} | times {RUST} |"
        yield "|---|---:|---:|---:|---:|"
        for name, question in ALL.items():
            say(f"instructions: {name}")
            own = self.instructions(question) - opening
            one = one or own
            other = f"{beside[name] / 1e6:.1f} | {times(own, beside[name])}" if rust else " | "
            yield f"| {name} | {own / 1e6:,.0f} | {times(own, one)} | {other} |"

    def table(self):
        heads = [head for peer in self.peers for head in (peer.name, f"the command, times {peer.name}")[: 1 if peer.name == RUST else 2]]
        yield f"| question | groups | focusd, the whole command | times one tag | times without maps | beyond opening | {' | '.join(heads)} |"
        yield "|---|" + "---:|" * (5 + len(heads))
        yield f"| none: `status` | | {self.median('status'):.2f} | | | {'| ' * len(heads)}|"
        for name in ALL:
            own, plain = self.median(name), name.removesuffix(", mapped")
            mapped = times(own, self.median(plain)) if name != plain else ""
            cells = [times(own, self.median(ONE)), mapped, f"{self.alone(name):.2f}"]
            for peer in self.peers:
                other = self.peer(name, peer.name)
                # Plain Rust opens nothing: beside it stand the instructions of the question alone.
                cells += [f"{other:.4f}"] if peer.name == RUST else [f"{other:.2f}", times(own, other)]
            yield f"| {name} | {self.counts[name]:,} | {own:.2f} | {' | '.join(cells)} |"


def run(options):
    os.makedirs(options.scratch, exist_ok=True)
    program, before, notes = built(options.program), load(), []
    if options.instructions and not shutil.which("valgrind"):
        raise Stopped("there is no valgrind: apt-get install valgrind")
    export, runs = export_of(options), Runs(program, options)
    with tempfile.TemporaryDirectory(dir=options.scratch) as room:
        folder, maps = os.path.join(room, "house"), os.path.join(room, "maps.toml")
        os.mkdir(folder)
        with open(maps, "w", encoding="utf-8") as file:
            file.write(maps_text())
        runs.run("import", "import", "--quiet", "--dir", folder, "--create", "--origin", "bench", export, shown=False)
        exported = exported_of(program, folder, os.path.join(room, "exported.csv"))
        peers = peers_of(export, exported, room, options, notes)
        asked = Asked(runs, peers, folder, maps)
        for turn in range(options.turns):
            say(f"turn {turn + 1} of {options.turns}")
            asked.ask_nothing()
            for name, question in ALL.items():
                asked.ask(name, question)
        lines = list(asked.table())
        if options.instructions:
            lines += ["", *asked.table_of_instructions(room)]
        chance = random.Random(options.seed)
        for number in range(options.random):
            asked.ask(f"random {number}", random_question(peers[0], chance))
        for peer in peers:
            peer.close()
        shutil.rmtree(folder)
    print_head(options)
    print(f"{load_since(before)}\n")
    print(f"Medians of {options.turns} turns, processor seconds, {options.rows:,} rows{f', {options.pairs:,} pairs of tags' if options.pairs else ''}:\n")
    print("\n".join(lines))
    own, one = asked.median(FILTERED), asked.median(ONE)
    print(f"\nTwo tags under a filter, at most {MOST_TIMES_ONE} times one tag: **{verdict(own <= MOST_TIMES_ONE * one)}** ({times(own, one)} times)")
    if options.random:
        print(f"\n{options.random:,} random questions, each compared with {' and '.join(peer.name for peer in peers)}.")
    for note in notes:
        print(f"\nLeft out: {note}")
    return runs.print_verdict()


def main():
    parser = parser_of_turns(__doc__, turns=3, limit=600, what="how often each question is asked")
    add_export(parser)
    parser.add_argument("--random", type=int, default=0, metavar="N", help="ask so many random questions too (default: 0)")
    parser.add_argument("--pairs", type=int, default=0, metavar="N", help="rows of so many pairs of two tags (default: the rows of a common export)")
    parser.add_argument("--instructions", action="store_true", help="count instructions too, by valgrind")
    return status_after(run, parser.parse_args())


if __name__ == "__main__":
    sys.exit(main())
