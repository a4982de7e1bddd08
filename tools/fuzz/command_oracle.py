"""What becomes of a command line, by the commands and options that docs/FORMATS.md and the help of each command name.

`meaning(words)` is HELP (status 0, the help or the version on standard output), WRONG (status 2, a complaint on standard error, nothing on
standard output and nothing done), or RUNS: the command is begun, and what it finds decides.
"""

import re

import texts

HELP, WRONG, RUNS = "help", "wrong", "runs"
MOST_HOURS = 26_304
CURRENCY = re.compile(r"[A-Z]{3}")


class Option:
    """An option of a command: how many values it takes, whether it has to be given, what values these are, and whether it can be given again."""

    def __init__(self, takes=1, required=False, rule=None, repeats=False):
        self.takes, self.required, self.rule, self.repeats = takes, required, rule, repeats


def one_of(*words):
    return lambda text: text in words


def number_from(least, most):
    """A whole number as the reader of `u8` takes it: digits, perhaps behind a plus."""
    return lambda text: re.fullmatch(r"\+?[0-9]+", text) and least <= int(text) <= most


DIR, FLAG = Option(required=True), Option(takes=0)
# The form that exports have.
DIALECT = Option(rule=one_of("gcp"))
PERHAPS = {"from": Option(), "to": Option()}
# What says which hours a question covers; what it leaves open comes from the rows.
HOURS = {**PERHAPS, "month": Option(), "last": Option(takes=2)}
UNITS = ("hour", "hours", "day", "days", "month", "months")
# An origin, where a command looks at it before it does anything.
ORIGIN = re.compile(r"[A-Za-z0-9._-]{1,64}")
# The options of each command, and the least and the most of the words that it takes beside.
MANY = 10**9
COLUMNS = ("SkuId", "SubAccountId", "ChargeCategory", "CommitmentDiscountId", "CommitmentDiscountStatus")
SUMMARY = {"summary": Option(rule=one_of("text", "json"))}
COMMANDS = {
    "run": ({"currency": Option(), "dir": Option(), "create": FLAG, "workers": Option(rule=number_from(1, 64)), "strict": FLAG}, 0, 0),
    "import": (
        {"dir": DIR, "create": FLAG, "currency": Option(), "origin": DIR, "keep": Option(repeats=True), "dialect": DIALECT,
         "workers": Option(rule=number_from(1, 64)), **SUMMARY, "quiet": FLAG},
        1, MANY,
    ),
    "load": (
        {"currency": Option(), "dir": Option(), "create": FLAG, "analysts": Option(rule=number_from(1, 16)), "origin": Option(), "strict": FLAG}, 1, MANY,
    ),
    "add": ({"dir": DIR, "origin": DIR, "dry-run": FLAG, "yes": FLAG, **SUMMARY}, 1, MANY),
    "check": (
        {"format": Option(rule=one_of("text", "json")), "currency": Option(), "keep": Option(repeats=True), "dialect": DIALECT, **SUMMARY, "quiet": FLAG},
        1, MANY,
    ),
    "report": (
        {"dir": DIR, "tag": Option(repeats=True), "column": Option(rule=one_of(*COLUMNS), repeats=True), "where": Option(repeats=True),
         "where-not": Option(repeats=True), "map": Option(), "sum": Option(), "total-only": FLAG, **HOURS, "by": Option(rule=one_of("hour", "day", "month")),
         "top": Option(), "only": Option(), "as-of": Option(), "policy": Option(), "format": Option(rule=one_of("table", "csv", "json", "html")),
         "direct": FLAG}, 0, 0,
    ),
    "compare": (
        {"dir": DIR, "tag": Option(repeats=True), "column": Option(rule=one_of(*COLUMNS), repeats=True), "by": Option(),
         "where": Option(repeats=True), "where-not": Option(repeats=True), "map": Option(), **HOURS, "before": Option(), "before-to": Option(),
         "top": Option(), "as-of": Option(), "policy": Option(), "format": Option(rule=one_of("table", "csv", "json"))}, 0, 0,
    ),
    "charge": (
        {"tag": Option(), "policy": Option(), **PERHAPS, "by": Option(rule=one_of("hour", "day", "month")), "top": Option(),
         "format": Option(rule=one_of("table", "csv", "json", "html"))}, 1, MANY,
    ),
    "split": (
        {"by": Option(rule=one_of("hour", "day", "month")), "into": Option(), "commitments": Option(repeats=True), "out": DIR,
         "no-sync": FLAG, "format": Option(rule=one_of("text", "json")), "quiet": FLAG}, 1, MANY,
    ),
    "lines": ({"dir": DIR, **HOURS, "as-of": Option()}, 0, 0),
    "export": ({"dir": DIR, **HOURS, "format": Option(rule=one_of("csv", "jsonl"))}, 0, 0),
    "coverage": ({"dir": DIR, **HOURS, "as-of": Option(), "format": Option(rule=one_of("table", "csv"))}, 0, 0),
    "commitments": (
        {"dir": DIR, "tag": Option(repeats=True), "column": Option(rule=one_of(*COLUMNS), repeats=True), "price-tag": Option(), **HOURS,
         "by": Option(rule=one_of("hour", "day", "month")), "as-of": Option(), "format": Option(rule=one_of("table", "csv", "json", "html"))}, 0, 0,
    ),
    "policy": ({"dir": DIR}, 1, 1),
    "status": ({"dir": DIR}, 0, 0),
    "verify": ({"dir": DIR, "digest": FLAG, "expect": Option(), **SUMMARY}, 0, 0),
    "checkpoint": ({"dir": DIR}, 0, 0),
    "compact": ({"dir": DIR, "into": DIR, "quiet": FLAG}, 0, 0),
    "replace": ({"dir": DIR, "origin": DIR, **PERHAPS, "keep": Option(repeats=True), "dialect": DIALECT, "dry-run": FLAG, **SUMMARY, "quiet": FLAG}, 1, MANY),
    "withdraw": ({"dir": DIR, "origin": DIR, "seq": Option(), **PERHAPS, "all": FLAG, "dry-run": FLAG, "yes": FLAG}, 0, 0),
    "dump": ({"dir": DIR}, 0, 0),
    "explain": ({}, 0, 1),
}  # fmt: skip


class Settled(Exception):
    """The meaning is clear before the end of the words."""


def meaning(words):
    try:
        words = [word.decode() for word in words]
    except UnicodeDecodeError:
        return WRONG
    try:
        return meaning_of(words)
    except Settled as settled:
        return settled.args[0]


def meaning_of(words):
    if not words:
        return WRONG
    first = words[0]
    if first in ("--help", "--version") or first[:2] in ("-h", "-V"):
        return HELP
    if first == "help":
        return HELP if len(words) == 1 or len(words) == 2 and words[1] in (*COMMANDS, "help") else WRONG
    if first not in COMMANDS:
        return WRONG
    given, others = read_words(first, words[1:])
    options, least, _ = COMMANDS[first]
    if len(others) < least or any(option.required and name not in given for name, option in options.items()):
        return WRONG
    return RUNS if rules_hold(first, given, others) else WRONG


def read_words(command, words):
    """The values of the options that are given, and the other words."""
    options, _, most = COMMANDS[command]
    given, others, at = {}, [], 0
    while at < len(words):
        word = words[at]
        at += 1
        if word == "--":
            others += words[at:]
            break
        if word.startswith("--"):
            name, equals, value = word[2:].partition("=")
            if name == "help" and not equals:
                raise Settled(HELP)
            option = options.get(name)
            if option is None or name in given and not option.repeats or equals and option.takes != 1:
                raise Settled(WRONG)
            if option.takes and not equals:
                values = words[at : at + option.takes]
                if len(values) < option.takes or any(value.startswith("-") and value != "-" for value in values):
                    raise Settled(WRONG)
                value = " ".join(values)
                at += option.takes
            if option.rule and not option.rule(value):
                raise Settled(WRONG)
            given[name] = [*given.get(name, []), value] if option.repeats else value
        elif word.startswith("-") and word != "-":
            raise Settled(HELP if word[1] == "h" else WRONG)
        else:
            others.append(word)
            # What is asked of policies is checked where it stands, before a later -h.
            if len(others) > most or command == "policy" and word != "list":
                raise Settled(WRONG)
    if len(others) > most:
        raise Settled(WRONG)
    return given, others


def rules_hold(command, given, others):
    """What a command checks of its words before it does anything."""
    if not CURRENCY.fullmatch(given.get("currency", "USD")):
        return False
    if "top" in given and not number_from(1, 1_000)(given["top"]):
        return False
    if "as-of" in given and not number_from(0, 2**64 - 1)(given["as-of"]):
        return False
    if "expect" in given and not re.fullmatch(r"[0-9A-Fa-f]{64}", given["expect"]):
        return False
    if command == "policy" and others != ["list"]:
        return False
    if command == "report" and not keys_hold(given):
        return False
    if command == "compare" and not comparison_holds(given):
        return False
    if command == "split" and not number_from(1, 1_000)(given.get("into", "1")):
        return False
    if command == "charge":
        return all(time_of(given[name]) is not None for name in ("from", "to") if name in given)
    if command != "load" and not ORIGIN.fullmatch(given.get("origin", "a")):
        return False
    if command in ("check", "import", "replace") and not keeps_hold(given.get("keep", [])):
        return False
    if command == "withdraw" and ("seq" in given) + ("all" in given) + ("from" in given or "to" in given) != 1:
        return False
    if "seq" in given and not number_from(1, 2**64 - 1)(given["seq"]):
        return False
    if "from" in given and "to" in given:
        return "month" not in given and "last" not in given and range_holds(command, given)
    if command in ("replace", "withdraw"):
        return "from" not in given and "to" not in given
    return hours_hold(given)


def keeps_hold(keeps):
    """Whether each kept column has a name, and its tag one that no other has."""
    pairs = [keep.split("=", 1) if "=" in keep else [keep, keep] for keep in keeps]
    tags = [tag for _column, tag in pairs]
    named = all(column not in ("", "Tags") and 1 <= len(tag.encode()) <= 1_024 for column, tag in pairs)
    return named and len(set(tags)) == len(tags)


def keys_hold(given):
    """Whether the options of a report name its groups, and filters by a key and a value."""
    tags, columns = given.get("tag", []), given.get("column", [])
    if "policy" in given and (len(tags) != 1 or {"direct", "column", "where", "where-not", "map", "sum", "total-only"} & set(given)):
        return False
    if "only" in given and (len(tags) != 1 or {"top", "direct", "column", "where", "where-not", "map", "sum", "total-only"} & set(given)):
        return False
    if "sum" in given and given.get("format") == "html":
        return False
    if "direct" in given:
        return len(tags) == 1 and not {"top", "format", "column", "where", "where-not", "map", "sum", "total-only"} & set(given)
    if "total-only" in given:
        named = not tags and not columns and "top" not in given
    else:
        named = 1 <= len(tags) + len(columns) <= 4 and len(set(tags)) == len(tags) and len(set(columns)) == len(columns)
    return named and all("=" in word for name in ("where", "where-not") for word in given.get(name, []))


def comparison_holds(given):
    """Whether the options of a comparison name its groups, and times before that are times."""
    if "before-to" in given and "before" not in given or any(time_of(given[name]) is None for name in ("before", "before-to") if name in given):
        return False
    one_more = given.get("by")
    if one_more in ("hour", "day", "month"):
        return False
    if "policy" in given and (len(given.get("tag", [])) != 1 or {"column", "by", "where", "where-not", "map"} & set(given)):
        return False
    tags, columns = list(given.get("tag", [])), list(given.get("column", []))
    if one_more is not None:
        (columns if one_more in COLUMNS else tags).append(one_more.removeprefix("tag:"))
    return keys_hold({**given, "tag": tags, "column": columns})


def hours_hold(given):
    """Whether the options say which hours a question covers, where they don't give the whole range."""
    if ("from" in given or "to" in given) + ("month" in given) + ("last" in given) > 1:
        return False
    if "month" in given:
        return len(given["month"].encode()) == 7 and time_of(given["month"]) is not None
    if "last" in given:
        count, _, unit = given["last"].partition(" ")
        return bool(number_from(1, MOST_HOURS)(count)) and unit in UNITS
    return all(time_of(given[name]) is not None for name in ("from", "to") if name in given)


def range_holds(command, given):
    """Whether both ends of a range are times, and it has hours, as few as a question covers."""
    low, high = time_of(given["from"]), time_of(given["to"])
    return low is not None and high is not None and low < high and (high - low <= MOST_HOURS or command in ("replace", "withdraw"))


def time_of(text):
    """The hour at which a month, a date or an instant begins."""
    whole = {7: text + "-01T00:00Z", 10: text + "T00:00Z"}.get(len(text.encode()), text)
    if len(text.encode()) in (7, 10) and not re.fullmatch(r"[0-9]{4}-[0-9]{2}(-[0-9]{2})?", text):
        return None
    try:
        return texts.hour(whole.encode())
    except texts.NoInstant:
        return None
