"""Entries of scripts, and warehouses that were sent them: in a folder, and in expected.py."""

import expected
from as_reported import time_of
from program_tests import focusd

RANGE = ("--from", "2024-01-01", "--to", "2024-01-05")
HOURS = ("2024-01-01T00:00Z", "2024-01-05T00:00Z")
HEADER = "BilledCost,EffectiveCost,BillingCurrency,ChargeCategory,ChargePeriodStart,ChargePeriodEnd,ConsumedQuantity,ConsumedUnit,SkuId,SubAccountId,Tags\n"


def row(day, hour, cost, team):
    start, end = f"2024-01-{day:02}T{hour:02}:00Z", f"2024-01-{day:02}T{hour + 1:02}:00Z"
    return f'{cost},{cost},USD,Usage,{start},{end},2,Hours,m5.large,shop,"{{""team"":""{team}"",""env"":""{team}-env""}}"\n'


def command(words, text=""):
    lines = text.splitlines(keepends=True)
    return f"{words} {len(lines)}\n{text}" if lines else f"{words}\n"


def policy(key, *gives):
    return f'key = "{key}"\n' + "".join(f'[[rule]]\nfrom = "{one}"\nproportional = true\n' for one in gives)


# Each kind of entry: posts of three origins, one that is withdrawn and one that is posted again, a commitment, a purchase that is added to it, and policies.
COMMITMENT = """id = "ri"
category = "Usage"
start = "2024-01-01T00:00Z"
hours = 72
capacity = "1.5"
unit = "Hours"
skus = ["m5.large"]
[tags]
team = "platform"
[[purchase]]
at = "2024-01-01T00:00Z"
billed = "100.5"
"""
ADDED = 'id = "ri"\nat = "2024-01-02T05:00Z"\nbilled = "33.333333333"\n'
ENTRIES = [
    command("post aws 1", HEADER + row(1, 3, "10.25", "web") + row(2, 4, "3.000000001", "data")),
    command("policy rules 1", policy("team", "platform")),
    command("post gcp 1", HEADER + row(1, 3, "7", "platform")),
    command("commit ri 1", COMMITMENT),
    command("withdraw aws 2 1"),
    command("post aws 3", HEADER + row(1, 3, "11.25", "web") + row(3, 4, "3.5", "data")),
    command("add ri 2", ADDED),
    command("policy rules 2", policy("env", "web-env")),
    command("post azure 1", HEADER + "".join(row(4, at % 24 % 23, f"0.{at:09}", f"t{at % 7}") for at in range(1, 300))),
    command("withdraw azure 2 1"),
    command("policy rules 3", policy("team", "web", "data")),
    command("withdraw gcp 2 1"),
]


def sent(kept, text):
    """What expected.py's warehouse says of a command."""
    line, _, content = text.partition("\n")
    words = line.split()
    if words[0] == "withdraw":
        return kept.withdraw(words[1], words[2], int(words[3]))
    how = {"post": kept.post, "commit": kept.commit, "policy": kept.set_policy, "add": kept.add_purchase}[words[0]]
    return kept.enter(words[1], words[2], how, content.encode())


def after(count):
    """expected.py's warehouse of the first entries."""
    kept = expected.Warehouse()
    for text in ENTRIES[:count]:
        assert sent(kept, text).startswith("accepted "), text
    return kept


def body_of(text):
    """A report or lines of expected.py without their first line, which says how long they are."""
    return text.split("\n", 1)[1]


class HouseOfEntries:
    """A warehouse in a folder that was sent entries, and the same one in expected.py."""

    def __init__(self, folder, entries):
        self.folder, self.kept = folder, expected.Warehouse()
        for text in entries:
            assert sent(self.kept, text).startswith("accepted "), text
        folder.mkdir(exist_ok=True)
        status, _, said = focusd("run", "--dir", folder, "--create", given="".join(entries))
        assert status == 0, said

    def lines(self, low, high):
        """The lines of some hours."""
        return list(self.kept.lines_between(time_of(low), time_of(high)) or ())

    def sums(self, selection, low, high):
        """BilledCost, EffectiveCost and what is charged, of each group of some hours."""
        found = self.kept.selected(selection, self.lines(low, high))
        return {group: costs if len(costs) == 3 else (*costs, costs[1]) for group, costs in found.items()}
