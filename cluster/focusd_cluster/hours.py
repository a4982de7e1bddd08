"""Hours, numbered from 1970 as `focusd` does, and how a range of them is cut."""

import datetime
import re

from focusd_cluster.faults import WrongWords

EPOCH = datetime.datetime(1970, 1, 1)
ONE = datetime.timedelta(hours=1)
BYS = ("hour", "day", "month")
# The most hours of a report.
MOST_HOURS = 26_304
# How `focusd` writes a time: a month, a date, an instant on a whole hour.
FORMS = ((r"\d{4}-\d\d", "%Y-%m"), (r"\d{4}-\d\d-\d\d", "%Y-%m-%d"), (r"\d{4}-\d\d-\d\dT\d\d:00Z", "%Y-%m-%dT%H:00Z"))

Range = tuple[int, int]


def hour_of(text: str) -> int:
    """The hour at which a month, a date or a whole hour begins."""
    for pattern, form in FORMS:
        if re.fullmatch(pattern, text, re.ASCII):
            try:
                hour = (datetime.datetime.strptime(text, form) - EPOCH) // ONE
            except ValueError:
                break
            if hour >= 0:
                return hour
    raise WrongWords(f"{text!r} is not a time from 1970 to 9999: write a month (2024-01), a date (2024-01-31) or a whole hour (2024-01-31T14:00Z)")


def text_of(hour: int) -> str:
    """An hour as `focusd` writes it: 2024-01-31T14:00Z."""
    return (EPOCH + hour * ONE).strftime("%Y-%m-%dT%H:00Z")


def overlap(one: Range, other: Range) -> Range | None:
    """The hours that two ranges share."""
    low, high = max(one[0], other[0]), min(one[1], other[1])
    return (low, high) if low < high else None


def gaps(whole: Range, parts: list[Range]) -> list[Range]:
    """The hours of a range that are in none of its parts, which lie apart, as the fewest ranges."""
    found, at = [], whole[0]
    for low, high in sorted(parts):
        if at < low:
            found.append((at, low))
        at = max(at, high)
    return found + ([(at, whole[1])] if at < whole[1] else [])
