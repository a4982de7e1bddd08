"""Hours, amounts and shares as reports have them, in plain Python."""

import datetime
import fractions


def time_of(hour):
    """The time at which an hour begins, counted from 1970."""
    return (datetime.datetime(1970, 1, 1) + datetime.timedelta(hours=hour)).strftime("%Y-%m-%dT%H:00Z")


def hour_of(year, month):
    """The hour at which a month begins. Month 13 is January of the next year."""
    year, month = year + (month - 1) // 12, (month - 1) % 12 + 1
    return (datetime.datetime(year, month, 1) - datetime.datetime(1970, 1, 1)) // datetime.timedelta(hours=1)


def before_of(low, high):
    """The hours just before a range: as many months where it has whole months, else as many hours."""
    months = [hour_of(1970, 1 + at) for at in range(0, 12 * 80)]
    if low in months and high in months:
        return months[2 * months.index(low) - months.index(high)], low
    return 2 * low - high, low


def range_by_chance(chance, months, end, hours):
    """A range in 2024: at most so many whole months from June or later on, or at most so many hours from July or later on, but before a month."""
    if chance.random() < 0.6:
        month = chance.randint(6, 9)
        return hour_of(2024, month), hour_of(2024, month + chance.randint(1, months))
    low = chance.randrange(hour_of(2024, 7), hour_of(2024, end))
    return low, low + chance.randint(1, hours)


def cents(nanos):
    """An amount in cents, a tie to the even one."""
    size, half = divmod(abs(nanos), 10**7)
    size += half > 5 * 10**6 or half == 5 * 10**6 and size % 2
    return f"{'-' if nanos < 0 and size else ''}{size // 100:,}.{size % 100:02}"


def share(part, whole):
    """In percent with one digit, the nearest, a tie away from 0."""
    if whole == 0:
        return ""
    tenths = int(abs(fractions.Fraction(part, whole)) * 1000 + fractions.Fraction(1, 2))
    minus = "-" if tenths and (part < 0) != (whole < 0) else ""
    return f"{minus}{tenths // 10}.{tenths % 10}%"
