"""Tables as `focusd` lays them out: amounts in cents, shares in percent, columns that line up."""

import enum

from focusd_cluster.faults import Fault

CENT = 10_000_000


class Align(enum.Enum):
    """On which side of its column a text stands."""

    LEFT = "left"
    RIGHT = "right"


def cents(nanos: int) -> str:
    """An amount rounded to the nearest cent, ties to even, with a comma before each three digits."""
    count, rest = divmod(abs(nanos), CENT)
    count += 2 * rest + count % 2 > CENT
    return f"{'-' if nanos < 0 and count else ''}{count // 100:,}.{count % 100:02d}"


def share(part: int, whole: int) -> str:
    """A part of a whole in percent, rounded to a tenth, ties upwards; empty where it says nothing."""
    if part < 0 or whole <= 0:
        return ""
    tenths = (2_000 * part + whole) // (2 * whole)
    return f"{tenths // 10}.{tenths % 10}%"


def table(aligns: list[Align], lines: list[list[str] | None]) -> str:
    """The text of a table; none stands for a line of dashes."""
    cells = [cell for line in lines if line for cell in line]
    if not all(cell.isascii() and cell.isprintable() for cell in cells):
        raise Fault("an id or a unit has a character that isn't in ASCII, whose width isn't known here. What to do: give --format csv")
    widths = [max(len(line[place]) for line in lines if line) for place in range(len(aligns))]
    out = []
    for line in lines:
        texts = ["-" * width for width in widths] if line is None else line
        padded = [text.ljust(width) if align is Align.LEFT else text.rjust(width) for text, width, align in zip(texts, widths, aligns)]
        out.append("  ".join(padded).rstrip(" ") + "\n")
    return "".join(out)
