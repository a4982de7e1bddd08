"""Makes what fails smaller: parts are left out for as long as it still fails."""

import time

SECONDS = 20


class Tries:
    """How often, and for how many seconds, a failure is tried again at most."""

    def __init__(self, fails, most, seconds=SECONDS):
        self.fails, self.left = fails, most
        self.end = time.monotonic() + seconds
        self.known = {}

    def __call__(self, candidate):
        if self.left <= 0 or time.monotonic() > self.end:
            return False
        if candidate not in self.known:
            self.left -= 1
            self.known[candidate] = bool(self.fails(candidate))
        return self.known[candidate]


def fewest(parts, fails, join):
    """A list of parts of which none can be left out, as far as tries go: halves first, then quarters, down to single parts."""
    step = max(len(parts) // 2, 1)
    while parts:
        place, shorter = 0, False
        while place < len(parts):
            rest = parts[:place] + parts[place + step :]
            if fails(join(rest)):
                parts, shorter = rest, True
            else:
                place += step
        if step == 1 and not shorter or not tries_left(fails):
            return parts
        step = max(step // 2, 1)
    return parts


def tries_left(fails):
    return not isinstance(fails, Tries) or fails.left > 0 and time.monotonic() < fails.end


def pieces(data):
    """Words and what stands between them."""
    parts, at = [], 0
    for place in range(1, len(data) + 1):
        if place == len(data) or is_word(data[place]) != is_word(data[place - 1]):
            parts.append(data[at:place])
            at = place
    return parts


def is_word(byte):
    return chr(byte).isalnum() or byte >= 128


def smaller(data, fails, most=600):
    """Bytes that still fail, from which no line, no word and no byte can be left out, as far as `most` tries go."""
    tries = Tries(fails, most)
    for cut in (lambda text: text.splitlines(keepends=True), pieces, lambda text: [bytes([byte]) for byte in text]):
        data = b"".join(fewest(cut(data), tries, b"".join))
    return plainer(data, tries)


def plainer(data, tries):
    """The same with bytes that are no text made a letter, where it still fails."""
    for place, byte in enumerate(data):
        if byte < 32 and byte not in b"\r\n\t" or byte > 126:
            other = data[:place] + b"x" + data[place + 1 :]
            if tries(other):
                data = other
    return data
