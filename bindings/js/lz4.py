"""Compresses bytes into a block of LZ4, which a few lines of JavaScript expand at import."""

SHORTEST = 4  # a match
FARTHEST = 0xFFFF
TRIES = 64  # of places that begin with the same four bytes


class Matches:
    """The places of the data so far, by the four bytes at each."""

    def __init__(self, data):
        self.data = data
        self.last = {}
        self.before = [-1] * len(data)

    def add(self, at):
        key = self.data[at : at + SHORTEST]
        self.before[at] = self.last.get(key, -1)
        self.last[key] = at

    def longest(self, at):
        """The longest match of the bytes from here: its length, and how far back it is; 0 where there is none."""
        length = back = 0
        data, end = self.data, len(self.data)
        place = self.last.get(data[at : at + SHORTEST], -1) if at + SHORTEST <= end else -1
        for _ in range(TRIES):
            if place < 0 or at - place > FARTHEST:
                break
            same = 0
            while at + same < end and data[place + same] == data[at + same]:
                same += 1
            if same > length:
                length, back = same, at - place
            place = self.before[place]
        return length, back


def number(value):
    """What follows the half of a token for a number."""
    return bytes([255] * ((value - 15) // 255) + [(value - 15) % 255]) if value >= 15 else b""


def sequence(literals, length, back):
    """Literals, and a match behind them, unless they are the last."""
    more = max(length - SHORTEST, 0)
    token = bytes([min(len(literals), 15) << 4 | min(more, 15)])
    match = back.to_bytes(2, "little") + number(more) if length else b""
    return token + number(len(literals)) + literals + match


def compress(data):
    """The block. A match gives way to a longer one at the next byte."""
    matches, block, start, at = Matches(data), bytearray(), 0, 0
    while at < len(data):
        length, back = matches.longest(at)
        matches.add(at)
        if length < SHORTEST or matches.longest(at + 1)[0] > length:
            at += 1
            continue
        block += sequence(data[start:at], length, back)
        for place in range(at + 1, at + length):
            matches.add(place)
        start = at = at + length
    return bytes(block + sequence(data[start:], 0, 0))
