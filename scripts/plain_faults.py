"""The fault rule in plain Python: what becomes of a frame over a bad link, and of the events of a script.

Shared by fault-table and by scripts that compare a run over such a link. Nothing is taken from the crates.
"""
from collections import namedtuple

from plain_host import FRAME, TICK

IN, OUT = "in", "out"
MTU = 1536                      # bytes

# chances in percent, limit in bytes, rates in frames an interval, interval in microseconds; 0 is no limit and no rate
Faults = namedtuple("Faults", "seed drop corrupt limit rate_in rate_out interval", defaults=(0, 0, 0, 0, 0, 0))

DROPPED, WHOLE = "dropped", "whole"


class Link:
    """A bad link: the word that was drawn last, the last refill and what is left in the bucket of each way."""

    def __init__(self, faults):
        self.faults = faults
        self.word = faults.seed
        self.refilled = 0
        self.bucket = {IN: 0, OUT: 0}

    def draw(self):
        x = self.word
        x ^= (x << 13) & 0xFFFFFFFF
        x ^= x >> 17
        x ^= (x << 5) & 0xFFFFFFFF
        self.word = x
        return x

    def hits(self, percent):
        return self.draw() % 100 < percent

    def is_over(self, size):
        return 0 < self.faults.limit < size

    def is_over_rate(self, way, now):
        rates = {IN: self.faults.rate_in, OUT: self.faults.rate_out}
        if rates[way] == 0:
            return False
        if abs(now - self.refilled) > self.faults.interval:
            self.bucket = rates
            self.refilled = now
        if self.bucket[way] == 0:
            return True
        self.bucket[way] -= 1
        return False

    def fate(self, way, now, size):
        """DROPPED, WHOLE, or the place of the byte and the bit that is flipped, for a frame of so many bytes at a time."""
        if way == IN:
            is_lost = size > MTU or self.is_over(size) or self.hits(self.faults.drop)
        else:
            is_lost = self.hits(self.faults.drop) or self.is_over(size)
        if is_lost or self.is_over_rate(way, now):
            return DROPPED
        if not self.hits(self.faults.corrupt) or size == 0:
            return WHOLE
        return self.draw() % size, self.draw() % 8

    def receive(self, now, frame):
        """The frame that passes, or None."""
        fate = self.fate(IN, now, len(frame))
        if fate == DROPPED:
            return None
        if fate == WHOLE:
            return frame
        place, bit = fate
        return frame[:place] + bytes([frame[place] ^ 1 << bit]) + frame[place + 1:]


def disturbed(faults, events):
    """The events that a host meets in place of a script's: a frame that is dropped leaves a tick, all else but frames stays."""
    link, met = Link(faults), []
    for event in events:
        if event.kind == FRAME:
            frame = link.receive(event.at, event.frame)
            event = event._replace(kind=TICK, frame=b"") if frame is None else event._replace(frame=frame)
        met.append(event)
    return met
