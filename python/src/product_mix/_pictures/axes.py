"""Axes: which prices they show, at which scale, with which numbers."""

import math
from typing import List, NamedTuple, Optional, Sequence, Tuple

from .svg import Box, Line, Spot

#: From which to which price an axis goes, both in the auction's units.
Range = Tuple[float, float]

# How long the longer axis is, in pixels.
SIDE = 440
# Both axes have one scale unless one shows so many times the prices of the other.
MOST_RATIO = 3
# How many numbers an axis has at most.
MOST_TICKS = 9
# An axis begins at 0 unless all that it shows is above this part of the most.
FAR = 0.5
# How much of what it shows an axis goes on beyond it.
BEYOND = 0.08


class Axis(NamedTuple):
    """An axis: the prices at its ends, the pixels at its ends, and between two numbers of it how many units."""

    low: float
    high: float
    start: float
    end: float
    step: int

    def at(self, price: float) -> float:
        """Where a price stands, in pixels."""
        return self.start + (price - self.low) * (self.end - self.start) / (self.high - self.low)

    def has(self, price: float) -> bool:
        return self.low <= price <= self.high

    def ticks(self) -> List[int]:
        """The numbers on the axis."""
        first = math.ceil(self.low / self.step)
        return [at * self.step for at in range(first, math.floor(self.high / self.step) + 1)]


def step_for(span: float) -> int:
    """How many units lie between two numbers: 1, 2 or 5 times a power of 10.

    >>> step_for(45), step_for(9), step_for(1000), step_for(3)
    (5, 1, 200, 1)
    """
    power = 1
    while True:
        for digit in (1, 2, 5):
            if span / (digit * power) <= MOST_TICKS:
                return digit * power
        power *= 10


def range_of(prices: Sequence[int]) -> Range:
    """From where to where an axis shows these prices: whole steps, from 0 unless all are far above it or some below.

    >>> range_of([10, 40, 24]), range_of([900, 940]), range_of([]), range_of([-3, 5])
    ((0, 50), (890, 950), (0, 1), (-4, 6))
    """
    least, most = min(prices, default=0), max(prices, default=1)
    if 0 <= least <= most * FAR:
        least = 0
    most = max(most, least + 1)
    beyond = (most - least) * BEYOND
    step = step_for(most - least + 2 * beyond)
    low = least if least == 0 else math.floor((least - beyond) / step) * step
    return low, math.ceil((most + (beyond if len(prices) else 0)) / step) * step


def axis_up(shown: Range, start: float, end: float) -> Axis:
    """An axis of this range between these pixels."""
    return Axis(shown[0], shown[1], start, end, step_for(shown[1] - shown[0]))


class Frame(NamedTuple):
    """The plane of two axes, the second one upwards; and whether both have one scale."""

    across: Axis
    up: Axis
    is_even: bool

    def spot(self, prices: Sequence[float]) -> Spot:
        return self.across.at(prices[0]), self.up.at(prices[1])

    def has(self, prices: Sequence[float]) -> bool:
        return self.across.has(prices[0]) and self.up.has(prices[1])

    @property
    def box(self) -> Box:
        return Box(self.across.start, self.up.end, self.across.end, self.up.start)

    def line(self, start: Sequence[float], end: Sequence[float]) -> Optional[Line]:
        """A straight line between two pairs of prices as far as the plane shows it, or None where it doesn't."""
        box = Box(self.across.low, self.up.low, self.across.high, self.up.high)
        found = part_in(((start[0], start[1]), (end[0], end[1])), box)
        return found and (self.spot(found[0]), self.spot(found[1]))


def frame_of(ranges: Sequence[Range], is_given: bool, corner: Spot) -> Frame:
    """The plane for two ranges whose lower left corner stands at a spot.

    Both axes have one scale, so that a line along which two goods stay as good stands at 45 degrees; where one range is
    much the longer they have each its own. Ranges that are given stay as they are, so one axis may be shorter; of others
    the shorter is made as long.
    """
    spans = [high - low for low, high in ranges]
    is_even = max(spans) <= MOST_RATIO * min(spans)
    if is_even and not is_given:
        ranges = [(low, low + max(spans)) for low, _ in ranges]
        spans = [max(spans), max(spans)]
    sides = [SIDE * span / max(spans) if is_even else SIDE for span in spans]
    left, bottom = corner
    return Frame(axis_up(ranges[0], left, left + sides[0]), axis_up(ranges[1], bottom, bottom - sides[1]), is_even)


def part_in(line: Line, box: Box) -> Optional[Line]:
    """The part of a line that lies in a box, sides included; None where there is none or a point alone."""
    (x, y), (to_x, to_y) = line
    if line[0] == line[1]:
        return None
    start, end = 0.0, 1.0
    for at, by, low, high in ((x, to_x - x, box.left, box.right), (y, to_y - y, box.top, box.bottom)):
        if by == 0:
            if not low <= at <= high:
                return None
        else:
            first, second = sorted(((low - at) / by, (high - at) / by))
            start, end = max(start, first), min(end, second)
    if start >= end:
        return None
    return ((x + (to_x - x) * start, y + (to_y - y) * start), (x + (to_x - x) * end, y + (to_y - y) * end))
