"""The signs of a picture: bids by how they stand, the colours of their bidders, and where equal ones stand."""

import math
from html import escape
from typing import Dict, List, NamedTuple, Sequence, Tuple

from .._standing import FILLED, PARTLY, UNFILLED
from .asked import OPEN, Dot
from .svg import GROUND, INK, Spot, circle, element, polygon, readable

# Told apart by readers who are blind to red, to green or to blue, and by their lightness alone: the least light one is
# that of indigo, the lightest that of sand.
PALETTE = ("#0072b2", "#ddcc77", "#882255", "#56b4e9", "#332288", "#cc6677")
# The colour of all bidders after those that have one of their own.
FURTHER = "#aaaaaa"

MOST_RADIUS, LEAST_RADIUS = 14.0, 3.0
# With more bids than these the signs are smaller, and with more than those one sees through them.
FEW, MANY = 12, 40
SEEN_THROUGH = 0.55

# The half diagonals of a diamond and the half sides of a square that have about the area of a disc of radius 1.
DIAMOND, SQUARE = 1.25, 0.89


class Mark(NamedTuple):
    """A bid's sign: where it stands, how great it is, and the bid."""

    spot: Spot
    radius: float
    dot: Dot


def colours_of(bidders: Sequence[str]) -> Dict[str, str]:
    """The colour of each bidder, in the order of the text."""
    return {name: PALETTE[at] if at < len(PALETTE) else FURTHER for at, name in enumerate(bidders)}


def radii(dots: Sequence[Dot]) -> List[float]:
    """The radius of each bid's sign: its area is by its weight, and smaller where there are many."""
    heaviest = max((abs(dot.weight) for dot in dots), default=1)
    most = MOST_RADIUS * math.sqrt(min(1, FEW / max(1, len(dots))))
    return [max(LEAST_RADIUS, most * math.sqrt(abs(dot.weight) / heaviest)) for dot in dots]


def opacity_of(count: int) -> float:
    """How much of what lies under a sign is hidden, where there are so many."""
    return SEEN_THROUGH if count > MANY else 1


def spread(marks: Sequence[Mark], columns: "Dict[Spot, int]") -> List[Mark]:
    """The marks with those that stand on one spot set beside each other, in rows about it.

    `columns` says for a spot how many may stand in a row at most, where that is bounded.
    """
    together: Dict[Spot, List[Mark]] = {}
    for mark in marks:
        together.setdefault(mark.spot, []).append(mark)
    return [placed for spot, own in together.items() for placed in _in_rows(own, columns.get(spot))]


def _in_rows(marks: List[Mark], most: "int | None") -> List[Mark]:
    """Marks of one spot, in rows as wide as the greatest of them."""
    if len(marks) == 1:
        return marks
    step = 2 * max(mark.radius for mark in marks) + 1
    # A few stand in one row; many make about a square.
    count = len(marks) if len(marks) <= 3 else math.ceil(math.sqrt(len(marks)))
    count = count if most is None else max(1, min(count, most))
    rows = [marks[at:at + count] for at in range(0, len(marks), count)]
    placed = []
    for down, row in enumerate(rows):
        for right, mark in enumerate(row):
            x, y = mark.spot
            spot = (x + (right - (len(row) - 1) / 2) * step, y + (down - (len(rows) - 1) / 2) * step)
            placed.append(mark._replace(spot=spot))
    return placed


# ---------------------------------------------------------------------------------------------------------------- shapes

def named_sign(mark: Mark, told: str, colour: str, opacity: float) -> str:
    """A bid's sign, which tells more where a pointer rests on it."""
    drawn = sign(mark.spot, mark.radius, mark.dot.kind, mark.dot.weight < 0, colour, opacity)
    return element("g", element("title", escape(readable(told))) + drawn, kind=mark.dot.kind)


def sign(spot: Spot, radius: float, kind: str, is_negative: bool, colour: str, opacity: float = 1) -> str:
    """A bid's sign: a disc where it is filled or nothing is known, a half full diamond where it is so in part, an empty
    square where it isn't; a bar across it where its weight is negative."""
    solid = None if opacity == 1 else opacity
    shape = _SHAPES[kind](spot, radius, colour, solid)
    if not is_negative:
        return shape
    return shape + _bar(spot, radius, colour if kind == UNFILLED else GROUND)


def _disc(spot: Spot, radius: float, colour: str, opacity: "float | None") -> str:
    return circle(spot, radius, colour, INK, 1, opacity)


def _diamond(spot: Spot, radius: float, colour: str, opacity: "float | None") -> str:
    x, y = spot
    far = radius * DIAMOND
    whole = polygon([(x - far, y), (x, y - far), (x + far, y), (x, y + far)], GROUND, INK, 1, opacity)
    return whole + polygon([(x - far, y), (x, y - far), (x, y + far)], colour, INK, 1, opacity)


def _square(spot: Spot, radius: float, colour: str, opacity: "float | None") -> str:
    x, y = spot
    half = radius * SQUARE
    corners = [(x - half, y - half), (x + half, y - half), (x + half, y + half), (x - half, y + half)]
    # The dark edge is wider than the coloured one upon it, so that light colours have an edge too.
    return polygon(corners, GROUND, INK, 3, opacity) + polygon(corners, "none", colour, 1.6)


def _bar(spot: Spot, radius: float, colour: str) -> str:
    x, y = spot
    half = radius * 0.6
    thick = max(2.0, radius * 0.3)
    return element("rect", x=x - half, y=y - thick / 2, width=2 * half, height=thick, fill=colour, stroke=INK,
                   stroke_width=0.8)


_SHAPES = {FILLED: _disc, OPEN: _disc, PARTLY: _diamond, UNFILLED: _square}

#: What each sign is called in a legend.
CALLED: Dict[Tuple[str, bool], str] = {
    (OPEN, False): "bid",
    (OPEN, True): "bid of negative weight",
    (FILLED, False): "bid that is filled",
    (FILLED, True): "bid of negative weight that counts",
    (PARTLY, False): "bid that is filled in part",
    (PARTLY, True): "bid of negative weight at the price",
    (UNFILLED, False): "bid that isn't filled",
    (UNFILLED, True): "bid of negative weight that doesn't count",
}


def cross(spot: Spot, arm: float = 7) -> str:
    """The sign of prices."""
    x, y = spot
    path = "M%.1f %.1fL%.1f %.1fM%.1f %.1fL%.1f %.1f" % (
        x - arm, y - arm, x + arm, y + arm, x - arm, y + arm, x + arm, y - arm)
    return (element("path", d=path, stroke=GROUND, stroke_width=8, fill="none")
            + element("path", d=path, stroke=INK, stroke_width=3.5, fill="none"))
