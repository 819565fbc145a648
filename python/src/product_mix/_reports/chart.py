"""The prices on their way as lines: to the right how far prices have risen in all steps so far, upwards the prices."""

from typing import Dict, List, NamedTuple, Sequence, Tuple

from .._answers import Trail
from .._auction import Auction
from .._shown import Shown
from .html import Html, element, joined

WIDTH, HEIGHT = 500, 290
LEFT, TOP, BOTTOM = 70, 14, 44
# Between the plane and the names of the lines, and how much room these take.
GAP, NAMES = 10, 140
# How far apart the names of two lines stand at least.
APART = 17
MOST_LETTERS = 14
TICKS = 4
# Of a longer trail only so many points are drawn, evenly, and the last.
MOST_POINTS = 1500
# One for each good, so that lines differ without their colours too.
DASHES = ("", "8 4", "2 3", "12 4 2 4", "5 5", "14 5", "1 5", "9 3 3 3")

Point = Tuple[float, float]


class Plane(NamedTuple):
    """Where an amount of steps and a price stand in the picture."""

    most: int
    low: int
    high: int

    def x(self, moved: int) -> float:
        return LEFT + (WIDTH - LEFT - GAP - NAMES) * moved / max(1, self.most)

    def y(self, price: int) -> float:
        return HEIGHT - BOTTOM - (HEIGHT - BOTTOM - TOP) * (price - self.low) / max(1, self.high - self.low)


def chart(auction: Auction, trail: Trail, shown: Shown) -> Html:
    """The picture, with what it shows in words."""
    moved, points = _thinned(auction, trail)
    plane = Plane(moved[-1], min(points[0].values()), max(points[-1].values()))
    lines = [_line(plane, moved, [point[good] for point in points], at) for at, good in enumerate(auction.goods)]
    names = _names(plane, auction, points[-1], shown)
    said = "; ".join("%s from %s to %s" % (shown.good(good), shown.money(points[0][good]), shown.money(points[-1][good]))
                     for good in auction.goods)
    contents = [element("title", "The prices on their way", id="chart-title"),
                element("desc", "A line for each good. %s." % said, id="chart-words"),
                *_axes(plane, shown), *lines, *names]
    drawn = element("svg", joined(contents), class_="chart", viewBox="0 0 %d %d" % (WIDTH, HEIGHT), role="img",
                    aria_labelledby="chart-title chart-words")
    caption = "Each line is a good, from its reserve to its price."
    return element("figure", drawn, element("figcaption", caption), class_="lines")


def _thinned(auction: Auction, trail: Trail) -> Tuple[List[int], List[Dict[str, int]]]:
    """How far the steps have gone at each point, and the prices there, of a long trail not all."""
    moved = [0]
    for step in trail.steps:
        moved.append(moved[-1] + step.length)
    points = trail.points(auction)
    every = 1 + len(points) // MOST_POINTS
    kept = [*range(0, len(points) - 1, every), len(points) - 1]
    return [moved[at] for at in kept], [points[at] for at in kept]


def _line(plane: Plane, moved: Sequence[int], prices: Sequence[int], at: int) -> Html:
    points = " ".join("%s,%s" % (_spelled(plane.x(along)), _spelled(plane.y(price))) for along, price in zip(moved, prices))
    return element("polyline", points=points, class_="line", style="stroke: var(--line-%d)" % (at + 1),
                   stroke_dasharray=DASHES[at] or None)


def _names(plane: Plane, auction: Auction, last: Dict[str, int], shown: Shown) -> List[Html]:
    """The name of each good at the end of its line; where they would stand too close, they are moved apart."""
    goods = sorted(enumerate(auction.goods), key=lambda numbered: (-last[numbered[1]], numbered[0]))
    places = _apart([plane.y(last[good]) for _, good in goods])
    drawn: List[Html] = []
    end = plane.x(plane.most)
    for (at, good), place in zip(goods, places):
        name = shown.good(good)
        short = name if len(name) <= MOST_LETTERS else name[:MOST_LETTERS - 1] + "…"
        style = "stroke: var(--line-%d)" % (at + 1)
        drawn.append(element("polyline", class_="line", style=style, stroke_dasharray=DASHES[at] or None, points="%s,%s %s,%s" % (
            _spelled(end + GAP), _spelled(place), _spelled(end + GAP + 22), _spelled(place))))
        drawn.append(element("text", short, x=_spelled(end + GAP + 27), y=_spelled(place + 4.5)))
    return drawn


def _apart(places: Sequence[float]) -> List[float]:
    """The places, which rise, moved down as far as they have to be, and up again where they leave the picture."""
    moved: List[float] = []
    for place in places:
        moved.append(max(place, moved[-1] + APART) if moved else max(place, TOP))
    limit = float(HEIGHT - BOTTOM)
    for at in range(len(moved) - 1, -1, -1):
        moved[at] = min(moved[at], limit)
        limit = moved[at] - APART
    return moved


def _axes(plane: Plane, shown: Shown) -> List[Html]:
    right, bottom = plane.x(plane.most), HEIGHT - BOTTOM
    drawn: List[Html] = []
    for price in _ticks(plane.low, plane.high):
        height = _spelled(plane.y(price))
        drawn.append(element("path", class_="grid", d="M%d %sH%s" % (LEFT, height, _spelled(right))))
        drawn.append(element("text", shown.amount(price), x=LEFT - 8, y=_spelled(plane.y(price) + 4.5), text_anchor="end"))
    for moved in (0, plane.most):
        drawn.append(element("text", shown.amount(moved), x=_spelled(plane.x(moved)), y=bottom + 18, text_anchor="middle"))
    drawn.append(element("path", class_="axis", d="M%d %dV%dH%s" % (LEFT, TOP, bottom, _spelled(right))))
    drawn.append(element("text", "how far prices have risen, all steps together", x=_spelled((LEFT + right) / 2), y=bottom + 36,
                         text_anchor="middle"))
    return drawn


def _ticks(low: int, high: int) -> List[int]:
    """A few round prices from the lowest to the highest."""
    if low == high:
        return [low]
    step = _round_step(high - low)
    return list(range(-(-low // step) * step, high + 1, step))


def _round_step(span: int) -> int:
    """The least of 1, 2, 5, 10, 20 and so on that goes into the span a few times at most."""
    step = 1
    while True:
        for factor in (1, 2, 5):
            if span <= TICKS * step * factor:
                return step * factor
        step *= 10


def _spelled(number: float) -> str:
    """A number with one digit after the point, if it needs one."""
    return ("%.1f" % number).rstrip("0").rstrip(".")
