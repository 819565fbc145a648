"""Two goods in the plane of their prices."""

import math
from typing import Callable, Dict, Iterator, List, Optional, Sequence, Tuple

from .._errors import counted
from .._outcome import Refused
from .._standing import FILLED, PARTLY, UNFILLED
from .asked import Asked, Dot
from .axes import SIDE, Frame, Range, frame_of, range_of
from .facets import BOTH, FIRST, Facet, Unit, facets_of, wanted
from .labels import Labels, along, around, spots_by_depth
from .legend import Entry, legend, line_entry, words_entry
from .marks import Mark, colours_of, cross, named_sign, opacity_of, radii, spread
from .parts import (
    PRICE_WIDTH, RESERVE_DASHES, TRAIL_COLOUR, TRAIL_WIDTH, arrow, beside, bid_entries, bidder_entries, is_near,
    mark_words, other_notes, sides, signed, told_of,
)
from .svg import (
    FAINT, FONT, INK, SMALL, STRIP_GROUND, Box, Line, Spot, circle, document, rectangle, stroke, words,
)

WIDTH = 600
# The plane's left and lower side, where both axes are as long as they may be.
LEFT, TOP = 120, 60
BOTTOM = TOP + SIDE
# A strip stands along the side, for bids that leave a good out, with a gap between it and the plane.
STRIP, GAP = 26, 8
# How far the numbers of an axis stand from the plane or the strip.
NUMBERS = 8

NEGATIVE_DASHES = "9 5"
# With more lines than these they are thin.
FACET_WIDTH, THIN_WIDTH, MANY_FACETS = 2, 0.6, 60

# Regions are found in so many columns and rows, fewer where there are many bids; so many of them are named at most.
CELLS, FEW_CELLS, MANY_BIDS = 80, 40, 25
MOST_REGIONS = 40
# Where in a cell its prices are looked at, which is at no bid's value; and how much further the second one, since else a
# diagonal of cells might stand where two goods are as good for a bid.
MIDDLE, ASIDE = 0.4937, math.sqrt(0.0003)
# So many lines have their weight written on them at most, the longest first.
MOST_CHANGES = 80
# So many bids are named at most, the heaviest first.
MOST_NAMED = 60

Bundle = Tuple[int, int]


def plane_of(asked: Asked) -> str:
    """The picture of two goods."""
    return _Plane(asked).drawn()


class _Plane:
    """The picture, part by part."""

    def __init__(self, asked: Asked) -> None:
        self.asked = asked
        self.colours = colours_of(asked.auction.bidders)
        self.mark = _mark_of(asked)
        self.frame = _frame(asked, self.mark)
        self.is_left = any(dot.values[0] is None for dot in asked.dots)
        self.is_under = any(dot.values[1] is None for dot in asked.dots)
        self.labels = Labels(self._room())
        self.notes: List[str] = []
        self.units: List[Unit] = [(dot.values[0], dot.values[1], dot.weight) for dot in asked.dots]
        self.goods = [asked.shown.good(good) for good in asked.goods]

    # --------------------------------------------------------------------------------------------------------- the whole

    def drawn(self) -> str:
        """The picture: what is drawn first lies under what comes after; the labels find their places in another order."""
        marks = self._marks()
        facets = self._facets()
        prices = self._price_lines()
        trail = self._trail()
        parts = [*self._ground(), *self._reserves()]
        width = FACET_WIDTH if len(facets) <= MANY_FACETS else THIN_WIDTH
        parts += [stroke(line, INK, width, None if weight > 0 else NEGATIVE_DASHES, "change") for line, weight in facets]
        parts += [stroke(line, INK, PRICE_WIDTH, kind="price") for line in prices]
        parts += self._trail_parts(trail)
        opacity = opacity_of(len(marks))
        parts += [named_sign(mark, told_of(self.asked, mark.dot), self.colours[mark.dot.bidder], opacity)
                  for mark in sorted(marks, key=lambda mark: -mark.radius)]
        parts += self._cross()
        self._write_labels(marks, facets, prices, trail)
        entries, bottom = legend(self._entries(marks, facets, prices, trail), self._all_notes(marks), LEFT - 34, WIDTH - 14,
                                 self._under() + 74)
        title = self.asked.title or self._title()
        head = words((LEFT - 34, 26), title, 16, anchor="start", weight="bold")
        return document(WIDTH, bottom + 4, title, self._told(marks), [head, *parts, *self.labels.drawn, *entries])

    def _write_labels(self, marks: Sequence[Mark], facets: Sequence[Tuple[Line, int]], prices: Sequence[Line],
                      trail: Sequence[Line]) -> None:
        """Labels in the order in which they matter: prices, regions, changes, and the bids, the heaviest first."""
        labels = self.labels
        labels.lines += [line for line, _ in facets]
        labels.lines += [*prices, *trail]
        labels.faint += [*self._reserve_lines(), *sides(self.frame.box)]
        labels.boxes += [Box(x - r, y - r, x + r, y + r) for (x, y), r, _ in marks]
        if self.mark is not None and self.frame.has(self.mark):
            spot = self.frame.spot(self.mark)
            labels.boxes.append(Box(spot[0] - 9, spot[1] - 9, spot[0] + 9, spot[1] + 9))
            labels.put(self._mark_words(), around(spot, 9, self._mark_words(), FONT), FONT, "bold")
        for content, spots in self._regions(prices):
            labels.put(content, spots, FONT, "bold")
        longest = sorted(facets, key=lambda facet: -math.dist(*facet[0]))
        for line, weight in longest[:MOST_CHANGES]:
            labels.put(str(weight), along(line), SMALL, own=line)
        labels.left_out += len(longest[MOST_CHANGES:])
        self._name_bids(marks)

    def _name_bids(self, marks: Sequence[Mark]) -> None:
        named = sorted(marks, key=lambda mark: -abs(mark.dot.weight))
        for mark in named[:MOST_NAMED]:
            name = self.asked.shown.bidder(mark.dot.bidder)
            content = str(mark.dot.weight) if self.asked.bidder else "%s %d" % (name, mark.dot.weight)
            self.labels.put(content, around(mark.spot, mark.radius, content, SMALL), SMALL, style="italic")
        self.labels.left_out += len(named[MOST_NAMED:])

    # ------------------------------------------------------------------------------------------------ the plane and its axes

    def _under(self) -> float:
        """Where the plane ends below, with its strip if it has one."""
        return self.frame.box.bottom + (GAP + STRIP if self.is_under else 0)

    def _beside(self) -> float:
        """Where the plane ends on the left, with its strip."""
        return self.frame.box.left - (GAP + STRIP if self.is_left else 0)

    def _room(self) -> Box:
        """Where labels may stand."""
        box = self.frame.box
        return Box(self._beside(), box.top, box.right, self._under())

    def _ground(self) -> List[str]:
        """The strips, the grid, the sides, and the numbers and names of the axes."""
        frame, box, amount = self.frame, self.frame.box, self.asked.shown.amount
        parts = []
        if self.is_left:
            parts.append(rectangle(Box(self._beside(), box.top, self._beside() + STRIP, box.bottom), STRIP_GROUND))
        if self.is_under:
            parts.append(rectangle(Box(box.left, self._under() - STRIP, box.right, self._under()), STRIP_GROUND))
        for tick in frame.across.ticks():
            x = frame.across.at(tick)
            parts.append(stroke(((x, box.top), (x, box.bottom)), FAINT))
            parts.append(words((x, self._under() + NUMBERS + 10), signed(amount(tick)), SMALL))
        for tick in frame.up.ticks():
            y = frame.up.at(tick)
            parts.append(stroke(((box.left, y), (box.right, y)), FAINT))
            parts.append(words((self._beside() - NUMBERS, y + 4), signed(amount(tick)), SMALL, anchor="end"))
        parts += [stroke(side) for side in sides(box)]
        return [*parts, *self._axis_names()]

    def _axis_names(self) -> List[str]:
        box = self.frame.box
        currency = self.asked.shown.currency
        names = ["price of %s%s" % (good, " (%s)" % currency if currency else "") for good in self.goods]
        return [words(((box.left + box.right) / 2, self._under() + NUMBERS + 32), names[0]),
                words((22, (box.top + box.bottom) / 2), names[1], turned=True)]

    def _reserve_lines(self) -> List[Line]:
        first, second = self.asked.reserves
        frame = self.frame
        lines = [frame.line((first, frame.up.low), (first, frame.up.high)),
                 frame.line((frame.across.low, second), (frame.across.high, second))]
        return [line for line in lines if line is not None]

    def _reserves(self) -> List[str]:
        """The reserves as dotted lines, each with its number at its end."""
        parts = [stroke(line, INK, 1.3, RESERVE_DASHES, "reserve") for line in self._reserve_lines()]
        first, second = self.asked.reserves
        frame, amount = self.frame, self.asked.shown.amount
        if frame.across.has(first):
            parts.append(words((frame.across.at(first), frame.box.top - 7), "reserve %s" % amount(first), SMALL))
        if frame.up.has(second):
            parts.append(beside("reserve %s" % amount(second), frame.box, frame.up.at(second)))
        return parts

    # ---------------------------------------------------------------------------------------------------------- the prices

    def _price_lines(self) -> List[Line]:
        """The lines at the printed prices that part those who get one good, the other, and neither."""
        prices = self.asked.prices
        if prices is None or self.asked.bidder is not None:
            return []
        frame, box = self.frame, self.frame.box
        far = max(frame.across.high - prices[0], frame.up.high - prices[1], 0)
        lines = [frame.line((prices[0], frame.up.low), prices), frame.line((frame.across.low, prices[1]), prices),
                 frame.line(prices, (prices[0] + far, prices[1] + far))]
        x, y = frame.spot(prices)
        if self.is_under and frame.across.has(prices[0]):
            lines.append(((x, self._under() - STRIP), (x, self._under())))
        if self.is_left and frame.up.has(prices[1]):
            lines.append(((self._beside(), y), (self._beside() + STRIP, y)))
        return [line for line in lines if line is not None]

    def _mark_words(self) -> str:
        return "" if self.mark is None else mark_words(self.asked, self.mark)

    def _cross(self) -> List[str]:
        return [cross(self.frame.spot(self.mark))] if self.mark is not None and self.frame.has(self.mark) else []

    def _trail(self) -> List[Line]:
        """The steps of the trail as far as the plane shows them."""
        points = self.asked.points()
        steps = [self.frame.line(start, end) for start, end in zip(points, points[1:])]
        return [step for step in steps if step is not None]

    def _trail_parts(self, trail: Sequence[Line]) -> List[str]:
        parts = [stroke(step, TRAIL_COLOUR, TRAIL_WIDTH, kind="trail") for step in trail]
        parts += [arrow(step, TRAIL_COLOUR) for step in trail]
        if self.asked.trail is not None and self.frame.has(self.asked.reserves):
            parts.append(circle(self.frame.spot(self.asked.reserves), 4.5, TRAIL_COLOUR, INK, 1))
        return parts

    # ------------------------------------------------------------------------------------------------------------ the bids

    def _marks(self) -> List[Mark]:
        """The signs of the bids that the plane shows, equal ones beside each other."""
        marks = []
        columns: Dict[Spot, int] = {}
        for dot, radius in zip(self.asked.dots, radii(self.asked.dots)):
            spot = self._spot(dot)
            if spot is not None:
                marks.append(Mark(spot, radius, dot))
                if dot.values[0] is None:
                    columns[spot] = max(1, int(STRIP / (2 * radius + 1)))
        outside = len(self.asked.dots) - len(marks)
        if outside:
            self.notes.append("%s outside of what the axes show." % counted(outside, "bid lies", "bids lie"))
        return spread(marks, columns)

    def _spot(self, dot: Dot) -> Optional[Spot]:
        """Where a bid stands: on the strip at the side where it leaves a good out; None where the plane doesn't show it."""
        first, second = dot.values
        frame = self.frame
        if (first is not None and not frame.across.has(first)) or (second is not None and not frame.up.has(second)):
            return None
        return (self._beside() + STRIP / 2 if first is None else frame.across.at(first),
                self._under() - STRIP / 2 if second is None else frame.up.at(second))

    def _facets(self) -> List[Tuple[Line, int]]:
        """The lines along which the bidder changes its mind, as far as the plane shows them, and of how many units."""
        if self.asked.bidder is None:
            return []
        found = [(_facet_line(self.frame, facet), facet.weight) for facet in facets_of(self.units, self.asked.cap)]
        return [(line, weight) for line, weight in found if line is not None]

    # --------------------------------------------------------------------------------------------------------- the regions

    def _regions(self, prices: Sequence[Line]) -> Iterator[Tuple[str, List[Spot]]]:
        """What is wanted or got in each region, and spots in it, those far from its edge first."""
        if self.asked.bidder is not None:
            cap = self.asked.cap
            found = self._cells(lambda at: wanted(self.units, cap, at))
            yield from [("%d, %d" % bundle, spots) for bundle, spots in found[:MOST_REGIONS]]
            self.labels.left_out += len(found[MOST_REGIONS:])
        elif prices and self.asked.prices is not None:
            first, second = self.asked.prices
            called = {(1, 0): self.goods[0], (0, 1): self.goods[1], (0, 0): "neither" if self.asked.others else "nothing"}
            found = self._cells(lambda at: _taken(at[0] - first, at[1] - second))
            yield from [(called[bundle], spots) for bundle, spots in found]

    def _cells(self, bundle_at: Callable[[Sequence[float]], Optional[Bundle]]) -> List[Tuple[Bundle, List[Spot]]]:
        """The regions of one bundle, the largest first, by looking near the middles of many cells."""
        count = FEW_CELLS if len(self.units) > MANY_BIDS else CELLS
        middles = [[axis.low + (axis.high - axis.low) * (at + MIDDLE) / count for at in range(count)]
                   for axis in (self.frame.across, self.frame.up)]
        aside = (self.frame.up.high - self.frame.up.low) * ASIDE / count
        bundles = {(i, j): bundle_at((middles[0][i], middles[1][j] + aside)) for i in range(count) for j in range(count)}
        regions = []
        for cells in _connected(bundles):
            spots = [self.frame.spot((middles[0][i], middles[1][j])) for i, j in spots_by_depth(cells)]
            bundle = bundles[cells[0]]
            assert bundle is not None
            regions.append((bundle, spots))
        return sorted(regions, key=lambda region: -len(region[1]))

    # ------------------------------------------------------------------------------------------------------------- the words

    def _title(self) -> str:
        goods = "%s and %s" % (self.goods[0], self.goods[1])
        if self.asked.bidder is not None:
            return "What %s wants of %s" % (self.asked.shown.bidder(self.asked.bidder), goods)
        if self.asked.prices is not None:
            return "Bids for %s, and who is filled" % goods
        return "Bids for %s" % goods

    def _told(self, marks: Sequence[Mark]) -> str:
        """The picture in a sentence or two, for those who don't see it."""
        amount = self.asked.shown.amount
        told = ["%s in the plane of the prices of %s and %s." % (counted(len(marks), "bid", "bids"), *self.goods)]
        told.append("The reserves are %s and %s." % (amount(self.asked.reserves[0]), amount(self.asked.reserves[1])))
        if self.asked.prices is not None:
            told.append("The prices are %s and %s." % (amount(self.asked.prices[0]), amount(self.asked.prices[1])))
            kinds = [mark.dot.kind for mark in marks]
            told.append("%s filled, %d in part, %d not." % (
                counted(kinds.count(FILLED), "bid is", "bids are"), kinds.count(PARTLY), kinds.count(UNFILLED)))
        elif self.mark is not None:
            told.append(self._mark_words() + ".")
        return " ".join(told)

    def _entries(self, marks: Sequence[Mark], facets: Sequence[Tuple[Line, int]], prices: Sequence[Line],
                 trail: Sequence[Line]) -> List[List[Entry]]:
        """The signs that occur."""
        return [bidder_entries(self.asked, marks, self.colours), bid_entries(self.asked, marks, self.colours),
                self._line_entries(facets, prices, trail)]

    def _line_entries(self, facets: Sequence[Tuple[Line, int]], prices: Sequence[Line], trail: Sequence[Line]) -> List[Entry]:
        entries = []
        if self._reserve_lines():
            entries.append(line_entry("reserve", width=1.3, dashes=RESERVE_DASHES))
        if prices:
            entries.append(line_entry("parts who gets which good", width=PRICE_WIDTH))
        if any(weight > 0 for _, weight in facets):
            entries.append(line_entry("change of mind, and of how many units", width=FACET_WIDTH))
        if any(weight < 0 for _, weight in facets):
            entries.append(line_entry("change of fewer than no units", width=FACET_WIDTH, dashes=NEGATIVE_DASHES))
        if self.asked.bidder is not None:
            entries.append(words_entry("1, 0", "units wanted of %s, of %s" % (self.goods[0], self.goods[1])))
        if trail:
            entries.append(line_entry("way of the prices from the reserves", TRAIL_COLOUR, TRAIL_WIDTH))
        if self.mark is not None and self.frame.has(self.mark):
            is_refused = isinstance(self.asked.outcome, Refused)
            entries.append(Entry(lambda spot: cross(spot, 5), "where the list fails" if is_refused else "prices"))
        if self.is_left or self.is_under:
            entries.append(Entry(_strip_sign, "bids that leave a good out"))
        return entries

    def _all_notes(self, marks: Sequence[Mark]) -> List[str]:
        notes = list(self.notes)
        asked = self.asked
        if not self.frame.is_even:
            notes.append("The two axes have different scales, so the slanted lines stand at no 45 degrees.")
        if asked.cap is not None:
            notes.append("Under a cap of %s." % counted(asked.cap, "unit", "units"))
        elif asked.bidder is None and any(mark.dot.bidder in asked.auction.caps for mark in marks) and asked.prices:
            notes.append("Bidders with a cap get no more than that, so their bids may be unfilled anywhere.")
        if len({mark.radius for mark in marks}) > 1:
            notes.append("The area of a bid's sign is by its weight.")
        notes += other_notes(asked)
        if self.mark is not None and not self.frame.has(self.mark):
            notes.append("%s, at prices that the axes don't show: %s." % (
                self._mark_words(), ", ".join(map(asked.shown.amount, self.mark))))
        if self.labels.left_out:
            notes.append("%s no room: prices go first, then regions, lines, and bids, the heaviest first." % counted(
                self.labels.left_out, "label had", "labels had"))
        return notes


# ---------------------------------------------------------------------------------------------------------- the plane

def _strip_sign(spot: Spot) -> str:
    x, y = spot
    return rectangle(Box(x - 9, y - 7, x + 9, y + 7), STRIP_GROUND, "#aaaaaa")


def _mark_of(asked: Asked) -> Optional[Tuple[int, ...]]:
    """The prices of the outcome, or those that show why a list was refused; without an outcome the end of the trail."""
    if isinstance(asked.outcome, Refused):
        return asked.of(asked.outcome.facet.prices)
    return asked.points()[-1] if asked.outcome is None and asked.trail is not None else asked.prices


def _frame(asked: Asked, mark: Optional[Tuple[int, ...]]) -> Frame:
    """The plane that shows all bids, the reserves, the prices and the trail, unless its ranges are given."""
    if asked.spans is not None:
        given = frame_of(asked.spans, True, (LEFT, BOTTOM))
        side = given.up.start - given.up.end
        return given if side == SIDE else frame_of(asked.spans, True, (LEFT, TOP + side))
    return frame_of([_range(asked, mark, at) for at in (0, 1)], False, (LEFT, BOTTOM))


def _range(asked: Asked, mark: Optional[Tuple[int, ...]], at: int) -> Range:
    values = [dot.values[at] for dot in asked.dots]
    prices = [value for value in values if value is not None] + [asked.reserves[at]]
    prices += [point[at] for point in asked.points()]
    if mark is not None and (not isinstance(asked.outcome, Refused) or is_near(mark[at], prices)):
        prices.append(mark[at])
    return range_of(prices)


def _facet_line(frame: Frame, facet: Facet) -> Optional[Line]:
    """Where a facet stands in the plane."""
    kind, place, low, high, _ = facet
    if kind == BOTH:
        low, high = max(low, frame.up.low, frame.across.low - place), min(high, frame.up.high, frame.across.high - place)
        return frame.line((low + place, low), (high + place, high)) if low < high else None
    along_axis = frame.up if kind == FIRST else frame.across
    low, high = max(low, along_axis.low), min(high, along_axis.high)
    if low >= high:
        return None
    return frame.line((place, low), (place, high)) if kind == FIRST else frame.line((low, place), (high, place))


def _taken(first: float, second: float) -> Optional[Bundle]:
    """Which good a bid takes of which these are left over, as a bundle of one unit."""
    if first < 0 and second < 0:
        return 0, 0
    return None if first == second else (1, 0) if first > second else (0, 1)


def _connected(bundles: "Dict[Tuple[int, int], Optional[Bundle]]") -> List[List[Tuple[int, int]]]:
    """The cells of one bundle that hang together; cells at which a bidder is torn are left out."""
    seen: "set[Tuple[int, int]]" = set()
    regions = []
    for cell, bundle in bundles.items():
        if bundle is not None and cell not in seen:
            region = _flood(bundles, cell)
            seen |= region
            regions.append(sorted(region))
    return regions


def _flood(bundles: "Dict[Tuple[int, int], Optional[Bundle]]", start: Tuple[int, int]) -> "set[Tuple[int, int]]":
    region, waiting = {start}, [start]
    while waiting:
        i, j = waiting.pop()
        for other in ((i - 1, j), (i + 1, j), (i, j - 1), (i, j + 1)):
            if other not in region and other in bundles and bundles[other] == bundles[start]:
                region.add(other)
                waiting.append(other)
    return region

