"""One good: the steps of demand, the supply and the price."""

from typing import Dict, List, NamedTuple, Optional, Sequence, Tuple

from .._errors import counted
from .._outcome import Refused
from .._standing import FILLED, PARTLY, UNFILLED
from .asked import OPEN, Asked, Dot
from .axes import Frame, Range, axis_up, range_of
from .facets import SECOND, Unit, facets_of
from .labels import Labels, around
from .legend import Entry, legend, line_entry
from .marks import Mark, colours_of, cross, named_sign, opacity_of
from .parts import (
    PRICE_WIDTH, RESERVE_DASHES, TRAIL_COLOUR, TRAIL_WIDTH, arrow, beside, bid_entries, bidder_entries, is_near,
    mark_words, other_notes, sides, signed, told_of,
)
from .svg import (
    FAINT, FONT, INK, SMALL, Box, Line, Spot, circle, document, rectangle, stroke, words,
)

WIDTH = 600
# The corners of the plane.
LEFT, TOP, RIGHT, BOTTOM = 86, 60, 546, 400
SUPPLY_DASHES = "10 3 2 3"
STAIRS_WIDTH = 2
MOST_RADIUS, LEAST_RADIUS = 9.0, 2.0
# So many steps are named at most, the widest first.
MOST_NAMED = 60
# Of equal values those that are filled stand first.
_ORDER = (FILLED, OPEN, PARTLY, UNFILLED)


class Step(NamedTuple):
    """A step: the bid that it is of, its value, and from which to which number of units it goes."""

    dot: Dot
    value: int
    start: int
    end: int


def stairs_of(asked: Asked) -> str:
    """The picture of one good."""
    return _Stairs(asked).drawn()


def steps_of(asked: Asked) -> List[Step]:
    """The steps of demand: bids by their values, the greatest first, each bidder's as far as its cap goes."""
    names = asked.auction.bidders if asked.bidder is None else [asked.bidder]
    blocks = [block for name in names for block in _blocks_of(asked, name)]
    places = {name: at for at, name in enumerate(asked.auction.tie_order)}
    steps: List[Step] = []
    units = 0
    for value, dot in sorted(blocks, key=lambda block: (-block[0], _ORDER.index(block[1].kind), places[block[1].bidder])):
        steps.append(Step(dot, value, units, units + dot.weight))
        units += dot.weight
    return steps


def _blocks_of(asked: Asked, name: str) -> List[Tuple[int, Dot]]:
    """What a bidder adds to demand: at which prices of the good, and how many units."""
    cap = asked.auction.caps.get(name)
    units = asked.units_of(name)
    if cap is None or all(rest is None for _, rest, _ in units):
        return _blocks([dot for dot in asked.dots if dot.bidder == name], cap)
    return _blocks_beside_others(asked, name, units, cap)


def _blocks_beside_others(asked: Asked, name: str, units: Sequence[Unit], cap: int) -> List[Tuple[int, Dot]]:
    """The steps of a bidder whose cap other goods use up too, at their printed prices.

    They are its changes of mind where a second good costs nothing, and is worth to each bid what the others leave it. A step
    is then of no one bid; it is filled where it is above the price.
    """
    blocks = []
    for facet in facets_of(units, cap):
        if facet.kind != SECOND and facet.low < 0 < facet.high:
            kind = _kind_at(facet.place, asked.prices)
            blocks.append((facet.place, Dot(name, (facet.place,), facet.weight, kind)))
    return blocks


def _kind_at(value: int, prices: Optional[Tuple[int, ...]]) -> str:
    if prices is None:
        return OPEN
    return PARTLY if value == prices[0] else FILLED if value > prices[0] else UNFILLED


def _blocks(dots: Sequence[Dot], cap: Optional[int]) -> List[Tuple[int, Dot]]:
    """The bids of a bidder with their values: those on one value as one where some take back, and as far as a cap goes."""
    by_value: Dict[int, List[Dot]] = {}
    for dot in dots:
        value = dot.values[0]
        if value is not None:
            by_value.setdefault(value, []).append(dot)
    blocks = []
    room = cap
    for value in sorted(by_value, reverse=True):
        for dot in _together(by_value[value]):
            weight = dot.weight if room is None else min(room, dot.weight)
            room = None if room is None else room - weight
            if weight:
                blocks.append((value, dot._replace(weight=weight)))
    return blocks


def _together(dots: List[Dot]) -> List[Dot]:
    if all(dot.weight > 0 for dot in dots):
        return dots
    return [dots[0]._replace(weight=sum(dot.weight for dot in dots))]


class _Stairs:
    """The picture, part by part."""

    def __init__(self, asked: Asked) -> None:
        self.asked = asked
        self.good = asked.shown.good(asked.goods[0])
        self.colours = colours_of(asked.auction.bidders)
        steps = steps_of(asked)
        # No price is below 0, so whoever is worth less than that by this good takes another at any price of it.
        self.steps = [step for step in steps if step.value >= 0]
        self.below = len(steps) - len(self.steps)
        self.supply = asked.auction.supply[asked.auction.goods.index(asked.goods[0])]
        self.mark = _mark_of(asked)
        self.frame = self._frame()
        self.labels = Labels(self.frame.box)

    def _frame(self) -> Frame:
        units = [0, *[step.end for step in self.steps], *([] if self.asked.bidder else [self.supply])]
        prices = [step.value for step in self.steps] + [self.asked.reserves[0]] + [at for at, in self.asked.points()]
        if self.mark is not None and (not isinstance(self.asked.outcome, Refused) or is_near(self.mark, prices)):
            prices.append(self.mark)
        shown: Range = self.asked.spans[0] if self.asked.spans is not None else range_of(prices)
        return Frame(axis_up(range_of(units), LEFT, RIGHT), axis_up(shown, BOTTOM, TOP), False)

    # --------------------------------------------------------------------------------------------------------- the whole

    def drawn(self) -> str:
        """The picture: what is drawn first lies under what comes after."""
        marks = self._marks()
        opacity = opacity_of(len(marks))
        parts = [*self._columns(), *self._grid(), *self._lines()]
        parts += [named_sign(mark, told_of(self.asked, mark.dot), self.colours[mark.dot.bidder], opacity) for mark in marks]
        parts += self._cross()
        self._write_labels(marks)
        entries, bottom = legend(self._entries(marks), self._notes(marks), LEFT, WIDTH - 14, BOTTOM + 76)
        title = self.asked.title or self._title()
        head = words((LEFT, 26), title, 16, anchor="start", weight="bold")
        return document(WIDTH, bottom + 4, title, self._told(), [head, *parts, *self.labels.drawn, *entries])

    def _title(self) -> str:
        if self.asked.bidder is not None:
            return "What %s wants of %s" % (self.asked.shown.bidder(self.asked.bidder), self.good)
        return "Demand and supply of %s" % self.good

    def _told(self) -> str:
        amount = self.asked.shown.amount
        told = ["%s of demand by price." % counted(len(self.steps), "step", "steps")]
        told.append("%s for sale, the reserve is %s." % (
            counted(self.supply, "unit is", "units are"), amount(self.asked.reserves[0])))
        if self.mark is not None:
            told.append(mark_words(self.asked, (self.mark,)) + ".")
        return " ".join(told)

    # ---------------------------------------------------------------------------------------------------------- the parts

    def _columns(self) -> List[str]:
        """Under each step its units, in the colour of its bidder."""
        parts = []
        for step in self.steps:
            top = min(step.value, self.frame.up.high)
            if top > self.frame.up.low:
                left, right = sorted(map(self.frame.across.at, (step.start, step.end)))
                box = Box(left, self.frame.up.at(top), right, self.frame.box.bottom)
                parts.append(rectangle(box, self.colours[step.dot.bidder], opacity=0.3))
        return parts

    def _grid(self) -> List[str]:
        """The grid, the sides, and the numbers and names of the axes."""
        frame, box, shown = self.frame, self.frame.box, self.asked.shown
        parts = []
        for tick in frame.across.ticks():
            parts.append(words((frame.across.at(tick), box.bottom + 18), str(tick), SMALL))
        for tick in frame.up.ticks():
            y = frame.up.at(tick)
            parts.append(stroke(((box.left, y), (box.right, y)), FAINT))
            parts.append(words((box.left - 8, y + 4), signed(shown.amount(tick)), SMALL, anchor="end"))
        parts += [stroke(side) for side in sides(box)]
        money = " (%s)" % shown.currency if shown.currency else ""
        return [*parts, words(((box.left + box.right) / 2, box.bottom + 40), "units of %s" % self.good),
                words((22, (box.top + box.bottom) / 2), "price%s" % money, turned=True)]

    def stairs(self) -> List[Tuple[int, int]]:
        """The corners of demand: units and prices, from the dearest step down."""
        corners = []
        for step in self.steps:
            corners += [(step.start, step.value), (step.end, step.value)]
        return corners

    def _stair_lines(self) -> List[Line]:
        """The stairs as far as the plane shows them, down to no demand beyond the last step."""
        corners: List[Tuple[float, float]] = [*self.stairs()]
        if corners:
            corners = [(corners[0][0], self.frame.up.high), *corners, (corners[-1][0], self.frame.up.low)]
        lines = [self.frame.line(start, end) for start, end in zip(corners, corners[1:])]
        return [line for line in lines if line is not None]

    def _across(self, price: float) -> List[Line]:
        line = self.frame.line((self.frame.across.low, price), (self.frame.across.high, price))
        return [] if line is None else [line]

    def _supply_lines(self) -> List[Line]:
        """The supply: none below the reserve, and all of it above."""
        if self.asked.bidder is not None:
            return []
        reserve = self.asked.reserves[0]
        lines = [self.frame.line((0, reserve), (self.supply, reserve)),
                 self.frame.line((self.supply, reserve), (self.supply, max(reserve, self.frame.up.high)))]
        return [line for line in lines if line is not None]

    def _price_lines(self) -> List[Line]:
        """The price, unless it is the place of a refusal."""
        return [] if self.mark is None or isinstance(self.asked.outcome, Refused) else self._across(self.mark)

    def _lines(self) -> List[str]:
        parts = [stroke(line, INK, 1.3, RESERVE_DASHES, "reserve") for line in self._across(self.asked.reserves[0])]
        parts += [stroke(line, INK, STAIRS_WIDTH, kind="demand") for line in self._stair_lines()]
        parts += [stroke(line, INK, PRICE_WIDTH, SUPPLY_DASHES, "supply") for line in self._supply_lines()]
        parts += [stroke(line, INK, PRICE_WIDTH + 1.5, kind="price") for line in self._price_lines()]
        parts += self._trail_parts()
        return parts

    def _trail(self) -> List[Line]:
        points = [at for at, in self.asked.points()]
        low = self.frame.across.low
        steps = [self.frame.line((low, start), (low, end)) for start, end in zip(points, points[1:])]
        return [step for step in steps if step is not None]

    def _trail_parts(self) -> List[str]:
        parts = []
        for step in self._trail():
            parts += [stroke(step, TRAIL_COLOUR, TRAIL_WIDTH, kind="trail"), arrow(step, TRAIL_COLOUR)]
        reserve = self.asked.reserves[0]
        if self.asked.trail is not None and self.frame.up.has(reserve):
            parts.append(circle(self.frame.spot((self.frame.across.low, reserve)), 4.5, TRAIL_COLOUR, INK, 1))
        return parts

    def _marks(self) -> List[Mark]:
        """A sign in the middle of each step."""
        marks = []
        for step in self.steps:
            middle = ((step.start + step.end) / 2, step.value)
            wide = abs(self.frame.across.at(step.end) - self.frame.across.at(step.start))
            if self.frame.has(middle):
                marks.append(Mark(self.frame.spot(middle), max(LEAST_RADIUS, min(MOST_RADIUS, wide / 2.6)), step.dot))
        return marks

    def _cross(self) -> List[str]:
        """Where a list was refused."""
        if not isinstance(self.asked.outcome, Refused) or self.mark is None or not self.frame.up.has(self.mark):
            return []
        return [stroke(line, INK, 1.5, "6 4") for line in self._across(self.mark)] + [cross(self._mark_spot(self.mark))]

    def _mark_spot(self, price: int) -> Spot:
        return self.frame.box.right - 12, self.frame.up.at(price)

    # --------------------------------------------------------------------------------------------------------- the labels

    def _write_labels(self, marks: Sequence[Mark]) -> None:
        """Labels in the order in which they matter: the price, the supply, and the steps, the widest first."""
        labels, frame, amount = self.labels, self.frame, self.asked.shown.amount
        labels.lines += [*self._stair_lines(), *self._price_lines()]
        labels.faint += [*self._across(self.asked.reserves[0]), *self._supply_lines(), *sides(frame.box)]
        labels.boxes += [Box(x - r, y - r, x + r, y + r) for (x, y), r, _ in marks]
        if self.mark is not None and frame.up.has(self.mark):
            said = mark_words(self.asked, (self.mark,))
            x, y = self._mark_spot(self.mark)
            spots = [(x - 60 - 40 * left, y + up) for left in range(9) for up in (-12, 13)]
            labels.put(said, spots, FONT, "bold")
        if self._supply_lines() and frame.across.has(self.supply):
            x = frame.across.at(self.supply)
            said = "supply %d" % self.supply
            labels.put(said, [(x + side * 48, frame.box.top + 14 + 20 * down) for down in range(6) for side in (1, -1)], SMALL)
        for line in self._across(self.asked.reserves[0]):
            self.labels.drawn.append(beside("reserve %s" % amount(self.asked.reserves[0]), frame.box, line[1][1]))
        self._name_steps(marks)

    def _name_steps(self, marks: Sequence[Mark]) -> None:
        named = sorted(marks, key=lambda mark: -abs(mark.dot.weight))
        for mark in named[:MOST_NAMED]:
            name = self.asked.shown.bidder(mark.dot.bidder)
            content = str(mark.dot.weight) if self.asked.bidder else "%s %d" % (name, mark.dot.weight)
            self.labels.put(content, around(mark.spot, mark.radius, content, SMALL), SMALL, style="italic")
        self.labels.left_out += len(named[MOST_NAMED:])

    def _entries(self, marks: Sequence[Mark]) -> List[List[Entry]]:
        """The signs that occur."""
        lines = []
        if self._stair_lines():
            lines.append(line_entry("demand", width=STAIRS_WIDTH))
        if self._supply_lines():
            lines.append(line_entry("supply", width=PRICE_WIDTH, dashes=SUPPLY_DASHES))
        if self._across(self.asked.reserves[0]):
            lines.append(line_entry("reserve", width=1.3, dashes=RESERVE_DASHES))
        if self._price_lines():
            lines.append(line_entry("price", width=PRICE_WIDTH + 1.5))
        if self._trail():
            lines.append(line_entry("way of the price from the reserve", TRAIL_COLOUR, TRAIL_WIDTH))
        if self._cross():
            lines.append(Entry(lambda spot: cross(spot, 5), "where the list fails"))
        return [bidder_entries(self.asked, marks, self.colours), bid_entries(self.asked, marks, self.colours), lines]

    def _notes(self, marks: Sequence[Mark]) -> List[str]:
        notes = []
        if len(marks) < len(self.steps):
            notes.append("%s outside of what the axes show." % counted(
                len(self.steps) - len(marks), "step lies", "steps lie"))
        if self.below:
            notes.append("%s it at no price, as other goods leave more." % counted(self.below, "bid takes", "bids take"))
        capped = [name for name in self.asked.auction.caps if self.asked.bidder in (None, name)]
        if capped:
            notes.append("Of a bidder with a cap only as many units are drawn as its cap allows.")
        notes += other_notes(self.asked)
        if self.mark is not None and not self.frame.up.has(self.mark):
            notes.append("%s, at a price that the axis doesn't show: %s." % (
                mark_words(self.asked, (self.mark,)), self.asked.shown.amount(self.mark)))
        if self.labels.left_out:
            notes.append("%s no room: wide steps are named before narrow ones." % counted(
                self.labels.left_out, "label had", "labels had"))
        return notes


def _mark_of(asked: Asked) -> Optional[int]:
    """The price of the outcome, or the one that shows why a list was refused; without an outcome the end of the trail."""
    if isinstance(asked.outcome, Refused):
        return asked.of(asked.outcome.facet.prices)[0]
    if asked.outcome is None and asked.trail is not None:
        return asked.points()[-1][0]
    return None if asked.prices is None else asked.prices[0]

