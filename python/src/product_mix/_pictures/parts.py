"""What the pictures of one good and of two share."""

import math
from typing import Dict, List, Optional, Sequence

from .._errors import counted
from .._outcome import Cleared, Refused
from .._standing import FILLED
from .asked import OPEN, Asked, Dot
from .legend import Entry, swatch_entry
from .marks import CALLED, FURTHER, Mark, sign
from .svg import SMALL, Box, Line, polygon, width_of, words

RESERVE_DASHES = "2 4"
TRAIL_COLOUR = "#888888"
PRICE_WIDTH, TRAIL_WIDTH = 2.5, 4


def mark_words(asked: Asked, prices: Sequence[int]) -> str:
    """What is written at the prices of the outcome, or where a list was refused."""
    outcome = asked.outcome
    if isinstance(outcome, Refused):
        return "%s refused: %d" % (asked.shown.bidder(outcome.bidder), outcome.facet.weight)
    return "price %s" % ", ".join(map(asked.shown.amount, prices))


def told_of(asked: Asked, dot: Dot) -> str:
    """A bid in a line: its bidder, its weight, its values, and how it stands."""
    shown = asked.shown
    values = ["%s %s" % (shown.good(good), shown.amount(value)) for good, value in zip(asked.goods, dot.values)
              if value is not None]
    kind = "" if dot.kind == OPEN else ": " + CALLED[dot.kind, dot.weight < 0]
    return "%s, %d, %s%s" % (shown.bidder(dot.bidder), dot.weight, " or ".join(values), kind)


def bidder_entries(asked: Asked, marks: Sequence[Mark], colours: Dict[str, str]) -> List[Entry]:
    """The colours of the bidders who occur, and one for all further ones."""
    if asked.bidder is not None:
        return []
    occurring = {mark.dot.bidder for mark in marks}
    names = [name for name in asked.auction.bidders if name in occurring]
    own = [name for name in names if colours[name] != FURTHER]
    entries = [swatch_entry(asked.shown.bidder(name), colours[name]) for name in own]
    further = len(names) - len(own)
    if further:
        entries.append(swatch_entry(counted(further, "further bidder", "further bidders"), FURTHER))
    return entries


def bid_entries(asked: Asked, marks: Sequence[Mark], colours: Dict[str, str]) -> List[Entry]:
    """The signs of bids that occur."""
    colour = "#777777" if asked.bidder is None else colours[asked.bidder]
    occurring = {(mark.dot.kind, mark.dot.weight < 0) for mark in marks}
    return [_bid_entry(kind, is_negative, colour) for kind, is_negative in CALLED if (kind, is_negative) in occurring]


def _bid_entry(kind: str, is_negative: bool, colour: str) -> Entry:
    return Entry(lambda spot: sign(spot, 6, kind, is_negative, colour), CALLED[kind, is_negative])


def other_notes(asked: Asked) -> List[str]:
    """At which prices of the goods that aren't drawn the picture holds."""
    if not asked.others or not isinstance(asked.outcome, Cleared):
        return []
    prices = asked.outcome.prices
    told = ", ".join("%s %s" % (asked.shown.good(good), asked.shown.amount(prices[good])) for good in asked.others)
    notes = ["At the printed prices of the other goods: %s." % told,
             "What the best of them leaves a bid is taken off its values."]
    if any(dot.kind == FILLED and _takes_none(dot, asked.prices) for dot in asked.dots):
        notes.append("A bid that is filled where it would take no good that is drawn gets another.")
    left = sum(asked.bidder in (None, bid.bidder) for bid in asked.auction.bids) - len(asked.dots)
    if left:
        notes.append("%s no good that is drawn." % counted(left, "bid offers to take", "bids offer to take"))
    return notes


def _takes_none(dot: Dot, prices: Optional[Sequence[int]]) -> bool:
    """Whether a bid takes no good that is drawn: each costs more than what is left of its value."""
    return prices is not None and all(value is None or value < price for value, price in zip(dot.values, prices))


def beside(content: str, box: Box, y: float) -> str:
    """A text that stands turned to the right of the plane, at a height, and not on the numbers under it."""
    half = width_of(content, SMALL) / 2
    return words((box.right + 16, min(max(y, box.top + half), box.bottom - half)), content, SMALL, turned=True)


def arrow(line: Line, colour: str) -> str:
    """The head of an arrow in the middle of a line, which points to its end; none where the line is short."""
    (x, y), (to_x, to_y) = line
    length = math.hypot(to_x - x, to_y - y)
    if length < 24:
        return ""
    right, down = (to_x - x) / length, (to_y - y) / length
    tip = ((x + to_x) / 2 + 8 * right, (y + to_y) / 2 + 8 * down)
    back = (tip[0] - 14 * right, tip[1] - 14 * down)
    return polygon([tip, (back[0] - 7 * down, back[1] + 7 * right), (back[0] + 7 * down, back[1] - 7 * right)], colour)


def signed(amount: str) -> str:
    """An amount with a true minus, which is wider than a hyphen."""
    return amount.replace("-", "\u2212")


def sides(box: Box) -> List[Line]:
    corners = [(box.left, box.top), (box.right, box.top), (box.right, box.bottom), (box.left, box.bottom)]
    return list(zip(corners, [*corners[1:], corners[0]]))


def is_near(price: int, prices: Sequence[int]) -> bool:
    """Whether a price lies no farther out than the others reach; a place that shows a refusal may lie anywhere."""
    return 2 * min(prices) - max(prices) - 10 <= price <= 2 * max(prices) + 10
