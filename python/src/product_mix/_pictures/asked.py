"""What is to be drawn, looked at and made ready: whatever can't be drawn is refused here."""

from dataclasses import dataclass
from typing import Dict, Iterable, List, NamedTuple, Optional, Sequence, Tuple, Union

from .._answers import Trail
from .._auction import Auction, Bid
from .._errors import FormError, counted
from .._outcome import Amounts, Cleared, Outcome, Refused
from .._shown import Shown
from .._standing import standings
from .axes import Range

# Of numbers beyond this no two neighbours could be told apart.
MOST = 10**12
# How a bid stands where no outcome says how.
OPEN = "open"

#: The names of the goods that are drawn, and for each axis from which to which price it goes.
Goods = Optional[Sequence[str]]
Spans = Optional[Sequence[Tuple[int, int]]]


class Dot(NamedTuple):
    """A bid as it is drawn: its values for the goods that are drawn, for how many units, and how it stands.

    Where there are other goods, what the best of them leaves the bid at its price, if it is more than nothing, is taken
    off the values: the bid takes a good that is drawn where this price is below the value that is left.
    """

    bidder: str
    values: Tuple[Optional[int], ...]
    weight: int
    kind: str


@dataclass(frozen=True)
class Asked:
    """A picture that can be drawn."""

    auction: Auction
    outcome: Union[Cleared, Refused, None]
    bidder: Optional[str]
    goods: Tuple[str, ...]
    trail: Optional[Trail]
    spans: Optional[Tuple[Range, ...]]
    title: Optional[str]
    shown: Shown
    dots: Tuple[Dot, ...]

    @property
    def reserves(self) -> Tuple[int, ...]:
        """The reserves of the goods that are drawn."""
        return tuple(self.auction.reserve[self.auction.goods.index(good)] for good in self.goods)

    @property
    def prices(self) -> Optional[Tuple[int, ...]]:
        """The printed prices of the goods that are drawn."""
        return self.of(self.outcome.prices) if isinstance(self.outcome, Cleared) else None

    @property
    def cap(self) -> Optional[int]:
        """The cap of the bidder that is drawn, where it changes anything."""
        cap = None if self.bidder is None else self.auction.caps.get(self.bidder)
        return None if cap is None or cap >= sum(dot.weight for dot in self.dots) else cap

    @property
    def others(self) -> Tuple[str, ...]:
        """The goods that aren't drawn."""
        return tuple(good for good in self.auction.goods if good not in self.goods)

    def of(self, amounts: Amounts) -> Tuple[int, ...]:
        """Of amounts by good those of the goods that are drawn."""
        return tuple(amounts[good] for good in self.goods)

    def units_of(self, bidder: str) -> "List[Tuple[Optional[int], Optional[int], int]]":
        """Of each bid its value for the first good that is drawn, what it gains by goods that aren't, or None where that is
        nothing, and its weight."""
        place = self.auction.goods.index(self.goods[0])
        return [(bid.values[place], _rest(bid, self.auction, self.outcome, self.goods) or None, bid.weight)
                for bid in self.auction.bids if bid.bidder == bidder]

    def points(self) -> List[Tuple[int, ...]]:
        """The prices of the trail, of the goods that are drawn."""
        return [] if self.trail is None else [self.of(prices) for prices in self.trail.points(self.auction)]


def asked(auction: Auction, outcome: Union[Cleared, Refused, None], bidder: Optional[str], goods: Goods,
          trail: Optional[Trail], span: Spans, title: Optional[str], shown: Shown) -> Asked:
    """What is asked for, or a ``FormError`` where it can't be drawn."""
    auction = _auction(auction)
    outcome = None if outcome is None else _outcome(auction, outcome)
    if trail is not None:
        _look_at_trail(auction, outcome, trail)
    if bidder is not None and bidder not in auction.bidders:
        raise FormError("nobody who bids is called %s" % bidder)
    chosen = _goods(auction, outcome, goods)
    dots = _dots(auction, outcome, bidder, chosen)
    return Asked(auction, outcome, bidder, chosen, trail, _spans(span, chosen), title, shown, dots)


# ----------------------------------------------------------------------------------------------------------- the auction

def _auction(auction: Auction) -> Auction:
    """The auction with plain numbers, of a form that can be drawn; what else is wrong with it the program says."""
    if not isinstance(auction, Auction):
        raise FormError("%s is no auction" % type(auction).__name__)
    auction = Auction.read(auction.text().encode("ascii"))
    if not auction.goods:
        raise FormError("an auction without goods has no picture")
    for what, names in (("goods", auction.goods), ("bidders in the tie order", auction.tie_order)):
        if len(set(names)) < len(names):
            raise FormError("two %s have one name" % what)
    for what, numbers in (("supply", auction.supply), ("reserve", auction.reserve), ("a cap", auction.caps.values())):
        _look_at_numbers(what, numbers)
    for bid in auction.bids:
        _look_at_bid(bid)
    for name in auction.caps:
        if any(bid.weight < 0 for bid in auction.bids if bid.bidder == name):
            raise FormError("%s has a cap and a bid of negative weight" % name)
    return auction


def _look_at_bid(bid: Bid) -> None:
    values = [value for value in bid.values if value is not None]
    if not values:
        raise FormError("a bid of %s offers to take no good" % bid.bidder, bid=bid)
    if not bid.weight:
        raise FormError("a bid of %s has the weight 0" % bid.bidder, bid=bid)
    _look_at_numbers("a value of %s" % bid.bidder, values)
    _look_at_numbers("a weight of %s" % bid.bidder, [abs(bid.weight)])


def _look_at_numbers(what: str, numbers: Iterable[int]) -> None:
    for number in numbers:
        if not 0 <= number <= MOST:
            raise FormError("%s is %d, and a picture goes from 0 to %d" % (what, number, MOST))


def _goods(auction: Auction, outcome: Union[Cleared, Refused, None], goods: Goods) -> Tuple[str, ...]:
    """The goods that are drawn: one or two."""
    if goods is None:
        if len(auction.goods) > 2:
            raise FormError("a picture is of one good or two, and this auction has %d: name those that are drawn, as %s"
                            % (len(auction.goods), ",".join(auction.goods[:2])))
        return tuple(auction.goods)
    chosen = tuple(goods)
    for good in chosen:
        if good not in auction.goods:
            raise FormError("no good is called %s" % good)
    if len(chosen) not in (1, 2) or len(set(chosen)) < len(chosen):
        raise FormError("a picture is of one good or of two different ones")
    if len(chosen) < len(auction.goods) and not isinstance(outcome, Cleared):
        raise FormError("goods that aren't drawn stand at their printed prices: an outcome is wanted, one that cleared")
    return chosen


def _spans(span: Spans, goods: Tuple[str, ...]) -> Optional[Tuple[Range, ...]]:
    """A range for each axis of a price; one that is given alone is that of both."""
    if span is None:
        return None
    ranges = [(low, high) for low, high in span]
    if len(ranges) == 1:
        ranges *= len(goods)
    if len(ranges) != len(goods):
        raise FormError("there are %d ranges for %s of prices" % (len(ranges), counted(len(goods), "axis", "axes")))
    for low, high in ranges:
        if not -MOST <= low < high <= MOST:
            raise FormError("a range goes from a price to a greater one, between -%d and %d" % (MOST, MOST))
    return tuple(ranges)


# ------------------------------------------------------------------------------------------- what belongs to an auction

def _outcome(auction: Auction, outcome: Union[Cleared, Refused]) -> Union[Cleared, Refused]:
    """The outcome with plain numbers, of this auction as far as names and sums tell."""
    if not isinstance(outcome, (Cleared, Refused)):
        raise FormError("%s is no outcome" % type(outcome).__name__)
    try:
        outcome = Outcome.read(outcome.text(auction).encode("ascii"), auction)
    except FormError as error:
        raise FormError("the outcome is of another auction: %s" % error) from None
    why = _why_not_refused(auction, outcome) if isinstance(outcome, Refused) else _why_not_cleared(auction, outcome)
    if why is not None:
        raise FormError("the outcome is of another auction: %s" % why)
    return outcome


def _why_not_refused(auction: Auction, outcome: Refused) -> Optional[str]:
    if outcome.bidder not in auction.bidders:
        return "nobody who bids is called %s" % outcome.bidder
    for choice in outcome.facet.choices:
        if choice is not None and choice not in auction.goods:
            return "no good is called %s" % choice
    is_near = all(-MOST <= price <= MOST for price in outcome.facet.prices.values())
    return None if is_near else "a price is too great"


def _why_not_cleared(auction: Auction, outcome: Cleared) -> Optional[str]:
    """Why an outcome isn't of this auction, as far as names and sums tell; whether it is true the checker says."""
    if tuple(outcome.shares) != auction.bidders:
        return "its shares are not of %s" % (", ".join(auction.bidders) or "nobody")
    for good, supply, reserve in zip(auction.goods, auction.supply, auction.reserve):
        units = outcome.sold[good] + outcome.returns[good]
        if units != supply:
            return "shares and returns of %s are %d, and %d are for sale" % (good, units, supply)
        if not reserve <= outcome.prices[good] <= MOST:
            return "the price of %s is %d, and its reserve %d" % (good, outcome.prices[good], reserve)
    return None


def _look_at_trail(auction: Auction, outcome: Union[Cleared, Refused, None], trail: Trail) -> None:
    """Whether a trail is of this auction, as far as its goods and its last prices tell."""
    if not isinstance(trail, Trail):
        raise FormError("%s is no trail" % type(trail).__name__)
    known = set(auction.goods)
    is_known = set(trail.prices) == known and all(step.goods <= known and step.length > 0 for step in trail.steps)
    if not is_known or trail.points(auction)[-1] != dict(trail.prices):
        raise FormError("the trail is of another auction: it doesn't lead from the reserves to its prices")
    if isinstance(outcome, Cleared) and dict(trail.prices) != dict(outcome.prices):
        raise FormError("the trail doesn't lead to the prices of the outcome")


# -------------------------------------------------------------------------------------------------------------- the bids

def _dots(auction: Auction, outcome: Union[Cleared, Refused, None], bidder: Optional[str],
          goods: Tuple[str, ...]) -> Tuple[Dot, ...]:
    """The bids that offer to take a good that is drawn, as they are drawn."""
    places = [auction.goods.index(good) for good in goods]
    kinds = _kinds(auction, outcome)
    dots = []
    for at, bid in enumerate(auction.bids):
        rest = _rest(bid, auction, outcome, goods)
        if rest and len(goods) > 1 and bid.bidder == bidder and bidder in auction.caps:
            raise FormError("%s has a cap and gains by other goods: what it wants of these two alone isn't drawn" % bidder)
        values = tuple(_less(bid.values[place], rest) for place in places)
        if bidder in (None, bid.bidder) and any(value is not None for value in values):
            dots.append(Dot(bid.bidder, values, bid.weight, kinds[at]))
    return tuple(dots)


def _less(value: Optional[int], rest: int) -> Optional[int]:
    return None if value is None else value - rest


def _rest(bid: Bid, auction: Auction, outcome: Union[Cleared, Refused, None], goods: Tuple[str, ...]) -> int:
    """What the best good that isn't drawn leaves a bid at its printed price, or 0 where that is less."""
    if not isinstance(outcome, Cleared):
        return 0
    gains = [value - outcome.prices[good] for good, value in zip(auction.goods, bid.values)
             if value is not None and good not in goods]
    return max([0, *gains])


def _kinds(auction: Auction, outcome: Union[Cleared, Refused, None]) -> List[str]:
    """How each bid stands."""
    if not isinstance(outcome, Cleared):
        return [OPEN] * len(auction.bids)
    found: Dict[str, List[str]] = {
        name: [standing.kind for standing in standings(auction, outcome, name)] for name in auction.bidders}
    return [found[bid.bidder].pop(0) for bid in auction.bids]
