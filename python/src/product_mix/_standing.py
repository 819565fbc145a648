"""How bids stand at printed prices: filled, in part, or not, and what would fill them.

This is arithmetic on a bidder's own bids, the prices and what the bidder got. Which prices clear, and who gets what of
several bundles that are as good, is for the solver.
"""

from typing import Dict, FrozenSet, List, Mapping, NamedTuple, Optional, Sequence, Tuple

from ._auction import Auction, Bid
from ._outcome import Amounts, Choice, Cleared

FILLED, PARTLY, UNFILLED = "filled", "partly", "unfilled"


class Standing(NamedTuple):
    """How a bid stands: the choices that are best for it, what a unit of them leaves, and of which kind it is.

    ``below`` has for a bid that isn't wholly filled the price of each good below which it would be, the others as they are.
    """

    bid: Bid
    best: FrozenSet[Choice]
    gain: int
    kind: str
    below: Dict[str, int]


def gains_of(bid: Bid, goods: Sequence[str], prices: Amounts) -> Dict[str, int]:
    """What a unit of each good that the bid offers to take leaves."""
    return {good: value - prices[good] for good, value in zip(goods, bid.values) if value is not None}


def best_of(bid: Bid, goods: Sequence[str], prices: Amounts) -> Tuple[FrozenSet[Choice], int]:
    """The choices that leave most, None for nothing among them where no good leaves more; and what they leave."""
    gains: Dict[Choice, int] = {None: 0}
    for good, gain in gains_of(bid, goods, prices).items():
        gains[good] = gain
    most = max(gains.values())
    return frozenset([choice for choice, gain in gains.items() if gain == most]), most


def standings(auction: Auction, outcome: Cleared, bidder: str) -> List[Standing]:
    """How each bid of a bidder stands at the prices of an outcome."""
    goods, prices = auction.goods, outcome.prices
    cap = auction.caps.get(bidder)
    bids = [bid for bid in auction.bids if bid.bidder == bidder]
    margins = [max(gains_of(bid, goods, prices).values()) for bid in bids]
    ladder = _Ladder(bids, margins, cap, sum(outcome.shares[bidder].bundle.values()))
    found = []
    for bid, margin in zip(bids, margins):
        best, gain = best_of(bid, goods, prices)
        kind = ladder.kind_of(margin)
        below = {} if kind == FILLED else _below(bid, bids, goods, prices, cap)
        found.append(Standing(bid, best, gain, kind, below))
    return found


def _below(bid: Bid, bids: Sequence[Bid], goods: Sequence[str], prices: Amounts, cap: Optional[int]) -> Dict[str, int]:
    """The price of each good below which it alone would have the bid filled; none where the cap lets no price do so."""
    below = {}
    for at, good in enumerate(goods):
        value = bid.values[at]
        bar = None if value is None else _bar(value, at, bids, goods, prices, cap)
        if value is not None and bar is not None and value > bar:
            below[good] = value - bar
    return below


def _bar(value: int, at: int, bids: Sequence[Bid], goods: Sequence[str], prices: Amounts, cap: Optional[int]) -> Optional[int]:
    """What a unit of this value for a good has to leave to be served, whatever the good costs.

    Bids of a greater value for the good are served before it at any price of the good, and so go with it against the cap;
    others as far as they leave as much by other goods.
    """
    if cap is None:
        return 0
    room, others = cap, []
    for other in bids:
        own = other.values[at]
        if own is not None and own >= value:
            room -= other.weight
        else:
            rest = [gain for good, gain in gains_of(other, goods, prices).items() if good != goods[at]]
            others.append((max([0, *rest]), other.weight))
    for leaves, weight in sorted(others, reverse=True):
        if room < 0:
            return None
        room -= weight
        if room < 0:
            return leaves
    return None if room < 0 else 0


class _Ladder:
    """The units of a bidder's bids by what they leave, the greatest first; a cap ends it early."""

    def __init__(self, bids: Sequence[Bid], margins: Sequence[int], cap: Optional[int], units: int) -> None:
        self.weights: Dict[int, int] = {}
        for bid, margin in zip(bids, margins):
            self.weights[margin] = self.weights.get(margin, 0) + bid.weight
        self.cap = cap
        self.has_takers = any(bid.weight < 0 for bid, margin in zip(bids, margins) if margin == 0)
        self.at_the_price = units - self._above(0)

    def _above(self, margin: int) -> int:
        """How many units leave more, as far as the cap lets them be filled."""
        weight = sum(weight for other, weight in self.weights.items() if other > margin)
        return weight if self.cap is None else min(weight, self.cap)

    def kind_of(self, margin: int) -> str:
        if margin < 0:
            return UNFILLED
        if margin == 0:
            return self._kind_at_the_price()
        above = self._above(margin)
        if self.cap is None or above + self.weights[margin] <= self.cap:
            return FILLED
        return PARTLY if above < self.cap else UNFILLED

    def _kind_at_the_price(self) -> str:
        """Of bids that leave nothing: all are filled, none is, or some; where some of them take back it isn't told."""
        if self.has_takers:
            return PARTLY
        if self.at_the_price == self.weights[0]:
            return FILLED
        return PARTLY if self.at_the_price else UNFILLED


def torn(bids: Sequence[Bid], goods: Sequence[str], prices: Mapping[str, int], choices: FrozenSet[Choice]) -> List[Bid]:
    """The bids for which at prices exactly these choices are best."""
    return [bid for bid in bids if best_of(bid, goods, prices)[0] == choices]
