"""Tiny auctions solved from the definitions alone, by trying all prices and all allocations."""

from itertools import product
from typing import Dict, Iterator, List, NamedTuple, Optional, Sequence, Tuple

from product_mix import Auction, Bid

Vector = Tuple[int, ...]


class Solution(NamedTuple):
    prices: Vector
    bundles: Dict[str, Vector]
    payments: Dict[str, int]


def dot(prices: Vector, bundle: Vector) -> int:
    return sum(price * units for price, units in zip(prices, bundle))


def gain(bid: Bid, prices: Vector) -> int:
    """What a unit of a bid gains at prices: the most that a good leaves of its value, or nothing."""
    return max(0, *[value - price for value, price in zip(bid.values, prices) if value is not None])


def utility(bids: Sequence[Bid], cap: Optional[int], prices: Vector) -> int:
    """The weights times the gains; under a cap the greatest gains of so many units."""
    if cap is None:
        return sum(bid.weight * gain(bid, prices) for bid in bids)
    gains = sorted([gain(bid, prices) for bid in bids for _ in range(bid.weight)], reverse=True)
    return sum(gains[:cap])


def facet_weight(bids: Sequence[Bid], goods: Sequence[str], choices: Sequence[Optional[str]], prices: Vector) -> int:
    """The weight of the bids of which the best choices at the prices are exactly these two."""
    total = 0
    for bid in bids:
        gains: Dict[Optional[str], int] = {None: 0}
        for good, value, price in zip(goods, bid.values, prices):
            if value is not None:
                gains[good] = value - price
        best = [choice for choice, left in gains.items() if left == max(gains.values())]
        total += bid.weight * (set(best) == set(choices))
    return total


class Demand:
    """What a bidder demands: a bundle is demanded at prices where no other prices show that it is worth less."""

    def __init__(self, auction: Auction, bidder: str) -> None:
        bids = [bid for bid in auction.bids if bid.bidder == bidder]
        most = max([value for bid in auction.bids for value in bid.values if value is not None] + list(auction.reserve))
        # Prices that show it stand next to those that are looked at.
        box = list(product(range(-1, most + 3), repeat=len(auction.goods)))
        self.utilities = {prices: utility(bids, auction.caps.get(bidder), prices) for prices in box}
        self.bundles = list(product(*[range(units + 1) for units in auction.supply]))
        self.worth = {
            bundle: min(self.utilities[prices] + dot(prices, bundle) for prices in box) for bundle in self.bundles}

    def at(self, prices: Vector) -> List[Vector]:
        """The bundles that are demanded at these prices, the lexicographically greatest first."""
        return [
            bundle for bundle in reversed(self.bundles)
            if self.utilities[prices] + dot(prices, bundle) == self.worth[bundle]]


def allocation(demanded: Sequence[List[Vector]], left: Vector, may_return: Sequence[bool]) -> Optional[List[Vector]]:
    """Bundles that share what is left, each in turn the first of its list that can be completed."""
    if not demanded:
        return [] if all(units == 0 or free for units, free in zip(left, may_return)) else None
    for bundle in demanded[0]:
        rest = tuple(units - taken for units, taken in zip(left, bundle))
        if min(rest) >= 0:
            others = allocation(demanded[1:], rest, may_return)
            if others is not None:
                return [bundle, *others]
    return None


def clearings(auction: Auction) -> Iterator[Tuple[Vector, List[Vector]]]:
    """All prices at or above the reserves at which the auction clears, each with bundles by the tie rule."""
    demands = [Demand(auction, bidder) for bidder in auction.tie_order]
    most = max([value for bid in auction.bids for value in bid.values if value is not None] + [0])
    for prices in product(*[range(reserve, max(reserve, most) + 2) for reserve in auction.reserve]):
        may_return = [price == reserve for price, reserve in zip(prices, auction.reserve)]
        found = allocation([demand.at(prices) for demand in demands], tuple(auction.supply), may_return)
        if found is not None:
            yield prices, found


def solution(auction: Auction) -> Solution:
    """The least prices that clear, and what is shared there."""
    found = dict(clearings(auction))
    least = tuple(min(prices[at] for prices in found) for at in range(len(auction.goods)))
    bundles = dict(zip(auction.tie_order, found[least]))
    return Solution(least, bundles, {bidder: dot(least, bundle) for bidder, bundle in bundles.items()})
