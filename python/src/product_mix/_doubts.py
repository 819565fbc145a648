"""What is well formed and yet is hardly meant."""

from collections import defaultdict
from dataclasses import dataclass
from typing import Dict, Iterator, List, Sequence, Tuple

from ._auction import Auction, Bid
from ._errors import counted
from ._source import AuctionOrText


@dataclass(frozen=True)
class Doubt:
    """Something that is well formed and yet is hardly meant: its kind, what it is in words, and the bids in question.

    The kinds are ``weight``, ``reserve``, ``names``, ``cap`` and ``cancel``.
    """

    kind: str
    message: str
    bids: Tuple[Bid, ...] = ()

    def __str__(self) -> str:
        return self.message


def warnings(auction: AuctionOrText) -> List[Doubt]:
    """What in an auction, its text or its file is well formed and yet is hardly meant.

    A bid of a weight above the supply of all goods that it offers to take, where anything is for sale; a bid that is
    below the reserve of each of these goods, and so never gets anything; names that differ in case alone; a cap that is
    never reached; bids of one bidder on the same values of which one takes back what the other takes. A text that isn't
    read as an auction raises :class:`FormError`.

    >>> auction = Auction(["red", "white"], supply=[9, 9], reserve=[5, 4]).bid("Ada", 2, red=4).bid("ada", 12, white=7)
    >>> for doubt in warnings(auction):
    ...     print(doubt)
    ada bids for 12 units of white, and 9 are for sale
    Ada bids below the reserve: 4 for red
    the bidders Ada and ada differ in case alone
    """
    auction = auction if isinstance(auction, Auction) else Auction.read(auction)
    return [*_heavy_bids(auction), *_low_bids(auction), *_alike_names(auction), *_loose_caps(auction), *_cancelled(auction)]


def _offers(bid: Bid, auction: Auction) -> List[Tuple[str, int, int, int]]:
    """The goods that a bid offers to take, each with its value, supply and reserve."""
    return [
        (good, value, supply, reserve)
        for good, value, supply, reserve in zip(auction.goods, bid.values, auction.supply, auction.reserve)
        if value is not None
    ]


def _heavy_bids(auction: Auction) -> Iterator[Doubt]:
    if not any(auction.supply):
        return
    for bid in auction.bids:
        offers = _offers(bid, auction)
        supply = sum(supply for _, _, supply, _ in offers)
        if abs(bid.weight) > supply:
            goods = " or ".join(good for good, *_ in offers)
            verb = "bids for" if bid.weight > 0 else "takes back"
            yield Doubt("weight", "%s %s %s of %s, and %d are for sale"
                        % (bid.bidder, verb, counted(abs(bid.weight), "unit"), goods, supply), (bid,))


def _low_bids(auction: Auction) -> Iterator[Doubt]:
    for bid in auction.bids:
        offers = _offers(bid, auction)
        if offers and all(value < reserve for _, value, _, reserve in offers):
            values = ", ".join("%d for %s" % (value, good) for good, value, _, _ in offers)
            yield Doubt("reserve", "%s bids below the reserve: %s" % (bid.bidder, values), (bid,))


def _alike_names(auction: Auction) -> Iterator[Doubt]:
    for what, names in (("goods", auction.goods), ("bidders", auction.bidders)):
        for alike in _by_lower_case(names):
            if len(alike) > 1:
                told = "%s and %s" % (", ".join(alike[:-1]), alike[-1])
                bids = tuple(bid for bid in auction.bids if what == "bidders" and bid.bidder in alike)
                yield Doubt("names", "the %s %s differ in case alone" % (what, told), bids)


def _by_lower_case(names: Sequence[str]) -> List[List[str]]:
    alike: Dict[str, List[str]] = defaultdict(list)
    for name in names:
        alike[name.lower()].append(name)
    return list(alike.values())


def _loose_caps(auction: Auction) -> Iterator[Doubt]:
    for bidder, cap in auction.caps.items():
        bids = tuple(bid for bid in auction.bids if bid.bidder == bidder)
        weight = sum(bid.weight for bid in bids)
        if bids and cap >= weight:
            yield Doubt("cap", "%s has a cap of %d, and bids for %s in all" % (bidder, cap, counted(weight, "unit")), bids)


def _cancelled(auction: Auction) -> Iterator[Doubt]:
    alike: Dict[Tuple[str, Sequence[object]], List[Bid]] = defaultdict(list)
    for bid in auction.bids:
        alike[bid.bidder, bid.values].append(bid)
    for (bidder, values), bids in alike.items():
        weights = [bid.weight for bid in bids]
        if min(weights) < 0 < max(weights):
            told = ", ".join("-" if value is None else str(value) for value in values)
            yield Doubt("cancel", "bids of %s on the same values cancel: %s have the weight %d together"
                        % (bidder, told, sum(weights)), tuple(bids))
