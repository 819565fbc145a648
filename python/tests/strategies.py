"""Auctions that hypothesis draws."""

from typing import List, Optional

from hypothesis import strategies as st

from product_mix import Auction, Bid

NAMES = st.from_regex(r"[A-Za-z][A-Za-z0-9_.-]{0,31}", fullmatch=True)
MOST = 1_000_000


def weights(least: int, most: int) -> st.SearchStrategy[int]:
    return st.integers(least, most).filter(bool)


@st.composite
def auctions(draw: st.DrawFn, most_goods: int = 8, changed: bool = True) -> Auction:
    """Auctions of any form that can be written; with neither caps nor an order unless they may be changed from it."""
    goods = draw(st.lists(NAMES, min_size=1, max_size=most_goods, unique=True))
    amounts = st.lists(st.integers(0, MOST), min_size=len(goods), max_size=len(goods))
    bidders = draw(st.lists(NAMES, max_size=4, unique=True))
    values = st.lists(st.none() | st.integers(0, MOST), min_size=len(goods), max_size=len(goods)).filter(
        lambda drawn: any(value is not None for value in drawn))
    bids: List[Bid] = []
    if bidders:
        bids = draw(st.lists(st.builds(Bid, st.sampled_from(bidders), values, weights(-10_000, 10_000)), max_size=8))
    auction = Auction(goods, draw(amounts), draw(amounts), bids)
    if not changed:
        return auction
    return Auction(goods, auction.supply, auction.reserve, bids, draw(caps(auction)), draw(orders(auction)))


def caps(auction: Auction) -> "st.SearchStrategy[dict[str, int]]":
    """Caps of bidders who may have one."""
    takers = {bid.bidder for bid in auction.bids if bid.weight < 0}
    free = [bidder for bidder in auction.bidders if bidder not in takers]
    return st.dictionaries(st.sampled_from(free), st.integers(0, MOST)) if free else st.just({})


def orders(auction: Auction) -> "st.SearchStrategy[Optional[List[str]]]":
    return st.none() | st.permutations(auction.bidders)


@st.composite
def tiny_auctions(draw: st.DrawFn, most_goods: int = 3) -> Auction:
    """Auctions that a search over all prices can solve, of lists that stand for a demand, most of them.

    A block of four bids has one of negative weight: one of each, and no more, as in the tutorial.
    """
    count = draw(st.integers(1, most_goods))
    goods = ["A", "B", "C"][:count]
    values = st.lists(st.none() | st.integers(0, 4), min_size=count, max_size=count).filter(
        lambda drawn: any(value is not None for value in drawn))
    bids = draw(st.lists(st.builds(Bid, st.sampled_from("PQR"), values, weights(1, 2)), min_size=1, max_size=5))
    if count == 2 and draw(st.booleans()):
        bids += draw(blocks())
    units = st.lists(st.integers(0, 2), min_size=count, max_size=count)
    auction = Auction(goods, draw(units), draw(units), bids)
    return Auction(goods, auction.supply, auction.reserve, bids, draw(small_caps(auction)), draw(orders(auction)))


def small_caps(auction: Auction) -> "st.SearchStrategy[dict[str, int]]":
    takers = {bid.bidder for bid in auction.bids if bid.weight < 0}
    free = [bidder for bidder in auction.bidders if bidder not in takers]
    return st.dictionaries(st.sampled_from(free), st.integers(0, 3), max_size=2) if free else st.just({})


@st.composite
def blocks(draw: st.DrawFn) -> List[Bid]:
    """A list of two goods for one of each: either alone has a value, and the other then adds no more than it has alone."""
    first, second = draw(st.integers(0, 4)), draw(st.integers(0, 4))
    lost = draw(st.integers(0, min(first, second)))
    added = (first - lost, second - lost)
    return [Bid("S", (added[0], None)), Bid("S", (None, added[1])), Bid("S", (first, second)), Bid("S", added, -1)]
