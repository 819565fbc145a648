"""What is told of texts, of lists that are refused, and of bids at the prices."""

from pathlib import Path
from typing import Dict, List, Optional, Tuple

import pytest
from hypothesis import given, settings

from product_mix import Auction, Bid, Cleared, Refused, solve, utility, validate
from product_mix._explaining import Bounds, Sentences
from product_mix._shown import Shown
from product_mix._standing import FILLED, PARTLY, UNFILLED, Standing, standings, torn

from strategies import tiny_auctions
from test_words import STALLS, Run, example, run as run  # noqa: F401  A fixture.


def standing(auction: Auction, bidder: str) -> List[Standing]:
    outcome = solve(auction)
    assert isinstance(outcome, Cleared)
    return standings(auction, outcome, bidder)


def kinds(auction: Auction, bidder: str) -> List[Tuple[str, Dict[str, int]]]:
    return [(found.kind, found.below) for found in standing(auction, bidder)]


def test_how_bids_stand() -> None:
    """One good, three units: Ada's are above the price of 5, Ben gets one of two at it, Cai's is below."""
    auction = Auction(["A"], [3], [0]).bid("Ada", 2, A=9).bid("Ben", 2, A=5).bid("Cai", 1, A=4)
    assert kinds(auction, "Ada") == [(FILLED, {})]
    assert kinds(auction, "Ben") == [(PARTLY, {"A": 5})]
    assert kinds(auction, "Cai") == [(UNFILLED, {"A": 4})]


def test_bids_at_the_price() -> None:
    auction = Auction(["A"], [2], [5]).bid("Ada", 1, A=9).bid("Ben", 1, A=5).bid("Cai", 1, A=5)
    assert kinds(auction, "Ben") == [(FILLED, {})] and kinds(auction, "Cai") == [(UNFILLED, {"A": 5})]


def test_bids_at_the_price_beside_some_that_take_back() -> None:
    """Cleo of the tutorial gets one outside: her bids above the price make that one unit, so the one at it is unfilled.

    Where the one that takes back is at its price itself, how much of each is filled isn't told.
    """
    auction = Auction.read(STALLS)
    assert [kind for kind, _ in kinds(auction, "Cleo")] == [UNFILLED, FILLED, FILLED, FILLED]
    torn_back = Auction(["A"], [9], [5]).bid("Ada", 3, A=5).bid("Ada", -1, A=5)
    assert [kind for kind, _ in kinds(torn_back, "Ada")] == [PARTLY, PARTLY]


def test_bids_under_a_cap() -> None:
    """Three units at 9 are served before two at 7, whatever a unit costs; with another good one may be cheap enough."""
    bids = [Bid("Ida", [9, None], 3), Bid("Ida", [7, None], 2), Bid("Ida", [None, 6], 1), Bid("Jon", [5, 3], 9)]
    auction = Auction(["A", "B"], [5, 5], [0, 0], bids, {"Ida": 4})
    outcome = solve(auction)
    assert isinstance(outcome, Cleared)
    prices = outcome.prices
    assert (prices["A"], prices["B"]) == (5, 3)
    # They leave 4, 2 and 3: so the three at 9 and the one of B are served. Two at 7 never are wholly, after the three at 9.
    assert kinds(auction, "Ida") == [(FILLED, {}), (UNFILLED, {}), (FILLED, {})]
    dear = Auction(["A", "B"], [4, 9], [0, 3], bids[:3], {"Ida": 4})
    # A costs 0 and B 3: what is left is 9, 7 and 3, and at no price of B above 0 is the one of B before the two at 7.
    assert kinds(dear, "Ida") == [(FILLED, {}), (PARTLY, {}), (UNFILLED, {})]


def is_wholly_filled(auction: Auction, bidder: str, bid: int, prices: Dict[str, int]) -> bool:
    """By the definition of a cap: whether all units of a bid are among those that leave most, whatever is done about ties."""
    bids = [own for own in auction.bids if own.bidder == bidder]
    leaves = [max([value - price for value, price in zip(own.values, prices.values()) if value is not None]) for own in bids]
    cap: Optional[int] = auction.caps.get(bidder)
    before = sum(own.weight for own, left in zip(bids, leaves) if left >= leaves[bid])
    return leaves[bid] > 0 and (cap is None or before <= cap)


@given(tiny_auctions())
def test_prices_that_fill(auction: Auction) -> None:
    """Below the price that is told a bid is wholly filled, and at it it isn't; where none is told no price does it."""
    outcome = solve(auction)
    if isinstance(outcome, Cleared):
        for bidder in auction.bidders:
            if all(bid.weight > 0 for bid in auction.bids if bid.bidder == bidder):
                for number, found in enumerate(standings(auction, outcome, bidder)):
                    look_at_prices(auction, outcome, bidder, number, found)


def look_at_prices(auction: Auction, outcome: Cleared, bidder: str, number: int, found: Standing) -> None:
    here = dict(outcome.prices)
    assert found.kind != FILLED or max(found.gain, 0) == 0 or is_wholly_filled(auction, bidder, number, here)
    assert found.kind != UNFILLED or not is_wholly_filled(auction, bidder, number, here)
    for at, good in enumerate(auction.goods):
        if found.kind != FILLED and found.bid.values[at] is not None:
            wanted = [price for price in range(here[good] + 1)
                      if is_wholly_filled(auction, bidder, number, {**here, good: price})]
            assert (max(wanted) + 1 if wanted else None) == found.below.get(good), (found, good)


@given(tiny_auctions())
@settings(max_examples=20)
def test_pairs_bound_what_a_bidder_has(auction: Auction) -> None:
    """The numbers of the sentence: what it wants at most, less what must go to it, is what it has."""
    outcome = solve(auction)
    if isinstance(outcome, Cleared) and auction.bids:
        most = validate(auction)
        assert isinstance(most, dict)
        bounds = Bounds(auction, outcome, most, lambda prices: utility(auction, prices))
        for pair in outcome.tight[:4]:
            assert bounds.bound(pair) == outcome.shares[pair.bidder].bundle[pair.good]


def test_sentences_on_bidders(run: Run) -> None:
    """Worked out by hand in the tutorial, where the pair of Bo is read."""
    status, out, _ = run("explain", STALLS, "--bidder", "Bo")
    assert status == 0 and out == """\
Bo gets 1 of inside and 1 of outside and pays 24.
  - bid 1, a bid for 2 units of inside at up to 24 or outside at up to 16: filled; it takes inside or outside, which leaves 8 a unit
Bo has 1 of inside and could have no more: of inside and outside together it wants at most 2 units at these prices and at least \
1 unit of outside must go to it, as the others can't take more.
"""
    told = run("explain", STALLS, "--bidder", "Cleo")[1]
    assert "not filled; it would be if inside cost less than 16" in told and "it takes back outside, which leaves 2 a unit" in told
    told = run("explain", example("shared-tie"))[1]
    assert ("at the edge: permit or nothing are as good for it, so not all of it need be filled; "
            "all of it would be if permit cost less than 7") in told


@pytest.mark.parametrize("first, second, without", [
    ("3,0", "4,3", ""),
    ("3,1", "2,0", ", with units that it might go without,"),
])
def test_who_goes_without_none(first: str, second: str, without: str, run: Run, tmp_path: Path) -> None:
    """Bo has B for nothing: of the first two it leaves 3, of the others nothing, so going without were as good."""
    text = tmp_path / "auction.csv"
    text.write_text("mix,1\ngoods,A,B\nsupply,1,1\nreserve,0,0\nbid,Ann,1,%s\nbid,Bo,1,%s\nend\n" % (first, second))
    told = run("explain", text, "--bidder", "Bo")[1]
    assert told.splitlines()[-1] == (
        "Bo has 0 of A and could have no more: of A and B together%s it wants at most 1 unit at these prices and at least "
        "1 unit of B%s must go to it, as the others can't take more." % (without, without))


def test_who_goes_without_some(run: Run) -> None:
    told = run("explain", example("shared-tie"))[1]
    assert "of permit, with the units that it goes without, it wants at most" in told


def test_all_bidders(run: Run) -> None:
    assert run("explain", STALLS)[1].count("could have no more") == 3
    status, out, _ = run("explain", example("at-most-four"))
    assert status == 0 and "filled in part, up to the cap; it wholly is at no price of one good alone" in out


def test_a_refused_list(run: Run, tmp_path: Path) -> None:
    """Dan of the tutorial: the third of his bids meets the first two nowhere but where it takes back too much."""
    text = tmp_path / "dan.csv"
    text.write_text("mix,1\ngoods,inside,outside\nsupply,2,2\nreserve,10,6\nbid,Dan,1,30,-\nbid,Dan,1,-,24\nbid,Dan,-1,30,24\nend\n")
    status, out, _ = run("explain", text)
    assert status == 1 and out.splitlines()[0] == (
        "The list of Dan stands for no demand. It fails at the prices 29 for inside and 23 for outside:")
    assert "  - bid 3 of Dan: a bid that takes back 1 unit of inside at up to 30 or outside at up to 24\n" in out
    assert "bid 1 of Dan" not in out and "add up to -1:" in out
    auction = Auction.read(text)
    refused = solve(auction)
    assert isinstance(refused, Refused) and refused.explain(auction) + "\n" == out


def test_who_meets() -> None:
    bids = [Bid("Dan", [30, None]), Bid("Dan", [None, 24]), Bid("Dan", [30, 24], -1)]
    assert torn(bids, ["A", "B"], {"A": 29, "B": 23}, frozenset(["A", "B"])) == [bids[2]]
    assert torn(bids, ["A", "B"], {"A": 30, "B": 0}, frozenset([None, "A"])) == [bids[0]]


def test_all_faults(run: Run, tmp_path: Path) -> None:
    text = tmp_path / "auction.csv"
    text.write_text(Path(STALLS).read_text().replace("40,-", "4o,-").replace("bid,Bo,2", "bid,Bo Berg,2"))
    status, out, _ = run("explain", text)
    assert status == 3 and ["line 5" in out, "line 6" in out, "'4o'" in out, "'Bo Berg'" in out] == [True] * 4
    assert out.startswith("%s, line 5 (row 5): number" % text)


def test_an_outcome_that_is_not_true(run: Run, tmp_path: Path) -> None:
    status, out, _ = run("explain", example("forged"))
    assert status == 1 and out.startswith("The outcome isn't true: the checker says no: a unit less")
    outcome = tmp_path / "outcome.csv"
    outcome.write_text(example("stalls", "expected").read_text())
    assert run("explain", STALLS, outcome, "--bidder", "Ann")[0] == 0
    assert run("explain", example("checked"))[0] == 0


def test_nobody(run: Run) -> None:
    status, _, err = run("explain", STALLS, "--bidder", "Zoe")
    assert (status, err) == (3, "nobody who bids is called Zoe\n")
    assert Sentences(Auction(["A"], [1], [0]), Shown()).choices([], "or") == "nothing"
    with pytest.raises(KeyError):
        standings(Auction(["A"], [1], [0]), Cleared({"A": 0}, {}, {"A": 1}, []), "Zoe")
