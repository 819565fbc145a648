"""What the program answers, through the package, against the definitions."""

from dataclasses import replace
from typing import Any, Dict, List, Optional, Tuple, Union

import pytest
from hypothesis import given, settings
from hypothesis import strategies as st

from product_mix import (
    Auction, Bid, Cleared, Facet, FormError, Likeness, Refused, Session, Share, Step, Tight, Trade, Trail, Verdict, check,
    compare, prices, solve, trade_range, trail, trial, upgrade, utility, validate,
)

from brute_force import dot, facet_weight, solution, utility as utility_of
from conftest import TOP
from strategies import auctions, tiny_auctions
from test_values import STALLS

# The arguments that lead to a solver.
Way = Dict[str, Any]


def cleared(auction: Auction) -> Cleared:
    outcome = solve(auction)
    assert isinstance(outcome, Cleared)
    return outcome


# ------------------------------------------------------------------------------------------ from the definitions alone

@settings(max_examples=100)
@given(tiny_auctions())
def test_outcomes_are_those_of_a_search(auction: Auction) -> None:
    outcome = cleared(auction)
    wanted = solution(auction)
    assert tuple(outcome.prices.values()) == wanted.prices
    assert {name: tuple(share.bundle.values()) for name, share in outcome.shares.items()} == wanted.bundles
    assert {name: share.payment for name, share in outcome.shares.items()} == wanted.payments
    for at, good in enumerate(auction.goods):
        sold = sum(bundle[at] for bundle in wanted.bundles.values())
        assert outcome.sold[good] == sold and outcome.unsold[good] == auction.supply[at] - sold
    assert outcome.revenue == sum(wanted.payments.values())
    assert prices(auction) == outcome.prices


@settings(max_examples=50)
@given(tiny_auctions())
def test_utilities_are_those_of_the_definition(auction: Auction) -> None:
    at = tuple(2 * k - 1 for k in range(len(auction.goods)))
    for bidder, gained in utility(auction, at).items():
        bids = [bid for bid in auction.bids if bid.bidder == bidder]
        assert gained == utility_of(bids, auction.caps.get(bidder), at)


@settings(max_examples=100)
@given(auctions(most_goods=3))
def test_what_solve_gives_check_takes(auction: Auction) -> None:
    outcome: Union[Cleared, Refused] = solve(auction)
    assert check(auction, outcome)
    if isinstance(outcome, Refused):
        bids = [bid for bid in auction.bids if bid.bidder == outcome.bidder]
        at = tuple(outcome.facet.prices.values())
        weight = facet_weight(bids, auction.goods, outcome.facet.choices, at)
        assert weight == outcome.facet.weight < 0
        assert validate(auction) == outcome == prices(auction) == trail(auction)


@settings(max_examples=50)
@given(tiny_auctions())
def test_a_trail_ends_in_the_prices(auction: Auction) -> None:
    found = trail(auction)
    assert isinstance(found, Trail)
    points = found.points(auction)
    assert list(points[0].values()) == list(auction.reserve)
    assert points[-1] == found.prices == prices(auction)


# --------------------------------------------------------------------------------------------- each command, by its words

def test_solve(way: Way) -> None:
    outcome = solve(STALLS, **way)
    assert isinstance(outcome, Cleared) and outcome.cleared
    assert outcome.prices == {"inside": 16, "outside": 8}
    assert outcome.shares["Bo"] == Share({"inside": 1, "outside": 1}, 24)
    assert outcome.tight[2] == Tight("Bo", "inside", frozenset({"inside", "outside"}), frozenset({"outside"}))
    assert outcome.tight[4] == Tight("Cleo", "inside", frozenset({None, "inside"}), frozenset({None}))
    assert outcome.sold == {"inside": 2, "outside": 2} and outcome.unsold == {"inside": 0, "outside": 0}
    assert outcome.revenue == 16 + 24 + 8


@pytest.mark.parametrize("auction", [
    STALLS, STALLS.text(), STALLS.text().encode(), TOP / "examples/stalls/auction.csv",
    str(TOP / "examples/stalls/auction.csv")])
def test_an_auction_may_be_a_value_a_text_or_a_file(auction: Any) -> None:
    outcome = cleared(STALLS)
    assert solve(auction) == outcome
    tellings: List[Any] = [outcome, outcome.text(STALLS), outcome.text(STALLS).encode()]
    for told in tellings:
        assert check(auction, told)
    assert utility(auction, {"inside": 16, "outside": 8}) == {"Ann": 24, "Bo": 16, "Cleo": 16}
    assert trade_range(auction.text() if isinstance(auction, Auction) else auction, {}, 1000) is not None


def test_formats_that_go_together() -> None:
    first_come = Auction(["A"], [1], [0]).bid("P", 1, A=5).bid("Q", 1, A=5)
    outcome = cleared(first_come)
    # An outcome of version 2 is checked of an auction in format 2, though format 1 could say it.
    assert check(first_come, outcome.text(first_come, 2)) and check(first_come, outcome.text(first_come))
    assert check(first_come.text(2), outcome)


def test_a_cap(way: Way) -> None:
    auction = Auction(["A"], [3], [0], [Bid("P", (9,)), Bid("P", (7,)), Bid("P", (5,))], caps={"P": 2})
    outcome = solve(auction, **way)
    assert isinstance(outcome, Cleared)
    assert (outcome.prices, outcome.sold, outcome.unsold) == ({"A": 0}, {"A": 2}, {"A": 1})


def test_a_refusal(way: Way) -> None:
    auction = Auction(["inside", "outside"], [2, 2], [10, 6])
    auction = auction.bid("Dan", 1, inside=30).bid("Dan", 1, outside=24).bid("Dan", -1, [30, 24])
    refused = solve(auction, **way)
    assert isinstance(refused, Refused) and refused.bidder == "Dan" and refused.facet.weight == -1
    assert check(auction, refused, **way)


def test_trail(way: Way) -> None:
    inside, both = frozenset({"inside"}), frozenset({"inside", "outside"})
    assert trail(STALLS, **way) == Trail(
        (Step(inside, 4, -2), Step(both, 2, -1)), {"inside": 16, "outside": 8})


def test_validate(way: Way) -> None:
    assert validate(STALLS, **way) == {"Ann": 1, "Bo": 2, "Cleo": 2}


def test_compare(way: Way) -> None:
    auction = Auction(["A"], [1], [0]).bid("P", 2, A=5).bid("Q", 1, A=5).bid("R", 1, A=5).bid("Q", 1, A=5)
    same, differ = compare(auction, **way)
    assert same == Likeness("Q", True) and same
    assert not differ and differ.bidder == "R" and differ.prices is not None
    assert differ.first == 2 * max(0, 5 - differ.prices["A"]) != differ.own == max(0, 5 - differ.prices["A"])


def test_upgrade(way: Way) -> None:
    upgraded, outcome = upgrade(STALLS, cleared(STALLS), **way)
    assert upgraded == replace(STALLS, order=("Ann", "Bo", "Cleo"))
    assert outcome == cleared(STALLS) and check(upgraded, outcome)


def test_trade_range(way: Way) -> None:
    path = TOP / "examples/holiday-weeks/auction.csv"
    auction = Auction.read(path.read_text().split("own")[0])
    found = trade_range(auction, {"Ines": {auction.goods[0]: 2}, "Jon": (0, 2)}, 1000, **way)
    assert not isinstance(found, Refused) and found.high is not None
    assert list(found.low.values()) == [400, 350] and list(found.high.values()) == [450, 500]
    assert found.trades["Ines"] == Trade(dict(zip(auction.goods, (-2, 2))), -100)
    assert list(found.returns.values()) == [0, 0] and found.revenue == 0 and set(found.sold.values()) == {0}
    assert found.rows()[0] == ("Ines", auction.goods[0], -2, 400, -800)


class Four:
    """A whole number of another kind, as numpy has them."""

    def __index__(self) -> int:
        return 4


def test_a_ceiling_below_the_low_prices() -> None:
    auction = Auction(["A"], [1], [5]).bid("P", 1, A=9)
    ceilings: List[Any] = [4, [4], {"A": 4}, Four()]
    for ceiling in ceilings:
        found = trade_range(auction, {}, ceiling)
        assert not isinstance(found, Refused) and found.high is None
    with pytest.raises(FormError, match="4.5 is no whole number"):
        trade_range(auction, {}, 4.5)  # type: ignore[arg-type]


def test_trial() -> None:
    found = trial(7)
    assert (found.number, found.bidders, found.bids, found.negatives) == (7, 40, 1280, 160)
    assert found.revenue == dot(tuple(found.prices), tuple(found.sold))


def test_session(way: Way) -> None:
    auction = Auction(["sacks"], [4], [2]).bid("Ida", 3, sacks=9).bid("Jon", 2, sacks=5).bid("Kim", 2, sacks=7)
    session = Session.begin(auction, **way)
    session.clear()
    session.drop("Ida")
    session.clear()
    session.add("Lou", 3, sacks=8)
    session.clear()
    outcomes = session.close()
    assert [outcome.prices["sacks"] for outcome in outcomes if isinstance(outcome, Cleared)] == [7, 2, 7]
    assert session.auction.bidders == ("Jon", "Kim", "Lou")
    for stood, outcome in zip(session.auctions, outcomes):
        assert outcome == solve(stood) and check(stood, outcome)
    assert session.rows()[-1] == (3, "Lou", "sacks", 3, 7, 21) and len(session.rows()) == 3 + 2 + 3
    with pytest.raises(ValueError, match="closed"):
        session.clear()


def test_a_session_in_a_with_statement() -> None:
    with Session("mix,1\ngoods,A\nsupply,1\nreserve,0\nbid,P,-1,5\nend\n") as session:
        session.clear()
        session.drop("P")
        session.clear()
    refused, cleared_then = session.outcomes
    assert isinstance(refused, Refused) and isinstance(cleared_then, Cleared)
    assert [line.outcome for line in session.rows()] == []
    with pytest.raises(KeyError):
        with Session(STALLS, program="no such program"):
            raise KeyError("a session that is left by an error isn't run")


@settings(max_examples=30)
@given(tiny_auctions(), st.lists(st.tuples(st.sampled_from("PQT"), st.integers(0, 4), st.integers(1, 2)), max_size=6))
def test_a_session_is_its_auctions(auction: Auction, changes: List[Tuple[str, int, int]]) -> None:
    """Bids on all goods come, and who bids again has left before, every other time."""
    with Session(auction) as session:
        for number, (bidder, value, weight) in enumerate(changes):
            session.clear()
            if number % 2 and bidder in session.auction.bidders:
                session.drop(bidder)
            session.add(bidder, weight, [value] * len(auction.goods))
        session.clear()
    assert len(session.outcomes) == len(changes) + 1
    for stood, outcome in zip(session.auctions, session.outcomes):
        assert outcome == solve(stood)


# -------------------------------------------------------------------------------------------------------------- forgeries

CHECKED = Auction(["A", "B"], [1, 1], [0, 0], [
    Bid("Nell", (4, None)), Bid("Nell", (None, 4)), Bid("Nell", (6, 6)), Bid("Nell", (4, 4), -1), Bid("Omar", (5, None))])
ALL_UNSOLD = Auction(["red", "white"], [1, 1], [50, 40], [Bid("Ada", (10, 10))])
OTTO = Auction(["permit"], [3], [2], [Bid("Otto", (5,), -1), Bid("Pia", (6,), -1)])


def forged(auction: Auction, prices: Optional[Dict[str, int]] = None, shares: Optional[Dict[str, Share]] = None,
           returns: Optional[Dict[str, int]] = None) -> Cleared:
    outcome = cleared(auction)
    return replace(outcome, prices={**outcome.prices, **(prices or {})}, shares={**outcome.shares, **(shares or {})},
                   returns={**outcome.returns, **(returns or {})})


def share(first: int, second: int, payment: int) -> Share:
    return Share({"A": first, "B": second}, payment)


def with_pair(upper: Any, lower: Any) -> Cleared:
    outcome = cleared(CHECKED)
    return replace(outcome, tight=[replace(outcome.tight[0], upper=frozenset(upper), lower=frozenset(lower)),
                                   *outcome.tight[1:]])


@pytest.mark.parametrize("auction, outcome, verdict", [
    (OTTO, lambda: Refused("Otto", Facet((None, "permit"), {"permit": 5}, -2)), Verdict(False, "facet", amount=-1)),
    (OTTO, lambda: Refused("Pia", Facet((None, "permit"), {"permit": 6}, -1)), Verdict(False, "earlier", bidder="Otto")),
    (OTTO.without("Pia"), lambda: Cleared(
        {"permit": 2}, {"Otto": Share({"permit": 0}, 0)}, {"permit": 3},
        [Tight("Otto", "permit", frozenset({"permit"}), frozenset())]), Verdict(False, "invalid", bidder="Otto")),
    (ALL_UNSOLD, lambda: forged(ALL_UNSOLD, prices={"red": 49}), Verdict(False, "floor", good="red")),
    (CHECKED, lambda: forged(CHECKED, shares={"Nell": share(1, 1, 4)}), Verdict(False, "sum", good="A", amount=2)),
    (CHECKED, lambda: forged(CHECKED, shares={"Omar": share(0, 0, 0)}, returns={"A": 1}),
     Verdict(False, "return", good="A")),
    (CHECKED, lambda: forged(CHECKED, shares={"Nell": share(1, 0, 4), "Omar": share(0, 1, 0)}),
     Verdict(False, "demand", bidder="Nell", choices=frozenset({None, "A"}))),
    (CHECKED, lambda: forged(CHECKED, prices={"A": 5}, shares={"Omar": share(1, 0, 5)}),
     Verdict(False, "lower", choices=frozenset({"A"}))),
    (CHECKED, lambda: forged(CHECKED, shares={"Omar": share(1, 0, 5)}), Verdict(False, "pay", bidder="Omar", amount=4)),
    (CHECKED, lambda: with_pair({None, "A"}, {"A"}), Verdict(False, "pair", bidder="Nell", good="A")),
    (CHECKED, lambda: with_pair({"A"}, set()), Verdict(False, "tight", bidder="Nell", good="A", amount=1)),
])
def test_a_forged_outcome_is_refused(auction: Auction, outcome: Any, verdict: Verdict) -> None:
    found = check(auction, outcome())
    assert found == verdict and not found
    assert str(found).startswith("no: ") and "{" not in str(found) and "None" not in str(found)


@settings(max_examples=50)
@given(tiny_auctions())
def test_a_payment_that_was_changed_is_found(auction: Auction) -> None:
    outcome = cleared(auction)
    for bidder, right in outcome.shares.items():
        shares = {**outcome.shares, bidder: replace(right, payment=right.payment + 1)}
        assert check(auction, replace(outcome, shares=shares)) == Verdict(
            False, "pay", bidder=bidder, amount=right.payment)
