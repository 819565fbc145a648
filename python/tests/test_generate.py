"""Auctions that are drawn from a seed, and dots."""

import random
from itertools import combinations
from typing import Any, Dict, List

import pytest
from hypothesis import given, settings
from hypothesis import strategies as st

from product_mix import (
    KINDS, VALUES, Auction, Bid, FormError, Refused, from_dots, generate, generate_owned, solve, to_arrays, to_dots,
    trade_range, validate,
)
from product_mix._generate import _block, _Drawn, _most_of_sets, cells_of, weight_of_unions

from brute_force import utility
from test_values import STALLS


@settings(max_examples=30)
@given(st.integers(0, 10**9), st.sampled_from(sorted(KINDS)), st.sampled_from(sorted(VALUES)), st.integers(1, 8),
       st.integers(0, 5), st.integers(1, 30), st.sampled_from([1, 9, 10_000]), st.booleans())
def test_each_kind_stands_for_demands(seed: int, kind: str, values: str, goods: int, bidders: int, bids: int, weight: int,
                                      shuffled: bool) -> None:
    arguments: Dict[str, Any] = dict(goods=goods, bidders=bidders, bids=bids, values=values, weight=weight,
                                     capped=0.5, shuffled=shuffled, reserve=3, top=10**6 if weight == 9 else 50)
    auction = generate(seed, kind, **arguments)
    assert auction == generate(seed, kind, **arguments) and Auction.read(auction.text()) == auction
    totals = validate(auction)
    assert not isinstance(totals, Refused) and len(totals) == bidders and len(auction.goods) == goods
    counts = [len(to_dots(auction.bids, name)) for name in auction.bidders]
    assert all(1 <= count <= bids for count in counts)


def test_seeds_kinds_and_values_differ() -> None:
    drawn = [generate(seed, kind, values=values, goods=4).text() for seed in (1, 2) for kind in KINDS for values in VALUES]
    assert len(set(drawn)) == len(drawn)
    for kind in (*KINDS.values(), *VALUES.values()):
        assert kind.what.endswith(".") and kind.source.endswith(".")


def test_kinds_have_what_they_say() -> None:
    negatives = {kind: sum(bid.weight < 0 for seed in range(9) for bid in generate(seed, kind, goods=4).bids) for kind in KINDS}
    assert negatives["unit"] == negatives["positive"] == 0
    assert all(negatives[kind] > 0 for kind in ("blocks", "one-of-each", "nested", "mixed"))
    assert max(value or 0 for bid in generate(1, values="small").bids for value in bid.values) <= 4
    unit = generate(1, "unit", bids=400)
    assert [bid.weight for bid in unit.bids] == [1] * 10
    near = generate(1, values="clustered", goods=1, bidders=20).bids
    assert max(bid.values[0] or 0 for bid in near) - min(bid.values[0] or 0 for bid in near) <= 200
    for seed in range(20):
        # A tenth of 15 is 1.5, so whole values are within 1 of the common one.
        near = generate(seed, values="clustered", goods=1, bidders=20, top=15).bids
        assert max(bid.values[0] or 0 for bid in near) - min(bid.values[0] or 0 for bid in near) <= 2
    assert generate(1, capped=1.0).caps.keys() == set(generate(1).bidders) and generate(1, "blocks", capped=1.0, goods=2).caps == {}
    assert generate(1, supply=[1, 2, 3], reserve=7).supply == (1, 2, 3) and generate(1, reserve=7).reserve == (7, 7, 7)


@settings(max_examples=40)
@given(st.integers(0, 10**6), st.lists(st.integers(0, 1000), min_size=2, max_size=2))
def test_a_block_is_for_one_of_each(seed: int, prices: List[int]) -> None:
    """Its bidder gains the most of nothing, either good alone, and both together for no more than the sum."""
    dots = _block(_Drawn(random.Random(seed), 2, "uniform", 1000, 1))
    assert [weight for _, weight in dots] == [1, 1, 1, -1]
    first, second = dots[2][0]
    less = (first or 0) - (dots[3][0][0] or 0)
    assert first is not None and second is not None and 0 <= less <= min(first, second)
    one, other = first - prices[0], second - prices[1]
    assert utility(from_dots("P", dots), None, tuple(prices)) == max(0, one, other, one + other - less)


@settings(max_examples=40)
@given(st.lists(st.integers(0, 9), min_size=1, max_size=6), st.data())
def test_the_greatest_of_unions_add_up(gains: List[int], data: st.DataObject) -> None:
    units = data.draw(st.integers(1, len(gains)))
    by_unions = sum(
        weight_of_unions(len(gains), size, units) * max(union)
        for size in range(1, len(gains) + 1) for union in combinations(gains, size))
    assert by_unions == sum(sorted(gains, reverse=True)[:units])


@settings(max_examples=40)
@given(st.integers(0, 10**6), st.sampled_from([[[0], [1], [2], [3]], [[0, 3], [1], [2]], [[0, 1, 2], [3]], [[2, 0, 1, 3]]]),
       st.lists(st.integers(0, 1000), min_size=4, max_size=4))
def test_a_group_is_for_one_out_of_each_set(seed: int, sets: List[List[int]], prices: List[int]) -> None:
    """It gains the greatest gains of the sets, as many as its units; with a weight of 1 that is what its weights add up to."""
    dots = _most_of_sets(_Drawn(random.Random(seed), 4, "uniform", 1000, 1), sets)
    worth = {good: value for values, _ in dots for good, value in enumerate(values) if value is not None}
    assert len(worth) == 4
    gains = sorted([max(0, *[worth[good] - prices[good] for good in chosen]) for chosen in sets], reverse=True)
    units = sum(weight for _, weight in dots)
    assert 1 <= units <= len(sets)
    assert utility(from_dots("P", dots), None, tuple(prices)) == sum(gains[:units])


def test_cells_are_those_of_the_format() -> None:
    # Both numbers stand in docs/FORMAT.md, worked out by hand.
    assert cells_of([((4, 4), -1), ((4, 7), -1), ((6, 6), -1), ((9, 9), 3)]) == 14
    assert cells_of([((5, *[worth] * 7), -1) for worth in range(1, 8)]) == 2_144_192


@pytest.mark.parametrize("arguments", [
    {"kind": "none"}, {"values": "none"}, {"goods": 0}, {"goods": 9}, {"bidders": 257}, {"bids": 401}, {"top": -1}, {"weight": 0}])
def test_what_there_is_none_of(arguments: Any) -> None:
    with pytest.raises(ValueError):
        generate(1, **arguments)


def test_owned() -> None:
    auction = generate(3, "mixed", reserve=[0, 5, 0], bidders=5)
    own = generate_owned(auction, 1)
    assert list(own) == ["B001", "B003", "B005"] and all(units[1] == 0 for units in own.values())
    found = trade_range(auction, own, 1000)
    assert not isinstance(found, Refused)
    full = generate(3, supply=1_000_000)
    assert set(sum(generate_owned(full, 1).values(), ())) == {0}


# --------------------------------------------------------------------------------------------------------------- dots

def test_dots() -> None:
    dots = to_dots(STALLS.bids, "Cleo")
    assert from_dots("Cleo", dots) == [bid for bid in STALLS.bids if bid.bidder == "Cleo"]
    assert len(to_dots(STALLS.bids)) == len(STALLS.bids)
    nan = float("nan")
    assert from_dots("P", [((1.0, nan, None, float("-inf")), 2)]) == [Bid("P", (1, None, None, None), 2)]
    for bad in ((0.5,), ("7",), (float("inf"),), (object(),)):
        with pytest.raises(FormError, match="no whole number"):
            from_dots("P", [(bad, 1)])
    with pytest.raises(FormError):
        from_dots("P", [((1,), 1.5)])


def test_arrays() -> None:
    numpy = pytest.importorskip("numpy")
    vectors, weights = to_arrays(STALLS.bids, "Cleo")
    assert vectors.shape == (4, 2) and weights.sum() == 2
    # The indirect utility of the definition, at 16 and 8: one stall outside for Cleo, which leaves 16.
    gains = numpy.maximum(0, (vectors - [16, 8]).max(axis=1))
    assert (weights * gains).sum() == 16
    assert from_dots("Cleo", zip(vectors, weights)) == from_dots("Cleo", to_dots(STALLS.bids, "Cleo"))
    assert to_arrays([])[0].shape == (0, 0)
    auction = Auction(STALLS.goods, STALLS.supply, STALLS.reserve, from_dots("Cleo", zip(vectors, weights)))
    assert not isinstance(solve(auction), Refused)
