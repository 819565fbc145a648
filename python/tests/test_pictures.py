"""Pictures: their geometry against numbers worked out by hand, and what they say of demand against plain searches."""

import itertools
import random
import time
from dataclasses import replace
from decimal import Decimal
from pathlib import Path
from typing import Any, Dict, List, Optional, Sequence, Tuple

import pytest

from product_mix import (
    Auction, Bid, Cleared, Facet, FormError, Outcome, Refused, Share, Step, Trail, generate, picture, solve, trail, utility,
)
from product_mix._pictures.axes import frame_of, part_in, range_of, step_for
from product_mix._pictures.facets import BOTH, FIRST, SECOND, Facet as Change, Unit, facets_of, wanted
from product_mix._pictures.labels import box_at
from product_mix._pictures.marks import PALETTE
from product_mix._pictures.svg import FONT
from product_mix._shown import Shown

from conftest import EXAMPLES, TOP
from pictures import SVG, geometry, golden, root_of, texts
from test_words import STALLS, Run, example, run as run  # noqa: F401  A fixture.


def of_example(name: str) -> Tuple[Auction, Any]:
    auction = Auction.read(example(name))
    return auction, Outcome.read(example(name, "expected"), auction)


CAPPED = Auction(["A", "B"], [9, 9], [0, 0], [Bid("P", [6, None], 2), Bid("P", [None, 8], 2)], {"P": 2})
THREE = Auction(["A", "B", "C"], [1, 1, 1], [0, 0, 0],
                [Bid("X", [5, 6, 4]), Bid("Y", [7, None, 1]), Bid("Z", [None, None, 9])])
THREE_CLEARED = Cleared(
    {"A": 3, "B": 2, "C": 1},
    {"X": Share({"A": 0, "B": 1, "C": 0}, 2), "Y": Share({"A": 1, "B": 0, "C": 0}, 3),
     "Z": Share({"A": 0, "B": 0, "C": 1}, 1)}, {"A": 0, "B": 0, "C": 0}, ())


# ------------------------------------------------------------------------------------------------------------- geometry

def test_bids_and_price_lines() -> None:
    auction, outcome = of_example("stalls")
    assert geometry(picture(auction, outcome, span=[(0, 44)])) == golden("stalls.txt")


def test_the_lines_of_a_bidder() -> None:
    auction, _ = of_example("stalls")
    svg = picture(auction, bidder="Cleo", span=[(0, 44)])
    assert geometry(svg) == golden("cleo.txt")
    assert {"1, 1", "1, 0", "0, 1", "0, 0"} <= set(texts(svg))


def test_what_a_capped_bidder_wants() -> None:
    """At 2 and 6 two units of A leave 4 each and two of B 2 each, and the cap lets two be served: 2 of A, not 2 and 2."""
    svg = picture(CAPPED, bidder="P", span=[(0, 11)])
    assert geometry(svg) == golden("capped.txt")
    assert {"2, 0", "0, 2", "0, 0"} <= set(texts(svg)) and "2, 2" not in texts(svg)
    assert "Under a cap of 2 units." in texts(svg)
    assert wanted([(6, None, 2), (None, 8, 2)], 2, (2, 6.5)) == (2, 0)
    roomy = replace(CAPPED, caps={"P": 3})
    svg = picture(roomy, bidder="P", span=[(0, 11)])
    assert geometry(svg) == golden("roomy.txt")
    assert {"2, 1", "1, 2", "2, 0", "0, 2", "0, 0"} <= set(texts(svg))


def test_a_cap_that_changes_nothing() -> None:
    loose = replace(CAPPED, caps={"P": 4})
    assert geometry(picture(loose, bidder="P")) == geometry(picture(replace(CAPPED, caps={}), bidder="P"))
    assert not any("cap" in text for text in texts(picture(loose, bidder="P")))


def test_one_good() -> None:
    auction, outcome = of_example("at-most-four")
    assert geometry(picture(auction, outcome, span=[(0, 10)])) == golden("sacks.txt")


def test_two_goods_of_three() -> None:
    svg = picture(THREE, THREE_CLEARED, goods=["A", "B"], span=[(0, 11)])
    assert geometry(svg) == golden("three.txt")
    assert {"A", "B", "neither"} <= set(texts(svg)) and "nothing" not in texts(svg)
    told = " ".join(texts(svg))
    assert "At the printed prices of the other goods: C 1." in told and "1 bid offers to take no good that is drawn." in told


def test_one_good_of_three() -> None:
    """X is worth 5 by A and has 4 left by B, which costs 2: so it takes A below 1. Y takes it below 7, Z never."""
    svg = picture(THREE, THREE_CLEARED, goods=["A"], span=[(0, 10)])
    # Two units and one for sale: u goes from 0 to 3 at 460 / 3 pixels for a unit.
    assert [line for line in geometry(svg) if line.startswith(("filled", "unfilled"))] == [
        "filled X 316 366 r 9", "filled Y 162.7 162 r 9"]
    told = " ".join(texts(svg))
    assert "At the printed prices of the other goods: B 2, C 1." in told
    assert "A bid that is filled where it would take no good that is drawn gets another." in told


def test_one_good_under_a_cap_that_others_use_up() -> None:
    """A unit of C leaves P 3, and the cap is 1: so P takes a unit of A, worth 8, below 5, and the one worth 6 never."""
    auction = Auction(["A", "C"], [2, 1], [0, 0], [Bid("P", [8, None]), Bid("P", [6, None]), Bid("P", [None, 4])], {"P": 1})
    cleared = Cleared({"A": 4, "C": 1}, {"P": Share({"A": 1, "C": 0}, 4)}, {"A": 1, "C": 1}, ())
    svg = picture(auction, cleared, goods=["A"], span=[(0, 10)])
    # One step, 1 of 3 units wide, and at 5: 400 - 34 * 5.
    assert [line for line in geometry(svg) if line.startswith(("filled", "unfilled", "partly"))] == ["filled P 162.7 230 r 9"]
    for price, taken in ((4.5, 1), (5.5, 0)):
        assert served([(8, None, 1), (6, None, 1), (None, 3, 1)], 1, (price, 0))[0] == taken


def test_goods_the_other_way_round() -> None:
    """The first that is named stands on the axis across: X at 3 for B and 2 for A."""
    svg = picture(THREE, THREE_CLEARED, goods=["B", "A"], span=[(0, 11)])
    assert "filled X 240 420 r 14" in geometry(svg) and "filled Y 99 220 r 14" in geometry(svg)


def test_the_trail() -> None:
    auction = Auction(["weak", "strong"], [30, 20], [10, 15])
    trail = Trail((Step(frozenset(["strong"]), 5, -10), Step(frozenset(["weak", "strong"]), 15, -5)),
                  {"weak": 25, "strong": 35})
    svg = picture(auction, trail=trail, span=[(0, 44)])
    assert geometry(svg) == golden("trail.txt")
    assert "way of the prices from the reserves" in texts(svg)
    one = Auction(["A"], [1], [2])
    drawn = picture(one, trail=Trail((Step(frozenset(["A"]), 3, -1),), {"A": 5}), span=[(0, 10)])
    # 34 pixels for a unit, up the left side.
    assert "trail 86 332 86 230" in geometry(drawn)


def test_a_region_that_no_line_parts_is_named_once() -> None:
    """Below Nord's bid that takes back it wants 40 of each, also where a bid finds both as good."""
    auction, _ = of_example("swap")
    assert texts(picture(auction, bidder="Nord")).count("40, 40") == 1


def test_no_region_is_named_on_the_way_of_the_prices() -> None:
    """The way goes through the middle of what is too dear, where the word would stand without it."""
    auction = Auction.read(example("scarce-grades"))
    outcome, way = solve(auction), trail(auction)
    assert isinstance(way, Trail)
    svg = picture(auction, outcome, trail=way)
    word = next(element for element in root_of(svg).iter(SVG + "text") if element.text == "nothing")
    box = box_at((float(word.attrib["x"]), float(word.attrib["y"]) - FONT * 0.36), "nothing", FONT)
    steps = [[float(end) for end in line.split()[1:]] for line in geometry(svg) if line.startswith("trail")]
    assert len(steps) == 2 and not any(part_in(((x, y), (to_x, to_y)), box) for x, y, to_x, to_y in steps)


def test_equal_bids_stand_beside_each_other() -> None:
    """Three in one row about their spot, two radii and a pixel apart; five in rows of three and two."""
    three = Auction(["A", "B"], [9, 9], [0, 0], [Bid(name, [5, 5]) for name in "PQR"])
    found = [line for line in geometry(picture(three, span=[(0, 11)])) if line.startswith("open")]
    assert found == ["open P 291 300 r 14", "open Q 320 300 r 14", "open R 349 300 r 14"]
    five = replace(three, bids=[Bid(name, [5, 5]) for name in "PQRST"])
    found = [line for line in geometry(picture(five, span=[(0, 11)])) if line.startswith("open")]
    assert found == ["open P 291 285.5 r 14", "open Q 320 285.5 r 14", "open R 349 285.5 r 14",
                     "open S 305.5 314.5 r 14", "open T 334.5 314.5 r 14"]
    # On the strip, which is 26 wide, under each other.
    strip = replace(three, bids=[Bid(name, [None, 5]) for name in "PQ"])
    found = [line for line in geometry(picture(strip, span=[(0, 11)])) if line.startswith("open")]
    assert found == ["open P 99 285.5 r 14", "open Q 99 314.5 r 14"]


def test_what_lies_outside_of_a_range() -> None:
    auction, outcome = of_example("stalls")
    svg = picture(auction, outcome, span=[(20, 42), (0, 22)])
    # 20 pixels for a unit: Ann at 40 and Bo at (24, 16); Cleo's other bids aren't shown, but the one at 10 on the strip.
    assert [line for line in geometry(svg) if line.startswith(("filled", "unfilled"))] == [
        "filled Ann 520 521 r 9.9", "filled Bo 200 180 r 14", "filled Cleo 99 300 r 9.9"]
    assert "3 bids lie outside of what the axes show." in texts(svg)
    assert any("at prices that the axes don't show: 16, 8." in text for text in texts(svg))
    # Of the line from (16, 8) up what is left begins at (20, 12), and ends at (30, 22).
    assert "price 120 260 320 60" in geometry(svg)


def test_a_refusal() -> None:
    """Dan of the tutorial: at 29 and 23 his bids have the weight -1 between inside and outside."""
    auction = Auction(["inside", "outside"], [2, 2], [10, 6])
    auction = auction.bid("Dan", 1, inside=30).bid("Dan", 1, outside=24).bid("Dan", -1, inside=30, outside=24)
    refused = Refused("Dan", Facet(("inside", "outside"), {"inside": 29, "outside": 23}, -1))
    svg = picture(auction, refused, bidder="Dan", span=[(0, 44)])
    crosses = [path.attrib["d"] for path in root_of(svg).iter(SVG + "path")]
    assert crosses[0].startswith("M403.0 263.0L417.0 277.0")
    assert {"Dan refused: -1", "where the list fails"} <= set(texts(svg))
    # Inside costs 6 more than outside, below (30, 24): fewer than no units change, and the line is dashed.
    dashed = [line for line in root_of(svg).iter(SVG + "line") if line.get("stroke-dasharray") == "9 5"]
    assert dashed and "change 180 500 420 260" in geometry(svg)
    far = replace(refused, facet=Facet(("inside", "outside"), {"inside": -1_000_000, "outside": 23}, -1))
    assert any("the axes don't show: -1000000, 23." in text for text in texts(picture(auction, far)))


# ------------------------------------------------------------------------------------------------------------------ axes

def test_one_scale_on_both_axes() -> None:
    """Where ranges are alike a unit is as long on both, so that a slanted line stands at 45 degrees."""
    for ranges in ([(0, 40), (0, 20)], [(0, 10), (5, 35)], [(3, 7), (0, 4)]):
        frame = frame_of(ranges, True, (120, 500))
        (x, y), (to_x, to_y) = frame.spot((5, 5)), frame.spot((6, 6))
        assert frame.is_even and abs((to_x - x) - (y - to_y)) < 1e-9
        assert (frame.across.low, frame.across.high, frame.up.low, frame.up.high) == (*ranges[0], *ranges[1])
    assert not frame_of([(0, 100), (0, 10)], True, (120, 500)).is_even
    auction = Auction(["A", "B"], [1, 1], [0, 0]).bid("P", 1, A=900, B=3)
    assert any("different scales" in text for text in texts(picture(auction)))
    assert not any("different scales" in text for text in texts(picture(auction.bid("P", 1, B=900))))


def test_ranges_of_axes() -> None:
    assert step_for(440) == 50 and range_of([2, 6]) == (0, 7) and range_of([0, 0]) == (0, 2)
    low, high = range_of([1_000_000, 999_998])
    assert low < 999_998 and high > 1_000_000 and high - low < 10


def test_no_dash_stands_before_a_number() -> None:
    """Left of the strips and the plane there are numbers and names alone, no mark that could be read as a minus."""
    auction, outcome = of_example("stalls")
    plane = [line for line in root_of(picture(auction, outcome)).iter(SVG + "line") if float(line.attrib["y1"]) < 540]
    assert plane and min(float(line.attrib[end]) for line in plane for end in ("x1", "x2")) >= 86
    numbers = [text for text in texts(picture(auction, outcome)) if text.strip("-\u2212").isdigit()]
    assert numbers and all(text.isdigit() for text in numbers)


# ------------------------------------------------------------------------------------------------- what a bidder wants

def served(units: Sequence[Unit], cap: Optional[int], prices: Sequence[float]) -> Tuple[int, int]:
    """By the definition: of all units, one by one, those that leave most, as many as the cap; each its best good."""
    bundle = [0, 0]
    if cap is None:
        for first, second, weight in units:
            gains = [(0.0, -1), *[(value - prices[at], at) for at, value in enumerate((first, second)) if value is not None]]
            if max(gains)[1] >= 0:
                bundle[max(gains)[1]] += weight
        return bundle[0], bundle[1]
    singles: List[Tuple[float, int]] = []
    for first, second, weight in units:
        gains = [(value - prices[at], at) for at, value in enumerate((first, second)) if value is not None]
        singles += [max(gains)] * weight
    for gain, good in sorted(singles, reverse=True)[:cap]:
        if gain > 0:
            bundle[good] += 1
    return bundle[0], bundle[1]


def lists(seed: int) -> "Tuple[List[Unit], Optional[int]]":
    """A list of a few bids with small values; with a cap, where all weights are positive."""
    draw = random.Random(seed)
    units: List[Unit] = []
    for _ in range(draw.randint(1, 6)):
        first, second = draw.choice([None, *range(7)]), draw.choice([None, *range(7)])
        if first is not None or second is not None:
            units.append((first, second, draw.choice([-1, 1, 2]) if seed % 3 == 0 else draw.randint(1, 3)))
    total = sum(unit[2] for unit in units)
    return units, None if seed % 3 == 0 or total < 2 else draw.randint(0, total)


@pytest.mark.parametrize("seed", range(120))
def test_changes_of_mind_against_a_plain_search(seed: int) -> None:
    """Between points at which no good is as good as another, what is wanted changes by the facets that are crossed."""
    units, cap = lists(seed)
    facets = facets_of(units, cap)
    points = [(a + 0.25, b + 0.6) for a in range(-2, 8) for b in range(-2, 8)]
    bundles = {point: served(units, cap, point) for point in points}
    assert all(wanted(units, cap, point) == bundle for point, bundle in bundles.items())
    for (a, b), (first, second) in bundles.items():
        if (a + 1, b) in bundles:
            given_up, moved = crossed(facets, FIRST, a, b), slanted(facets, a - b, a + 1 - b, b, b)
            assert bundles[a + 1, b] == (first - given_up - moved, second + moved), (units, cap, a, b)
        if (a, b + 1) in bundles:
            given_up, moved = crossed(facets, SECOND, b, a), slanted(facets, a - b - 1, a - b, b, b + 1, a)
            assert bundles[a, b + 1] == (first + moved, second - given_up - moved), (units, cap, a, b)


def crossed(facets: Sequence[Change], kind: int, start: float, other: float) -> int:
    """The weight of the upright or level facets between a price and the next, at a price of the other good."""
    return sum(facet.weight for facet in facets
               if facet.kind == kind and start < facet.place < start + 1 and facet.low < other < facet.high)


def slanted(facets: Sequence[Change], low: float, high: float, start: float, end: float,
            first: Optional[float] = None) -> int:
    """The weight of the slanted facets that are crossed: the second price there is the same, or the first one is."""
    total = 0
    for facet in facets:
        if facet.kind == BOTH and low < facet.place < high:
            second = start if first is None else first - facet.place
            total += facet.weight * (facet.low < second < facet.high)
    return total


@pytest.mark.parametrize("seed", range(0, 60, 4))
def test_what_is_wanted_against_the_solver(seed: int) -> None:
    """Where a price rises by one, the utility falls by the units that are wanted of this good between."""
    units, cap = lists(seed + seed % 3)
    bids = [Bid("P", unit[:2], unit[2]) for unit in units]
    auction = Auction(["A", "B"], [1, 1], [0, 0], bids, {} if cap is None else {"P": cap})
    gains = {prices: utility(auction, list(prices))["P"] for prices in itertools.product(range(-1, 6, 2), range(6))}
    for a, b in itertools.product(range(-1, 6, 2), range(5)):
        # Between whole prices of B nothing changes along B but at the slanted lines, which lie at whole differences.
        bundle = wanted(units, cap, (a + 0.25, b + 0.5))
        assert bundle is not None and gains[a, b] - gains[a, b + 1] == bundle[1]


# ---------------------------------------------------------------------------------------------------------- signs, colours

# How colours are seen without the cones for red, for green and for blue (Machado, Oliveira and Fernandes 2009).
SEEN = {
    "all cones": ((1, 0, 0), (0, 1, 0), (0, 0, 1)),
    "none for red": ((0.152286, 1.052583, -0.204868), (0.114503, 0.786281, 0.099216), (-0.003882, -0.048116, 1.051998)),
    "none for green": ((0.367322, 0.860646, -0.227968), (0.280085, 0.672501, 0.047413), (-0.011820, 0.042940, 0.968881)),
    "none for blue": ((1.255528, -0.076749, -0.178779), (-0.078411, 0.930809, 0.147602), (0.004733, 0.691367, 0.303900)),
}


def light(colour: str) -> List[float]:
    """The light of a colour, from its sRGB."""
    parts = [int(colour[at:at + 2], 16) / 255 for at in (1, 3, 5)]
    return [part / 12.92 if part <= 0.04045 else ((part + 0.055) / 1.055) ** 2.4 for part in parts]


def lab(seen: Sequence[float]) -> List[float]:
    """CIE 1976 L*, a*, b*, of light at a white of D65."""
    red, green, blue = [min(1.0, max(0.0, part)) for part in seen]
    x = (0.4124 * red + 0.3576 * green + 0.1805 * blue) / 0.9505
    y = 0.2126 * red + 0.7152 * green + 0.0722 * blue
    z = (0.0193 * red + 0.1192 * green + 0.9505 * blue) / 1.089
    f = [part ** (1 / 3) if part > 0.008856 else 7.787 * part + 16 / 116 for part in (x, y, z)]
    return [116 * f[1] - 16, 500 * (f[0] - f[1]), 200 * (f[1] - f[2])]


@pytest.mark.parametrize("eyes", SEEN)
def test_colours_are_told_apart(eyes: str) -> None:
    """By all eyes any two of them are at least 20 apart in L*a*b*, and in grey any two at least 9 in lightness."""
    seen = [lab([sum(part * by for part, by in zip(light(colour), row)) for row in SEEN[eyes]]) for colour in PALETTE]
    for one, other in itertools.combinations(seen, 2):
        assert sum((a - b) ** 2 for a, b in zip(one, other)) ** 0.5 >= 20
    greys = sorted(lab(light(colour))[0] for colour in PALETTE)
    assert all(after - before >= 9 for before, after in zip(greys, greys[1:]))


def test_signs_differ_in_shape() -> None:
    """A disc, a diamond of two halves, and a square, so the colour isn't needed; each has an entry in the legend."""
    auction = Auction(["A"], [3], [0]).bid("Ada", 2, A=9).bid("Ben", 2, A=5).bid("Cai", 1, A=4)
    outcome = Cleared({"A": 5}, {"Ada": Share({"A": 2}, 10), "Ben": Share({"A": 1}, 5), "Cai": Share({"A": 0}, 0)},
                      {"A": 0}, ())
    svg = picture(auction, outcome)
    shapes: Dict[str, List[str]] = {}
    for group in root_of(svg).iter(SVG + "g"):
        corners = [len(shape.attrib.get("points", "").split()) for shape in group[1:]]
        shapes[str(group.get("class"))] = [str(count) for count in corners]
    assert shapes == {"mix-filled": ["0"], "mix-partly": ["4", "3"], "mix-unfilled": ["4", "4"]}
    assert {"bid that is filled", "bid that is filled in part", "bid that isn't filled"} <= set(texts(svg))


def test_the_legend_has_what_occurs_alone() -> None:
    auction, outcome = of_example("stalls")
    said = texts(picture(auction, outcome))
    assert {"Ann", "Bo", "Cleo", "reserve", "prices", "parts who gets which good", "bids that leave a good out",
            "bid of negative weight that counts"} <= set(said)
    assert not {"bid", "bid that is filled in part", "way of the prices from the reserves", "demand"} & set(said)
    plain = texts(picture(Auction(["A", "B"], [1, 1], [0, 0]).bid("P", 1, A=5, B=5)))
    assert "bids that leave a good out" not in plain and "bid" in plain


# ------------------------------------------------------------------------------------------------------------- many, words

def test_hundreds_of_bids() -> None:
    """Four hundred bids of forty bidders: quick, seen through, named as far as there is room, and that is said."""
    draw = random.Random(1)
    bids = [Bid("B%d" % (at % 40), [draw.randint(0, 900), draw.randint(0, 900)], draw.randint(1, 9)) for at in range(400)]
    auction = Auction(["A", "B"], [99, 99], [10, 10], bids)
    start = time.process_time()
    svg = picture(auction)
    assert time.process_time() - start < 20
    circles = [circle for circle in root_of(svg).iter(SVG + "circle") if circle.get("fill-opacity")]
    assert len(circles) == 400 and {circle.attrib["fill-opacity"] for circle in circles} == {"0.6"}
    assert max(float(circle.attrib["r"]) for circle in circles) <= 3.1
    assert "34 further bidders" in texts(svg) and any("labels had no room" in text for text in texts(svg))
    named = [text for text in texts(svg) if text[:1] == "B" and text[1:2].isdigit() and " " in text]
    # Those that are named are of the sixty heaviest: the sixtieth has at least a weight of 8.
    assert named and min(int(text.split()[1]) for text in named) >= sorted((bid.weight for bid in bids), reverse=True)[59]


def test_hundreds_of_bids_of_one_bidder() -> None:
    for cap in (None, 300):
        draw = random.Random(2)
        bids = [Bid("P", [draw.randint(0, 900), draw.randint(0, 900)], draw.randint(1, 9)) for _ in range(300)]
        auction = Auction(["A", "B"], [99, 99], [10, 10], bids, {} if cap is None else {"P": cap})
        start = time.process_time()
        assert geometry(picture(auction, bidder="P"))
        assert time.process_time() - start < 60


def test_names_and_amounts_as_they_are_shown() -> None:
    shown = Shown({"A": "\u00c4pfel & <Birnen>"}, {"P": "Bo\x00 \ud800\u5f20"}, Decimal("0.01"), "\u20ac")
    auction = Auction(["A", "B"], [1, 1], [150, 0]).bid("P", 1, A=1650, B=900)
    svg = picture(auction, shown=shown)
    said = texts(svg)
    assert "price of \u00c4pfel & <Birnen> (\u20ac)" in said and "reserve 1.50" in said
    assert any(text.startswith("Bo\ufffd \ufffd\u5f20") for text in said)
    svg.encode("utf-8")


def test_the_picture_says_what_it_is() -> None:
    auction, outcome = of_example("stalls")
    svg = picture(auction, outcome, title="Saturday's stalls")
    root = root_of(svg)
    assert root.get("role") == "img" and [root[0].tag, root[1].tag] == [SVG + "title", SVG + "desc"]
    assert root[0].text == "Saturday's stalls" and "The prices are 16 and 8." in str(root[1].text)
    # So that many can stand in one page: nothing that is named for the whole page, and nothing from elsewhere.
    assert " id=" not in svg and "<style" not in svg and "href" not in svg


# ------------------------------------------------------------------------------------------------------------- bad input

STALLS_AUCTION, STALLS_OUTCOME = of_example("stalls")

NOT_DRAWN: Dict[str, "Tuple[Any, Dict[str, Any], str]"] = {
    "no auction": ("auction.csv", {}, "str is no auction"),
    "three goods": (THREE, {}, "this auction has 3: name those that are drawn, as A,B"),
    "others without prices": (THREE, {"goods": ["A", "B"]}, "an outcome is wanted"),
    "an unknown good": (THREE, {"outcome": THREE_CLEARED, "goods": ["A", "D"]}, "no good is called D"),
    "three named": (THREE, {"outcome": THREE_CLEARED, "goods": ["A", "B", "C"]}, "of one good or of two"),
    "one twice": (THREE, {"outcome": THREE_CLEARED, "goods": ["A", "A"]}, "of one good or of two different ones"),
    "none named": (THREE, {"outcome": THREE_CLEARED, "goods": []}, "of one good or of two"),
    "an unknown bidder": (STALLS_AUCTION, {"bidder": "Dan"}, "nobody who bids is called Dan"),
    "no goods": (Auction([], [], []), {}, "without goods"),
    "goods of one name": (Auction(["A", "A"], [1, 1], [0, 0]), {}, "two goods have one name"),
    "a bid for nothing": (Auction(["A"], [1], [0], [Bid("P", [None])]), {}, "a bid of P offers to take no good"),
    "a weight of 0": (Auction(["A"], [1], [0], [Bid("P", [1], 0)]), {}, "has the weight 0"),
    "a value too many": (Auction(["A"], [1], [0], [Bid("P", [1, 2])]), {}, "2"),
    "a broken number": (Auction(["A"], [1], [0], [Bid("P", [1.5])]), {}, "whole"),  # type: ignore[list-item]
    "a huge number": (Auction(["A"], [1], [0], [Bid("P", [10**400])]), {}, "a picture goes from 0 to"),
    "a number below 0": (Auction(["A"], [1], [-1]), {}, "reserve is -1"),
    "a cap over a bid that takes back": (
        Auction(["A"], [1], [0], [Bid("P", [5], 2), Bid("P", [4], -1)], {"P": 1}), {}, "a cap and a bid of negative weight"),
    "ranges for three axes": (STALLS_AUCTION, {"span": [(0, 1)] * 3}, "3 ranges for 2 axes"),
    "an empty range": (STALLS_AUCTION, {"span": [(5, 5)]}, "to a greater one"),
    "a range without end": (STALLS_AUCTION, {"span": [(0, 10**400)]}, "to a greater one"),
    "no outcome": (STALLS_AUCTION, {"outcome": "outcome.csv"}, "str is no outcome"),
    "an outcome of other goods": (STALLS_AUCTION, {"outcome": THREE_CLEARED}, "the outcome is of another auction"),
    "an outcome of other bidders": (
        STALLS_AUCTION.without("Bo"), {"outcome": STALLS_OUTCOME}, "its shares are not of Ann, Cleo"),
    "an outcome of another supply": (
        replace(STALLS_AUCTION, supply=[2, 3]), {"outcome": STALLS_OUTCOME}, "of outside are 2, and 3 are for sale"),
    "an outcome of another reserve": (
        replace(STALLS_AUCTION, reserve=[10, 9]), {"outcome": STALLS_OUTCOME}, "the price of outside is 8, and its reserve 9"),
    "a refusal of somebody else": (
        STALLS_AUCTION, {"outcome": Refused("Dan", Facet((None, "inside"), {"inside": 1, "outside": 1}, -1))}, "called Dan"),
    "a refusal of another good": (
        STALLS_AUCTION, {"outcome": Refused("Bo", Facet((None, "roof"), {"inside": 1, "outside": 1}, -1))}, "called roof"),
    "a trail of other goods": (STALLS_AUCTION, {"trail": Trail((), {"A": 3})}, "the trail is of another auction"),
    "a trail from other reserves": (
        STALLS_AUCTION, {"trail": Trail((), {"inside": 16, "outside": 8})}, "doesn't lead from the reserves"),
    "a trail to other prices": (
        STALLS_AUCTION, {"trail": Trail((), {"inside": 10, "outside": 6}), "outcome": STALLS_OUTCOME},
        "doesn't lead to the prices of the outcome"),
    "no trail": (STALLS_AUCTION, {"trail": 5}, "int is no trail"),
    "a capped bidder with gains elsewhere": (
        replace(THREE, caps={"X": 1}), {"outcome": THREE_CLEARED, "goods": ["A", "B"], "bidder": "X"}, "X has a cap"),
}


@pytest.mark.parametrize("what", NOT_DRAWN)
def test_what_cannot_be_drawn(what: str) -> None:
    auction, options, why = NOT_DRAWN[what]
    with pytest.raises(FormError) as raised:
        picture(auction, **options)
    assert why in str(raised.value)


def test_auctions_of_every_kind_are_drawn() -> None:
    """Auctions with nothing in them, and such as are drawn from a seed, with and without their outcomes."""
    assert texts(picture(Auction(["A"], [0], [0]))) and texts(picture(Auction(["A", "B"], [0, 0], [0, 0])))
    assert texts(picture(Auction(["A"], [1_000_000], [1_000_000])))
    for seed, goods in itertools.product(range(4), (1, 2)):
        auction = generate(seed, "positive", goods=goods, bidders=4, bids=5, capped=0.5)
        outcome = solve(auction)
        for bidder in (None, *auction.bidders):
            assert geometry(picture(auction, outcome, bidder=bidder)) and geometry(picture(auction, bidder=bidder))


# ------------------------------------------------------------------------------------------------------ on the command line

def test_the_word(run: Run, tmp_path: Path) -> None:
    outcome = example("stalls", "expected")
    status, out, err = run("draw", STALLS, outcome, "--range", "0:44")
    assert (status, err) == (0, "") and geometry(out) == golden("stalls.txt")
    status, out, _ = run("draw", STALLS, "--bidder", "Cleo", "--range", "0:44,0:44", "--title", "Cleo")
    assert status == 0 and geometry(out) == golden("cleo.txt") and texts(out)[0] == "Cleo"
    both = tmp_path / "both.csv"
    both.write_text(Path(STALLS).read_text() + outcome.read_text())
    assert geometry(run("draw", both, "--range", "0:44")[1]) == golden("stalls.txt")
    swapped = run("draw", STALLS, outcome, "--goods", "outside,inside", "--range=-1:43")[1]
    assert "filled Bo 290 250 r 14" in geometry(swapped)


def test_the_word_with_the_trail(run: Run, tmp_path: Path) -> None:
    """From (10, 6) inside rises by 4, and both by 2, as the tutorial tells: 10 pixels for a unit."""
    asked = geometry(run("draw", STALLS, "--trail", "--range", "0:44")[1])
    assert {"trail 220 440 260 440", "trail 260 440 280 420"} <= set(asked)
    told = tmp_path / "trail.csv"
    told.write_text("step,2,4,-2\nstep,6,2,-1\nprice,16,8\nend\n")
    assert geometry(run("draw", STALLS, "--trail-from", told, "--range", "0:44")[1]) == asked
    told.write_text("step,2,4,-2\nprice,16,8\nend\n")
    assert run("draw", STALLS, "--trail-from", told)[::2] == (
        3, "the trail is of another auction: it doesn't lead from the reserves to its prices\n")


def test_an_outcome_of_another_auction_is_refused(run: Run, tmp_path: Path) -> None:
    status, out, err = run("draw", STALLS, example("permit-vintages", "expected"))
    assert (status, out) == (3, "") and "what stands after the auction is no outcome of it" in err
    forged = tmp_path / "outcome.csv"
    forged.write_text(example("stalls", "expected").read_text().replace("share,Bo,1,1,24", "share,Bo,1,1,20"))
    status, out, err = run("draw", STALLS, forged)
    assert (status, out) == (1, "") and err == (
        "draw: the outcome isn't true of this auction: the payment of Bo isn't price times quantity, which is 24\n".replace(
            "auction: the", "auction: no: the"))


def test_the_word_without_a_solver(run: Run, bare: pytest.MonkeyPatch) -> None:
    """Names, goods and sums are looked at, and that no more was is said; a solver that is named has to be there."""
    bare.setattr("product_mix._solver.find_program", _find_none)
    status, out, err = run("draw", STALLS, example("stalls", "expected"), "--range", "0:44")
    assert status == 0 and geometry(out) == golden("stalls.txt") and "there is no solver to check the outcome" in err
    status, _, err = run("draw", STALLS, example("swap", "expected"))
    assert status == 3 and "the outcome is of another auction" in err
    bare.undo()
    assert run("draw", STALLS, "--program", "/nowhere/product_mix")[0] == 8


def _find_none(program: object) -> str:
    from product_mix import ProgramNotFound
    raise ProgramNotFound("there is none")


@pytest.mark.parametrize("words, status", [
    (["draw", "nowhere.csv"], 5), (["draw", STALLS, "nowhere.csv"], 5), (["draw", STALLS, "--range", "5"], 3),
    (["draw", STALLS, "--range", "5:x"], 3), (["draw", STALLS, "--range", "5:4"], 3), (["draw", STALLS, "--goods", ","], 3),
    (["draw", STALLS, "--bidder", "Dan"], 3), (["draw", "-", "-"], 3), (["draw", STALLS, "--trail-from", STALLS], 3),
    (["draw", str(TOP / "README.md")], 3), (["draw", str(TOP / "examples" / "permit-vintages" / "auction.csv")], 3),
    (["draw", str(TOP / "examples" / "not-a-demand" / "auction.csv"), "--trail"], 3),
])
def test_words_that_cannot_be_drawn(words: List[str], status: int, run: Run) -> None:
    found, out, err = run(*words)
    assert (found, out) == (status, "") and err


def test_examples_are_drawn(run: Run) -> None:
    """All examples of one good or two, each with its outcome where it has one."""
    drawn = 0
    for folder in EXAMPLES:
        if (folder / "command").read_text().split()[0] == "solve":
            goods = len(Auction.read(folder / "auction.csv").goods)
            options = [] if goods < 3 else ["--goods", ",".join(Auction.read(folder / "auction.csv").goods[:2])]
            status, out, err = run("draw", folder / "auction.csv", folder / "expected", *options)
            assert (status, err) == (0, ""), folder
            assert geometry(out)
            drawn += 1
    assert drawn > 5
