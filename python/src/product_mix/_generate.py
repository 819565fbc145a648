"""Auctions that are drawn from a seed, of the kinds that the literature uses.

Every list stands for a demand by construction: a bid of positive weight always does, and the bids of negative weight come
in groups of which each does, as does the sum of such groups. The program is asked about none of it.
"""

import random
from itertools import combinations
from math import comb
from typing import Callable, Dict, List, NamedTuple, Optional, Sequence, Tuple, Union

from ._auction import Auction, Bid

# The limits of docs/FORMAT.md.
MOST_GOODS, MOST_BIDDERS, MOST_BIDS, MOST_CELLS = 8, 256, 400, 4_194_304
MOST_UNITS, MOST_VALUE, MOST_WEIGHT = 1_000_000, 1_000_000, 10_000

# A value for each good or None, and a weight.
_Dot = Tuple[Tuple[Optional[int], ...], int]


class Kind(NamedTuple):
    """A kind of lists or of values: what it is, and where it comes from."""

    what: str
    source: str


#: The kinds of lists.
KINDS: Dict[str, Kind] = {
    "unit": Kind(
        "Each bidder wants one unit of any good: one bid of weight 1.",
        "The assignment market of Shapley and Shubik (1971), auctioned by Demange, Gale and Sotomayor (1986)."),
    "positive": Kind(
        "Bids of positive weight on one or several goods, each of which takes the good that leaves most.",
        "The bids of Klemperer's product-mix auction (2010)."),
    "blocks": Kind(
        "Blocks of four bids on two goods, one of negative weight: a weight times at most one unit of each good, both together "
        "worth no more than the sum of the two; the other bids are positive.",
        "The bids of either sign of Baldwin and Klemperer (2019). The block is that of this program's trial auctions."),
    "one-of-each": Kind(
        "Groups of bids, each for at most one unit of each of several goods and some number of units in all.",
        "A weighted uniform matroid, which has strong substitutes (Murota 2003); written in bids of either sign as Baldwin, "
        "Goldberg, Klemperer and Lock (2024) use them, by the identity of a sum of the greatest numbers and greatest ones."),
    "nested": Kind(
        "Groups of bids, each for at most one unit out of each of several sets of goods, which share none, and some number of "
        "units in all.",
        "Limits on sets that are nested, as in the hierarchies of Budish, Che, Kojima and Milgrom (2013): a laminar concave "
        "function (Murota 2003). Written in bids as one-of-each."),
    "mixed": Kind(
        "Each bidder's list is of one of the other kinds.",
        "None: it is made here, for tests."),
}

#: The kinds of values.
VALUES: Dict[str, Kind] = {
    "uniform": Kind("Each value is drawn from 0 to the top.", "The usual first choice of simulations."),
    "clustered": Kind(
        "Each good has a value that all have in common, and each value of a good lies within a tenth of the top of it; by how "
        "much less both goods of a block are worth together is drawn freely.",
        "Common values with private parts, as Milgrom and Weber (1982) have them, in the simplest form."),
    "small": Kind(
        "Each value is drawn from 0 to 4, so that ties are everywhere.",
        "None: it is made here, for tests of tie rules."),
}


def generate(seed: int, kind: str = "positive", *, goods: int = 3, bidders: int = 10, bids: int = 8, values: str = "uniform",
             top: int = 1000, weight: int = 9, supply: Union[None, int, Sequence[int]] = None,
             reserve: Union[int, Sequence[int]] = 0, capped: float = 0.0, shuffled: bool = False) -> Auction:
    """An auction that is drawn from a seed: the same arguments give the same auction, on every machine.

    ``kind`` is one of ``KINDS``, ``values`` one of ``VALUES``; each says what it is and where it comes from. Each bidder has
    at most ``bids`` bids, of values up to ``top`` and weights up to ``weight``. ``supply`` and ``reserve`` are a number for
    each good, or one for all; with no supply given, about half of what is bid for is for sale. ``capped`` is the share of
    bidders who have a cap, of half of what they bid for; a bidder with a bid of negative weight has none. ``shuffled``
    draws the tie order.

    >>> for bid in generate(7, "one-of-each", goods=3, bidders=1, bids=4).bids:
    ...     print(bid.weight, bid.values)
    1 (None, 492, None)
    1 (None, None, 422)
    9 (328, None, None)
    3 (None, 822, 669)
    >>> KINDS["unit"].source
    'The assignment market of Shapley and Shubik (1971), auctioned by Demange, Gale and Sotomayor (1986).'
    """
    _look_at(kind, values, goods, bidders, bids, top, weight)
    draw = random.Random("%d %s %s" % (seed, kind, values))
    drawn = _Drawn(draw, goods, values, top, weight)
    names = ["B%03d" % number for number in range(1, bidders + 1)]
    lists = {name: _list_of(drawn, kind, bids) for name in names}
    wanted = sum(max(0, dot[1]) for dots in lists.values() for dot in dots)
    units = supply if supply is not None else [_units(draw, wanted, goods) for _ in range(goods)]
    auction = Auction(
        ["G%d" % number for number in range(1, goods + 1)], _for_each(units, goods), _for_each(reserve, goods),
        [Bid(name, *dot) for name, dots in lists.items() for dot in dots],
        {name: _cap(dots) for name, dots in lists.items() if draw.random() < capped and _may_have_cap(dots)})
    if not shuffled:
        return auction
    order = list(auction.bidders)
    draw.shuffle(order)
    return Auction(auction.goods, auction.supply, auction.reserve, auction.bids, auction.caps, order)


def generate_owned(auction: Auction, seed: int, most: int = 5) -> Dict[str, Tuple[int, ...]]:
    """What bidders own, for ``trade_range``: every other bidder some units of each good, drawn from 0 to ``most``.

    Goods whose reserve isn't 0 are owned by nobody, as an owner sells at any price.

    >>> generate_owned(generate(7, bidders=3, goods=2), 1)
    {'B001': (0, 4), 'B003': (3, 2)}
    """
    draw = random.Random("%d owned" % seed)
    owners = auction.bidders[::2]
    # Supply and all that is owned of a good are at most so many.
    room = [min(most, (MOST_UNITS - units) // max(1, len(owners))) for units in auction.supply]
    return {
        name: tuple([draw.randint(0, least) if price == 0 else 0 for least, price in zip(room, auction.reserve)])
        for name in owners}


def _look_at(kind: str, values: str, goods: int, bidders: int, bids: int, top: int, weight: int) -> None:
    for name, known in ((kind, KINDS), (values, VALUES)):
        if name not in known:
            raise ValueError("%r is none of %s" % (name, ", ".join(known)))
    for what, number, most in (("goods", goods, MOST_GOODS), ("bids", bids, MOST_BIDS), ("weight", weight, MOST_WEIGHT)):
        if not 1 <= number <= most:
            raise ValueError("%s is from 1 to %d, and not %d" % (what, most, number))
    for what, number, most in (("bidders", bidders, MOST_BIDDERS), ("top", top, MOST_VALUE)):
        if not 0 <= number <= most:
            raise ValueError("%s is from 0 to %d, and not %d" % (what, most, number))


def _for_each(given: Union[int, Sequence[int]], goods: int) -> List[int]:
    return [given] * goods if isinstance(given, int) else list(given)


def _units(draw: random.Random, wanted: int, goods: int) -> int:
    half = wanted // (2 * goods)
    return min(MOST_UNITS, max(1, half + draw.randint(0, half)))


def _cap(dots: Sequence[_Dot]) -> int:
    return min(MOST_UNITS, (sum(dot[1] for dot in dots) + 1) // 2)


def _may_have_cap(dots: Sequence[_Dot]) -> bool:
    return all(dot[1] > 0 for dot in dots)


class _Drawn:
    """What is drawn of values, weights and sets of goods."""

    def __init__(self, draw: random.Random, goods: int, values: str, top: int, weight: int) -> None:
        self.draw = draw
        self.goods = goods
        self._values = values
        self._top = min(4, top) if values == "small" else top
        self._weight = weight
        self._common = [draw.randint(0, top) for _ in range(goods)]

    def value(self, good: int) -> int:
        if self._values != "clustered":
            return self.draw.randint(0, self._top)
        tenth = self._top // 10
        near = self._common[good] + self.draw.randint(-tenth, tenth)
        return min(max(near, 0), self._top)

    def weight(self) -> int:
        return self.draw.randint(1, self._weight)

    def some_goods(self, least: int = 1) -> List[int]:
        """A set of goods, in order."""
        return sorted(self.draw.sample(range(self.goods), self.draw.randint(min(least, self.goods), self.goods)))

    def dot(self, values: Dict[int, int], weight: int) -> _Dot:
        return tuple([values.get(good) for good in range(self.goods)]), weight


# ------------------------------------------------------------------------------------------------------ groups of bids

def _unit(drawn: _Drawn) -> List[_Dot]:
    return [drawn.dot({good: drawn.value(good) for good in range(drawn.goods)}, 1)]


def _single(drawn: _Drawn) -> List[_Dot]:
    return [drawn.dot({good: drawn.value(good) for good in drawn.some_goods()}, drawn.weight())]


def _block(drawn: _Drawn) -> List[_Dot]:
    """At most so many units of each of two goods: the first is worth more by the same amount for both goods."""
    if drawn.goods < 2:
        return _single(drawn)
    first, second = drawn.draw.sample(range(drawn.goods), 2)
    best = {first: drawn.value(first), second: drawn.value(second)}
    less = drawn.draw.randint(0, min(best.values()))
    added = {good: value - less for good, value in best.items()}
    weight = drawn.weight()
    return [
        drawn.dot({first: added[first]}, weight), drawn.dot({second: added[second]}, weight),
        drawn.dot(best, weight), drawn.dot(added, -weight)]


def _one_of_each(drawn: _Drawn) -> List[_Dot]:
    return _most_of_sets(drawn, [[good] for good in drawn.some_goods(2)])


def _nested(drawn: _Drawn) -> List[_Dot]:
    goods = drawn.some_goods(2)
    sets: List[List[int]] = [[] for _ in range(drawn.draw.randint(1, len(goods)))]
    for good in goods:
        drawn.draw.choice(sets).append(good)
    return _most_of_sets(drawn, [chosen for chosen in sets if chosen])


def _most_of_sets(drawn: _Drawn, sets: Sequence[Sequence[int]]) -> List[_Dot]:
    """At most one unit out of each set, and some number of units in all.

    What such a bidder gains is the sum of the greatest of the sets' gains, each the greatest gain of its goods; and that is
    a sum of greatest gains of unions of sets, which is what bids say.
    """
    values = {good: drawn.value(good) for chosen in sets for good in chosen}
    units, weight = drawn.draw.randint(1, len(sets)), drawn.weight()
    dots = []
    for size in range(1, len(sets) + 1):
        times = weight_of_unions(len(sets), size, units)
        for union in combinations(sets, size) if times else ():
            dots.append(drawn.dot({good: values[good] for chosen in union for good in chosen}, times * weight))
    return dots


def weight_of_unions(sets: int, size: int, units: int) -> int:
    """How often the greatest of each so many numbers counts in the sum of the greatest so many units of all of them.

    The r-th greatest of n numbers is the sum, over s from n - r + 1 to n, of (-1)^(s - n + r - 1) times (s - 1 over n - r)
    times the sum of the greatest of each s of them.

    >>> [weight_of_unions(3, size, 2) for size in (1, 2, 3)]
    [0, 1, -1]
    """
    return sum(
        (-1) ** (size - sets + place - 1) * comb(size - 1, sets - place)
        for place in range(max(1, sets - size + 1), units + 1))


_GROUPS: Dict[str, Callable[[_Drawn], List[_Dot]]] = {
    "unit": _unit, "positive": _single, "blocks": _block, "one-of-each": _one_of_each, "nested": _nested}


def _list_of(drawn: _Drawn, kind: str, bids: int) -> List[_Dot]:
    """A list of groups of a kind, as many as fit; where the next one doesn't, bids of positive weight come in its place."""
    if kind == "mixed":
        kind = drawn.draw.choice(list(_GROUPS))
    if kind == "unit":
        return _unit(drawn)
    dots: List[_Dot] = []
    while len(dots) < bids:
        group = _GROUPS[kind](drawn)
        if not _fits(dots, group, bids):
            group = _single(drawn)
        dots += group
    return dots


def _fits(dots: Sequence[_Dot], group: Sequence[_Dot], bids: int) -> bool:
    if len(dots) + len(group) > bids or any(abs(dot[1]) > MOST_WEIGHT for dot in group):
        return False
    return _may_have_cap(group) or cells_of([*dots, *group]) <= MOST_CELLS


def cells_of(dots: Sequence[_Dot]) -> int:
    """The number of cells of a list, which docs/FORMAT.md limits.

    >>> cells_of([((4, 4), -1), ((4, 7), -1), ((6, 6), -1), ((9, 9), 3)])
    14
    """
    takers = [(0, *values) for values, weight in dots if weight < 0]
    pairs = combinations(range(len(takers[0])), 2) if takers else ()
    return sum(_cells_of_pair(takers, first, second) for first, second in pairs)


def _cells_of_pair(takers: Sequence[Sequence[Optional[int]]], first: int, second: int) -> int:
    levels: Dict[int, List[Sequence[Optional[int]]]] = {}
    for values in takers:
        one, other = values[first], values[second]
        if one is not None and other is not None:
            levels.setdefault(one - other, []).append(values)
    return sum(_cells_of_level(level, first, second) for level in levels.values())


def _cells_of_level(level: Sequence[Sequence[Optional[int]]], first: int, second: int) -> int:
    cells = 1
    for choice in set(range(len(level[0]))) - {first, second}:
        leads = {_lead(values, choice, first) for values in level} - {None}
        cells *= len(leads) + (1 if choice else 0)
    return cells


def _lead(values: Sequence[Optional[int]], choice: int, first: int) -> Optional[int]:
    one, other = values[choice], values[first]
    return None if one is None or other is None else one - other
