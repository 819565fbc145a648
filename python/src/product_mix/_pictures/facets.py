"""Where a bidder changes its mind, and what it wants between.

At prices the units of a bidder's bids are served by what they leave, the greatest first, as many as its cap where it has
one; each takes the choice that leaves most. So all follows from the bids, the cap and the prices.
"""

import math
from typing import Dict, Iterator, List, NamedTuple, Optional, Sequence, Set, Tuple

#: A value for each of two goods, or None, and a weight.
Unit = Tuple[Optional[int], Optional[int], int]

# Between which two choices a bidder is torn on a line: the first good and nothing, the second and nothing, or the two.
FIRST, SECOND, BOTH = 0, 1, 2


class Facet(NamedTuple):
    """A line along which a bidder changes its mind, and of how many units.

    Where the kind is FIRST the first good costs `place`, and the second from `low` to `high`; where it is SECOND the other
    way round; where it is BOTH the first good costs `place` more than the second, whose price goes from `low` to `high`.
    """

    kind: int
    place: int
    low: float
    high: float
    weight: int


def facets_of(units: Sequence[Unit], cap: Optional[int] = None) -> List[Facet]:
    """The lines along which the bids change their mind."""
    turned = [(second, first, weight) for first, second, weight in units]
    return [*_upright(units, cap, FIRST), *_upright(turned, cap, SECOND), *_slanted(units, cap)]


def _upright(units: Sequence[Unit], cap: Optional[int], kind: int) -> Iterator[Facet]:
    """The lines at which the first good costs as much as it is worth.

    There the units that the line is of leave nothing, and so are served as far as the cap has room for them.
    """
    for place in sorted({first for first, _, _ in units if first is not None}):
        ends = sorted({second for _, second, _ in units if second is not None})
        stretches = []
        for low, high in _stretches(ends):
            at = _inside(low, high)
            torn = sum(weight for first, second, weight in units if first == place and (second is None or second < at))
            served = sum(weight for first, second, weight in units
                         if (first is not None and first > place) or (second is not None and second > at))
            stretches.append((low, high, _fitting(torn, served, cap)))
        for low, high, weight in _joined(stretches):
            yield Facet(kind, place, low, high, weight)


def _fitting(torn: int, served: int, cap: Optional[int]) -> int:
    return torn if cap is None else max(0, min(torn, cap - served))


def _slanted(units: Sequence[Unit], cap: Optional[int]) -> Iterator[Facet]:
    """The lines along which the two goods leave as much.

    Along one what a unit leaves falls by one wherever both prices rise by one, so the units are served in one order, by
    levels: the price of the second good at which they leave nothing.
    """
    for place in sorted(_places(units, cap)):
        stretches = []
        room: float = math.inf if cap is None else cap
        total = 0
        levels = _levels(units, place)
        falling = sorted(levels, reverse=True)
        for level, lower in zip(falling, [*falling[1:], -math.inf]):
            total += levels[level].change(room)
            room -= levels[level].weight
            stretches.append((lower, float(level), total))
        for low, high, weight in _joined(stretches[::-1]):
            yield Facet(BOTH, place, low, high, weight)


class _Level:
    """The units that leave as much: by the first good alone, by the second alone, and by both."""

    def __init__(self) -> None:
        self.first = self.second = self.torn = 0

    @property
    def weight(self) -> int:
        return self.first + self.second + self.torn

    def change(self, room: float) -> int:
        """How many of the served units take the first good where it is a bit cheaper, and don't where it is dearer."""
        if room >= self.weight:
            return self.torn
        room = max(0, int(room))
        cheaper = min(room, self.first + self.torn)
        dearer = min(self.first, max(0, room - self.second - self.torn))
        return cheaper - dearer


def _levels(units: Sequence[Unit], place: int) -> Dict[int, _Level]:
    """The units by the price of the second good at which they leave nothing, where the first costs `place` more."""
    levels: Dict[int, _Level] = {}
    for first, second, weight in units:
        shifted = None if first is None else first - place
        if shifted is not None and (second is None or shifted > second):
            levels.setdefault(shifted, _Level()).first += weight
        elif second is not None and (shifted is None or second > shifted):
            levels.setdefault(second, _Level()).second += weight
        elif second is not None:
            levels.setdefault(second, _Level()).torn += weight
    return levels


def _places(units: Sequence[Unit], cap: Optional[int]) -> Set[int]:
    """By how much the first good may cost more where units change from one to the other.

    That is the difference of a bid's two values; or, under a cap, where a unit by the first good and one by the second
    leave as much as the last unit that is served.
    """
    places = {first - second for first, second, _ in units if first is not None and second is not None}
    if cap is not None:
        firsts = {first for first, _, _ in units if first is not None}
        for level in {second for _, second, _ in units if second is not None}:
            # The last unit leaves more as the first good gets cheaper: here no more than the level, here no less.
            low, high = _last_place(units, cap, level, level + 1), _last_place(units, cap, level, level)
            places |= {first - level for first in firsts if low <= first - level <= high}
    return places


def _last_place(units: Sequence[Unit], cap: int, level: int, bar: int) -> float:
    """By how much the first good may cost more at most where the last unit served leaves what the level leaves.

    Units with a second value at or above the bar are served before it.
    """
    room = cap - sum(weight for _, second, weight in units if second is not None and second >= bar)
    if room <= 0:
        return math.inf
    others = [(first, weight) for first, second, weight in units
              if first is not None and (second is None or second < bar)]
    for first, weight in sorted(others, reverse=True):
        room -= weight
        if room <= 0:
            return first - level
    return -math.inf


# --------------------------------------------------------------------------------------------------------- stretches

Stretch = Tuple[float, float, int]


def _stretches(ends: Sequence[int]) -> List[Tuple[float, float]]:
    """What lies between these numbers, and before and after them."""
    return list(zip([-math.inf, *ends], [*ends, math.inf]))


def _inside(low: float, high: float) -> float:
    """A number between two."""
    if math.isinf(low):
        return high - 1 if math.isfinite(high) else 0
    return low + 1 if math.isinf(high) else (low + high) / 2


def _joined(stretches: Sequence[Stretch]) -> List[Stretch]:
    """The stretches of a weight, neighbours of one weight as one."""
    joined: List[Stretch] = []
    for low, high, weight in stretches:
        if joined and joined[-1][2] == weight and joined[-1][1] == low:
            joined[-1] = (joined[-1][0], high, weight)
        else:
            joined.append((low, high, weight))
    return [stretch for stretch in joined if stretch[2]]


# ------------------------------------------------------------------------------------------------------- what is wanted

class _Served(NamedTuple):
    """Units that leave something: how much, by which good or None where by both, and how many."""

    gain: float
    good: Optional[int]
    weight: int


def wanted(units: Sequence[Unit], cap: Optional[int], prices: Sequence[float]) -> Optional[Tuple[int, int]]:
    """How many units of the two goods the bids want at prices, or None where they are torn between bundles.

    >>> wanted([(6, None, 1), (None, 4, 2)], None, (1, 1)), wanted([(6, None, 1), (None, 4, 2)], 2, (1, 1))
    ((1, 2), (1, 1))
    >>> wanted([(6, None, 1), (None, 4, 2)], 2, (3, 1)) is None
    True
    """
    bundle = [0, 0]
    room: float = math.inf if cap is None else cap
    served: List[_Served] = []
    for unit in units:
        one = _served(unit, prices)
        if one is None:
            return None
        if one.gain > 0:
            served.append(one)
    for level in _by_gain(served) if cap is not None else [served]:
        weight = sum(found.weight for found in level)
        goods = {found.good for found in level}
        if None in goods and room > 0 or 0 < room < weight and len(goods) > 1:
            return None
        for found in level:
            taken = found.weight if cap is None else min(found.weight, int(room))
            if found.good is not None:
                bundle[found.good] += taken
            room -= taken
    return bundle[0], bundle[1]


def _served(unit: Unit, prices: Sequence[float]) -> Optional[_Served]:
    """What a unit leaves and takes, or None where it is torn between a good and nothing."""
    first = -math.inf if unit[0] is None else unit[0] - prices[0]
    second = -math.inf if unit[1] is None else unit[1] - prices[1]
    if first > second:
        return _Served(first, 0, unit[2]) if first else None
    if second > first:
        return _Served(second, 1, unit[2]) if second else None
    return _Served(first, None, unit[2]) if first else None


def _by_gain(served: Sequence[_Served]) -> List[List[_Served]]:
    levels: Dict[float, List[_Served]] = {}
    for unit in served:
        levels.setdefault(unit.gain, []).append(unit)
    return [levels[gain] for gain in sorted(levels, reverse=True)]
