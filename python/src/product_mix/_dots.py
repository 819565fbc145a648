"""Bids as the literature writes them: dots, each a vector of values and a weight."""

import math
from typing import Any, Iterable, List, Optional, Sequence, Tuple

from ._auction import Bid
from ._errors import FormError, shortened

#: A vector of values, None where a good is left out, and a weight.
Dot = Tuple[Tuple[Optional[int], ...], int]


def from_dots(bidder: str, dots: Iterable[Tuple[Sequence[Any], Any]]) -> List[Bid]:
    """The bids of a bidder, from pairs of a vector and a weight; of arrays by ``zip(vectors, weights)``.

    A good is left out by None, minus infinity, or a number that is none (nan). Numbers may be of any kind, as numpy's, and
    have to be whole.

    >>> from_dots("Cleo", [((30, 24), 1), ((16, float("-inf")), 1)])
    [Bid(bidder='Cleo', values=(30, 24), weight=1), Bid(bidder='Cleo', values=(16, None), weight=1)]
    """
    return [Bid(bidder, [_value_of(entry) for entry in vector], _whole(weight)) for vector, weight in dots]


def to_dots(bids: Iterable[Bid], bidder: Optional[str] = None) -> List[Dot]:
    """The pairs of a vector and a weight of these bids, or of those of one bidder.

    >>> to_dots([Bid("Cleo", (30, 24)), Bid("Bo", (24, 16), 2)], "Bo")
    [((24, 16), 2)]
    """
    return [(tuple(bid.values), bid.weight) for bid in bids if bidder in (None, bid.bidder)]


def to_arrays(bids: Iterable[Bid], bidder: Optional[str] = None) -> Tuple[Any, Any]:
    """The same as two numpy arrays: the vectors, a row for each bid, with minus infinity where a good is left out, and the
    weights.

    The vectors are floating numbers, which say every value that a text may have to the unit.
    """
    try:
        import numpy
    except ImportError as error:
        raise ImportError("arrays want numpy: pip install numpy") from error
    dots = to_dots(bids, bidder)
    goods = len(dots[0][0]) if dots else 0
    vectors = [[-math.inf if value is None else value for value in vector] for vector, _ in dots]
    return (numpy.array(vectors, dtype=numpy.float64).reshape(len(dots), goods),
            numpy.array([weight for _, weight in dots], dtype=numpy.int64))


def _value_of(entry: Any) -> Optional[int]:
    if entry is None or (isinstance(entry, float) and (math.isnan(entry) or entry == -math.inf)):
        return None
    return _whole(entry)


def _whole(number: Any) -> int:
    try:
        whole = int(number)
    except (TypeError, ValueError, OverflowError):
        raise FormError("%s is no whole number" % shortened(repr(number))) from None
    # A text of digits isn't a number either.
    if whole != number:
        raise FormError("%s is no whole number" % shortened(repr(number)))
    return whole
