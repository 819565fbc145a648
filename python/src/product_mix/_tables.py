"""Tables: plain lines, and frames of pandas where it is there."""

from typing import Any, List, Mapping, NamedTuple, Sequence, Tuple


class Line(NamedTuple):
    """How many units of a good a bidder gets, at which price, and what it pays for these."""

    bidder: str
    good: str
    quantity: int
    price: int
    payment: int


class SessionLine(NamedTuple):
    """A line of an outcome of a session; the outcomes are counted from 1."""

    outcome: int
    bidder: str
    good: str
    quantity: int
    price: int
    payment: int


LINE_COLUMNS = Line._fields
SESSION_COLUMNS = SessionLine._fields

# What has to have room for payments of up to 10,000,000,000,000 on every machine.
_WHOLE = "int64"
_NAMES = ("bidder", "good")


def lines_of(prices: Mapping[str, int], bundles: Mapping[str, Mapping[str, int]]) -> List[Line]:
    """A line for each bidder and each good."""
    return [
        Line(bidder, good, bundle[good], price, price * bundle[good])
        for bidder, bundle in bundles.items()
        for good, price in prices.items()
    ]


def frame_of(lines: Sequence[Tuple[Any, ...]], columns: Sequence[str]) -> Any:
    """The lines as a pandas frame, which has its columns also where there is no line."""
    try:
        import pandas
    except ImportError as error:
        raise ImportError("a frame wants pandas: pip install pandas") from error
    frame = pandas.DataFrame(lines, columns=list(columns))
    return frame.astype({column: _WHOLE for column in columns if column not in _NAMES})
