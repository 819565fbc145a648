"""What the other commands answer, as values."""

from dataclasses import dataclass, field
from typing import Any, Callable, Dict, FrozenSet, List, Mapping, Optional, Sequence, Tuple, Union

from ._auction import Auction, read_amounts
from ._outcome import (
    Amounts, Choice, Cleared, Refused, by_good, read_by_good, read_outcome, read_set, read_shares,
)
from ._tables import LINE_COLUMNS, Line, frame_of, lines_of
from ._text import Row, Rows, form_error, read_name, read_number


# ------------------------------------------------------------------------------------------------------------- check

@dataclass(frozen=True)
class Verdict:
    """What the checker says of an outcome: that it is true, or the first reason why it isn't.

    ``reason`` is the reason's word, one of those of docs/FORMAT.md; with it come, as far as it tells them, a bidder, a
    good, a set of choices (None in it is nothing) and the true amount. A verdict counts as true where the outcome is.

    >>> bool(Verdict(True)), bool(Verdict(False, "pay", bidder="Bo", amount=24))
    (True, False)
    >>> print(Verdict(False, "pay", bidder="Bo", amount=24))
    no: the payment of Bo isn't price times quantity, which is 24
    """

    true: bool
    reason: Optional[str] = None
    bidder: Optional[str] = None
    good: Optional[str] = None
    choices: Optional[FrozenSet[Choice]] = None
    amount: Optional[int] = None

    def __bool__(self) -> bool:
        return self.true

    def __str__(self) -> str:
        if self.true or self.reason is None:
            return "yes" if self.true else "no"
        names = sorted("nothing" if choice is None else choice for choice in self.choices or ())
        return "no: " + _REASONS[self.reason][1].format(
            bidder=self.bidder, good=self.good, amount=self.amount, choices=", ".join(names))


# Each reason's fields, in the order in which they are printed, and what it says.
_REASONS = {
    "facet": (("amount",), "the facet has not the weight that is stated, but {amount}"),
    "earlier": (("bidder",), "the list of {bidder}, who comes before, stands for no demand either"),
    "invalid": (("bidder",), "the list of {bidder} stands for no demand, so nothing clears"),
    "floor": (("good",), "the price of {good} is below its reserve"),
    "sum": (("good", "amount"), "shares and returns of {good} add up to {amount}, which is not its supply"),
    "return": (("good",), "units of {good} go back at a price that is above its reserve"),
    "demand": (("bidder", "choices"),
               "{bidder} would rather have something else: its share has more of {choices} than it wants"),
    "lower": (("choices",), "a unit less of each of these prices would clear too: {choices}"),
    "pay": (("bidder", "amount"), "the payment of {bidder} isn't price times quantity, which is {amount}"),
    "pair": (("bidder", "good"), "the sets that stand with {bidder} and {good} are no pair for this good"),
    "tight": (("bidder", "good", "amount"),
              "the pair bounds what {bidder} gets of {good} by {amount}, which is not what it has"),
}


def read_verdict(rows: Rows, goods: Sequence[str]) -> Verdict:
    if rows.word() == "yes":
        rows.take("yes", 0)
        return Verdict(True)
    row = rows.take("no")
    reason = row.fields[1] if len(row.fields) > 1 else ""
    if reason not in _REASONS or len(row.fields) != len(_REASONS[reason][0]) + 2:
        raise form_error(row, "there is no such reason")
    told: Dict[str, Any] = {}
    for name, content in zip(_REASONS[reason][0], row.fields[2:]):
        told[name] = _read_detail(name, content, row, goods)
    return Verdict(False, reason, **told)


def _read_detail(name: str, content: str, row: Row, goods: Sequence[str]) -> Union[str, int, FrozenSet[Choice]]:
    if name == "amount":
        return read_number(content, row)
    return read_set(content, row, goods) if name == "choices" else read_name(content, row)


# --------------------------------------------------------------------------------------- validate, utility, prices, trail

def by_bidder(word: str) -> "Callable[[Rows, Sequence[str]], Dict[str, int]]":
    """What reads an answer of rows that begin with the word, each with a number of a bidder."""

    def read(rows: Rows, goods: Sequence[str]) -> Dict[str, int]:
        numbers: Dict[str, int] = {}
        for row in rows.take_all(word, 2):
            numbers[read_name(row.fields[1], row)] = read_number(row.fields[2], row)
        rows.take("end", 0)
        return numbers

    return read


def read_prices(rows: Rows, goods: Sequence[str]) -> Dict[str, int]:
    prices = read_by_good(rows, "price", goods)
    rows.take("end", 0)
    return prices


@dataclass(frozen=True)
class Step:
    """A long step of the prices: the goods that rise, by how many units, and the slope.

    The slope is by how much the Lyapunov function changes at each unit: how many units of the goods too few there are,
    as a negative number.
    """

    goods: FrozenSet[str]
    length: int
    slope: int


@dataclass(frozen=True)
class Trail:
    """How the prices rise from the reserves: the long steps, and the prices in which they end."""

    steps: Sequence[Step]
    prices: Amounts = field(hash=False)

    def points(self, auction: Auction) -> List[Dict[str, int]]:
        """The prices at the start and after each step, of the auction whose trail it is."""
        points = [by_good(auction.goods, auction.reserve)]
        for step in self.steps:
            points.append({good: price + step.length * (good in step.goods) for good, price in points[-1].items()})
        return points


def read_trail(rows: Rows, goods: Sequence[str]) -> Trail:
    steps = tuple([_read_step(row, goods) for row in rows.take_all("step", 3)])
    return Trail(steps, read_prices(rows, goods))


def _read_step(row: Row, goods: Sequence[str]) -> Step:
    risen = read_set(row.fields[1], row, goods)
    return Step(frozenset([good for good in risen if good is not None]), *[read_number(n, row) for n in row.fields[2:]])


# ----------------------------------------------------------------------------------------------------------- compare

@dataclass(frozen=True)
class Likeness:
    """Whether a bidder's list says the same as the first bidder's; else prices at which their utilities differ.

    It counts as true where the lists say the same; else there are prices, the first bidder's utility there, and its own.
    """

    bidder: str
    same: bool
    prices: Optional[Amounts] = field(default=None, hash=False)
    first: Optional[int] = None
    own: Optional[int] = None

    def __bool__(self) -> bool:
        return self.same


def read_likenesses(rows: Rows, goods: Sequence[str]) -> List[Likeness]:
    likenesses = []
    while rows.word() in ("same", "differ"):
        likenesses.append(_read_likeness(rows, goods))
    rows.take("end", 0)
    return likenesses


def _read_likeness(rows: Rows, goods: Sequence[str]) -> Likeness:
    if rows.word() == "same":
        row = rows.take("same", 1)
        return Likeness(read_name(row.fields[1], row), True)
    row = rows.take("differ", len(goods) + 3)
    *prices, first, own = [read_number(content, row) for content in row.fields[2:]]
    return Likeness(read_name(row.fields[1], row), False, by_good(goods, prices), first, own)


# ------------------------------------------------------------------------------------------------------- trade_range

@dataclass(frozen=True)
class Trade:
    """What a bidder gets of each good beyond its own, less than 0 where it gives, and what it pays or is paid."""

    bundle: Amounts = field(hash=False)
    payment: int


@dataclass(frozen=True)
class TradeRange:
    """Between which prices bidders who own units may trade, and what they trade at the low ones.

    ``high`` is None where some low price is above the ceiling's. ``returns`` is what is left of the supply and of all
    that was owned.
    """

    low: Amounts = field(hash=False)
    high: Optional[Amounts] = field(hash=False)
    trades: Mapping[str, Trade] = field(hash=False)
    returns: Amounts = field(hash=False)

    @property
    def sold(self) -> Dict[str, int]:
        """How many units of each good went from the supply to the bidders, less than 0 where owned units are left."""
        return {good: sum(trade.bundle[good] for trade in self.trades.values()) for good in self.low}

    @property
    def unsold(self) -> Dict[str, int]:
        """How many units of each good are left."""
        return dict(self.returns)

    @property
    def revenue(self) -> int:
        """What the bidders pay together, which the seller gets."""
        return sum(trade.payment for trade in self.trades.values())

    def rows(self) -> List[Line]:
        """A line (bidder, good, quantity, price, payment) for each bidder and each good, at the low prices."""
        return lines_of(self.low, {name: trade.bundle for name, trade in self.trades.items()})

    def to_frame(self) -> Any:
        """The lines as a pandas ``DataFrame``."""
        return frame_of(self.rows(), LINE_COLUMNS)


def read_trade_range(rows: Rows, goods: Sequence[str]) -> TradeRange:
    low = read_by_good(rows, "low", goods)
    high = _read_high(rows, goods)
    trades = {name: Trade(share.bundle, share.payment) for name, share in read_shares(rows, "trade", goods).items()}
    returns = read_by_good(rows, "return", goods)
    rows.take("end", 0)
    return TradeRange(low, high, trades, returns)


def _read_high(rows: Rows, goods: Sequence[str]) -> Optional[Dict[str, int]]:
    row = rows.take("high")
    if row.fields[1:] == ["none"]:
        return None
    if len(row.fields) != len(goods) + 1:
        raise form_error(row, "there should be a price for each good")
    return by_good(goods, read_amounts(row))


# -------------------------------------------------------------------------------------------- upgrade, session and trial

def read_upgraded(rows: Rows, goods: Sequence[str]) -> Tuple[Auction, Union[Cleared, Refused]]:
    return Auction.read_rows(rows), read_outcome(rows, goods)


def read_outcomes(rows: Rows, goods: Sequence[str]) -> List[Union[Cleared, Refused]]:
    outcomes = []
    while rows.word() == "outcome":
        outcomes.append(read_outcome(rows, goods))
    return outcomes


@dataclass(frozen=True)
class Trial:
    """The summary of the outcome of a trial auction: its number and size, prices, units sold, and revenue."""

    number: int
    bidders: int
    bids: int
    negatives: int
    prices: Sequence[int]
    sold: Sequence[int]
    revenue: int


def read_trial(rows: Rows, goods: Sequence[str]) -> Trial:
    counts = [read_amounts(rows.take(word, 1))[0] for word in ("trial", "bidders", "bids", "negatives")]
    prices, sold = tuple(read_amounts(rows.take("price"))), tuple(read_amounts(rows.take("sold")))
    revenue = read_amounts(rows.take("revenue", 1))[0]
    rows.take("end", 0)
    return Trial(counts[0], counts[1], counts[2], counts[3], prices, sold, revenue)


def unless_refused(read: Callable[[Rows, Sequence[str]], Any]) -> Callable[[Rows, Sequence[str]], Any]:
    """What reads an answer, or the refusal that may stand in its place."""

    def read_either(rows: Rows, goods: Sequence[str]) -> Any:
        return read_outcome(rows, goods) if rows.word() == "outcome" else read(rows, goods)

    return read_either


