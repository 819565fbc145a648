"""Outcomes as values: who gets what at which prices, and what shows that it is so."""

import functools
from dataclasses import dataclass, field
from typing import Any, Dict, FrozenSet, Iterator, List, Mapping, Optional, Sequence, Tuple, Union

from ._auction import Auction, format_or_least, read_amounts
from ._errors import FormError
from ._tables import LINE_COLUMNS, Line, frame_of, lines_of
from ._text import NOTHING, NUMBER, Row, Rows, TextOrPath, contents, form_error, read_name, read_number
from ._writing import row, spelled_name, spelled_number, text_of

#: A choice: a good, or None for nothing.
Choice = Optional[str]

#: How many units of each good, or at which price, by the name of the good.
Amounts = Mapping[str, int]

#: An auction, or the names of its goods alone.
AuctionOrGoods = Union[Auction, Sequence[str]]


@dataclass(frozen=True)
class Share:
    """What a bidder gets of each good, and what it pays."""

    bundle: Amounts = field(hash=False)
    payment: int


@dataclass(frozen=True)
class Tight:
    """Two sets of choices that show why a bidder gets no more of a good. None in a set is the choice of nothing."""

    bidder: str
    good: str
    upper: FrozenSet[Choice]
    lower: FrozenSet[Choice]


@dataclass(frozen=True)
class Facet:
    """At these prices the bids that are torn between exactly these two choices have this weight together."""

    choices: Tuple[Choice, Choice]
    prices: Amounts = field(hash=False)
    weight: int


class Outcome:
    """The outcome of an auction: :class:`Cleared` or :class:`Refused`."""

    cleared: bool

    @staticmethod
    def read(text: TextOrPath, auction: AuctionOrGoods) -> "Union[Cleared, Refused]":
        """The outcome that a text says, or the file that it stands in, of an auction.

        Of the auction the names of the goods are needed, and may stand in its place. A row ``order`` is read over: it
        is the auction's.
        """
        rows = Rows(contents(text)[0])
        outcome = read_outcome(rows, goods_of(auction))
        rows.finish()
        return outcome

    def text(self, auction: Auction, format: Optional[int] = None) -> str:
        """The outcome as a text, as the program prints it for the auction in its least format, or the one asked for."""
        return text_of(list(self._rows(auction, format_or_least(format, auction))))

    def _rows(self, auction: Auction, format: int) -> Iterator[str]:
        yield "outcome,%d" % (1 if format == 1 else 2)
        if format != 1:
            yield row("order", map(spelled_name, auction.tie_order))
        yield from self._own_rows(auction.goods)
        yield "end"

    def _own_rows(self, goods: Sequence[str]) -> Iterator[str]:
        raise NotImplementedError


@dataclass(frozen=True)
class Cleared(Outcome):
    """An auction that cleared: prices, each bidder's share, what goes back to the seller, and tight pairs.

    ``prices`` and ``returns`` are by good, ``shares`` by bidder; all numbers are whole.
    """

    prices: Amounts = field(hash=False)
    shares: Mapping[str, Share] = field(hash=False)
    returns: Amounts = field(hash=False)
    tight: Sequence[Tight]
    cleared = True

    @property
    def sold(self) -> Dict[str, int]:
        """How many units of each good the bidders get together."""
        return {good: sum(share.bundle[good] for share in self.shares.values()) for good in self.prices}

    @property
    def unsold(self) -> Dict[str, int]:
        """How many units of each good go back to the seller."""
        return dict(self.returns)

    @property
    def revenue(self) -> int:
        """What the bidders pay together."""
        return sum(share.payment for share in self.shares.values())

    def rows(self) -> List[Line]:
        """A line (bidder, good, quantity, price, payment) for each bidder and each good, the payment for these units."""
        return lines_of(self.prices, {name: share.bundle for name, share in self.shares.items()})

    def to_frame(self) -> Any:
        """The lines as a pandas ``DataFrame``."""
        return frame_of(self.rows(), LINE_COLUMNS)

    def _own_rows(self, goods: Sequence[str]) -> Iterator[str]:
        yield "cleared"
        yield row("price", spelled_by_good(self.prices, goods))
        for bidder, share in self.shares.items():
            yield row("share", [spelled_name(bidder), *spelled_by_good(share.bundle, goods), spelled_number(share.payment)])
        yield row("return", spelled_by_good(self.returns, goods))
        for pair in self.tight:
            yield row("tight", [spelled_name(pair.bidder), spelled_name(pair.good),
                                spelled_set(pair.upper, goods), spelled_set(pair.lower, goods)])


@dataclass(frozen=True)
class Refused(Outcome):
    """An auction with a list that stands for no demand: the first bidder of whom that is so, and a facet that shows it."""

    bidder: str
    facet: Facet
    cleared = False

    def explain(self, auction: Auction) -> str:
        """Where the list fails, and which of its bids of the auction meet there, in words."""
        # These sentences are on outcomes, and so stand in a module above this one.
        from ._explaining import Sentences
        from ._shown import Shown
        return "\n".join(Sentences(auction, Shown()).refusal(self))

    def _own_rows(self, goods: Sequence[str]) -> Iterator[str]:
        yield row("refused", [
            spelled_name(self.bidder), *map(_spelled_choice, self.facet.choices),
            *spelled_by_good(self.facet.prices, goods), spelled_number(self.facet.weight),
        ])


# ------------------------------------------------------------------------------------------------------- how it is read

def goods_of(auction: AuctionOrGoods) -> Sequence[str]:
    """The names of an auction's goods."""
    return auction.goods if isinstance(auction, Auction) else auction


def read_outcome(rows: Rows, goods: Sequence[str]) -> Union[Cleared, Refused]:
    """The outcome that the next rows say."""
    head = rows.take("outcome", 1)
    if head.fields[1] not in ("1", "2"):
        raise form_error(head, "there is no such version")
    if head.fields[1] == "2":
        rows.take("order")
    is_refused = rows.word() == "refused"
    outcome: Union[Cleared, Refused] = _read_refused(rows, goods) if is_refused else _read_cleared(rows, goods)
    rows.take("end", 0)
    return outcome


def _read_cleared(rows: Rows, goods: Sequence[str]) -> Cleared:
    rows.take("cleared", 0)
    prices = read_by_good(rows, "price", goods)
    shares = read_shares(rows, "share", goods)
    returns = read_by_good(rows, "return", goods)
    tight = tuple([_read_tight(pair, goods) for pair in rows.take_all("tight", 4)])
    return Cleared(prices, shares, returns, tight)


def _read_refused(rows: Rows, goods: Sequence[str]) -> Refused:
    refused = rows.take("refused", len(goods) + 4)
    bidder, first, second, *numbers = refused.fields[1:]
    weight = read_number(numbers.pop(), refused)
    choices = (_read_choice(first, refused), _read_choice(second, refused))
    prices = by_good(goods, [read_number(number, refused) for number in numbers])
    return Refused(read_name(bidder, refused), Facet(choices, prices, weight))


def read_by_good(rows: Rows, word: str, goods: Sequence[str]) -> Dict[str, int]:
    """The next row, which has a number for each good."""
    return by_good(goods, read_amounts(rows.take(word, len(goods))))


def by_good(goods: Sequence[str], amounts: Sequence[int]) -> Dict[str, int]:
    """The numbers by the names of the goods."""
    return dict(zip(goods, amounts))


def read_shares(rows: Rows, word: str, goods: Sequence[str]) -> Dict[str, Share]:
    """The next rows, each of a bidder with a bundle and a payment."""
    shares: Dict[str, Share] = {}
    for share in rows.take_all(word, len(goods) + 2):
        name = read_name(share.fields[1], share)
        if name in shares:
            raise form_error(share, "%s has two of these rows" % name)
        *bundle, payment = [read_number(content, share) for content in share.fields[2:]]
        shares[name] = Share(by_good(goods, bundle), payment)
    return shares


def _read_tight(pair: Row, goods: Sequence[str]) -> Tight:
    bidder, good, upper, lower = pair.fields[1:]
    return Tight(read_name(bidder, pair), read_name(good, pair), read_set(upper, pair, goods), read_set(lower, pair, goods))


def _read_choice(content: str, row: Row) -> Choice:
    return None if content == NOTHING else read_name(content, row)


def read_set(content: str, row: Row, goods: Sequence[str]) -> FrozenSet[Choice]:
    """The set of choices that a number says: 1 is nothing, 2 the first good, 4 the second and so on, added up."""
    found = _set_of(content, tuple(goods))
    if found is None:
        raise form_error(row, "%d is no set of choices" % read_number(content, row))
    return found


# An outcome has few different sets in many rows.
@functools.lru_cache(maxsize=1024)
def _set_of(content: str, goods: Tuple[str, ...]) -> Optional[FrozenSet[Choice]]:
    """The set, or None where the field says no number of one."""
    # A number of more digits is that of no set.
    number = int(content) if NUMBER.fullmatch(content) and len(content) <= len(goods) + 1 else -1
    if not 0 <= number < 2 << len(goods):
        return None
    return frozenset([choice for at, choice in enumerate((None, *goods)) if number >> at & 1])


# ---------------------------------------------------------------------------------------------------- how it is written

def spelled_by_good(amounts: Amounts, goods: Sequence[str]) -> List[str]:
    """The numbers in the order of the goods."""
    if len(amounts) != len(goods) or any(good not in amounts for good in goods):
        raise FormError("%r has not a number for each of the goods %s" % (dict(amounts), ", ".join(goods)))
    return [spelled_number(amounts[good]) for good in goods]


def spelled_set(choices: FrozenSet[Choice], goods: Sequence[str]) -> str:
    """The number of a set of choices."""
    places = {choice: at for at, choice in enumerate((None, *goods))}
    unknown = [str(choice) for choice in choices if choice not in places]
    if unknown:
        raise FormError("no good is named %s" % ", ".join(unknown))
    return str(sum(1 << places[choice] for choice in choices))


def _spelled_choice(choice: Choice) -> str:
    return NOTHING if choice is None else spelled_name(choice)
