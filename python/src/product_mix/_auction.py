"""Auctions as values: goods, bids, caps, tie orders."""

import functools
import operator
from dataclasses import dataclass, field, replace
from typing import Callable, Dict, Iterable, List, Mapping, Optional, Sequence, Set, Tuple

from ._errors import FormError, counted, kind_of, shortened
from ._text import NOTHING, Row, Rows, TextOrPath, contents, form_error, read_name, read_number
from ._writing import listed_values, row, spelled_amounts, spelled_name, spelled_number, text_of

FORMATS = (1, 2, 3)
# What format 1 can say; where there is more, the least format is a later one.
MOST_GOODS = 5
MOST_BIDDERS = 64
MOST_NEGATIVES = 12

# What the parts of an auction are lists of.
_NAMES, _NUMBERS, _BIDS = "names", "numbers, in the order of the goods", "Bid(bidder, values, weight)"
_LISTS = {"goods": _NAMES, "supply": _NUMBERS, "reserve": _NUMBERS, "bids": _BIDS}


@dataclass(frozen=True)
class Bid:
    """A bid: its bidder, a value for each good or None where it leaves the good out, and for how many units it is.

    A bid takes one kind of good, the one that leaves most of its value, or nothing. A negative weight takes back.
    """

    bidder: str
    values: Sequence[Optional[int]]
    weight: int = 1

    def __post_init__(self) -> None:
        if type(self.values) is not tuple:
            object.__setattr__(self, "values", listed_values("values", self.values, _NUMBERS))


@dataclass(frozen=True)
class Auction:
    """An auction: goods, of each the supply and the reserve price, bids, caps by bidder, and the tie order.

    ``order`` names all bidders, the first one is served first; where it is None they come in the order of their first
    bids. Supply and reserve stand in the order of the goods. Nothing is looked at but
    the form, and that of names and numbers when the auction is written: what the program takes, it says.

    >>> auction = Auction(goods=["inside", "outside"], supply=[2, 2], reserve=[10, 6])
    >>> auction = auction.bid("Ann", 1, inside=40).bid("Bo", 2, inside=24, outside=16)
    >>> auction.bidders
    ('Ann', 'Bo')
    >>> print(auction.text(), end="")
    mix,1
    goods,inside,outside
    supply,2,2
    reserve,10,6
    bid,Ann,1,40,-
    bid,Bo,2,24,16
    end
    """

    goods: Sequence[str]
    supply: Sequence[int]
    reserve: Sequence[int]
    bids: Sequence[Bid] = ()
    caps: Mapping[str, int] = field(default_factory=dict, hash=False)
    order: Optional[Sequence[str]] = None

    def __post_init__(self) -> None:
        for name, wanted in _LISTS.items():
            object.__setattr__(self, name, listed_values(name, getattr(self, name), wanted))
        _look_at_bids(self.bids)
        object.__setattr__(self, "caps", dict(self.caps))
        if self.order is not None:
            object.__setattr__(self, "order", listed_values("order", self.order, _NAMES))

    @property
    def bidders(self) -> Tuple[str, ...]:
        """The bidders, in the order of their first bids."""
        return tuple(dict.fromkeys(bid.bidder for bid in self.bids))

    @property
    def tie_order(self) -> Tuple[str, ...]:
        """The bidders, in the order in which they are served where several bundles are as good."""
        return self.bidders if self.order is None else tuple(self.order)

    def bid(self, bidder: str, weight: int, values: Optional[Sequence[Optional[int]]] = None, /,
            **by_good: Optional[int]) -> "Auction":
        """The auction with one bid more, whose values stand in the order of the goods, or each by its good's name.

        A new bidder stands last in the tie order. For many bids hand them to ``Auction`` together.
        """
        if values is None:
            unknown = [good for good in by_good if good not in self.goods]
            if unknown:
                raise FormError("no good is named %s" % ", ".join(unknown))
            values = [by_good.get(good) for good in self.goods]
        elif by_good:
            raise FormError("values stand in the order of the goods or by their names, not both")
        return self.with_bid(Bid(bidder, values, weight))

    def with_bid(self, bid: Bid) -> "Auction":
        """The auction with one bid more. A new bidder stands last in the tie order."""
        order = self.order
        if order is not None and bid.bidder not in order:
            order = [*order, bid.bidder]
        return replace(self, bids=[*self.bids, bid], order=order)

    def without(self, bidder: str) -> "Auction":
        """The auction without the bids and the cap of a bidder."""
        return replace(
            self,
            bids=[bid for bid in self.bids if bid.bidder != bidder],
            caps={name: cap for name, cap in self.caps.items() if name != bidder},
            order=None if self.order is None else [name for name in self.order if name != bidder],
        )

    @property
    def format(self) -> int:
        """The least format that can say the auction."""
        if self.caps:
            return 3
        if self.order is not None or len(self.goods) > MOST_GOODS or len(self.bidders) > MOST_BIDDERS:
            return 2
        return 2 if _most_negatives(self.bids) > MOST_NEGATIVES else 1

    def text(self, format: Optional[int] = None) -> str:
        """The auction as a text, in the least format that can say it or in the one asked for.

        A ``FormError``, which is a ``ValueError``, names the bid that has no text: one with another number of values
        than there are goods, a name of another form, or a number that isn't whole. So it is where the format can't say
        the caps or the tie order.
        """
        return text_of(list(self._rows(format_or_least(format, self))))

    def _rows(self, format: int) -> Iterable[str]:
        yield "mix,%d" % format
        yield row("goods", map(spelled_name, self.goods))
        yield row("supply", spelled_amounts("supply", self.supply, len(self.goods)))
        yield row("reserve", spelled_amounts("reserve", self.reserve, len(self.goods)))
        yield from _bid_rows(self.bids, len(self.goods))
        if self.caps and format < 3:
            raise FormError("caps can't be said in format %d" % format)
        for name, cap in self.caps.items():
            yield row("cap", [spelled_name(name), spelled_number(cap)])
        if self.order is not None:
            if format < 2:
                raise FormError("a tie order can't be said in format %d" % format)
            yield row("order", map(spelled_name, self.order))
        yield "end"

    @classmethod
    def read(cls, text: TextOrPath) -> "Auction":
        """The auction that a text says, or the file that it stands in, of any format.

        A str with a line break is a text, any other str and every path the name of a file; bytes are a text. A
        ``FormError`` says where a text hasn't the form of an auction; :func:`faults` has the program's own words.
        """
        rows = Rows(contents(text)[0])
        auction = cls.read_rows(rows)
        rows.finish()
        return auction

    @classmethod
    def read_rows(cls, rows: Rows) -> "Auction":
        """The auction that the next rows say."""
        format = _read_format(rows.take("mix", 1))
        head = rows.take("goods")
        goods = [read_name(content, head) for content in head.fields[1:]]
        supply = read_amounts(rows.take("supply", len(goods)))
        reserve = read_amounts(rows.take("reserve", len(goods)))
        read_bid = bid_reader()
        bids = [read_bid(row) for row in rows.take_all("bid", len(goods) + 2)]
        caps: Dict[str, int] = {}
        while format >= 3 and rows.word() == "cap":
            cap = rows.take("cap", 2)
            name = read_name(cap.fields[1], cap)
            if name in caps:
                raise form_error(cap, "%s has two caps" % name)
            caps[name] = read_number(cap.fields[2], cap)
        order = None
        if format >= 2 and rows.word() == "order":
            last = rows.take("order")
            order = [read_name(content, last) for content in last.fields[1:]]
        rows.take("end", 0)
        return cls(goods, supply, reserve, bids, caps, order)


def format_or_least(format: Optional[int], auction: Auction) -> int:
    """The format that is asked for, which has to be one, or the least that can say the auction."""
    if format is None:
        return auction.format
    if format not in FORMATS:
        raise FormError("there is no format %s" % shortened(repr(format)))
    return format


def _look_at_bids(bids: Iterable[object]) -> None:
    """All of them have to be bids."""
    for number, bid in enumerate(bids, 1):
        if not isinstance(bid, Bid):
            raise FormError("bid %d is %s: write %s" % (number, kind_of(bid), _BIDS))


def _most_negatives(bids: Iterable[Bid]) -> int:
    """The most bids of negative weight that one bidder has."""
    counts: Dict[str, int] = {}
    for bid in bids:
        if _is_negative(bid.weight):
            counts[bid.bidder] = counts.get(bid.bidder, 0) + 1
    return max(counts.values(), default=0)


def _is_negative(weight: int) -> bool:
    try:
        return operator.index(weight) < 0
    except TypeError:
        # It has no text, which is told when it is written.
        return False


def _read_format(row: Row) -> int:
    if row.fields[1] not in ("1", "2", "3"):
        raise form_error(row, "there is no such format")
    return int(row.fields[1])


def read_amounts(row: Row) -> List[int]:
    """The numbers after the word of a row."""
    return [read_number(content, row) for content in row.fields[1:]]


def bid_reader() -> Callable[[Row], Bid]:
    """What reads rows of bids. The bids of one bidder share its name, which is shorter."""
    names: Dict[str, str] = {}

    def read_bid(row: Row) -> Bid:
        name = row.fields[1]
        bidder = names[name] if name in names else names.setdefault(name, read_name(name, row))
        try:
            bid = Bid(bidder, _read_values(row.fields[3:], int), int(row.fields[2]))
            # Most rows read as they would be written, and need no closer look.
            if ",".join(["bid", bidder, str(bid.weight), *map(_spelled_value, bid.values)]) == row.text:
                return bid
        except ValueError:
            pass
        number = functools.partial(read_number, row=row)
        return Bid(bidder, _read_values(row.fields[3:], number), number(row.fields[2]))

    return read_bid


def _read_values(contents: Sequence[str], number: Callable[[str], int]) -> Tuple[Optional[int], ...]:
    if NOTHING not in contents:
        return tuple(map(number, contents))
    return tuple([None if content == NOTHING else number(content) for content in contents])


# ---------------------------------------------------------------------------------------------------- how bids are written

def _spelled_value(value: Optional[int]) -> str:
    if type(value) is int:
        return str(value)
    return NOTHING if value is None else spelled_number(value)


def _bid_rows(bids: Iterable[Bid], goods: int) -> Iterable[str]:
    known: Set[str] = set()
    for number, bid in enumerate(bids, 1):
        yield bid_row("bid", bid, goods, known, "bid %d" % number)


def bid_row(word: str, bid: Bid, goods: int, known: Set[str], what: str) -> str:
    """The row of a bid, which errors call by `what` it is. Names that are known to be ones aren't looked at again."""
    try:
        if bid.bidder not in known:
            known.add(spelled_name(bid.bidder))
        if len(bid.values) != goods:
            raise FormError("it has %s for %s" % (counted(len(bid.values), "value"), counted(goods, "good")))
        return ",".join([word, bid.bidder, spelled_number(bid.weight), *map(_spelled_value, bid.values)])
    except ValueError as error:
        # Python's own is of a number that is too long.
        why = error if isinstance(error, FormError) else "a number is too long"
        raise FormError("%s, of %s: %s" % (what, shortened(repr(bid.bidder)), why), bid=bid) from None
