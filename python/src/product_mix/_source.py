"""What is sent to the program: the parts of a text, each from a value, a text or a file."""

from itertools import islice
from typing import Callable, List, Mapping, NamedTuple, Optional, Sequence, Tuple, Union

from ._auction import Auction, Bid
from ._errors import FormError, Place
from ._outcome import Amounts, Cleared, Outcome, Refused, spelled_by_good
from ._text import TextOrPath, contents, count_lines, rows_of, without_marks
from ._writing import row, spelled_amounts, spelled_name, text_of

#: An auction, its text, or the name of the file that it stands in.
AuctionOrText = Union[Auction, TextOrPath]
OutcomeOrText = Union[Cleared, Refused, TextOrPath]

#: A number for each good, by its name or in the order of the goods.
AmountsOrList = Union[Amounts, Sequence[int]]

# What is said where the arguments stand in another order.
_SWAPPED = "an %s stands in the place of the %s: the auction is the first argument, its outcome the second"

# The rows of an auction before its bids.
HEAD = ("mix", "goods", "supply", "reserve")


class Part(NamedTuple):
    """A part of a text: what it is called, its bytes, and from which bids its rows were written, if from any."""

    name: str
    data: bytes
    bids: Sequence[Optional[Bid]] = ()

    def ended(self) -> "Part":
        """The part as others may stand before and after it: without marks, and with a last line that is ended."""
        data = without_marks(self.data)
        return self._replace(data=data if data.endswith((b"\n", b"\r")) else data + b"\n")


def part_of(name: str, text: TextOrPath) -> Part:
    data, path = contents(text)
    return Part(name if path is None else path, data)


def rows_part(name: str, rows: Sequence[str], bids: Sequence[Optional[Bid]] = ()) -> Part:
    return Part(name, text_of(rows).encode("ascii"), bids)


class Source:
    """An auction that is sent, and what is needed of it to read the answer."""

    def __init__(self, auction: AuctionOrText, format: Optional[int] = None) -> None:
        if isinstance(auction, Outcome):
            raise FormError(_SWAPPED % ("outcome", "auction"))
        self.auction = auction if isinstance(auction, Auction) else None
        if isinstance(auction, Auction):
            bids = [*[None] * len(HEAD), *auction.bids]
            self.part = Part("auction", auction.text(format).encode("ascii"), bids)
        else:
            self.part = part_of("auction", auction)

    def read(self) -> Optional[Auction]:
        """The auction as a value, or None where its text isn't read as one."""
        if self.auction is not None:
            return self.auction
        try:
            return Auction.read(self.part.data)
        except FormError:
            return None

    @property
    def goods(self) -> Sequence[str]:
        """The names of the goods, as far as they can be told."""
        if self.auction is not None:
            return self.auction.goods
        return [name for goods in islice(rows_of(self.part.data), 1, 2) for name in goods.fields[1:]]

    @property
    def format(self) -> Optional[int]:
        """The format that the text states."""
        for first in islice(rows_of(self.part.data), 1):
            if first.fields[0] == "mix" and first.fields[1:] in (["1"], ["2"], ["3"]):
                return int(first.fields[1])
        return None


def part_after(source: Source, name: str, rows: Callable[[], Sequence[str]]) -> Part:
    """The rows that stand after an auction.

    After a text that isn't read as an auction there are none where they can't be written: the program says what is wrong.
    """
    try:
        return rows_part(name, rows())
    except FormError:
        if source.read() is not None:
            raise
        return rows_part(name, [])


def with_outcome(auction: AuctionOrText, outcome: OutcomeOrText) -> Tuple[Source, Part]:
    """An auction and an outcome of it, in formats that go together."""
    if isinstance(outcome, Auction):
        raise FormError(_SWAPPED % ("auction", "outcome"))
    if not isinstance(outcome, (Cleared, Refused)):
        part = part_of("outcome", outcome)
        return Source(auction, _format_with(auction, part)), part
    source = Source(auction)
    read = source.read()
    # To a text that isn't read as an auction no outcome is written, and the program says what is wrong with it.
    text = "" if read is None else outcome.text(read, source.format)
    return source, Part("outcome", text.encode("ascii"))


def _format_with(auction: AuctionOrText, outcome: Part) -> Optional[int]:
    """The least format that can say the auction and has outcomes of this version."""
    if not isinstance(auction, Auction):
        return None
    for head in islice(rows_of(outcome.data), 1):
        if head.fields == ["outcome", "2"]:
            return max(2, auction.format)
    return None


def amounts_row(word: str, amounts: AmountsOrList, goods: Sequence[str]) -> str:
    """A row with a number for each good."""
    if isinstance(amounts, Mapping):
        return row(word, spelled_by_good(amounts, goods))
    return row(word, spelled_amounts(word, amounts, len(goods)))


def owned_row(bidder: str, bundle: AmountsOrList, goods: Sequence[str]) -> str:
    """A row of what a bidder owns; of goods that a mapping doesn't name it owns nothing."""
    if isinstance(bundle, Mapping):
        unknown = [good for good in bundle if good not in goods]
        if unknown:
            raise FormError("no good is named %s" % ", ".join(unknown))
        bundle = [bundle.get(good, 0) for good in goods]
    return row("own", [spelled_name(bidder), *spelled_amounts("what %s owns" % bidder, bundle, len(goods))])


def joined(parts: Sequence[Part]) -> bytes:
    """The text of all parts."""
    if len(parts) == 1:
        return parts[0].data
    return b"".join(part.ended().data for part in parts)


def place_of(parts: Sequence[Part], number: int) -> Tuple[Place, List[List[str]]]:
    """Where a row stands, by its number in the text of all parts; and the fields of all rows up to it."""
    rows = [found for found in rows_of(joined(parts)) if found.number <= number]
    if not 0 < number <= len(rows):
        name, line = parts[-1].name, count_lines(parts[-1].ended().data) + 1
        return Place(name, line if number else None), [found.fields for found in rows]
    found = rows[number - 1]
    part, start = _part_at(parts, found.line)
    before = sum(earlier.line <= start for earlier in rows)
    bid = part.bids[number - before - 1] if number - before <= len(part.bids) else None
    return Place(part.name, found.line - start, found.text, bid=bid), [found.fields for found in rows]


def _part_at(parts: Sequence[Part], line: int) -> Tuple[Part, int]:
    """The part in which a line stands, and how many lines there are before it."""
    start = 0
    for part in parts[:-1]:
        end = start + count_lines(part.ended().data)
        if line <= end:
            return part, start
        start = end
    return parts[-1], start
