"""An auction that is run again while bids come and go."""

from types import TracebackType
from typing import Any, List, Optional, Sequence, Set, Type, Union

from ._answers import read_outcomes
from ._auction import Auction, Bid, bid_row
from ._errors import FormError, ProgramError, counted
from ._outcome import Cleared, Refused
from ._program import PathName
from ._solver import Solver
from ._source import AuctionOrText, Source, rows_part
from ._tables import SESSION_COLUMNS, SessionLine, frame_of
from ._writing import spelled_name

# Format 2 has wider limits than format 1, and the outcomes are the same values.
LEAST_FORMAT = 2


class Session:
    """A session: an auction, bids that come, bidders who leave, and outcomes in between.

    The program runs once, when the session is closed, and the outcomes come in the order in which they were asked for.

    >>> session = Session.begin(Auction(["sack"], supply=[2], reserve=[1]).bid("Ida", 2, sack=5))
    >>> session.clear()
    >>> session.add("Lou", 1, sack=7)
    >>> session.clear()
    >>> session.drop("Ida")
    >>> session.clear()
    >>> [outcome.prices["sack"] for outcome in session.close()]
    [1, 5, 1]
    >>> session.rows()[2]
    SessionLine(outcome=2, bidder='Lou', good='sack', quantity=1, price=5, payment=5)

    In a ``with`` statement it is closed at its end; the outcomes are then in ``session.outcomes``. A text that has a
    fault raises it at once, a row of the session when it is closed. What is done after the end raises a ``FormError``.
    """

    def __init__(self, auction: AuctionOrText, *, program: Optional[PathName] = None,
                 library: Optional[PathName] = None) -> None:
        self._solver = Solver(program, library)
        #: The auction as it now stands.
        self.auction = self._read(auction)
        #: The auction as it stood at each outcome.
        self.auctions: List[Auction] = []
        #: The outcomes, once the session is closed.
        self.outcomes: List[Union[Cleared, Refused]] = []
        self._source = Source(self.auction, max(LEAST_FORMAT, self.auction.format))
        self._rows: List[str] = []
        self._bids: List[Optional[Bid]] = []
        self._names: Set[str] = set()
        self._is_open = True

    @classmethod
    def begin(cls, auction: AuctionOrText, *, program: Optional[PathName] = None,
              library: Optional[PathName] = None) -> "Session":
        """A session that begins with an auction; ``Session(auction)`` in a word."""
        return cls(auction, program=program, library=library)

    def add(self, bidder: str, weight: int, values: Optional[Sequence[Optional[int]]] = None, /,
            **by_good: Optional[int]) -> None:
        """A bid comes, and stands last in its bidder's list; a new bidder stands last."""
        self._look_open()
        changed = self.auction.bid(bidder, weight, values, **by_good)
        bid = changed.bids[-1]
        self._note(bid_row("add", bid, len(self.auction.goods), self._names, "the bid"), bid)
        self.auction = changed

    def drop(self, bidder: str) -> None:
        """A bidder leaves, with its bids and its cap."""
        self._look_open()
        self._note("drop,%s" % spelled_name(bidder))
        self.auction = self.auction.without(bidder)

    def clear(self) -> None:
        """The outcome is asked for, as things stand."""
        self._look_open()
        self._note("clear")
        self.auctions.append(self.auction)

    def close(self) -> List[Union[Cleared, Refused]]:
        """Runs the session, and gives the outcomes in order."""
        self._look_open()
        self._is_open = False
        rest = rows_part("session", [*self._rows, "close"], self._bids)
        outcomes = self._solver.answer(["session"], [self._source.part, rest], read_outcomes, lambda: self.auction.goods)
        if len(outcomes) != len(self.auctions):
            raise ProgramError("it printed %s, and %d were asked for" % (counted(len(outcomes), "outcome"), len(self.auctions)))
        self.outcomes = outcomes
        return self.outcomes

    def rows(self) -> List[SessionLine]:
        """The lines of all outcomes that cleared, each with the number of its outcome, from 1."""
        return [
            SessionLine(number, *line)
            for number, outcome in enumerate(self.outcomes, 1) if isinstance(outcome, Cleared)
            for line in outcome.rows()
        ]

    def to_frame(self) -> Any:
        """The lines as a pandas ``DataFrame``."""
        return frame_of(self.rows(), SESSION_COLUMNS)

    def __enter__(self) -> "Session":
        return self

    def __exit__(self, kind: Optional[Type[BaseException]], error: Optional[BaseException],
                 trace: Optional[TracebackType]) -> None:
        if kind is None and self._is_open:
            self.close()

    def _read(self, auction: AuctionOrText) -> Auction:
        if isinstance(auction, Auction):
            return auction
        try:
            return Auction.read(auction)
        except FormError:
            # The program says better what is wrong with the text.
            self._solver.answer(["session"], [Source(auction).part, rows_part("session", ["close"])], read_outcomes, tuple)
            raise

    def _note(self, row: str, bid: Optional[Bid] = None) -> None:
        self._rows.append(row)
        self._bids.append(bid)

    def _look_open(self) -> None:
        if not self._is_open:
            raise FormError("the session is closed")
