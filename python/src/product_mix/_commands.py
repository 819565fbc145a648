"""One call for each command of the program.

Each takes an :class:`Auction`, its text, or the name of the file that it stands in (a str with a line break is a text, any
other str and every path the name of a file; bytes are a text). ``program=`` names the program to be run, ``library=`` the
C library to be called; where neither is given they are looked for, as the README tells. Which of them answers changes no
answer.

Where some bidder's list stands for no demand, the answer of ``solve``, ``prices``, ``trail``, ``validate`` and
``trade_range`` is :class:`Refused`. All numbers are whole, and in the units in which the auction has them.

Every call may raise these, which are of the family :class:`ProductMixError`: :class:`Fault` where a row has a fault,
:class:`PastLimit` where it passes a limit, :class:`FormError`, which is a ``ValueError``, where a value has no text,
:class:`ProgramNotFound`, :class:`ProgramError`, :class:`OutOfMemory`, :class:`DeviceError`; and an ``OSError`` where a file
can't be read.
"""

from typing import Any, Dict, List, Mapping, Optional, Sequence, Tuple, Union, cast

from ._answers import (
    Likeness, Trail, TradeRange, Trial, Verdict, by_bidder, read_likenesses, read_prices, read_trade_range, read_trail,
    read_trial, read_upgraded, read_verdict, unless_refused,
)
from ._auction import Auction
from ._outcome import Cleared, Refused, read_outcome
from ._program import PathName
from ._solver import Reader, Solver
from ._source import (
    AmountsOrList, AuctionOrText, OutcomeOrText, Part, Source, amounts_row, owned_row, part_after, with_outcome,
)


def solve(auction: AuctionOrText, *, program: Optional[PathName] = None,
          library: Optional[PathName] = None) -> Union[Cleared, Refused]:
    """The outcome: the least prices at or above the reserves at which the auction clears, and who gets what.

    A :class:`Cleared` has a price and a return for each good, and for each bidder a :class:`Share`: how many units of each
    good, and what they cost together. It is a :class:`Refused` where a bidder's list stands for no demand. Raises
    :class:`Fault`, :class:`PastLimit`, :class:`FormError`.

    >>> auction = Auction(["inside", "outside"], supply=[1, 1], reserve=[10, 6])
    >>> auction = auction.bid("Ann", 1, inside=40).bid("Bo", 1, inside=24, outside=16)
    >>> outcome = solve(auction)
    >>> outcome.prices
    {'inside': 14, 'outside': 6}
    >>> outcome.shares["Bo"]
    Share(bundle={'inside': 0, 'outside': 1}, payment=6)
    >>> outcome.revenue
    20
    """
    return solve_source(Source(auction), program, library)


def solve_source(source: Source, program: Optional[PathName], library: Optional[PathName]) -> Union[Cleared, Refused]:
    """The same of an auction that is ready to be sent."""
    return cast("Union[Cleared, Refused]", _answer("solve", source, [], read_outcome, program, library))


def check(auction: AuctionOrText, outcome: OutcomeOrText, *, program: Optional[PathName] = None,
          library: Optional[PathName] = None) -> Verdict:
    """Whether an outcome, its text or its file, is true of the auction, and else the first reason why it isn't.

    The :class:`Verdict` counts as true where the outcome is. An outcome that isn't of this auction at all, as where it
    names other bidders, raises :class:`Fault`; so does a row of either text that has one.

    >>> auction = Auction(["permit"], supply=[1], reserve=[0]).bid("Ann", 1, permit=4)
    >>> print(check(auction, solve(auction)))
    yes
    """
    source, part = with_outcome(auction, outcome)
    return cast(Verdict, _answer("check", source, [part], read_verdict, program, library))


def prices(auction: AuctionOrText, *, program: Optional[PathName] = None,
           library: Optional[PathName] = None) -> Union[Dict[str, int], Refused]:
    """The least clearing price of each good, by its name; or :class:`Refused`.

    Raises :class:`Fault`, :class:`PastLimit`, :class:`FormError`.

    >>> prices(Auction(["permit"], supply=[1], reserve=[2]).bid("Ann", 1, permit=4).bid("Bo", 1, permit=3))
    {'permit': 3}
    """
    read = unless_refused(read_prices)
    return cast("Union[Dict[str, int], Refused]", _answer("prices", Source(auction), [], read, program, library))


def trail(auction: AuctionOrText, *, program: Optional[PathName] = None,
          library: Optional[PathName] = None) -> Union[Trail, Refused]:
    """How the prices rise from the reserves, by long steps; or :class:`Refused`.

    A :class:`Trail` has a :class:`Step` for each: the goods that rise, by how many units of money, and the slope. Raises
    :class:`Fault`, :class:`PastLimit`, :class:`FormError`.

    >>> trail(Auction(["permit"], supply=[1], reserve=[2]).bid("Ann", 1, permit=4).bid("Bo", 1, permit=3))
    Trail(steps=(Step(goods=frozenset({'permit'}), length=1, slope=-1),), prices={'permit': 3})
    """
    read = unless_refused(read_trail)
    return cast("Union[Trail, Refused]", _answer("trail", Source(auction), [], read, program, library))


def validate(auction: AuctionOrText, *, program: Optional[PathName] = None,
             library: Optional[PathName] = None) -> Union[Dict[str, int], Refused]:
    """How many units each bidder bids for at most, by its name, where each list stands for a demand; or :class:`Refused`.

    Raises :class:`Fault`, :class:`PastLimit`, :class:`FormError`.

    >>> validate(Auction(["permit"], supply=[1], reserve=[2]).bid("Ann", 3, permit=4))
    {'Ann': 3}
    """
    read = unless_refused(by_bidder("valid"))
    return cast("Union[Dict[str, int], Refused]", _answer("validate", Source(auction), [], read, program, library))


def utility(auction: AuctionOrText, prices: AmountsOrList, *, program: Optional[PathName] = None,
            library: Optional[PathName] = None) -> Dict[str, int]:
    """What each bidder gains at prices, which stand by the names of the goods or in their order; by its name.

    That is its indirect utility: the most that its values leave over after the prices are paid, under its cap where it has
    one. Raises :class:`Fault`, also where a price is out of range, :class:`PastLimit`, :class:`FormError`.

    >>> utility(Auction(["permit"], supply=[1], reserve=[2]).bid("Ann", 3, permit=4), {"permit": 1})
    {'Ann': 9}
    """
    source = Source(auction)
    part = part_after(source, "prices", lambda: [amounts_row("price", prices, source.goods)])
    return cast("Dict[str, int]", _answer("utility", source, [part], by_bidder("utility"), program, library))


def compare(auction: AuctionOrText, *, program: Optional[PathName] = None,
            library: Optional[PathName] = None) -> List[Likeness]:
    """For each bidder after the first, in order, whether its list says the same as the first one's.

    A :class:`Likeness` counts as true where it does, and else has prices at which their utilities differ, and these two.
    No list is refused, and caps aren't looked at. Raises :class:`Fault`, :class:`PastLimit`, :class:`FormError`.

    >>> auction = Auction(["permit"], supply=[1], reserve=[0]).bid("Ann", 2, permit=4)
    >>> compare(auction.bid("Bo", 1, permit=4).bid("Bo", 1, permit=4))
    [Likeness(bidder='Bo', same=True, prices=None, first=None, own=None)]
    """
    return cast("List[Likeness]", _answer("compare", Source(auction), [], read_likenesses, program, library))


def upgrade(auction: AuctionOrText, outcome: OutcomeOrText, *, program: Optional[PathName] = None,
            library: Optional[PathName] = None) -> Tuple[Auction, Union[Cleared, Refused]]:
    """An auction of format 1 with its tie order, which makes it one of format 2, and its outcome.

    The outcome is handed on as it is, and not checked. Raises :class:`Fault`, with the code ``header`` where the auction
    has another format; :class:`PastLimit`, :class:`FormError`.

    >>> auction = Auction(["permit"], supply=[1], reserve=[0]).bid("Ann", 1, permit=4)
    >>> upgrade(auction, solve(auction))[0].order
    ('Ann',)
    """
    source, part = with_outcome(auction, outcome)
    return cast("Tuple[Auction, Union[Cleared, Refused]]",
                _answer("upgrade", source, [part], read_upgraded, program, library))


def trade_range(auction: AuctionOrText, own: Mapping[str, AmountsOrList], ceiling: Union[int, AmountsOrList], *,
                program: Optional[PathName] = None, library: Optional[PathName] = None) -> Union[TradeRange, Refused]:
    """Between which prices, up to a ceiling, bidders who own units may trade them, and what they trade.

    ``own`` has for each bidder how many units it owns of each good, by the names of the goods or in their order; who
    isn't named owns nothing. ``ceiling`` is a price for each good, or one number for all. A :class:`TradeRange` has two
    prices for each good, and for each bidder a :class:`Trade`; or it is :class:`Refused`. Raises :class:`Fault`, also
    where a good that is owned has a reserve, :class:`PastLimit`, :class:`FormError`.

    >>> auction = Auction(["week"], supply=[0], reserve=[0]).bid("Sid", 1, week=3).bid("Tom", 1, week=8)
    >>> found = trade_range(auction, own={"Sid": {"week": 1}}, ceiling=1000)
    >>> found.low, found.high
    ({'week': 3}, {'week': 8})
    >>> found.trades["Tom"]
    Trade(bundle={'week': 1}, payment=3)
    """
    source = Source(auction)
    part = part_after(source, "range", lambda: _range_rows(own, ceiling, source.goods))
    read = unless_refused(read_trade_range)
    return cast("Union[TradeRange, Refused]", _answer("range", source, [part], read, program, library))


def _range_rows(own: Mapping[str, AmountsOrList], ceiling: Union[int, AmountsOrList], goods: Sequence[str]) -> List[str]:
    is_one = not hasattr(ceiling, "__len__")
    ceilings = [cast(int, ceiling)] * len(goods) if is_one else cast(AmountsOrList, ceiling)
    rows = [owned_row(bidder, bundle, goods) for bidder, bundle in own.items()]
    return [*rows, amounts_row("ceiling", ceilings, goods), "close"]


def trial(number: int, *, program: Optional[PathName] = None, library: Optional[PathName] = None) -> Trial:
    """The summary of the outcome of the trial auction that is made from a number, 0 to 4,294,967,295.

    It has five goods and forty bidders. Any other number raises :class:`ProgramError`.

    >>> trial(7).bidders
    40
    """
    return cast(Trial, Solver(program, library).answer(["trial", str(number)], [], read_trial, tuple))


def _answer(command: str, source: Source, rest: Sequence[Part], read: Reader, program: Optional[PathName],
            library: Optional[PathName]) -> Any:
    return Solver(program, library).answer([command], [source.part, *rest], read, lambda: source.goods)
