"""A picture of an auction, as SVG: two goods in the plane of their prices, or one good with its steps of demand.

Each bid has a sign at its values, in its bidder's colour. With an outcome the signs tell which bids are filled, and lines at
its prices part those who get the one good, the other, or nothing. With --bidder its bids alone are drawn, and of two goods
the lines along which it changes its mind, each with its weight, dashed where that is negative, and what it wants between
them. The legend has every sign that occurs, and says what found no room.

The outcome is checked first, where a solver is there; else its names, goods and sums are looked at alone, and that is said.
"""

import argparse
import sys
from typing import List, Optional, Sequence, Tuple, Union

from .._answers import Trail, Verdict, read_trail, read_verdict, unless_refused
from .._auction import Auction
from .._errors import FormError, ProgramNotFound
from .._outcome import Cleared, Refused, read_outcome
from .._pictures.drawing import picture
from .._solver import Solver
from .._source import joined
from .._text import Rows
from ._common import STANDARD_INPUT, Given, add_outcome, add_solver, read_part, verdict_words

Outcome = Union[Cleared, Refused]


def add_to(parser: argparse.ArgumentParser) -> None:
    parser.add_argument("auction", metavar="AUCTION", help="the text of an auction; - for standard input")
    add_outcome(parser)
    parser.add_argument("--bidder", metavar="NAME", help="draw this bidder's bids alone, and what it wants")
    parser.add_argument("--goods", metavar="A,B",
                        help="the one or two goods that are drawn; the others stand at their printed prices")
    parser.add_argument("--range", dest="span", metavar="LOW:HIGH", help="from which to which price the axes go; or "
                        "LOW:HIGH,LOW:HIGH, one for each. Before a price below 0 stands --range=")
    way = parser.add_mutually_exclusive_group()
    way.add_argument("--trail", action="store_true", help="draw how the prices rise from the reserves, as the solver says it")
    way.add_argument("--trail-from", metavar="FILE", help="the same, as the word trail printed it with --text")
    parser.add_argument("--title", metavar="TEXT", help="what stands above the picture")
    add_solver(parser)


def run(arguments: argparse.Namespace) -> int:
    _look_at_input([arguments.auction, arguments.outcome, arguments.trail_from])
    given = Given(arguments)
    is_there = _ask_whether_taken(given)
    auction, outcome = _read(given)
    if outcome is not None and not _is_true(given, is_there):
        return 1
    bidder = None if arguments.bidder is None else given.bidder(arguments.bidder)
    goods = None if arguments.goods is None else [given.good(name) for name in arguments.goods.split(",")]
    drawn = picture(auction, outcome, bidder=bidder, goods=goods, trail=_trail(given, arguments),
                    span=_span(given, arguments.span), title=arguments.title, shown=given.shown)
    sys.stdout.write(drawn)
    return 0


def _look_at_input(paths: Sequence[Optional[str]]) -> None:
    if paths.count(STANDARD_INPUT) > 1:
        raise FormError("standard input is read once, and here it is named twice")


def _ask_whether_taken(given: Given) -> bool:
    """Raises what the solver finds wrong with the auction, and says whether there is a solver.

    One that is named has to be there; where none is found, the picture is drawn without.
    """
    try:
        given.ask_whether_taken()
    except ProgramNotFound:
        if given.solver != Solver():
            raise
        return False
    return True


def _read(given: Given) -> Tuple[Auction, Optional[Outcome]]:
    """The auction, and the outcome that is named or stands after it, if there is one."""
    rows = Rows(joined(given.parts))
    auction = Auction.read_rows(rows)
    if not rows.word():
        return auction, None
    try:
        outcome = read_outcome(rows, auction.goods)
        rows.finish()
    except FormError as error:
        raise FormError("what stands after the auction is no outcome of it: %s" % error) from None
    return auction, outcome


def _is_true(given: Given, is_there: bool) -> bool:
    """Whether the checker finds the outcome true; what it says against it is told."""
    if not is_there:
        print("draw: there is no solver to check the outcome; its names, goods and sums alone are looked at", file=sys.stderr)
        return True
    verdict: Verdict = given.answer(["check"], read_verdict)
    if not verdict:
        print("draw: the outcome isn't true of this auction: %s" % verdict_words(verdict, given.shown), file=sys.stderr)
    return bool(verdict)


def _trail(given: Given, arguments: argparse.Namespace) -> Optional[Trail]:
    """The trail that is asked for, or None."""
    if arguments.trail_from is not None:
        rows = Rows(read_part(arguments.trail_from).data)
        trail = read_trail(rows, given.goods())
        rows.finish()
        return trail
    if not arguments.trail:
        return None
    answer: Union[Trail, Refused] = given.alone_answer(["trail"], unless_refused(read_trail))
    if isinstance(answer, Refused):
        raise FormError("the list of %s stands for no demand, so no prices rise" % given.shown.bidder(answer.bidder))
    return answer


def _span(given: Given, told: Optional[str]) -> Optional[List[Tuple[int, int]]]:
    """From which to which price each axis goes, in the auction's units."""
    if told is None:
        return None
    ranges = []
    for part in told.split(","):
        low, colon, high = part.partition(":")
        if not colon:
            raise FormError("%r is no range: LOW:HIGH is wanted" % part)
        ranges.append((given.shown.steps(low), given.shown.steps(high)))
    return ranges
