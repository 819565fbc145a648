"""What is wrong with a text, where a list fails, or how the bids of a bidder stand.

All faults of a text are told, each with its line, its field, what stands there, and what to do. Of a list that stands for
no demand: the prices where it fails, and which of its bids meet there. Of a cleared auction: for each bidder which bids are
filled and which not, at which price each would be, and what one tight pair says.
"""

import argparse
import functools
from typing import List, Mapping, Tuple

from .._answers import by_bidder
from .._explaining import Sentences, Utilities, pair_of
from .._faults import faults
from .._outcome import Amounts, Cleared, Refused
from .._solver import FAULT, UNMET
from .._source import amounts_row, rows_part
from ._common import STANDARD_INPUT, Given, add_outcome, add_solver, verdict_words


def add_to(parser: argparse.ArgumentParser) -> None:
    parser.add_argument("auction", metavar="FILE", help="the text of an auction; - for standard input")
    add_outcome(parser)
    parser.add_argument("--bidder", metavar="NAME", help="the bidder of whom is told, unless all are")
    add_solver(parser)


def run(arguments: argparse.Namespace) -> int:
    given = Given(arguments)
    # A file is named, so that its faults are told with its name; what stands after the auction is looked at by itself.
    is_file = arguments.auction != STANDARD_INPUT and given.alone() == given.part
    found = faults(arguments.auction if is_file else given.alone().data, program=arguments.program, library=arguments.library)
    if len(found):
        print(found)
        return FAULT
    outcome, verdict = given.outcome()
    auction = given.auction()
    sentences = Sentences(auction, given.shown)
    if not verdict:
        print("The outcome isn't true: the checker says %s." % verdict_words(verdict, given.shown))
        return UNMET
    if isinstance(outcome, Refused):
        print("\n".join(sentences.refusal(outcome)))
        return UNMET
    names = auction.bidders if arguments.bidder is None else (given.bidder(arguments.bidder),)
    print("\n\n".join("\n".join(told) for told in _told(given, sentences, outcome, names)))
    return 0


def _told(given: Given, sentences: Sentences, outcome: Cleared, names: Tuple[str, ...]) -> List[List[str]]:
    most = given.alone_answer(["validate"], by_bidder("valid"))
    utilities = utilities_of(given)
    return [[*sentences.bidder(outcome, name),
             sentences.pair(outcome, pair_of(sentences.auction, outcome, name), most, utilities)] for name in names]


def utilities_of(given: Given) -> Utilities:
    """What the program says that bidders gain at prices; it is asked once for each."""
    # A long text is looked through for its end, which is done once.
    alone, goods = given.alone(), given.goods()

    @functools.lru_cache(maxsize=None)
    def ask(prices: Tuple[int, ...]) -> Mapping[str, int]:
        part = rows_part("prices", [amounts_row("price", prices, goods)])
        gains: Mapping[str, int] = given.solver.answer(["utility"], [alone, part], by_bidder("utility"), lambda: goods)
        return gains

    def utilities(prices: Amounts) -> Mapping[str, int]:
        return ask(tuple(prices.values()))

    return utilities
