"""One page of HTML on an auction and its outcome, which can be shown on a board, sent, and printed.

First comes a page for a board: goods, prices, what was sold, who got what, what the checker says, and how to repeat it. Then
a section for each bidder with its bids, the prices on their way, what shows that it is right, and the texts themselves with
their SHA-256. The page loads nothing from elsewhere and has no scripts.

The auction is its text, or a sheet as `sheet` takes it, of one file or of several.
"""

import argparse
import sys

from .._errors import FormError
from .._reports.facts import gathered
from .._reports.page import page
from .._shown import Shown, shown_beside
from .._solver import UNMET, Solver
from .._source import Part
from ._common import STANDARD_INPUT, Given, add_solver, read_part
from .sheet import add_reading, is_auction, understood_of


def add_to(parser: argparse.ArgumentParser) -> None:
    parser.add_argument("files", metavar="AUCTION_OR_SHEET", nargs="+",
                        help="the text of an auction, or the tables of one; - for standard input")
    parser.add_argument("--outcome", metavar="FILE", help="the outcome, as --text of solve prints it, unless it stands after the "
                        "auction; by default the solver finds it")
    parser.add_argument("--out", metavar="PAGE.html", help="where to write to; by default the page is printed")
    parser.add_argument("--title", help="the title; by default it names the goods")
    parser.add_argument("--picture", metavar="A,B", help="the two goods that are drawn, or the one, where there are more than two")
    add_reading(parser)
    add_solver(parser)


def run(arguments: argparse.Namespace) -> int:
    given = _given(arguments)
    facts = gathered(given, arguments.title, arguments.picture.split(",") if arguments.picture else [])
    _write(page(facts), arguments.out)
    return 0 if facts.cleared is not None else UNMET


def _given(arguments: argparse.Namespace) -> Given:
    """The auction that the files say: its text with what stands after it, or what its tables are understood as."""
    parts = [read_part(path) for path in arguments.files]
    solver = Solver(arguments.program, arguments.library)
    outcome = [] if arguments.outcome is None else [read_part(arguments.outcome)]
    if not any(map(is_auction, parts)):
        understood = understood_of(parts, arguments)
        text = Part(parts[0].name, understood.auction.text().encode("ascii"))
        return Given.of_parts([text, *outcome], understood.shown, solver)
    if len(parts) > 1:
        raise FormError("a page is of one auction: name its text alone, or its tables")
    path = arguments.files[0]
    return Given.of_parts([*parts, *outcome], Shown() if path == STANDARD_INPUT else shown_beside(path), solver)


def _write(text: str, out: str) -> None:
    if not out:
        sys.stdout.write(text)
        return
    with open(out, "w", encoding="utf-8", newline="\n") as file:
        file.write(text)
