"""A table of bids, as spreadsheets have it, to the text of an auction, and back.

A row of titles says what stands in which column: bidder, quantity, and the name of each good. A second table, with the
titles good, supply and reserve, says what is for sale; one with the titles bidder, cap and order may say caps and who is
served first. docs/SHEETS.md shows them all. Where the file is the text of an auction already, it becomes such a sheet.

With --out the names and the step go to a file beside the text, so that the other words show both as the sheet has them.
"""

import argparse
import sys
from dataclasses import replace
from typing import Dict, List

from .._auction import Auction
from .._doubts import warnings
from .._errors import FormError
from .._shown import Shown, path_beside, step_of
from .._sheets.blocks import TITLES, Columns
from .._sheets.cells import read_sheets
from .._sheets.reading import Manner, Understood, read_auction
from .._sheets.writing import csv_text, sheet_rows, write_workbook
from .._solver import Solver
from .._source import Part
from .._text import Rows, rows_of
from ._common import Given, add_solver, read_part
from ._forms import add_marks, separator_of

def add_to(parser: argparse.ArgumentParser) -> None:
    parser.add_argument("files", metavar="FILE", nargs="+",
                        help="a table as CSV (with commas, semicolons or tabs) or .xlsx; - for standard input")
    add_reading(parser)
    parser.add_argument("--out", metavar="FILE", help="where to write to, and the names beside it; by default the text alone "
                        "is printed")
    add_solver(parser)


def add_reading(parser: argparse.ArgumentParser) -> None:
    """The options that say how a sheet is to be read."""
    parser.add_argument("--step", default="1", help="of what all amounts are multiples, as 0.01; by default 1")
    add_marks(parser, "the decimal mark, where the sheet leaves it open", "what stands between fields; by default it is told "
              "from the file, and a comma is written")
    parser.add_argument("--goods", metavar="A,B", help="the titles of the columns that are goods")
    parser.add_argument("--column", metavar="WHAT=TITLE", action="append", default=[],
                        help="the title of a column; WHAT is one of %s" % ", ".join(TITLES))


def run(arguments: argparse.Namespace) -> int:
    parts = [read_part(name) for name in arguments.files]
    if len(parts) == 1 and is_auction(parts[0]):
        return _back(arguments)
    _write(understood_of(parts, arguments), arguments.out)
    return 0


def understood_of(parts: List[Part], arguments: argparse.Namespace) -> Understood:
    """The auction that the tables say, as far as the options say how they are read; how it was understood is told."""
    step = step_of(arguments.step)
    columns = Columns(_named(arguments.column), arguments.goods.split(",") if arguments.goods else None)
    separator = separator_of(arguments)
    sheets = [sheet for part in parts for sheet in read_sheets(part.name, part.data, separator)]
    understood = read_auction(sheets, Manner(step, arguments.decimal, columns), Solver(arguments.program, arguments.library))
    _tell(understood)
    return understood


def is_auction(part: Part) -> bool:
    """Whether it is the text of an auction, and no table."""
    return any(row.fields[0] == "mix" for row in list(rows_of(part.data))[:1])


def _named(options: List[str]) -> Dict[str, str]:
    """The titles that are named for columns."""
    named = dict(option.split("=", 1) for option in options if "=" in option)
    if len(named) < len(options) or not set(named) <= set(TITLES):
        raise FormError("--column wants WHAT=TITLE, where WHAT is one of %s" % ", ".join(TITLES))
    return named


def _tell(understood: Understood) -> None:
    """Says what was understood, and what of it is hardly meant."""
    for line in understood.lines:
        print(line, file=sys.stderr)
    for doubt in understood.doubts:
        print("warning: %s" % doubt, file=sys.stderr)
    auction, shown = understood.auction, understood.shown
    as_shown = replace(
        auction, goods=[shown.good(good) for good in auction.goods],
        bids=[replace(bid, bidder=shown.bidder(bid.bidder)) for bid in auction.bids],
        caps={shown.bidder(name): cap for name, cap in auction.caps.items()}, order=None)
    for warning in warnings(as_shown):
        in_steps = "" if shown.step == 1 or warning.kind not in ("reserve", "cancel") else " (in steps of %s)" % shown.step
        print("warning: %s%s" % (warning, in_steps), file=sys.stderr)


def _write(understood: Understood, out: str) -> None:
    text, shown = understood.auction.text(), understood.shown
    if not out:
        if shown != Shown():
            print("warning: the text alone has neither these names nor the step; --out FILE writes both", file=sys.stderr)
        sys.stdout.write(text)
        return
    with open(out, "w", encoding="ascii") as file:
        file.write(text)
    # Also where it says nothing, lest an older one is taken for that of this text.
    path_beside(out).write_text(shown.text(), encoding="utf-8")


def _back(arguments: argparse.Namespace) -> int:
    """Writes the sheet of an auction."""
    given = Given(argparse.Namespace(auction=arguments.files[0], program=arguments.program, library=arguments.library))
    given.ask_whether_taken()
    auction = Auction.read_rows(Rows(given.part.data))
    decimal, out = arguments.decimal or ".", arguments.out
    if out and out.endswith(".xlsx"):
        write_workbook(sheet_rows(auction, given.shown), out)
        return 0
    text = csv_text(sheet_rows(auction, given.shown, decimal), separator_of(arguments) or ",")
    if not out:
        sys.stdout.write(text)
        return 0
    with open(out, "w", encoding="utf-8-sig", newline="") as file:
        file.write(text)
    return 0
