"""What each bidder gains at prices, which stand after the auction or are named by --prices."""

import argparse

from .._answers import by_bidder
from .._source import amounts_row, rows_part
from ._common import Given, Table, Told, add_auction, answer_text, tell
from ._forms import TEXT


def add_to(parser: argparse.ArgumentParser) -> None:
    add_auction(parser)
    parser.add_argument("--prices", metavar="A,B", help="a price for each good, as amounts are shown, with commas between them")


def run(arguments: argparse.Namespace) -> int:
    given = Given(arguments)
    if arguments.prices is not None:
        prices = [given.shown.steps(price) for price in arguments.prices.split(",")]
        given.with_rows(rows_part("prices", [amounts_row("price", prices, given.goods())]))
    if arguments.form == TEXT:
        return answer_text(given, ["utility"])
    gains = given.answer(["utility"], by_bidder("utility"))
    rows = [[given.shown.bidder(bidder), given.shown.amount(gain)] for bidder, gain in gains.items()]
    table = Table("", ["bidder", "gain"], rows)
    return tell(Told([table], [], table, {"utility": gains}), arguments.form)
