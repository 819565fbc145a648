"""The least price of each good, at or above its reserve, at which the auction clears."""

import argparse

from .._answers import read_prices, unless_refused
from .._outcome import Refused
from ._common import Given, Table, Told, add_auction, answer_text, refusal, tell
from ._forms import TEXT


def add_to(parser: argparse.ArgumentParser) -> None:
    add_auction(parser)


def run(arguments: argparse.Namespace) -> int:
    given = Given(arguments)
    if arguments.form == TEXT:
        return answer_text(given, ["prices"])
    prices = given.answer(["prices"], unless_refused(read_prices))
    if isinstance(prices, Refused):
        return tell(refusal(given, prices), arguments.form)
    rows = [[given.shown.good(good), given.shown.amount(price)] for good, price in prices.items()]
    table = Table("", ["good", "price"], rows)
    return tell(Told([table], [], table, {"prices": prices}), arguments.form)
