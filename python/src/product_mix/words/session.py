"""One outcome after another, while bids come and go.

After the auction stand the rows `add`, `drop`, `clear` and `close` of docs/FORMAT.md.
"""

import argparse
from typing import Any, List, Sequence, Union

from .._answers import read_outcomes
from .._outcome import Cleared, Refused
from .._shown import Shown
from ._common import Given, Table, Told, add_auction, answer_text, tell
from ._forms import TEXT, Cell


def add_to(parser: argparse.ArgumentParser) -> None:
    add_auction(parser, "the text of an auction, and the rows of a session after it")


def run(arguments: argparse.Namespace) -> int:
    given = Given(arguments)
    if arguments.form == TEXT:
        return answer_text(given, ["session"])
    outcomes = given.answer(["session"], read_outcomes)
    tables = [_table(number, outcome, given.shown) for number, outcome in enumerate(outcomes, 1)]
    told = Told(tables, [], _lines(outcomes, given.shown), {"outcomes": [_json(outcome) for outcome in outcomes]})
    return tell(told, arguments.form)


def _table(number: int, outcome: Union[Cleared, Refused], shown: Shown) -> Table:
    title = "outcome %d" % number
    if isinstance(outcome, Refused):
        return Table(title, ["refused"], [[shown.bidder(outcome.bidder)]])
    prices: List[Cell] = ["at the prices", *map(shown.amount, outcome.prices.values()), shown.amount(outcome.revenue)]
    rows: List[Sequence[Cell]] = [[shown.bidder(bidder), *share.bundle.values(), shown.amount(share.payment)]
            for bidder, share in outcome.shares.items()]
    return Table(title, ["bidder", *["got of " + shown.good(good) for good in outcome.prices], "pays"], rows, prices)


def _lines(outcomes: Sequence[Union[Cleared, Refused]], shown: Shown) -> Table:
    rows: List[Sequence[Cell]] = [
        [number, shown.bidder(line.bidder), shown.good(line.good), line.quantity, shown.amount(line.price),
         shown.amount(line.payment)]
        for number, outcome in enumerate(outcomes, 1) if isinstance(outcome, Cleared) for line in outcome.rows()
    ]
    return Table("", ["outcome", "bidder", "good", "quantity", "price", "payment"], rows)


def _json(outcome: Union[Cleared, Refused]) -> Any:
    if isinstance(outcome, Refused):
        return {"refused": outcome.bidder}
    shares = {bidder: {"bundle": dict(share.bundle), "payment": share.payment} for bidder, share in outcome.shares.items()}
    return {"prices": dict(outcome.prices), "shares": shares, "returns": dict(outcome.returns)}
