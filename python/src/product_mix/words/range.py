"""Between which prices bidders who own units may trade, and what they trade at the low ones.

After the auction stand the rows `own`, `ceiling` and `close` of docs/FORMAT.md.
"""

import argparse
from typing import Any, List, Sequence

from .._answers import TradeRange, read_trade_range, unless_refused
from .._outcome import Refused
from ._common import Given, Table, Told, add_auction, answer_text, refusal, tell
from ._forms import TEXT, Cell


def add_to(parser: argparse.ArgumentParser) -> None:
    add_auction(parser, "the text of an auction, and what is owned after it")


def run(arguments: argparse.Namespace) -> int:
    given = Given(arguments)
    if arguments.form == TEXT:
        return answer_text(given, ["range"])
    found = given.answer(["range"], unless_refused(read_trade_range))
    if isinstance(found, Refused):
        return tell(refusal(given, found), arguments.form)
    notes = ["paid to the seller: %s" % given.shown.money(found.revenue)]
    return tell(Told([_goods(given, found), _trades(given, found)], notes, _lines(given, found), _json(found)), arguments.form)


def _goods(given: Given, found: TradeRange) -> Table:
    shown = given.shown
    rows: List[Sequence[Cell]] = [
        [shown.good(good), shown.amount(low), None if found.high is None else shown.amount(found.high[good]),
         found.returns[good]]
        for good, low in found.low.items()
    ]
    return Table("", ["good", "low price", "high price", "left"], rows)


def _trades(given: Given, found: TradeRange) -> Table:
    shown = given.shown
    rows: List[Sequence[Cell]] = [
        [shown.bidder(bidder), *trade.bundle.values(), shown.amount(trade.payment)] for bidder, trade in found.trades.items()
    ]
    return Table("", ["bidder", *["gets of " + shown.good(good) for good in found.low], "pays"], rows)


def _lines(given: Given, found: TradeRange) -> Table:
    shown = given.shown
    rows: List[Sequence[Cell]] = [[shown.bidder(line.bidder), shown.good(line.good), line.quantity, shown.amount(line.price),
             shown.amount(line.payment)] for line in found.rows()]
    return Table("", ["bidder", "good", "quantity", "price", "payment"], rows)


def _json(found: TradeRange) -> Any:
    trades = {bidder: {"bundle": dict(trade.bundle), "payment": trade.payment} for bidder, trade in found.trades.items()}
    return {"low": dict(found.low), "high": None if found.high is None else dict(found.high), "trades": trades,
            "returns": dict(found.returns)}
