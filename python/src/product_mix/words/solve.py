"""Who gets what, at which prices, and who pays what.

For people there are two tables: the goods with their prices, and the bidders with what each bids for at most, what it gets
and what it pays. The checker is asked too, which shares no search with the solver.
"""

import argparse
from typing import Any, List, Mapping, Sequence

from .._answers import Verdict, by_bidder
from .._auction import Auction
from .._errors import FormError
from .._outcome import Cleared, Refused, read_outcome
from .._shown import Shown
from ._common import Given, Table, Told, add_auction, answer_text, refusal, tell, verdict_words
from ._forms import CSV, TEXT, Cell, add_marks, separator_of


def add_to(parser: argparse.ArgumentParser) -> None:
    add_auction(parser)
    add_marks(parser, "the decimal mark of --csv; by default a point", "what stands between fields of --csv; by default a comma")


def run(arguments: argparse.Namespace) -> int:
    if arguments.form != CSV and (arguments.decimal or arguments.separator):
        raise FormError("--decimal and --separator say how --csv is written, and it isn't asked for")
    given = Given(arguments)
    if arguments.form == TEXT:
        return answer_text(given, ["solve"])
    return tell(told(given, arguments.decimal or "."), arguments.form, separator_of(arguments))


def told(given: Given, decimal: str = ".") -> Told:
    """The outcome, and what the checker says of it; the decimal mark is that of the table as CSV."""
    outcome = given.answer(["solve"], read_outcome)
    if isinstance(outcome, Refused):
        return refusal(given, outcome)
    auction = given.auction()
    most = given.answer(["validate"], by_bidder("valid"))
    verdict = given.verdict_on(outcome)
    notes = ["revenue: %s" % given.shown.money(outcome.revenue), "the checker says: %s" % verdict_words(verdict, given.shown)]
    return Told([goods_table(auction, outcome, given.shown), bidders_table(outcome, most, given.shown)], notes,
                _lines(outcome, given.shown, decimal), _json(outcome, verdict), 0 if verdict else 1)


def goods_table(auction: Auction, outcome: Cleared, shown: Shown) -> Table:
    """What is for sale, at which price, and what of it is sold."""
    sold, unsold = outcome.sold, outcome.unsold
    rows: List[Sequence[Cell]] = [
        [shown.good(good), supply, shown.amount(reserve), shown.amount(outcome.prices[good]), sold[good], unsold[good]]
        for good, supply, reserve in zip(auction.goods, auction.supply, auction.reserve)
    ]
    return Table("", ["good", "for sale", "reserve", "price", "sold", "unsold"], rows)


def bidders_table(outcome: Cleared, most: Mapping[str, int], shown: Shown) -> Table:
    """What each bidder bids for at most, gets and pays."""
    rows: List[Sequence[Cell]] = [
        [shown.bidder(bidder), most[bidder], *share.bundle.values(), shown.amount(share.payment)]
        for bidder, share in outcome.shares.items()
    ]
    total: List[Cell] = ["together", sum(most.values()), *outcome.sold.values(), shown.amount(outcome.revenue)]
    columns = ["bidder", "asked for", *["got of " + shown.good(good) for good in outcome.prices], "pays"]
    return Table("", columns, rows, total)


def _lines(outcome: Cleared, shown: Shown, decimal: str) -> Table:

    def amount(units: int) -> str:
        return shown.amount(units).replace(".", decimal)

    rows: List[Sequence[Cell]] = [[shown.bidder(line.bidder), shown.good(line.good), line.quantity, amount(line.price),
                                   amount(line.payment)] for line in outcome.rows()]
    return Table("", ["bidder", "good", "quantity", "price", "payment"], rows)


def _json(outcome: Cleared, verdict: Verdict) -> Any:
    shares = {bidder: {"bundle": dict(share.bundle), "payment": share.payment} for bidder, share in outcome.shares.items()}
    return {"prices": dict(outcome.prices), "shares": shares, "sold": outcome.sold, "unsold": outcome.unsold,
            "revenue": outcome.revenue, "checked": bool(verdict)}
