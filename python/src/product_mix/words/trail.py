"""How the prices rise from the reserves, by long steps: which goods rise, by how much, and how many units there are too few."""

import argparse
from typing import List, Sequence

from .._answers import Trail, read_trail, unless_refused
from .._auction import Auction
from .._outcome import Refused
from .._shown import Shown
from ._common import Given, Table, Told, add_auction, answer_text, refusal, tell
from ._forms import TEXT, Cell


def add_to(parser: argparse.ArgumentParser) -> None:
    add_auction(parser)


def run(arguments: argparse.Namespace) -> int:
    given = Given(arguments)
    if arguments.form == TEXT:
        return answer_text(given, ["trail"])
    trail = given.answer(["trail"], unless_refused(read_trail))
    if isinstance(trail, Refused):
        return tell(refusal(given, trail), arguments.form)
    table = steps_table(given.auction(), trail, given.shown)
    steps = [{"goods": [good for good in given.goods() if good in step.goods], "length": step.length, "slope": step.slope}
             for step in trail.steps]
    return tell(Told([table], [], table, {"steps": steps, "prices": dict(trail.prices)}), arguments.form)


def steps_table(auction: Auction, trail: Trail, shown: Shown) -> Table:
    """A row for each step, with the prices after it; the first row has the reserves."""
    goods = [shown.good(good) for good in auction.goods]
    start, *ends = trail.points(auction)
    rows: List[Sequence[Cell]] = [["reserves", None, None, *map(shown.amount, start.values())]]
    for step, prices in zip(trail.steps, ends):
        risen = " and ".join(shown.good(good) for good in auction.goods if good in step.goods)
        rows.append([risen, shown.amount(step.length), -step.slope, *map(shown.amount, prices.values())])
    return Table("", ["what rises", "by", "units too few", *["price of " + good for good in goods]], rows)
