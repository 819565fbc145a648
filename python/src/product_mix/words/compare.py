"""Whether each bidder's list says the same as the first bidder's, and else prices at which the two gain differently."""

import argparse
from typing import Any, List, Sequence

from .._answers import Likeness, read_likenesses
from .._shown import Shown
from ._common import Given, Table, Told, add_auction, answer_text, tell
from ._forms import TEXT, Cell


def add_to(parser: argparse.ArgumentParser) -> None:
    add_auction(parser)


def run(arguments: argparse.Namespace) -> int:
    given = Given(arguments)
    if arguments.form == TEXT:
        return answer_text(given, ["compare"])
    found = given.answer(["compare"], read_likenesses)
    goods = given.goods()
    columns = ["bidder", "same", *["price of " + given.shown.good(good) for good in goods], "first gains", "it gains"]
    table = Table("", columns, [_row(one, goods, given.shown) for one in found])
    return tell(Told([table], [], table, {"likenesses": [_json(one) for one in found]}), arguments.form)


def _row(one: Likeness, goods: Sequence[str], shown: Shown) -> List[Cell]:
    name = shown.bidder(one.bidder)
    if one.prices is None or one.first is None or one.own is None:
        return [name, "yes", *[None] * len(goods), None, None]
    return [name, "no", *map(shown.amount, one.prices.values()), shown.amount(one.first), shown.amount(one.own)]


def _json(one: Likeness) -> Any:
    if one.prices is None:
        return {"bidder": one.bidder, "same": True}
    return {"bidder": one.bidder, "same": False, "prices": dict(one.prices), "first": one.first, "own": one.own}
