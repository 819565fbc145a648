"""Whether each bidder's list of bids stands for a demand, and for how many units it bids at most."""

import argparse

from .._answers import by_bidder, unless_refused
from .._outcome import Refused
from ._common import Given, Table, Told, add_auction, answer_text, refusal, tell
from ._forms import TEXT


def add_to(parser: argparse.ArgumentParser) -> None:
    add_auction(parser)


def run(arguments: argparse.Namespace) -> int:
    given = Given(arguments)
    if arguments.form == TEXT:
        return answer_text(given, ["validate"])
    most = given.answer(["validate"], unless_refused(by_bidder("valid")))
    if isinstance(most, Refused):
        return tell(refusal(given, most), arguments.form)
    table = Table("", ["bidder", "units"], [[given.shown.bidder(bidder), units] for bidder, units in most.items()])
    return tell(Told([table], [], table, {"units": most}), arguments.form)
