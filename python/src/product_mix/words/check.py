"""Whether an outcome is true of its auction, and else the first reason why it isn't."""

import argparse

from .._answers import read_verdict
from ._common import Given, Table, Told, add_auction, add_outcome, answer_text, tell, verdict_json, verdict_words
from ._forms import TEXT


def add_to(parser: argparse.ArgumentParser) -> None:
    add_auction(parser)
    add_outcome(parser)


def run(arguments: argparse.Namespace) -> int:
    given = Given(arguments)
    if arguments.form == TEXT:
        return answer_text(given, ["check"])
    verdict = given.answer(["check"], read_verdict)
    choices = sorted("" if choice is None else given.shown.good(choice) for choice in verdict.choices or ())
    bidder = None if verdict.bidder is None else given.shown.bidder(verdict.bidder)
    good = None if verdict.good is None else given.shown.good(verdict.good)
    row = ["yes" if verdict else "no", verdict.reason, bidder, good, " ".join(choices), verdict.amount]
    table = Table("", ["true", "reason", "bidder", "good", "choices", "amount"], [row])
    return tell(Told([], [verdict_words(verdict, given.shown)], table, verdict_json(verdict), 0 if verdict else 1), arguments.form)
