"""What the words share: what is named on the command line, and how the program is asked."""

import argparse
import sys
from dataclasses import replace
from typing import Any, List, Sequence, Tuple, Union

from .._answers import Verdict, read_verdict
from .._auction import Auction
from .._errors import FormError
from .._outcome import Cleared, Outcome, Refused, read_outcome
from .._shown import Shown, shown_beside
from .._solver import DONE, UNMET, Reader, Solver, error_of
from .._source import Part, Source, joined
from .._text import Rows, rows_of
from ._forms import Table, Told, add_forms, tell

STANDARD_INPUT = "-"


def add_solver(parser: argparse.ArgumentParser) -> None:
    """The options that name a solver."""
    parser.add_argument("--program", metavar="PATH", help="the program product_mix; by default it is looked for")
    parser.add_argument("--library", metavar="PATH", help="the C library, which is called in place of the program")


def add_auction(parser: argparse.ArgumentParser, what: str = "the text of an auction") -> None:
    """The file of an auction, the form of the answer, and the options that name a solver."""
    parser.add_argument("auction", metavar="FILE", help="%s; - for standard input" % what)
    add_forms(parser)
    add_solver(parser)


def add_outcome(parser: argparse.ArgumentParser) -> None:
    """The file of an outcome."""
    parser.add_argument("outcome", metavar="OUTCOME", nargs="?",
                        help="the outcome, as --text of solve prints it, unless it stands after the auction")


def read_part(path: str) -> Part:
    """The file, or standard input."""
    if path == STANDARD_INPUT:
        return Part("standard input", sys.stdin.buffer.read())
    with open(path, "rb") as file:
        return Part(path, file.read())


def auction_part(part: Part) -> Part:
    """The part up to the end of the auction that it begins with."""
    rows = list(rows_of(part.data))
    last = next((row for row in rows if row.fields == ["end"]), None)
    if last is None or last is rows[-1]:
        return part
    lines = part.data.replace(b"\r\n", b"\n").replace(b"\r", b"\n").split(b"\n")
    return part._replace(data=b"\n".join(lines[:last.line]) + b"\n")


class Given:
    """The auction that the command line names: its text, with what stands after it, and how its names are shown."""

    def __init__(self, arguments: argparse.Namespace) -> None:
        outcome = getattr(arguments, "outcome", None)
        shown = Shown() if arguments.auction == STANDARD_INPUT else shown_beside(arguments.auction)
        parts = [read_part(path) for path in (arguments.auction, outcome) if path is not None]
        self._hold(parts, shown, Solver(arguments.program, arguments.library))

    @classmethod
    def of_parts(cls, parts: List[Part], shown: Shown, solver: Solver) -> "Given":
        """What was read already: the auction, and the outcome if one is named."""
        given = cls.__new__(cls)
        given._hold(parts, shown, solver)
        return given

    def _hold(self, parts: List[Part], shown: Shown, solver: Solver) -> None:
        self.part, self.parts, self.shown, self.solver = parts[0], parts, shown, solver

    def auction(self) -> Auction:
        """The auction, which the program is asked about first, as its messages say more."""
        return Auction.read_rows(Rows(self.part.data))

    def alone(self) -> Part:
        """The auction without what stands after it."""
        return auction_part(self.part)

    def alone_answer(self, words: Sequence[str], read: Reader) -> Any:
        """What the program answers to the auction alone, as a value."""
        return self.solver.answer(words, [self.alone()], read, self.goods)

    def outcome(self) -> Tuple[Union[Cleared, Refused], Verdict]:
        """The outcome that is named or stands after the auction, or else the one that the solver finds; and the verdict."""
        if len(self.parts) > 1 or self.alone() != self.part:
            verdict: Verdict = self.answer(["check"], read_verdict)
            rows = Rows(joined(self.parts))
            Auction.read_rows(rows)
            return read_outcome(rows, self.goods()), verdict
        outcome: Union[Cleared, Refused] = self.alone_answer(["solve"], read_outcome)
        return outcome, self.verdict_on(outcome)

    def verdict_on(self, outcome: Outcome) -> Verdict:
        """What the checker says of an outcome."""
        # An outcome is of a version that goes with the auction's format, which may not be the least.
        text = outcome.text(self.auction(), Source(self.part.data).format)
        parts = [self.alone(), Part("outcome", text.encode("ascii"))]
        verdict: Verdict = self.solver.answer(["check"], parts, read_verdict, self.goods)
        return verdict

    def bidder(self, name: str) -> str:
        """The bidder that is called so, in the text or as it is shown."""
        for bidder in self.auction().bidders:
            if name in (bidder, self.shown.bidder(bidder)):
                return bidder
        raise FormError("nobody who bids is called %s" % name)

    def good(self, name: str) -> str:
        """The good that is called so, in the text or as it is shown."""
        for good in self.goods():
            if name in (good, self.shown.good(good)):
                return good
        raise FormError("no good is called %s" % name)

    def ask_whether_taken(self) -> None:
        """Raises what is wrong with the auction; a list that stands for no demand is nothing wrong."""
        reply = self.solver.ask(["validate"], self.alone().data)
        if reply.status not in (DONE, UNMET):
            raise error_of(reply, [self.alone()], "validate")

    def goods(self) -> Sequence[str]:
        return Source(self.part.data).goods

    def answer(self, words: Sequence[str], read: Reader) -> Any:
        """What the program answers, as a value."""
        return self.solver.answer(words, self.parts, read, self.goods)

    def with_rows(self, part: Part) -> None:
        """Has a part stand after the auction."""
        self.parts.append(part)


def answer_text(given: Given, words: Sequence[str]) -> int:
    """Prints what the program prints, as it stands."""
    reply = given.solver.ask(words, joined(given.parts))
    if reply.status not in (DONE, UNMET):
        raise error_of(reply, given.parts, words[0])
    sys.stdout.write(reply.printed.decode("ascii", "backslashreplace"))
    return reply.status


def refusal(given: Given, refused: Refused) -> Told:
    """What is told of a list that stands for no demand."""
    name = given.shown.bidder(refused.bidder)
    facet = refused.facet
    said = "The list of %s stands for no demand, so nothing clears: `explain` says where it fails." % name
    first, second = facet.choices
    choices = [None if choice is None else given.shown.good(choice) for choice in facet.choices]
    table = Table("refused", ["bidder", "first choice", "second choice", *map(given.shown.good, facet.prices), "weight"],
                  [[name, *choices, *map(given.shown.amount, facet.prices.values()), facet.weight]])
    json = {"refused": {"bidder": refused.bidder, "choices": [first, second], "prices": dict(facet.prices),
                        "weight": facet.weight}}
    return Told([], [said], table, json, UNMET)


def verdict_words(verdict: Verdict, shown: Shown) -> str:
    """A verdict in a sentence, with its names as they are shown."""
    amount: Any = verdict.amount
    # Only a payment is money; every other amount is of units.
    if amount is not None and verdict.reason == "pay":
        amount = shown.money(amount)
    choices = verdict.choices and frozenset([choice and shown.good(choice) for choice in verdict.choices])
    return str(replace(verdict, bidder=verdict.bidder and shown.bidder(verdict.bidder),
                       good=verdict.good and shown.good(verdict.good), choices=choices, amount=amount))


def verdict_json(verdict: Verdict) -> Any:
    """A verdict as JSON has it; None among the choices is nothing."""
    choices = None if verdict.choices is None else sorted(verdict.choices, key=lambda choice: choice or "")
    told = {"true": verdict.true, "reason": verdict.reason, "bidder": verdict.bidder, "good": verdict.good,
            "choices": choices, "amount": verdict.amount}
    return {name: value for name, value in told.items() if value is not None}


__all__ = ["Given", "Table", "Told", "add_auction", "add_forms", "add_outcome", "add_solver", "answer_text", "read_part",
           "refusal", "tell", "verdict_json", "verdict_words"]
