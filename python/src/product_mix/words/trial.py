"""The summary of the outcome of a large auction that is made from a number."""

import argparse
import sys
from typing import Any, List, Sequence

from .._answers import read_trial
from .._solver import DONE, Solver, error_of
from ._common import Table, Told, add_forms, add_solver, tell
from ._forms import TEXT


def add_to(parser: argparse.ArgumentParser) -> None:
    parser.add_argument("number", metavar="N", help="0 to 4294967295")
    add_forms(parser)
    add_solver(parser)


def run(arguments: argparse.Namespace) -> int:
    solver, words = Solver(arguments.program, arguments.library), ["trial", arguments.number]
    if arguments.form == TEXT:
        reply = solver.ask(words, b"")
        if reply.status != DONE:
            raise error_of(reply, [], "trial %s" % arguments.number)
        sys.stdout.write(reply.printed.decode("ascii", "backslashreplace"))
        return reply.status
    trial = solver.answer(words, [], read_trial, tuple)
    told: Any = {"number": trial.number, "bidders": trial.bidders, "bids": trial.bids, "negatives": trial.negatives,
                 "prices": list(trial.prices), "sold": list(trial.sold), "revenue": trial.revenue}
    rows: List[Sequence[Any]] = [
        [name, " ".join(map(str, value)) if isinstance(value, list) else value] for name, value in told.items()]
    table = Table("", ["what", "how many"], rows)
    return tell(Told([table], [], table, told), arguments.form)
