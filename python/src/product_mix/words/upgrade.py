"""An auction of format 1 with its tie order, which makes it one of format 2, and its outcome: always as a text."""

import argparse

from ._common import Given, add_outcome, add_solver, answer_text


def add_to(parser: argparse.ArgumentParser) -> None:
    parser.add_argument("auction", metavar="FILE", help="the text of an auction; - for standard input")
    add_outcome(parser)
    add_solver(parser)


def run(arguments: argparse.Namespace) -> int:
    return answer_text(Given(arguments), ["upgrade"])
