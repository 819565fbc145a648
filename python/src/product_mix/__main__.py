"""The package on the command line: ``python -m product_mix WORD``."""

import argparse
import importlib
import os
import sys
from typing import Any, List, Optional

from ._errors import DeviceError, FormError, OutOfMemory, PastLimit, ProductMixError, TextError
from ._solver import FAULT, LIMIT, MEMORY, READING, WRITING

# One line a word, and what it does. The module of this name in `words` has `add_to(parser)`, which says what stands after
# the word, and `run(arguments)`, which gives the status.
WORDS = {
    "sheet": "a table of bids, as spreadsheets have it, to the text of an auction, and back",
    "solve": "who gets what, at which prices, and who pays what",
    "report": "one page of HTML on an auction and its outcome, for a board, for each bidder, and for paper",
    "explain": "what is wrong with a text or a list, and how the bids of each bidder stand",
    "check": "whether an outcome is true of its auction",
    "prices": "the least clearing price of each good",
    "validate": "for how many units each bidder bids at most",
    "utility": "what each bidder gains at prices",
    "trail": "how the prices rise from the reserves",
    "compare": "whether the lists of bids say the same as the first one",
    "range": "between which prices owners of units may trade",
    "session": "one outcome after another, while bids come and go",
    "upgrade": "an auction of format 1 and its outcome in format 2",
    "trial": "the summary of a large auction that is made from a number",
    "draw": "a picture of an auction and its outcome",
    "many": "the outcomes of many auctions, one a line",
}

# Beyond those of docs/FORMAT.md: there is no solver, or it doesn't answer as it should.
NO_ANSWER = 8


def main(words: Optional[List[str]] = None) -> int:
    """Does what the words of the command line ask for, and gives the status."""
    words = sys.argv[1:] if words is None else words
    arguments = _parser(words[:1]).parse_args(words)
    try:
        status = int(arguments.run(arguments))
        sys.stdout.flush()
        return status
    except ProductMixError as error:
        print(error, file=sys.stderr)
        if getattr(error, "code", "") == "header":
            print("    A table of bids becomes the text of an auction by: python -m product_mix sheet FILE", file=sys.stderr)
        return _status_of(error)
    except BrokenPipeError:
        # Whoever read has seen enough; Python would complain once more when it flushes at its end.
        os.dup2(os.open(os.devnull, os.O_WRONLY), 1)
        return WRITING
    except OSError as error:
        print("%s: %s" % (error.filename or "product_mix", error.strerror), file=sys.stderr)
        return READING


def _parser(first: List[str]) -> argparse.ArgumentParser:
    """The parser of all words; only the module of the word that stands first is loaded."""
    parser = argparse.ArgumentParser(
        prog="python -m product_mix", description="Product-mix auctions: `WORD --help` says more of each word.",
        epilog="It ends with the statuses of docs/FORMAT.md: 0 where all went well, 1 where a list or an outcome isn't as "
               "it should be, 2 for words that it doesn't know, 3 for faults, 4 for limits.")
    known = parser.add_subparsers(metavar="WORD", required=True)
    for word, what in WORDS.items():
        module = importlib.import_module(".words." + word, __package__) if first == [word] else None
        described = None if module is None else module.__doc__
        one = known.add_parser(word, help=what, description=described, formatter_class=argparse.RawDescriptionHelpFormatter)
        if module is not None:
            module.add_to(one)
            one.set_defaults(run=module.run)
    return parser


def _status_of(error: ProductMixError) -> int:
    if isinstance(error, (TextError, FormError)):
        return LIMIT if isinstance(error, PastLimit) else FAULT
    if isinstance(error, OutOfMemory):
        return MEMORY
    return READING if isinstance(error, DeviceError) else NO_ANSWER


def _speak_utf8(stream: Any) -> None:
    """Names have letters of any kind, whatever the locale says."""
    stream.reconfigure(encoding="utf-8", errors="backslashreplace")


if __name__ == "__main__":
    _speak_utf8(sys.stdout)
    _speak_utf8(sys.stderr)
    sys.exit(main())
