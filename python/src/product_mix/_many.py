"""Many texts, their outcomes in a file of lines, and what became of them all."""

import functools
import sys
from collections import Counter
from contextlib import closing
from typing import Iterable, Iterator, List, Optional

from ._errors import counted
from ._lines import CLEARED, FAULTY, LIMIT, REFUSED, LineFile, digest_of, line_of
from ._pool import ExecutorOrMaker, Pool, run_all
from ._program import PathName
from ._solve_many import with_progress
from ._texts import Found, LeftOut, Text, Unread


class Tally:
    """How many texts have which status, and what else there is to say at the end."""

    def __init__(self) -> None:
        self.statuses: "Counter[str]" = Counter()
        self.before = 0
        self.failed = 0
        self.left_out = 0

    def fail(self, name: str, why: object) -> None:
        self.failed += 1
        print("%s: %s" % (name, why), file=sys.stderr)

    def __str__(self) -> str:
        told = counted(sum(self.statuses.values()) + self.failed, "text")
        told += ": %d cleared, %d refused, %d faulty, %d past a limit" % tuple(
            [self.statuses[status] for status in (CLEARED, REFUSED, FAULTY, LIMIT)])
        for count, what in ((self.failed, "without an answer, as told: the same command tries them again"),
                            (self.before, "were done before"),
                            (self.left_out, "files of other names were left out")):
            told += "; %d %s" % (count, what) if count else ""
        return told


def run_many(found: Iterable[Found], lines: LineFile, executor: Optional[ExecutorOrMaker] = None, *,
             progress: bool = False, program: Optional[PathName] = None, library: Optional[PathName] = None) -> Tally:
    """Adds a line for each text that has none, as they come."""
    tally = Tally()
    texts = _missing(found, lines, tally)
    work = functools.partial(line_of, program=program, library=library)
    with closing(run_all(work, texts, Pool(executor), in_order=False)) as results:
        for text, result in with_progress(results, None, progress):
            if isinstance(result, Exception):
                # Of a scheduler that is gone Dask says no word but the error's name.
                tally.fail(text.name, str(result) or type(result).__name__)
            else:
                lines.add(result)
                tally.statuses[result["status"]] += 1
    return tally


def _missing(found: Iterable[Found], lines: LineFile, tally: Tally) -> Iterator[Text]:
    """The texts that have no line yet; what is found else goes to the tally."""
    for one in found:
        if isinstance(one, LeftOut):
            tally.left_out += 1
        elif isinstance(one, Unread):
            tally.fail(one.name, one.why)
        else:
            status = lines.done.get((one.name, digest_of(one.data)))
            if status is None:
                yield one
            else:
                tally.before += 1
                tally.statuses[status] += 1
