"""Many auctions by any executor, in bounded memory."""

import functools
from collections.abc import Sized
from contextlib import closing
from typing import Any, Generator, Iterable, Iterator, Optional, Tuple, Union

from ._auction import Auction
from ._commands import solve_source
from ._outcome import Cleared, Refused
from ._pool import WINDOW, ExecutorOrMaker, Pool, run_all
from ._program import PathName
from ._source import AuctionOrText, Source

#: What becomes of one auction of many.
Result = Union[Cleared, Refused, Exception]

# An auction that a worker writes, a text that was read, or why it couldn't be.
_Task = Union[Auction, Source, Exception]


def solve_many(auctions: Iterable[AuctionOrText], executor: Optional[ExecutorOrMaker] = None, *, window: int = WINDOW,
               progress: bool = False, program: Optional[PathName] = None,
               library: Optional[PathName] = None) -> Iterator[Result]:
    """The outcome of each auction, in their order, or the error that came of it: one that fails stops no other.

    ``executor`` is any ``concurrent.futures.Executor``; by default processes of this machine are started, as many as it
    has processors. Texts and files are read here, and only what was read goes to the workers, so these need the package
    and a solver alone. At most ``window`` auctions are looked at ahead of the result that is waited for, so that memory
    stays bounded however many there are. ``progress`` shows a bar of tqdm, where it is there.

    Where a worker of the processes that were started is killed, new ones are started, and the auctions that were in flight
    are tried again one by one; one with which a worker is lost again has the error ``WorkerLost``. An executor that is
    handed in can't be started again: where it breaks, ``WorkerLost`` is raised after the results that were there. Hand in
    a function that makes an executor, and new ones are made in the same way.

    >>> auctions = [Auction(["permit"], [1], [reserve]).bid("Ann", 1, permit=4) for reserve in (2, 6)]
    >>> for result in solve_many([*auctions, "no auction\\n"]):
    ...     print(result.revenue if isinstance(result, Cleared) else type(result).__name__)
    2
    0
    Fault
    """
    if window < 1:
        raise ValueError("a window has room for at least one auction")
    work = functools.partial(_solve, program=program, library=library)
    results = run_all(work, map(_task_of, auctions), Pool(executor), window)
    return with_progress(_alone(results), len(auctions) if isinstance(auctions, Sized) else None, progress)


def _alone(results: "Generator[Tuple[_Task, Result], None, None]") -> Iterator[Result]:
    with closing(results):
        for _, result in results:
            yield result


def _task_of(auction: AuctionOrText) -> _Task:
    if isinstance(auction, Auction):
        return auction
    try:
        return Source(auction)
    except Exception as error:
        return error


def _solve(task: _Task, program: Optional[PathName], library: Optional[PathName]) -> Result:
    if isinstance(task, Exception):
        return task
    return solve_source(Source(task) if isinstance(task, Auction) else task, program, library)


def with_progress(results: Iterator[Any], total: Optional[int], is_shown: bool) -> Iterator[Any]:
    """The results, with a bar of tqdm where one is to be shown and can be; in total so many, where that is known."""
    if not is_shown:
        return results
    try:
        from tqdm import tqdm
    except ImportError:
        return results
    # Without a monitor there is no thread when the workers are forked.
    bar = type("Bar", (tqdm,), {"monitor_interval": 0})
    return iter(bar(results, total=total, unit=" auctions"))
