"""The outcomes of many auctions, one a line.

Each text has a line of JSON in the file of outcomes: its name and SHA-256, the status (cleared, refused, faulty, or limit
where it passes one), the prices and the revenue where it cleared, what is wrong with it where something is, how many
seconds the solver took, and what the solver printed. Lines come as the auctions are done, each written whole: a run that
is killed loses at most the line in the making, and the same command again does what is missing.

Of a folder, and of those in it, come the files that fit the pattern; so of an archive, whose name ends in .zip, .tar,
.tar.gz, .tgz, .tar.bz2 or .tar.xz. Any other file is a text whatever its name. It ends with 0 where each text has a line,
and else with 1.
"""

import argparse
import functools
import sys
from contextlib import contextmanager
from typing import Any, Iterator, Optional

from .._errors import ProductMixError
from .._lines import LineFile
from .._many import run_many
from .._pool import ExecutorOrMaker, local_pool
from .._solver import WORDS
from .._texts import texts_in
from ._common import add_solver

# What shells make of Ctrl-C.
INTERRUPTED = 130


def add_to(parser: argparse.ArgumentParser) -> None:
    parser.add_argument("paths", metavar="FOLDER_OR_FILE", nargs="+", help="a folder of texts, an archive of them, or a text")
    parser.add_argument("--out", metavar="FILE", default="outcomes.jsonl",
                        help="the file of outcomes, to which lines are added (default: %(default)s)")
    parser.add_argument("--pattern", default="*.csv", help="which names are those of texts (default: %(default)s)")
    parser.add_argument("--workers", metavar="N", type=_count, help="how many processes work (default: one a processor)")
    engines = parser.add_mutually_exclusive_group()
    engines.add_argument("--dask", metavar="ADDRESS", help="the workers are those of this scheduler of Dask")
    engines.add_argument("--mpi", action="store_true", help="the workers are processes of MPI, by mpi4py")
    add_solver(parser)


def run(arguments: argparse.Namespace) -> int:
    if arguments.dask is not None and arguments.workers is not None:
        print("--workers doesn't go with --dask, which has the workers that joined the scheduler", file=sys.stderr)
        return WORDS
    try:
        with LineFile(arguments.out) as lines, _executor(arguments) as executor:
            tally = run_many(texts_in(arguments.paths, arguments.pattern), lines, executor, progress=sys.stderr.isatty(),
                             program=arguments.program, library=arguments.library)
    except KeyboardInterrupt:
        print("stopped: the same command does what is missing", file=sys.stderr)
        return INTERRUPTED
    print(tally)
    return 1 if tally.failed else 0


@contextmanager
def _executor(arguments: argparse.Namespace) -> Iterator[ExecutorOrMaker]:
    """The workers that the command line asks for."""
    if arguments.dask is not None:
        with _dask_client(arguments.dask) as client:
            yield client.get_executor()
    elif arguments.mpi:
        with _mpi_pool(arguments.workers) as executor:
            yield executor
    else:
        yield functools.partial(local_pool, arguments.workers)


def _dask_client(address: str) -> Any:
    try:
        from dask import distributed
    except ImportError as error:
        raise ProductMixError("--dask wants the package distributed, by pip install distributed: %s" % error) from error
    connect: Any = distributed.Client
    try:
        return connect(address)
    # An address that is none is a ValueError.
    except (OSError, ValueError) as error:
        raise ProductMixError("there is no scheduler of Dask at %s: %s" % (address, error)) from error


def _mpi_pool(workers: Optional[int]) -> Any:
    try:
        from mpi4py.futures import MPIPoolExecutor
    except ImportError as error:
        raise ProductMixError("--mpi wants the package mpi4py, by pip install mpi4py, and a library of MPI: %s" % error) from error
    return MPIPoolExecutor(workers)


def _count(text: str) -> int:
    if not text.isdigit() or int(text) < 1:
        raise argparse.ArgumentTypeError("%r is no number of processes" % text)
    return int(text)
