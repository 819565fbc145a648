"""The program as a process: how it is found, and how a text goes through it."""

import os
import select
import shutil
import signal
import subprocess
import sys
import tempfile
from pathlib import Path
from typing import BinaryIO, NamedTuple, Optional, Sequence, Tuple, Union, cast

from ._errors import ProgramError, ProgramNotFound
from ._text import shown

PathName = Union[str, "os.PathLike[str]"]

PROGRAM_VARIABLE = "PRODUCT_MIX"
PROGRAM_NAME = "product_mix"
# Where the program stands that the checkout built, if this file stands in one.
BUILT = Path(__file__).resolve().parents[3] / "crates" / "product_mix" / "out" / PROGRAM_NAME

# More than any answer has: a trail of a step for each unit of eight prices.
MOST_PRINTED = 1 << 28
# How much of it an error keeps.
MOST_KEPT = 1 << 16
# A pipe holds no more.
PIECE = 1 << 16


class Reply(NamedTuple):
    """What came of a text: the status, what was printed, and what was told on standard error."""

    status: int
    printed: bytes
    told: str = ""


def find_program(program: Optional[PathName] = None) -> str:
    """The program's path: the one given, that of the variable ``PRODUCT_MIX``, the one on the path, the checkout's."""
    if program is not None:
        return _named(program, "program=")
    if os.environ.get(PROGRAM_VARIABLE):
        return _named(os.environ[PROGRAM_VARIABLE], PROGRAM_VARIABLE)
    found = shutil.which(PROGRAM_NAME)
    if found is not None:
        return found
    if BUILT.is_file():
        return str(BUILT)
    raise ProgramNotFound(
        "there is no program product_mix: build it in a checkout of the repository with "
        "'./mix solve < examples/stalls/auction.csv', and then put it on the path, or name it by program= or the variable %s"
        % PROGRAM_VARIABLE)


def _named(program: PathName, by: str) -> str:
    found = shutil.which(os.fspath(program))
    if found is None:
        raise ProgramNotFound("there is no program %s, which %s names" % (os.fspath(program), by))
    return found


def run_program(program: str, words: Sequence[str], text: bytes) -> Reply:
    """Runs the program on a text."""
    # From a file the program takes its text when it will, so neither side ever waits for the other.
    with _file_of(text) as file:
        try:
            process = subprocess.Popen([program, *words], stdin=file, stdout=subprocess.PIPE, stderr=subprocess.PIPE)
        except OSError as error:
            raise ProgramNotFound("%s can't be run: %s" % (program, error.strerror)) from error
        with process:
            try:
                printed, told = _read_both(process)
            except BaseException:
                process.kill()
                raise
    reply = Reply(process.returncode, printed, shown(told))
    _look_at_end(program, reply)
    return reply


def _file_of(text: bytes) -> BinaryIO:
    """A file without a name in which the text stands, in memory where the system has such files."""
    if sys.platform == "linux" and hasattr(os, "memfd_create"):
        file: BinaryIO = open(os.memfd_create(PROGRAM_NAME), "r+b", buffering=0)
    else:
        file = cast(BinaryIO, tempfile.TemporaryFile(buffering=0))
    left = memoryview(text)
    while left:
        left = left[file.write(left):]
    file.seek(0)
    return file


def _read_both(process: "subprocess.Popen[bytes]") -> Tuple[bytes, bytes]:
    """What is printed, and what is told on standard error."""
    assert process.stdout is not None and process.stderr is not None
    printed, told = bytearray(), bytearray()
    # The ends of the pipes that are still open, by their numbers.
    ends = {process.stdout.fileno(): printed, process.stderr.fileno(): told}
    poll = select.poll()
    for end in ends:
        poll.register(end, select.POLLIN)
    while ends:
        for end, _ in poll.poll():
            piece = os.read(end, PIECE)
            if not piece:
                poll.unregister(end)
                del ends[end]
                continue
            ends[end].extend(piece)
            _look_at_size(printed, told)
    return bytes(printed), bytes(told)


def _look_at_size(printed: bytearray, told: bytearray) -> None:
    if len(printed) > MOST_PRINTED or len(told) > MOST_PRINTED:
        raise ProgramError("the program prints without end", printed=shown(bytes(printed[:MOST_KEPT])),
                           told=shown(bytes(told[:MOST_KEPT])))


def _look_at_end(program: str, reply: Reply) -> None:
    if reply.status < 0:
        raise ProgramError("%s was killed by %s" % (program, _signal_name(-reply.status)),
                           status=reply.status, printed=shown(reply.printed[:MOST_KEPT]), told=reply.told)


def _signal_name(number: int) -> str:
    try:
        return signal.Signals(number).name
    except ValueError:
        return "signal %d" % number
