"""Outcomes as lines of JSON, in a file to which each is added whole."""

import fcntl
import hashlib
import json
import time
from types import TracebackType
from typing import Any, Dict, Optional, Tuple, Type

from ._errors import FormError, PastLimit, TextError
from ._outcome import Cleared, read_outcome
from ._program import PathName, Reply
from ._solver import Solver, answer_in
from ._source import Source
from ._texts import Text

CLEARED, REFUSED, FAULTY, LIMIT = "cleared", "refused", "faulty", "limit"

# A text by its name and its SHA-256: what is done already is done of these very bytes.
Key = Tuple[str, str]

# How each line begins, by which one is known that was never ended.
_HEAD = b'{"name": "'


def line_of(text: Text, program: Optional[PathName], library: Optional[PathName]) -> Dict[str, Any]:
    """The line of a text: what the solver says of it, in its own words and as values.

    An error that says nothing of the text, as that there is no memory, has no line and is raised.
    """
    start = time.perf_counter()
    reply = Solver(program, library).ask(["solve"], text.data)
    seconds = time.perf_counter() - start
    status, cleared, error = _meaning_of(reply, text)
    return {
        "name": text.name,
        "sha256": digest_of(text.data),
        "status": status,
        "prices": None if cleared is None else dict(cleared.prices),
        "revenue": None if cleared is None else cleared.revenue,
        "error": error,
        "seconds": round(seconds, 6),
        "outcome": reply.printed.decode("ascii"),
    }


def digest_of(data: bytes) -> str:
    return hashlib.sha256(data).hexdigest()


def _meaning_of(reply: Reply, text: Text) -> Tuple[str, Optional[Cleared], Optional[str]]:
    """The status of a reply, the outcome if one cleared, and what is wrong with the text if anything is."""
    source = Source(text.data)
    parts = [source.part._replace(name=text.name)]
    try:
        outcome = answer_in(reply, ["solve"], parts, read_outcome, lambda: source.goods)
    except TextError as error:
        return LIMIT if isinstance(error, PastLimit) else FAULTY, None, str(error)
    if isinstance(outcome, Cleared):
        return CLEARED, outcome, None
    return REFUSED, None, None


class LineFile:
    """A file of lines, to which one run at a time adds.

    ``done`` has the status of each text that has a line. A last line that was never ended is taken off; where a line is
    none of these, nothing is touched, and a ``FormError`` says so.
    """

    def __init__(self, path: str) -> None:
        self.done: Dict[Key, str] = {}
        self._path = path
        self._file = open(path, "a+b")
        try:
            # Such a lock isn't handed on to processes that are forked, and goes with this one however it ends.
            fcntl.lockf(self._file, fcntl.LOCK_EX | fcntl.LOCK_NB)
            self._read()
        except BlockingIOError:
            self._file.close()
            raise FormError("another run adds to %s" % path) from None
        except BaseException:
            self._file.close()
            raise

    def add(self, line: Dict[str, Any]) -> None:
        """Adds a line, which is in the system's hands when this is done: whoever kills this process doesn't lose it."""
        self._file.write(json.dumps(line).encode("ascii") + b"\n")
        self._file.flush()
        self.done[line["name"], line["sha256"]] = line["status"]

    def _read(self) -> None:
        self._file.seek(0)
        end = 0
        for number, line in enumerate(self._file, 1):
            if not line.endswith(b"\n") and line[:len(_HEAD)] == _HEAD[:len(line)]:
                self._file.truncate(end)
                return
            self._note(number, line)
            end += len(line)

    def _note(self, number: int, line: bytes) -> None:
        try:
            told = json.loads(line)
            self.done[told["name"], told["sha256"]] = told["status"]
        except (ValueError, KeyError, TypeError):
            raise FormError("%s, line %d is no line of outcomes; name another file by --out" % (self._path, number),
                            line=number) from None

    def __enter__(self) -> "LineFile":
        return self

    def __exit__(self, kind: Optional[Type[BaseException]], error: Optional[BaseException],
                 trace: Optional[TracebackType]) -> None:
        self._file.close()
