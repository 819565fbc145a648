"""Which solver is asked, the library or the program, and what its statuses mean."""

import os
from typing import Any, Callable, NamedTuple, Optional, Sequence

from ._answers import Verdict
from ._errors import DeviceError, FormError, OutOfMemory, ProductMixError, ProgramError
from ._library import Library, find_library, usual_library
from ._outcome import Refused
from ._program import MOST_KEPT, PROGRAM_VARIABLE, PathName, Reply, find_program, run_program
from ._refusals import text_error, told_by
from ._source import Part, joined
from ._text import Rows, shown

#: What reads the answer of a command from its rows and the names of the goods.
Reader = Callable[[Rows, Sequence[str]], Any]

# The statuses of docs/FORMAT.md.
DONE, UNMET, WORDS, FAULT, LIMIT, READING, WRITING, MEMORY = range(8)


class Solver(NamedTuple):
    """Where the solver is looked for.

    What is named goes first: ``library``, ``program``, the variables ``PRODUCT_MIX_LIBRARY`` and ``PRODUCT_MIX``, in this
    order; else the library in its usual places, and then the program.
    """

    program: Optional[PathName] = None
    library: Optional[PathName] = None

    def ask(self, words: Sequence[str], text: bytes) -> Reply:
        """What the library or the program says of a text."""
        named = self._named_library()
        if named is not None:
            return named(words, text)
        found = None if self._is_program_named() else usual_library()
        if found is not None:
            reply = found(words, text)
            # A library that was only found, and doesn't know the command, leaves it to the program.
            if reply.status != WORDS:
                return reply
        return run_program(find_program(self.program), words, text)

    def _named_library(self) -> Optional[Library]:
        # A program that is named by the call goes before a library that is named by the variable.
        return None if self.library is None and self.program is not None else find_library(self.library)

    def _is_program_named(self) -> bool:
        return self.program is not None or bool(os.environ.get(PROGRAM_VARIABLE))

    def answer(self, words: Sequence[str], parts: Sequence[Part], read: Reader, goods: Callable[[], Sequence[str]]) -> Any:
        """What the solver answers to the parts of a text, as a value; or the error that it tells of."""
        return answer_in(self.ask(words, joined(parts)), words, parts, read, goods)


def answer_in(reply: Reply, words: Sequence[str], parts: Sequence[Part], read: Reader,
              goods: Callable[[], Sequence[str]]) -> Any:
    """What stands in a reply to the parts of a text, as a value; or the error that it tells of."""
    if reply.status not in (DONE, UNMET):
        raise error_of(reply, parts, words[0])
    try:
        rows = Rows(reply.printed)
        answer = read(rows, goods())
        rows.finish()
    except FormError as error:
        raise _program_error("it printed no answer to %r: %s" % (words[0], error), reply) from None
    if (reply.status == UNMET) != _is_unmet(answer):
        raise _program_error("it ended with status %d, which doesn't go with what it printed" % reply.status, reply)
    return answer


def _is_unmet(answer: object) -> bool:
    return isinstance(answer, Refused) or (isinstance(answer, Verdict) and not answer.true)


def error_of(reply: Reply, parts: Sequence[Part], command: str) -> ProductMixError:
    """The error that a reply with another status than 0 and 1 tells of."""
    told = told_by(reply.printed)
    if told is not None and reply.status == (LIMIT if told.is_limit else FAULT):
        return text_error(told, parts, command)
    if reply.status == READING:
        return DeviceError("the program couldn't read its standard input")
    if reply.status == WRITING:
        return DeviceError("the program couldn't write its standard output")
    if reply.status == MEMORY:
        return OutOfMemory("the solver wanted more memory than there was")
    if reply.status == WORDS:
        return _program_error("it knows no command %r" % command, reply)
    return _program_error("it ended with status %d, which says nothing" % reply.status, reply)


def _program_error(message: str, reply: Reply) -> ProgramError:
    return ProgramError(message, status=reply.status, printed=shown(reply.printed[:MOST_KEPT]), told=reply.told)
