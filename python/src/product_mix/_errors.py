"""What may go wrong, as one family of exceptions."""

import textwrap
from dataclasses import dataclass
from typing import TYPE_CHECKING, Any, Dict, Optional, Tuple, Type

if TYPE_CHECKING:
    from ._auction import Bid

# How much of a row, and of what a program printed, a message shows.
MOST_SHOWN = 200
# How wide a line of advice may be in a message.
ADVICE_WIDTH = 96


def shortened(text: str) -> str:
    """The text, cut where it is long."""
    return text if len(text) <= MOST_SHOWN else text[:MOST_SHOWN] + ".."


def counted(count: int, one: str, many: Optional[str] = None) -> str:
    """So many of what is called so; many of them by an `s`, unless told."""
    return "%d %s" % (count, one if count == 1 else many or one + "s")


def kind_of(value: object) -> str:
    """What kind of value it is, with its article."""
    kind = type(value).__name__
    return "%s %s" % ("an" if kind[0] in "aeiouAEIOU" else "a", kind)


class ProductMixError(Exception):
    """Whatever this package raises of its own."""

    def __reduce__(self) -> Tuple[Any, ...]:
        # By their attributes, so that errors come back whole from the workers of a pool.
        return _error_again, (type(self), self.args, self.__dict__)


def _error_again(kind: Type[ProductMixError], args: Tuple[Any, ...], attributes: Dict[str, Any]) -> ProductMixError:
    error = kind.__new__(kind, *args)
    error.__dict__.update(attributes)
    return error


class FormError(ProductMixError, ValueError):
    """A value that can't be written as a text, or a text that can't be read as a value.

    ``bid`` is the bid of which this is so, ``line`` the line of the text, each where there is one.
    """

    def __init__(self, message: str, *, line: Optional[int] = None, bid: "Optional[Bid]" = None) -> None:
        super().__init__(message)
        self.line = line
        self.bid = bid


@dataclass(frozen=True)
class Field:
    """A field of a row: its number, from 1, what stands in it by rights, and what stands in it.

    The number is that of the column in a spreadsheet: the word that a row begins with is field 1.
    """

    number: int
    name: str
    content: str

    def __str__(self) -> str:
        return "field %d (%s) is %r" % (self.number, self.name, shortened(self.content))


@dataclass(frozen=True)
class Place:
    """Where a row stands: in which text, in which line of it, with what; and the bid that it was written from."""

    source: str
    line: Optional[int] = None
    text: str = ""
    field: Optional[Field] = None
    bid: "Optional[Bid]" = None

    def __str__(self) -> str:
        return self.source if self.line is None else "%s, line %d" % (self.source, self.line)


class TextError(ProductMixError):
    """The program refused a text at a row.

    ``row`` is the row's number as the program counts them, without blank ones, or 0 where no row is named. ``source``
    says which text the row stands in (the path of a file, or ``auction``, ``outcome`` and so on), ``line`` in which line
    of it, ``text`` is the row as it stands there, ``field`` the :class:`Field` where that can be told, ``bid`` the
    :class:`Bid` that the row was written from if it was written from one, and ``advice`` says what to do.
    """

    def __init__(self, row: int, what: str, place: Place, advice: str) -> None:
        self.row = row
        self.source = place.source
        self.line = place.line
        self.text = place.text
        self.field = place.field
        self.bid = place.bid
        self.advice = advice
        told = ["%s: %s" % (place, what)]
        if row:
            told[0] = "%s (row %d): %s" % (place, row, what)
        if place.text:
            told.append(shortened(place.text))
        if place.field is not None:
            told.append(str(place.field))
        super().__init__("\n    ".join([*told, *textwrap.wrap(advice, ADVICE_WIDTH)]))


class Fault(TextError):
    """A row has a fault. ``code`` is its code, one of those of docs/ERRORS.md."""

    def __init__(self, row: int, code: str, place: Place, advice: str) -> None:
        super().__init__(row, code, place, advice)
        self.code = code


class PastLimit(TextError):
    """A row passes a limit: there are more of ``quantity``, as ``bidders``, than ``limit``."""

    def __init__(self, row: int, quantity: str, limit: Optional[int], place: Place, advice: str) -> None:
        most = "" if limit is None else ", at most %d" % limit
        super().__init__(row, "too many %s%s" % (quantity, most), place, advice)
        self.quantity = quantity
        self.limit = limit


class OutOfMemory(ProductMixError, MemoryError):
    """The solver wanted more memory than there was."""


class DeviceError(ProductMixError):
    """The program couldn't read its standard input, or couldn't write its standard output."""


class ProgramError(ProductMixError):
    """The program didn't answer as it should: it was killed, or is another program.

    ``status`` is what it ended with (less than 0: the signal by which it was killed), ``printed`` what it printed, at
    most its first part, ``told`` what it wrote to standard error.
    """

    def __init__(self, message: str, *, status: Optional[int] = None, printed: str = "", told: str = "") -> None:
        shown = ["%s: %s" % (name, shortened(text)) for name, text in (("it printed", printed), ("it told", told)) if text]
        super().__init__("\n    ".join([message, *shown]))
        self.status = status
        self.printed = printed
        self.told = told


class ProgramNotFound(ProductMixError):
    """There is neither the program nor the library where they were looked for."""


class WorkerLost(ProductMixError):
    """A worker of a pool ended before it answered: it was killed, or wanted more memory than there was."""
