"""Numbers as people write them: decimal points and commas, thousands, currencies, dashes of all kinds."""

import re
import unicodedata
from decimal import Decimal
from typing import Iterable, List, NamedTuple, Optional, Tuple

from .._errors import FormError
from .cells import Content
from .places import Complaint, Marked

# What stands where nothing is offered: nothing, or a dash of any kind.
DASHES = "-\u2010\u2011\u2012\u2013\u2014\u2015\u2212\ufe58\ufe63\uff0d"
_MINUS = "-\u2212\u2013"
# Between thousands these mean nothing else; a point or a comma may.
_PLAIN_GROUPS = re.compile(r"\d{1,3}(?:['\u2019 \u00a0\u2009\u202f]\d{3})+(?!\d)")
_CURRENCY = r"(?:[A-Z]{3}|Fr\.|kr\.?|[Ee]uro|EURO|zł|Kč|[^\w\s.,'\u2019+%s-])" % _MINUS[1:]
# Signs and words of a currency that has one code alone.
_CODES = {"€": "EUR", "euro": "EUR", "zł": "PLN", "kč": "CZK"}
_AMOUNT = re.compile(r"([+%s]?)\s*(%s)?\s*([+%s]?)\s*(\d[\d.,]*)\s*(%s)?" % (_MINUS[1:] + "-", _CURRENCY, _MINUS[1:] + "-", _CURRENCY))
# Dashes in the place of cents: there are none.
_NO_CENTS = re.compile(r"(?<=\d)([.,])[%s]{1,2}(?!\d)" % (_MINUS[1:] + "\u2014-"))

_BOTH = re.compile(r"\d{1,3}(?:([.,])\d{3})+(?!\1)([.,])\d+")
_MANY = re.compile(r"\d{1,3}(?:([.,])\d{3}){2,}")
_ONE = re.compile(r"(\d+)([.,])(\d+)")

OTHER = {",": ".", ".": ","}
NAMES = {",": "comma", ".": "point"}


def is_empty(content: Content) -> bool:
    """Whether a cell has nothing in it, or no more than dashes."""
    return isinstance(content, str) and not content.strip().strip(DASHES).strip()


def is_blank(content: Content) -> bool:
    """Whether a cell has nothing in it at all."""
    return isinstance(content, str) and not content.strip()


class Spelled(NamedTuple):
    """A number as it is spelled: whether it is below 0, its digits with their marks, and its currency."""

    is_negative: bool
    digits: str
    currency: str


def spelled(content: str) -> Optional[Spelled]:
    """The parts of a number; None where there is something else."""
    plain = _PLAIN_GROUPS.sub(lambda group: re.sub(r"\D", "", group[0]), content.strip())
    plain = _NO_CENTS.sub(r"\g<1>00", plain)
    found = _AMOUNT.fullmatch(plain)
    if found is None or (found[1] and found[3]) or (found[2] and found[5]):
        return None
    currency = found[2] or found[5] or ""
    if len(currency) == 1 and unicodedata.category(currency) != "Sc":
        return None
    return Spelled((found[1] or found[3] or "+") in _MINUS, found[4], currency)


def is_number(content: Content) -> bool:
    """Whether a cell has a number in it, whatever its marks say."""
    return isinstance(content, Decimal) or spelled(content) is not None


def told_mark(digits: str) -> Optional[str]:
    """The decimal mark that these digits can't be read without; None where they say nothing of it.

    >>> [told_mark(digits) for digits in ("12,5", "1.234,5", "1,234,567", "1,500", "0,500", "1234,567", "15")]
    [',', ',', '.', None, ',', ',', None]
    """
    both, many, one = _BOTH.fullmatch(digits), _MANY.fullmatch(digits), _ONE.fullmatch(digits)
    if both is not None:
        return both[2]
    if many is not None:
        return OTHER[many[1]]
    if one is not None and (len(one[3]) != 3 or len(one[1]) > 3 or one[1].startswith("0")):
        return one[2]
    return None


class Marks(NamedTuple):
    """The decimal mark and the currency of a sheet, and the cells that tell of them first."""

    decimal: Optional[str] = None
    decimal_cell: Optional[Marked] = None
    currency: str = ""
    currency_cell: Optional[Marked] = None


def marks_of(cells: Iterable[Marked], stated: Optional[str]) -> Tuple[Marks, List[Complaint]]:
    """The marks that the cells tell of, and a complaint for each that tells of another one."""
    marks, complaints = Marks(decimal=stated), []
    for cell in cells:
        found = spelled(cell.content) if isinstance(cell.content, str) else None
        if found is None:
            continue
        mark = told_mark(found.digits)
        if mark and marks.decimal is None:
            marks = marks._replace(decimal=mark, decimal_cell=cell)
        elif mark and mark != marks.decimal and marks.decimal_cell is not None:
            complaints.append(Complaint(cell.place, cell.content, "has a decimal %s, and %s in %s a decimal %s" % (
                NAMES[mark], marks.decimal_cell.content, marks.decimal_cell.place.cell, NAMES[marks.decimal or ""])))
        if found.currency and not marks.currency:
            marks = marks._replace(currency=found.currency, currency_cell=cell)
        elif found.currency and _code(found.currency) != _code(marks.currency) and marks.currency_cell is not None:
            complaints.append(Complaint(cell.place, cell.content, "has another currency than %s in %s" % (
                marks.currency_cell.content, marks.currency_cell.place.cell)))
    return marks, complaints


def _code(currency: str) -> str:
    """What is the same for all spellings of a currency."""
    return _CODES.get(currency.casefold(), currency)


def number_of(content: Content, decimal: Optional[str]) -> Decimal:
    """The number that stands in a cell; a ``FormError`` says what is wrong with it."""
    if isinstance(content, Decimal):
        return content
    found = spelled(content)
    if found is None:
        raise FormError("is no number")
    return (-1 if found.is_negative else 1) * _digits_of(found.digits, decimal)


def _digits_of(digits: str, decimal: Optional[str]) -> Decimal:
    if digits.isdigit() and digits.isascii():
        return Decimal(digits)
    if decimal is None:
        one = _ONE.fullmatch(digits)
        if one is None:
            raise FormError("is no number")
        raise FormError("may be %s or %s: say --decimal . or --decimal ," % (one[1] + one[3], Decimal(one[1] + "." + one[3])))
    point, group = re.escape(decimal), re.escape(OTHER[decimal])
    if not re.fullmatch(r"(?:[0-9]+|[0-9]{1,3}(?:%s[0-9]{3})+)(?:%s[0-9]+)?" % (group, point), digits):
        raise FormError("is no number with a decimal %s" % NAMES[decimal])
    return Decimal(digits.replace(OTHER[decimal], "").replace(decimal, "."))


def steps_of(content: Content, decimal: Optional[str], step: Decimal) -> int:
    """The amount that stands in a cell, in steps."""
    number = number_of(content, decimal)
    if number % step:
        raise FormError("is no multiple of the step %s" % step)
    return int(number / step)


def units_of(content: Content, decimal: Optional[str]) -> int:
    """The number of units that stands in a cell."""
    if isinstance(content, str):
        found = spelled(content)
        if found is None:
            raise FormError("is no number: write digits alone")
        if found.currency:
            raise FormError("has a currency, and should be a number of units")
    number = number_of(content, decimal)
    if number != int(number):
        raise FormError("is no whole number")
    return int(number)
