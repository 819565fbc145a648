"""How rows are written, and what can't be."""

import operator
from typing import Any, Iterable, List, Mapping, Sequence, Tuple

from ._errors import FormError, counted, kind_of, shortened
from ._text import NAME


def text_of(rows: Sequence[str]) -> str:
    """The text that has these rows."""
    return "".join([row + "\n" for row in rows])


def row(word: str, fields: Iterable[str]) -> str:
    """A row of these fields."""
    return ",".join([word, *fields])


def listed_values(what: str, values: Any, wanted: str) -> Tuple[Any, ...]:
    """The values in their order. A str would be taken letter by letter, and of a mapping the names alone."""
    if isinstance(values, (str, bytes, Mapping)) or not isinstance(values, Iterable):
        raise FormError("%s is %s: write a list of %s" % (what, kind_of(values), wanted))
    return tuple(values)


def spelled_name(name: str) -> str:
    """The name, which has to be one."""
    if not isinstance(name, str) or not NAME.fullmatch(name):
        raise FormError("%s is no name: a name is a letter, then letters, digits, '_', '-' or '.', at most 32 characters"
                        % shortened(repr(name)))
    return name


def spelled_number(number: int) -> str:
    """The digits of a number, which has to be whole: an int, or one of another kind, as numpy has them."""
    if type(number) is not int:
        number = _whole(number)
    try:
        return str(number)
    except ValueError:
        raise FormError("a number is too long") from None


def _whole(number: object) -> int:
    if isinstance(number, bool):
        raise FormError("%r is no number" % number)
    try:
        return operator.index(number)  # type: ignore[arg-type]
    except TypeError:
        raise FormError("%s is no whole number" % shortened(repr(number))) from None


def spelled_amounts(what: str, amounts: Sequence[int], goods: int) -> List[str]:
    """The digits of a number for each good."""
    if len(amounts) != goods:
        raise FormError("%s has %s for %s" % (what, counted(len(amounts), "number"), counted(goods, "good")))
    return [spelled_number(amount) for amount in amounts]
