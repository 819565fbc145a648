"""The faults and limits that the program tells of, with what can be said of the row."""

import re
from dataclasses import replace
from typing import List, NamedTuple, Optional, Sequence

from ._advice import advice_for_fault, advice_for_limit, most_of
from ._errors import Fault, PastLimit, Place, TextError
from ._fields import field_of, known_of
from ._source import Part, place_of

_TOLD = re.compile(rb"(fault|limit),(0|[1-9][0-9]*),([a-z]+)\n")


class Told(NamedTuple):
    """What the program tells: that a row has a fault or passes a limit, its number, and the code or the name."""

    is_limit: bool
    row: int
    code: str


def told_by(printed: bytes) -> Optional[Told]:
    """What the program tells with what it prints; None where that is nothing of this kind."""
    found = _TOLD.fullmatch(printed)
    return None if found is None else Told(found[1] == b"limit", int(found[2]), found[3].decode("ascii"))


def text_error(told: Told, parts: Sequence[Part], command: str) -> TextError:
    """The error for what the program tells of a text of these parts."""
    place, rows = place_of(parts, told.row)
    return error_at(told, place, rows, command)


def error_at(told: Told, place: Place, rows: Sequence[List[str]], command: str) -> TextError:
    """The same of a row whose place is known, with the fields of all rows up to it."""
    if told.is_limit:
        return PastLimit(told.row, told.code, most_of(told.code, _format_in(rows)), place, advice_for_limit(told.code))
    if not place.text:
        return Fault(told.row, told.code, place, advice_for_fault(told.code, "", command))
    field = field_of(told.code, rows)
    advice = advice_for_fault(told.code, rows[-1][0], command, known_of(told.code, rows, field))
    return Fault(told.row, told.code, replace(place, field=field), advice)


def _format_in(rows: Sequence[List[str]]) -> int:
    return int(rows[0][1]) if rows and rows[0][1:] in (["1"], ["2"], ["3"]) else 1
