"""In which field of its row a fault is.

The program tests the fields of a row from left to right, and tells the row and the code. So the fault is in the first
field that can have it. Nothing but messages rests on this; where the field can't be told, none is named.
"""

from typing import Callable, Dict, List, NamedTuple, Optional, Sequence

from ._errors import Field
from ._text import NAME, NOTHING, NUMBER

# The ranges of docs/FORMAT.md.
MOST_UNITS = 1_000_000
MOST_WEIGHT = 10_000
MOST_PAYMENT = 10_000_000_000_000
MOST_PRICE = 2_000_000
MOST_FACET = 4_000_000
# A number of more characters is outside every range.
LONG = 16

#: The fields of a row, and those of all rows up to it.
Fields = List[str]


class Slot(NamedTuple):
    """What stands in a field by rights: a name, or a number from the least to the most; or '-' in its place."""

    name: str
    is_number: bool = False
    least: int = 0
    most: int = MOST_UNITS
    may_be_nothing: bool = False


def field_of(code: str, rows: Sequence[Fields]) -> Optional[Field]:
    """The field of the last row in which a fault of this code is, where that can be told."""
    if not rows:
        return None
    fields, slots = rows[-1], _slots_of(rows)
    if code in _FAILS:
        number = _first([_FAILS[code](slot, content) for slot, content in zip(slots, fields[1:])])
    else:
        number = _NUMBERS[code](rows) if code in _NUMBERS else 0
    if not 0 < number <= len(fields):
        return None
    name = "word" if number == 1 else slots[number - 2].name if number - 2 < len(slots) else "one too many"
    return Field(number, name, fields[number - 1])


def known_of(code: str, rows: Sequence[Fields], field: Optional[Field]) -> str:
    """What is known of the field with the fault, where that tells more than the code and the row: a word, or none."""
    if field is None:
        return ""
    if code == "range" and field.content.startswith("-") and _slots_of(rows)[field.number - 2].least == 0:
        return "negative"
    if code == "other" and rows[-1][0] == "own":
        return "owner" if field.number == 2 else "owned"
    return ""


def _first(is_failing: Sequence[bool]) -> int:
    """The number of the first field after the word of which this is so; 0 where there is none."""
    return is_failing.index(True) + 2 if True in is_failing else 0


# ------------------------------------------------------------------------------------------------- what stands in a row

def _slots_of(rows: Sequence[Fields]) -> List[Slot]:
    word = rows[-1][0]
    if word == "price" and _is_outcome(rows):
        return _by_good("price of %s", rows)
    return _SLOTS[word](rows) if word in _SLOTS else []


def _by_good(name: str, rows: Sequence[Fields], least: int = 0, most: int = MOST_UNITS,
             nothing: bool = False) -> List[Slot]:
    return [Slot(name % good, True, least, most, nothing) for good in _goods_in(rows)]


def _bid_slots(rows: Sequence[Fields]) -> List[Slot]:
    return [Slot("bidder"), Slot("weight", True, -MOST_WEIGHT, MOST_WEIGHT), *_by_good("value of %s", rows, nothing=True)]


_SLOTS: Dict[str, Callable[[Sequence[Fields]], List[Slot]]] = {
    "mix": lambda rows: [Slot("format")],
    "goods": lambda rows: [Slot("name of a good")] * (len(rows[-1]) - 1),
    "supply": lambda rows: _by_good("supply of %s", rows),
    "reserve": lambda rows: _by_good("reserve of %s", rows),
    "bid": _bid_slots,
    "add": _bid_slots,
    "cap": lambda rows: [Slot("bidder"), Slot("cap", True)],
    "order": lambda rows: [Slot("bidder")] * (len(rows[-1]) - 1),
    "price": lambda rows: _by_good("price of %s", rows, -MOST_PRICE, MOST_PRICE),
    "outcome": lambda rows: [Slot("version", True, 1, 2)],
    "share": lambda rows: [Slot("bidder"), *_by_good("units of %s", rows), Slot("payment", True, 0, MOST_PAYMENT)],
    "return": lambda rows: _by_good("return of %s", rows),
    "tight": lambda rows: [Slot("bidder"), Slot("good"), Slot("upper set", True), Slot("lower set", True)],
    "refused": lambda rows: [
        Slot("bidder"), Slot("first choice", may_be_nothing=True), Slot("second choice", may_be_nothing=True),
        *_by_good("price of %s", rows, -MOST_PRICE, MOST_PRICE), Slot("weight", True, -MOST_FACET, -1)],
    "own": lambda rows: [Slot("bidder"), *_by_good("units of %s", rows)],
    "ceiling": lambda rows: _by_good("ceiling of %s", rows),
    "drop": lambda rows: [Slot("bidder")],
}


# ---------------------------------------------------------------------------------------- which of its fields has a fault

def _is_no_name(slot: Slot, content: str) -> bool:
    return not slot.is_number and not _is_nothing(slot, content) and not NAME.fullmatch(content)


def _is_no_number(slot: Slot, content: str) -> bool:
    return slot.is_number and not _is_nothing(slot, content) and not NUMBER.fullmatch(content)


def _is_out_of_range(slot: Slot, content: str) -> bool:
    if not slot.is_number or not NUMBER.fullmatch(content):
        return False
    return len(content) > LONG or not slot.least <= int(content) <= slot.most


def _is_nothing(slot: Slot, content: str) -> bool:
    return slot.may_be_nothing and content == NOTHING


_FAILS: Dict[str, Callable[[Slot, str], bool]] = {
    "name": _is_no_name, "number": _is_no_number, "range": _is_out_of_range}


def _header_field(rows: Sequence[Fields]) -> int:
    return 2 if rows[-1][0] == "mix" else 1


def _repeated_field(rows: Sequence[Fields]) -> int:
    word, *names = rows[-1]
    return _first([name in names[:at] for at, name in enumerate(names)]) if word in ("goods", "order") else 2


def _weight_field(rows: Sequence[Fields]) -> int:
    return 2 if rows[-1][0] == "cap" else 3


def _other_field(rows: Sequence[Fields]) -> int:
    word = rows[-1][0]
    return _OTHERS[word](rows) if word in _OTHERS else 0


_NUMBERS: Dict[str, Callable[[Sequence[Fields]], int]] = {
    "header": _header_field,
    "place": lambda rows: 1,
    "repeated": _repeated_field,
    "weight": _weight_field,
    "other": _other_field,
}


def _order_field(rows: Sequence[Fields]) -> int:
    names = rows[-1][1:]
    if _is_outcome(rows):
        return _first([name != wanted for name, wanted in zip(names, _tie_order_in(rows))])
    return _first([name not in _bidders_in(rows) for name in names])


def _own_field(rows: Sequence[Fields]) -> int:
    if rows[-1][1] not in _bidders_in(rows):
        return 2
    reserve = rows[3][1:] if len(rows) > 4 else []
    return _first([False, *[units != "0" and floor != "0" for units, floor in zip(rows[-1][2:], reserve)]])


def _tight_field(rows: Sequence[Fields]) -> int:
    pairs = [[bidder, good] for bidder in _bidders_in(rows) for good in _goods_in(rows)]
    before = sum(fields[0] == "tight" for fields in rows[:-1])
    return _first([a != b for a, b in zip(rows[-1][1:3], pairs[before])]) if before < len(pairs) else 0


def _refused_field(rows: Sequence[Fields]) -> int:
    if rows[-1][1] not in _bidders_in(rows):
        return 2
    choices = [NOTHING, *_goods_in(rows)]
    return _first([False, *[choice not in choices for choice in rows[-1][2:4]]]) or 4


_OTHERS: Dict[str, Callable[[Sequence[Fields]], int]] = {
    "cap": lambda rows: 2,
    "drop": lambda rows: 2,
    "share": lambda rows: 2,
    "order": _order_field,
    "own": _own_field,
    "tight": _tight_field,
    "refused": _refused_field,
}


# ----------------------------------------------------------------------------------------------- what stood before a row

def _goods_in(rows: Sequence[Fields]) -> List[str]:
    return rows[1][1:] if len(rows) > 1 else []


def _bidders_in(rows: Sequence[Fields]) -> List[str]:
    return list(dict.fromkeys(fields[1] for fields in rows[:-1] if fields[0] == "bid" and len(fields) > 1))


def _tie_order_in(rows: Sequence[Fields]) -> List[str]:
    for fields in rows[:-1]:
        if fields[0] == "order":
            return fields[1:]
    return _bidders_in(rows)


def _is_outcome(rows: Sequence[Fields]) -> bool:
    return any(fields[0] == "outcome" for fields in rows[:-1])
