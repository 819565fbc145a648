"""Sheets as blocks: rows under titles of their own, for bids, for goods, for caps and the tie order."""

from typing import Dict, List, Mapping, NamedTuple, Optional, Sequence, Tuple

from .cells import Content, Sheet
from .numbers import is_blank
from .places import Complaint, Marked, Place

# The titles that columns are found by, whatever their case; what stands in brackets after one doesn't count.
TITLES: Mapping[str, Sequence[str]] = {
    "bidder": ("bidder", "bidders", "name", "company", "bieter", "bieterin", "firma", "unternehmen"),
    "quantity": ("quantity", "units", "weight", "qty", "menge", "einheiten", "anzahl", "stück"),
    "good": ("good", "goods", "product", "gut", "güter", "ware", "produkt"),
    "supply": ("supply", "for sale", "vorrat", "zu verkaufen", "zum verkauf"),
    "reserve": ("reserve", "reserves", "reserve price", "mindestpreis", "mindestpreise"),
    "cap": ("cap", "at most", "obergrenze", "höchstens"),
    "order": ("order", "rank", "rang", "reihenfolge"),
}

BIDS, GOODS, BIDDERS = "bids", "goods", "bidders"


class Columns(NamedTuple):
    """By which titles columns are found: those above, but for those that are named; and which columns are goods."""

    named: Mapping[str, str] = {}
    goods: Optional[Sequence[str]] = None

    def key_of(self, content: Content) -> str:
        """What a title is one for; nothing where it is none of these."""
        title = normal(content)
        for key, titles in TITLES.items():
            if title in ([normal(self.named[key])] if key in self.named else titles):
                return key
        return ""


class Block(NamedTuple):
    """A block: of which kind, in which sheet, its titles, and its rows that aren't blank, with their numbers from 0."""

    kind: str
    sheet: str
    row: int
    titles: List[Content]
    keys: Dict[str, int]
    rows: List[Tuple[int, List[Content]]]

    def at(self, row: int, cells: Sequence[Content], column: int) -> Marked:
        """The cell of a row in a column."""
        content = cells[column] if column < len(cells) else ""
        return Marked(self.place(row, column), content)

    def place(self, row: int, column: int) -> Place:
        title = str(self.titles[column]).strip() if column < len(self.titles) else ""
        return Place(self.sheet, row + 1, column, title)


def normal(content: Content) -> str:
    """A title as it is compared: without case, outer blanks, and what stands in brackets at its end."""
    title = " ".join(str(content).split()).casefold()
    for open_bracket, close in (("(", ")"), ("[", "]")):
        if title.endswith(close) and open_bracket in title[1:]:
            title = title[:title.rindex(open_bracket)].strip()
    return title.rstrip(":")


def blocks_of(sheet: Sheet, columns: Columns) -> Tuple[List[Block], List[int], List[Complaint]]:
    """The blocks of a sheet, the rows before the first one, and what is wrong with titles."""
    blocks: List[Block] = []
    before: List[int] = []
    complaints: List[Complaint] = []
    for number, row in enumerate(sheet.rows):
        kind = _kind_of(row, columns)
        if kind:
            block = Block(kind, sheet.name, number, row, _keys_of(row, columns), [])
            blocks.append(block)
            complaints += _twice(block, columns)
        elif not all(map(is_blank, row)):
            (blocks[-1].rows.append((number, row)) if blocks else before.append(number))
    return blocks, before, complaints


def _kind_of(row: Sequence[Content], columns: Columns) -> str:
    """Of which kind a block is that begins with this row; nothing where it is no row of titles."""
    keys = {columns.key_of(content) for content in row}
    if keys >= {"bidder", "quantity"}:
        return BIDS
    if keys >= {"good", "supply"}:
        return GOODS
    return BIDDERS if "bidder" in keys and keys & {"cap", "order"} else ""


def _keys_of(row: Sequence[Content], columns: Columns) -> Dict[str, int]:
    """In which column what stands; the first where several have such a title."""
    keys: Dict[str, int] = {}
    for column, content in enumerate(row):
        key = columns.key_of(content)
        if key:
            keys.setdefault(key, column)
    return keys


# What is read in a block of each kind.
WANTED = {BIDS: ("bidder", "quantity"), GOODS: ("good", "supply", "reserve"), BIDDERS: ("bidder", "cap", "order")}


def _twice(block: Block, columns: Columns) -> List[Complaint]:
    """A complaint for each column whose title another one has had."""
    seen: Dict[str, int] = {}
    complaints = []
    for column, content in enumerate(block.titles):
        key = columns.key_of(content)
        name = key if key in WANTED[block.kind] else normal(content)
        if name in seen:
            complaints.append(Complaint(block.place(block.row, column), content, "is the title of column %s too, as a %s"
                                        % (block.place(block.row, seen[name]).cell, key or "good")))
        elif name:
            seen[name] = column
    return complaints
