"""Where something stands in a sheet, and what is wrong there."""

from typing import List, NamedTuple, Optional, Sequence

from .._errors import FormError, shortened
from .cells import Content


class Place(NamedTuple):
    """A cell, with the title of its column where it has one; or a whole row, where no column is named."""

    sheet: str
    row: int
    column: Optional[int] = None
    title: str = ""

    def __str__(self) -> str:
        if self.column is None:
            return "%s, row %d" % (self.sheet, self.row)
        title = " (%s)" % self.title if self.title else ""
        return "%s, row %d, column %s%s" % (self.sheet, self.row, letters(self.column), title)

    @property
    def cell(self) -> str:
        """The cell as spreadsheets name it."""
        return "%s%d" % (letters(self.column or 0), self.row)


def letters(column: int) -> str:
    """How spreadsheets name a column, the first of which is 0 here.

    >>> [letters(column) for column in (0, 25, 26, 701, 702)]
    ['A', 'Z', 'AA', 'ZZ', 'AAA']
    """
    name = ""
    column += 1
    while column:
        column, letter = divmod(column - 1, 26)
        name = chr(ord("A") + letter) + name
    return name


class Marked(NamedTuple):
    """What stands in a cell, and where that is."""

    place: Place
    content: Content


class Complaint(NamedTuple):
    """What is wrong with a cell."""

    place: Place
    content: Content
    message: str

    def __str__(self) -> str:
        content = str(self.content).strip()
        return "%s: %s %s" % (self.place, repr(shortened(str(self.content))) if content else "is empty, and", self.message)


class SheetError(FormError):
    """A sheet that says no auction: all complaints, in order, and then what may help."""

    def __init__(self, complaints: List[Complaint], advice: Sequence[str] = ()) -> None:
        ordered = sorted(complaints, key=lambda it: (it.place.sheet, it.place.row, it.place.column or 0))
        super().__init__("\n".join([*map(str, ordered), *advice]))
        self.complaints = ordered
