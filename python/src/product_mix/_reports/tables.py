"""Tables of the page: each with a caption and heads, in a box of its own in which a wide one is moved."""

from typing import List, Optional, Sequence

from ..words._forms import NONE, Cell, Table, is_amount
from .html import Html, element, joined

# What a cell without anything in it shows.
DASH = "–"
# What is longer is a sentence, which wants some width.
LONGEST_NAME = 36


def table_of(identity: str, table: Table, marked: Sequence[int] = ()) -> Html:
    """The table, with its title as the caption: the first column has the heads of the rows, numbers stand to the right.

    A cell may be HTML. Rows whose numbers are marked, counted from 0, are shaded.
    """
    rows = [*table.rows, *([table.total] if table.total else [])]
    classes = [_class_of([row[at] for row in rows]) for at in range(len(table.columns))]
    head = element("tr", *[element("th", title, scope="col", class_=kind) for title, kind in zip(table.columns, classes)])
    body = [_row(row, classes, "met" if number in marked else None) for number, row in enumerate(table.rows)]
    foot = [element("tfoot", _row(table.total, classes))] if table.total else []
    caption = element("caption", table.title, id=identity)
    drawn = element("table", joined([caption, element("thead", head), element("tbody", joined(body)), *foot]))
    # A box that can be moved has to be reached by the keyboard, and so wants a name.
    return element("div", drawn, class_="wide", role="region", aria_labelledby=identity, tabindex=0)


def _class_of(cells: Sequence[Cell]) -> Optional[str]:
    """What kind of cells a column has: numbers, sentences, or words."""
    shown = [NONE if cell is None else str(cell) for cell in cells]
    if cells and all(map(is_amount, shown)):
        return "number"
    return "words" if any(len(cell) > LONGEST_NAME and not isinstance(cell, Html) for cell in shown) else None


def _row(cells: Sequence[Cell], classes: Sequence[Optional[str]], mark: Optional[str] = None) -> Html:
    drawn: List[Html] = []
    for at, (cell, kind) in enumerate(zip(cells, classes)):
        content = DASH if cell is None else cell if isinstance(cell, str) else str(cell)
        drawn.append(element("th", content, scope="row", class_=kind) if at == 0 else element("td", content, class_=kind))
    return element("tr", *drawn, class_=mark)
