"""The forms of an answer: a table for people, the program's own text, CSV, and JSON."""

import argparse
import csv
import json
import sys
import unicodedata
from typing import Any, List, NamedTuple, Optional, Sequence, Union

from .._sheets.cells import SEPARATORS

#: What stands in a cell of a table: a text, a number, or nothing.
Cell = Union[str, int, None]

TEXT, CSV, JSON, PEOPLE = "text", "csv", "json", "people"

# What a cell without anything in it shows to people.
NONE = "-"


class Table(NamedTuple):
    """A table: its title, its columns, its rows, and a last row of totals if it has one."""

    title: str
    columns: Sequence[str]
    rows: Sequence[Sequence[Cell]]
    total: Optional[Sequence[Cell]] = None


class Told(NamedTuple):
    """An answer in all forms but the program's text, and the status."""

    tables: Sequence[Table]
    notes: Sequence[str]
    csv: Table
    json: Any
    status: int = 0


def add_forms(parser: argparse.ArgumentParser) -> None:
    """The options that choose a form."""
    forms = parser.add_mutually_exclusive_group()
    forms.add_argument("--text", dest="form", action="store_const", const=TEXT, help="what the program prints, as it stands")
    forms.add_argument("--csv", dest="form", action="store_const", const=CSV, help="one table, as CSV with a row of titles")
    forms.add_argument("--json", dest="form", action="store_const", const=JSON,
                       help="JSON, with the names and whole amounts of the text")
    parser.set_defaults(form=PEOPLE)


def add_marks(parser: argparse.ArgumentParser, decimal: str, separator: str) -> None:
    """The options for the marks of a table as CSV, with what is told of each."""
    parser.add_argument("--decimal", metavar="MARK", choices=[".", ","], help="%s: . or ," % decimal)
    parser.add_argument("--separator", metavar="SIGN", choices=[*SEPARATORS, "tab"], help="%s: , or ';' or tab" % separator)


def separator_of(arguments: argparse.Namespace) -> Optional[str]:
    """The separator that is named, if one is."""
    return "\t" if arguments.separator == "tab" else arguments.separator


def tell(told: Told, form: str, separator: Optional[str] = None) -> int:
    """Prints an answer in a form, and gives its status."""
    if form == CSV:
        writer = csv.writer(sys.stdout, delimiter=separator or ",", lineterminator="\n")
        writer.writerow(told.csv.columns)
        writer.writerows(told.csv.rows)
    elif form == JSON:
        print(json.dumps(told.json, ensure_ascii=False, indent=2))
    else:
        print("\n\n".join([*map(drawn, told.tables), *(["\n".join(told.notes)] if told.notes else [])]))
    return told.status


def drawn(table: Table) -> str:
    """The table as people read it: columns of one width, numbers to the right."""
    rows = [[_shown(cell) for cell in row] for row in [*table.rows, *([table.total] if table.total else [])]]
    columns = [[title, *[row[at] for row in rows]] for at, title in enumerate(table.columns)]
    widths = [max(map(width_of, column)) for column in columns]
    rights = [all(is_amount(cell) for cell in column[1:]) for column in columns]
    lines = [_line(row, widths, rights) for row in [table.columns, *rows]]
    rule = "-" * max(map(width_of, lines))
    lines.insert(1, rule)
    if table.total:
        lines.insert(len(lines) - 1, rule)
    return "\n".join([*([table.title] if table.title else []), *lines])


def _shown(cell: Cell) -> str:
    return NONE if cell is None else str(cell)


def is_amount(cell: str) -> bool:
    """Whether a column that has this cell may stand to the right."""
    return cell in ("", NONE) or cell.lstrip("-").replace(".", "", 1).isdigit()


def _line(row: Sequence[str], widths: Sequence[int], rights: Sequence[bool]) -> str:
    cells: List[str] = []
    for cell, width, is_right in zip(row, widths, rights):
        room = " " * (width - width_of(cell))
        cells.append(room + cell if is_right else cell + room)
    return "  ".join(cells).rstrip()


def width_of(text: str) -> int:
    """How many columns of a terminal a text takes: marks over letters take none, wide letters two."""
    widths = [0 if unicodedata.combining(letter) else 1 + (unicodedata.east_asian_width(letter) in "WF") for letter in text]
    return sum(widths)
