"""Files of tables as cells: CSV of several kinds, and workbooks where openpyxl is there."""

import csv
import io
import os
from decimal import Decimal
from typing import Any, Iterator, List, NamedTuple, Optional, Tuple, Union

from .._errors import FormError

#: What stands in a cell: its characters, or the number that a workbook has there.
Content = Union[str, Decimal]

SEPARATORS = {";": "semicolons", ",": "commas", "\t": "tabs"}

# A workbook of today is a ZIP file; one of yesterday begins otherwise.
WORKBOOK, OLD_WORKBOOK = b"PK\x03\x04", b"\xd0\xcf\x11\xe0"

# A number in a workbook has so many digits; the next ones are noise.
DIGITS = 15


class Sheet(NamedTuple):
    """A sheet: its name, how it was read, its rows, and its cells whose formula has no value."""

    name: str
    how: str
    rows: List[List[Content]]
    unknown: List[Tuple[int, int, str]] = []


def read_sheets(path: str, data: bytes, separator: Optional[str] = None) -> List[Sheet]:
    """The sheets of a file with these bytes: the one of a CSV file, or all that are shown of a workbook."""
    if data.startswith(OLD_WORKBOOK):
        raise FormError("%s is a workbook of an old kind: save it as .xlsx or as CSV" % path)
    if data.startswith(WORKBOOK):
        return list(_workbook_sheets(path, data))
    return [_csv_sheet(path, data, separator)]


# ---------------------------------------------------------------------------------------------------------------- CSV

def _csv_sheet(path: str, data: bytes, separator: Optional[str]) -> Sheet:
    text, coding = _decoded(path, data)
    first, _, rest = text.partition("\n")
    if first.rstrip("\r")[:4].lower() == "sep=" and first.rstrip("\r")[4:] in SEPARATORS:
        # A line that some spreadsheets write for one another. It is a row for them, and stays one here.
        separator, text = separator or first[4], "\n" + rest
    separator = separator or _separator_of(text)
    try:
        rows: List[List[Content]] = [[*row] for row in csv.reader(io.StringIO(text, newline=""), delimiter=separator, strict=True)]
    except csv.Error as error:
        raise FormError("%s: %s; a quote that is opened has to be closed" % (path, error)) from None
    return Sheet(os.path.basename(path), "%s, %s" % (coding, SEPARATORS.get(separator, repr(separator))), rows)


def _decoded(path: str, data: bytes) -> Tuple[str, str]:
    """The characters of a file, and how they were coded."""
    for mark, coding, name in ((b"\xef\xbb\xbf", "utf-8", "UTF-8 with a mark"), (b"\xff\xfe", "utf-16-le", "UTF-16"),
                               (b"\xfe\xff", "utf-16-be", "UTF-16")):
        if data.startswith(mark):
            return _as(path, data[len(mark):], coding), name
    if b"\0" in data:
        # Plain letters have a byte of zeros beside them, before or after.
        return _as(path, data, "utf-16-be" if data[:1] == b"\0" else "utf-16-le"), "UTF-16 without a mark"
    try:
        return data.decode("utf-8"), "UTF-8"
    except UnicodeDecodeError:
        pass
    try:
        return data.decode("cp1252"), "Latin-1"
    except UnicodeDecodeError:
        return data.decode("latin-1"), "Latin-1"


def _as(path: str, data: bytes, coding: str) -> str:
    try:
        return data.decode(coding)
    except UnicodeDecodeError:
        raise FormError("%s begins as %s does, and isn't: save it as UTF-8" % (path, coding.upper())) from None


def _separator_of(text: str) -> str:
    """What parts the most lines into fields; of two that part as many the one that stands first in the table above."""

    def lines_with(separator: str) -> int:
        return sum(separator in line for line in text.splitlines())

    return max(SEPARATORS, key=lines_with)


# ---------------------------------------------------------------------------------------------------------- workbooks

def _workbook_sheets(path: str, data: bytes) -> Iterator[Sheet]:
    try:
        import openpyxl
    except ImportError:
        raise FormError("%s is a workbook, and openpyxl isn't there to read it: install it, or save the table as CSV"
                        % path) from None
    try:
        values = openpyxl.load_workbook(io.BytesIO(data), data_only=True)
        formulas = openpyxl.load_workbook(io.BytesIO(data))
    except Exception as error:  # Whatever it makes of a broken file.
        raise FormError("%s can't be read as a workbook: %s" % (path, error)) from None
    for sheet in values.worksheets:
        if sheet.sheet_state == "visible":
            rows = [[_content(cell) for cell in row] for row in sheet.iter_rows(values_only=True)]
            name = "%s, sheet %s" % (os.path.basename(path), sheet.title)
            yield Sheet(name, "a workbook", rows, list(_unknown(rows, formulas[sheet.title])))


def _content(value: Any) -> Content:
    if value is None:
        return ""
    if isinstance(value, (int, float)) and not isinstance(value, bool):
        return Decimal("%.*g" % (DIGITS, value)) if isinstance(value, float) else Decimal(value)
    return str(value)


def _unknown(rows: List[List[Content]], formulas: Any) -> Iterator[Tuple[int, int, str]]:
    """The cells with a formula that nobody has worked out."""
    for at, row in enumerate(formulas.iter_rows(values_only=True)):
        for column, formula in enumerate(row):
            if isinstance(formula, str) and formula.startswith("=") and rows[at][column] == "":
                yield at, column, formula
