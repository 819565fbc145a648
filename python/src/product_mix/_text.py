"""Texts as rows, and how names and numbers are spelled.

Rows are told as the program tells them: records of CSV without the empty fields at their ends, blank ones left out.
"""

import os
import re
from typing import Iterator, List, NamedTuple, Optional, Tuple, Union

from ._errors import FormError, counted, shortened

#: A text, or the file that it stands in: a str with a line break in it, or without a character, is a text, any other
#: str and every path the name of a file; bytes are a text.
TextOrPath = Union[str, bytes, "os.PathLike[str]"]

MARK = b"\xef\xbb\xbf"

NAME = re.compile(r"[A-Za-z][A-Za-z0-9_.-]{0,31}")
NUMBER = re.compile(r"0|-?[1-9][0-9]*")
NOTHING = "-"

# A record of CSV: the line that it begins in, its text as it stands, and its fields.
Record = Tuple[int, str, List[str]]

_FIELD_END = re.compile(rb"[,\r\n]|\Z")


class Row(NamedTuple):
    """A row: its number, the line that it begins in, its text as it stands, its fields without the empty last ones."""

    number: int
    line: int
    text: str
    fields: List[str]


def contents(text: TextOrPath) -> Tuple[bytes, Optional[str]]:
    """The bytes of a text, and the name of its file if it stands in one."""
    if isinstance(text, bytes):
        return text, None
    if isinstance(text, str) and (not text or "\n" in text or "\r" in text):
        # Whatever characters there are: the program says what is wrong with them.
        return text.encode("utf-8", "surrogatepass"), None
    path = os.fspath(text)
    with open(path, "rb") as file:
        return file.read(), path


def without_marks(data: bytes) -> bytes:
    """The text without the byte order marks at its head."""
    start = 0
    while data.startswith(MARK, start):
        start += len(MARK)
    return data[start:]


def count_lines(data: bytes) -> int:
    """How many lines end in the text."""
    return data.count(b"\n") + data.count(b"\r") - data.count(b"\r\n")


def shown(data: bytes) -> str:
    """The bytes as characters, whatever they are."""
    return data.decode("utf-8", "backslashreplace")


def rows_of(data: bytes) -> Iterator[Row]:
    """The rows of a text."""
    data = without_marks(data)
    number = 0
    for line, text, fields in _quoted_records(data) if b'"' in data else _plain_records(data):
        while fields and not fields[-1]:
            fields.pop()
        if fields:
            number += 1
            yield Row(number, line, text, fields)


def _plain_records(data: bytes) -> Iterator[Record]:
    lines = shown(data.replace(b"\r\n", b"\n").replace(b"\r", b"\n")).split("\n")
    for line, text in enumerate(lines, 1):
        yield line, text, text.split(",")


def _quoted_records(data: bytes) -> Iterator[Record]:
    at, line = 0, 1
    while at < len(data):
        start = at
        field, at = _field_from(data, at)
        fields = [shown(field)]
        while data[at:at + 1] == b",":
            field, at = _field_from(data, at + 1)
            fields.append(shown(field))
        yield line, shown(data[start:at]), fields
        line += count_lines(data[start:at]) + 1
        at += 2 if data[at:at + 2] == b"\r\n" else 1


def _field_from(data: bytes, start: int) -> Tuple[bytes, int]:
    """The field that begins here, and where it ends."""
    inside, at = b"", start
    if data[start:start + 1] == b'"':
        inside, at = _quoted_part_from(data, start + 1)
    found = _FIELD_END.search(data, at)
    end = found.start() if found else len(data)
    return inside + data[at:end], end


def _quoted_part_from(data: bytes, start: int) -> Tuple[bytes, int]:
    """What stands in quotes from here, and where the text goes on after them."""
    at = data.find(b'"', start)
    while at >= 0 and data[at + 1:at + 2] == b'"':
        at = data.find(b'"', at + 2)
    end = len(data) if at < 0 else at
    return data[start:end].replace(b'""', b'"'), min(end + 1, len(data))


def read_number(content: str, row: Row) -> int:
    """The number that a field says."""
    if not NUMBER.fullmatch(content):
        raise form_error(row, "%r is no number" % shortened(content))
    try:
        return int(content)
    except ValueError:
        raise form_error(row, "a number of %d digits is too long" % len(content)) from None


def read_name(content: str, row: Row) -> str:
    """The name that a field says."""
    if not NAME.fullmatch(content):
        raise form_error(row, "%r is no name" % shortened(content))
    return content


def form_error(row: Row, why: str) -> FormError:
    return FormError("line %d, %r: %s" % (row.line, shortened(row.text), why), line=row.line)


class Rows:
    """The rows of a text, taken one after the other."""

    def __init__(self, data: bytes) -> None:
        self._rows = rows_of(data)
        self._next = next(self._rows, None)

    def word(self) -> str:
        """The word that the next row begins with; none where there is no row."""
        return "" if self._next is None else self._next.fields[0]

    def take(self, word: str, count: Optional[int] = None) -> Row:
        """The next row, which has to begin with the word and to have so many fields after it."""
        row = self._next
        if row is None:
            raise FormError("the text ends where a row %r should stand" % word)
        if row.fields[0] != word:
            raise form_error(row, "a row %r should stand here" % word)
        if count is not None and len(row.fields) != count + 1:
            raise form_error(row, "there should be %s after the word" % counted(count, "field"))
        self._next = next(self._rows, None)
        return row

    def take_all(self, word: str, count: Optional[int] = None) -> Iterator[Row]:
        """The next rows, as long as they begin with the word."""
        while self._next is not None and self._next.fields[0] == word:
            yield self.take(word, count)

    def finish(self) -> None:
        """No row may be left."""
        if self._next is not None:
            raise form_error(self._next, "no row should stand here")
