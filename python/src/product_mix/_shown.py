"""How the names and amounts of an auction are shown to people.

The text of an auction has names of plain letters and whole amounts. What people see may have names of any letters, and
amounts that are multiples of a step, as 0.01: both stand in a file of names beside the text, which is a table of its own.
"""

import csv
import io
import os
import re
from dataclasses import dataclass, field
from decimal import Decimal, InvalidOperation
from pathlib import Path
from typing import Dict, Iterable, List, Mapping, Tuple

from ._errors import FormError

TITLES = ["what", "name", "shown"]


@dataclass(frozen=True)
class Shown:
    """The shown names by the names of the text, where they differ; the step of all values and prices, and the currency."""

    goods: Mapping[str, str] = field(default_factory=dict)
    bidders: Mapping[str, str] = field(default_factory=dict)
    step: Decimal = Decimal(1)
    currency: str = ""

    def good(self, name: str) -> str:
        return self.goods.get(name, name)

    def bidder(self, name: str) -> str:
        return self.bidders.get(name, name)

    def amount(self, units: int) -> str:
        """An amount of money, in steps in the text.

        >>> Shown(step=Decimal("0.01")).amount(1650)
        '16.50'
        """
        return format(units * self.step, "f")

    def money(self, units: int) -> str:
        """An amount with its currency."""
        return ("%s %s" % (self.amount(units), self.currency)).rstrip()

    def steps(self, content: str) -> int:
        """The amount in steps that somebody wrote as it is shown."""
        try:
            steps = Decimal(content) / self.step
        except InvalidOperation:
            raise FormError("%r is no amount" % content) from None
        if not steps.is_finite() or steps != int(steps):
            raise FormError("%s is no multiple of the step %s" % (content, self.step))
        return int(steps)

    def text(self) -> str:
        """The file of names."""
        rows = [["step", "", str(self.step)], ["currency", "", self.currency]]
        rows += _name_rows("good", self.goods) + _name_rows("bidder", self.bidders)
        file = io.StringIO()
        csv.writer(file, lineterminator="\n").writerows([TITLES, *rows])
        return file.getvalue()


def _name_rows(what: str, names: Mapping[str, str]) -> List[List[str]]:
    return [[what, name, shown] for name, shown in names.items()]


def path_beside(path: str) -> Path:
    """Where the file of names of a text stands."""
    return Path(os.path.splitext(path)[0] + ".names.csv")


def shown_beside(path: str) -> Shown:
    """What the file of names beside a text says; names and amounts as they stand where there is no such file."""
    beside = path_beside(path)
    if not beside.is_file():
        return Shown()
    try:
        return read_shown(csv.reader(io.StringIO(beside.read_text(encoding="utf-8-sig"), newline=""), strict=True))
    except (FormError, ValueError, csv.Error) as error:
        raise FormError("%s is no file of names: %s" % (beside, error)) from None


def read_shown(rows: Iterable[List[str]]) -> Shown:
    """What the rows of a file of names say."""
    names: Dict[str, Dict[str, str]] = {"good": {}, "bidder": {}, "step": {}, "currency": {}}
    for number, row in enumerate(rows, 1):
        if number > 1 and row:
            what, name, shown = _fields(number, row)
            if what not in names:
                raise FormError("row %d begins with %r" % (number, what))
            names[what][name] = shown
    return Shown(names["good"], names["bidder"], step_of(names["step"].get("", "1")), names["currency"].get("", ""))


def _fields(number: int, row: List[str]) -> Tuple[str, str, str]:
    if len(row) != len(TITLES):
        raise FormError("row %d has %d fields" % (number, len(row)))
    return row[0], row[1], row[2]


def step_of(content: str) -> Decimal:
    """The step that is written so: a decimal number above 0."""
    try:
        step = Decimal(content)
    except InvalidOperation:
        point = content.replace(",", ".")
        advice = ": it is written with a point, as %s" % point if re.fullmatch(r"[0-9]+\.[0-9]+", point) else ""
        raise FormError("%r is no step%s" % (content, advice)) from None
    if not step.is_finite() or step <= 0:
        raise FormError("the step is %s, and has to be above 0" % content)
    return step
