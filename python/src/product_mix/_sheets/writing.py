"""From an auction to a sheet: a table of goods, one of caps and the tie order where there are any, and one of bids."""

import csv
import io
import re
from typing import Any, List, Sequence

from .._auction import Auction
from .._errors import FormError
from .._shown import Shown
from .blocks import Columns

Rows = List[List[str]]


def sheet_rows(auction: Auction, shown: Shown, decimal: str = ".") -> Rows:
    """The rows of the sheet, with blank ones between the tables."""
    goods = [shown.good(good) for good in auction.goods]
    for good in goods:
        if Columns().key_of(good) in ("bidder", "quantity"):
            raise FormError("a good that is called %s would be taken for a title" % good)

    def amount(units: int) -> str:
        return shown.amount(units).replace(".", decimal)

    rows = [["good", "supply", "reserve"]]
    rows += [[good, str(supply), amount(reserve)] for good, supply, reserve in zip(goods, auction.supply, auction.reserve)]
    rows += [[], *_bidder_rows(auction, shown)] if auction.caps or auction.order is not None else []
    rows += [[], ["bidder", "quantity", *goods]]
    rows += [[shown.bidder(bid.bidder), str(bid.weight), *["" if value is None else amount(value) for value in bid.values]]
             for bid in auction.bids]
    return rows


def _bidder_rows(auction: Auction, shown: Shown) -> Rows:
    ranks = {} if auction.order is None else {name: str(rank) for rank, name in enumerate(auction.order, 1)}
    rows = [["bidder", "cap", "order"]]
    return rows + [[shown.bidder(name), str(auction.caps.get(name, "")), ranks.get(name, "")] for name in auction.bidders]


def csv_text(rows: Rows, separator: str) -> str:
    file = io.StringIO()
    csv.writer(file, delimiter=separator, lineterminator="\n").writerows(rows)
    return file.getvalue()


def write_workbook(rows: Sequence[Sequence[str]], path: str) -> None:
    """Writes a workbook, with numbers as numbers."""
    try:
        import openpyxl
    except ImportError:
        raise FormError("openpyxl isn't there to write a workbook: install it, or write CSV") from None
    book: Any = openpyxl.Workbook()
    for row in rows:
        book.active.append([_cell(content, at, row) for at, content in enumerate(row)])
    book.save(path)


def _cell(content: str, at: int, row: Sequence[str]) -> Any:
    """What stands in a cell: a number where it is one, and no name or title."""
    if at == 0 or row[0] in ("good", "bidder") or not re.fullmatch(r"-?[0-9]+(\.[0-9]+)?", content):
        return content or None
    return float(content) if "." in content else int(content)
