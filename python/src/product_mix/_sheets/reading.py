"""From sheets to an auction: all complaints at once, and what was understood in five lines."""

from dataclasses import dataclass, field
from decimal import Decimal
from typing import Callable, Dict, List, Mapping, NamedTuple, Optional, Sequence, Tuple

from .._auction import Auction, Bid
from .._errors import Fault, FormError, TextError
from .._faults import faults
from .._shown import Shown
from .._solver import Solver
from .blocks import BIDDERS, BIDS, GOODS, TITLES, WANTED, Block, Columns, blocks_of, normal
from .cells import Content, Sheet
from .names import plain_names
from .numbers import NAMES, Marks, is_blank, is_empty, is_number, marks_of, number_of, steps_of, units_of
from .places import Complaint, Marked, Place, SheetError, letters

# How many names or bids a line of what was understood shows.
MOST_SHOWN = 6

# Who stands in the place of a bidder without a name until all is looked at.
NOBODY = "nobody"


class Manner(NamedTuple):
    """How a sheet is to be read, as far as it doesn't tell itself."""

    step: Decimal = Decimal(1)
    decimal: Optional[str] = None
    columns: Columns = Columns()


class BidRow(NamedTuple):
    """A row of a bid: its bidder, its quantity, and the value of each good, by the good's name."""

    bidder: Marked
    quantity: Marked
    values: Dict[str, Marked]


@dataclass
class Found:
    """The cells that say an auction, before any number is read."""

    goods: Dict[str, Marked] = field(default_factory=dict)
    supply: Dict[str, Marked] = field(default_factory=dict)
    reserve: Dict[str, Marked] = field(default_factory=dict)
    bids: List[BidRow] = field(default_factory=list)
    caps: List[Tuple[Marked, Marked]] = field(default_factory=list)
    order: List[Tuple[Marked, Marked]] = field(default_factory=list)
    unread: List[str] = field(default_factory=list)
    doubts: List[str] = field(default_factory=list)
    complaints: List[Complaint] = field(default_factory=list)

    def complain(self, cell: Marked, message: str) -> None:
        """Takes note of what is wrong with a cell, once for each."""
        if all(complaint.place != cell.place or complaint.content != cell.content for complaint in self.complaints):
            self.complaints.append(Complaint(cell.place, cell.content, message))


class Understood(NamedTuple):
    """An auction that sheets say, how it is shown, what was understood, and what is hardly meant to be passed over."""

    auction: Auction
    shown: Shown
    lines: List[str]
    doubts: List[str]


def read_auction(sheets: Sequence[Sheet], manner: Manner, solver: Solver) -> Understood:
    """The auction that the sheets say; a ``SheetError`` has all complaints."""
    found = _find(sheets, manner)
    amounts = [*found.supply.values(), *found.reserve.values(), *[cell for bid in found.bids for cell in _number_cells(bid)],
               *[cell for _, cell in [*found.caps, *found.order]]]
    marks, complaints = marks_of([cell for cell in amounts if not is_empty(cell.content)], manner.decimal)
    found.complaints += complaints
    reading = _Reading(found, marks, manner)
    auction, shown = reading.auction(), reading.shown()
    advice = reading.advice()
    if found.goods:
        _ask(found, auction, solver)
    if found.complaints:
        raise SheetError(found.complaints, [*advice, *_over(found)])
    return Understood(auction, shown, _lines(sheets, found, marks, manner, auction, shown), found.doubts)


def _over(found: Found) -> List[str]:
    """What is told of cells that were passed over where the sheet is refused."""
    over = ["Passed over: %s." % _some(found.unread)] if found.unread else []
    return over + ["warning: " + doubt for doubt in found.doubts]


def _number_cells(bid: BidRow) -> List[Marked]:
    return [bid.quantity, *bid.values.values()]


# ------------------------------------------------------------------------------------------------ which cells say what

def _find(sheets: Sequence[Sheet], manner: Manner) -> Found:
    found = Found()
    blocks: List[Block] = []
    for sheet in sheets:
        of_sheet, before, complaints = blocks_of(sheet, manner.columns)
        blocks += of_sheet
        found.complaints += complaints
        found.unread += ["row %d of %s" % (row + 1, sheet.name) for row in before]
        for row, column, formula in sheet.unknown:
            found.complain(Marked(Place(sheet.name, row + 1, column), formula), "is a formula without a value: open the "
                           "workbook in a spreadsheet, and save it")
    for block in blocks:
        _READERS[block.kind](found, block)
    bids = [block for block in blocks if block.kind == BIDS]
    if not bids:
        raise FormError(_no_bids(sheets, manner.columns))
    _leave_out(found, manner.columns)
    has_goods = bool(found.goods) or manner.columns.goods is not None
    goods_of = [_find_bids(found, block, manner.columns, has_goods) for block in bids]
    for block, goods in zip(bids, goods_of):
        _look_at_columns(found, block, goods, manner.columns)
    _look_at_goods(found)
    return found


def _no_bids(sheets: Sequence[Sheet], columns: Columns) -> str:
    titles = ["%s (%s)" % (key, columns.named.get(key) or " or ".join(TITLES[key])) for key in ("bidder", "quantity")]
    return ("%s: no row has the titles of a table of bids: %s. Other titles are named: --column bidder=Customer --column "
            "quantity=Boxes, and so for good, supply and reserve" % (", ".join(sheet.name for sheet in sheets), " and ".join(titles)))


def _leave_out(found: Found, columns: Columns) -> None:
    """Leaves out the goods of a table that --goods doesn't name."""
    if columns.goods is None:
        return
    named = set(map(normal, columns.goods))
    for name in [good for good in found.goods if normal(good) not in named]:
        place = found.goods[name].place
        found.unread.append("the good %s in row %d of %s" % (name, place.row, place.sheet))
        for cells in (found.goods, found.supply, found.reserve):
            cells.pop(name, None)


def _look_over(found: Found, block: Block) -> None:
    """Takes note of the columns of a table of goods or of bidders that aren't read."""
    read = [block.keys.get(key) for key in WANTED[block.kind]]
    for column, title in enumerate(block.titles):
        if column in read or is_blank(title):
            continue
        over = "column %s (%s) of the table of %s" % (letters(column), _name(title), block.kind)
        found.unread.append(over)
        if block.kind == GOODS and "reserve" not in block.keys and _has_amounts(block, column):
            found.doubts.append("%s has amounts and is passed over: --column 'reserve=%s' reads it, if they are reserves"
                                % (over, _name(title)))
    for row, cells in block.rows:
        _look_beside(found, block, row, cells)


def _has_amounts(block: Block, column: int) -> bool:
    """Whether a number stands in some row of a column."""
    return any(is_number(block.at(row, cells, column).content) for row, cells in block.rows)


def _find_goods(found: Found, block: Block) -> None:
    """The rows of a table of goods."""
    for row, cells in block.rows:
        good = block.at(row, cells, block.keys["good"])
        name = _name(good.content)
        if not name:
            found.complain(good, "should be the name of a good")
        elif name in found.goods:
            found.complain(good, "is a good already, in %s" % found.goods[name].place.cell)
        else:
            found.goods[name] = good
            found.supply[name] = block.at(row, cells, block.keys["supply"])
            if "reserve" in block.keys:
                found.reserve[name] = block.at(row, cells, block.keys["reserve"])
    _look_over(found, block)


def _find_bidders(found: Found, block: Block) -> None:
    """The rows of a table of caps and of the tie order."""
    for row, cells in block.rows:
        bidder = block.at(row, cells, block.keys["bidder"])
        for key, list_of in (("cap", found.caps), ("order", found.order)):
            amount = block.at(row, cells, block.keys[key]) if key in block.keys else None
            if amount is not None and not is_empty(amount.content):
                list_of.append((bidder, amount))
    _look_over(found, block)


_READERS: Dict[str, Callable[[Found, Block], None]] = {
    GOODS: _find_goods, BIDDERS: _find_bidders, BIDS: lambda found, block: None}


def _find_bids(found: Found, block: Block, columns: Columns, has_goods: bool) -> Dict[str, int]:
    """The rows of a table of bids, and among them those of supplies and reserves; in which columns its goods are."""
    goods = _goods_columns(found, block, columns, has_goods)
    for row, cells in block.rows:
        bidder, quantity = block.at(row, cells, block.keys["bidder"]), block.at(row, cells, block.keys["quantity"])
        values = {good: block.at(row, cells, column) for good, column in goods.items()}
        key = columns.key_of(bidder.content)
        if key in ("supply", "reserve") and is_empty(quantity.content):
            (found.supply if key == "supply" else found.reserve).update(values)
        else:
            found.bids.append(BidRow(bidder, quantity, values))
        _look_beside(found, block, row, cells)
    return goods


def _goods_columns(found: Found, block: Block, columns: Columns, has_goods: bool) -> Dict[str, int]:
    """The columns of goods by their names: those that are named, or else those that the table of goods has, or all."""
    wanted = {normal(good): good for good in [*(columns.goods or []), *found.goods]}
    chosen: Dict[str, int] = {}
    for column, title in enumerate(block.titles):
        key, name = columns.key_of(title), _name(title)
        if not name or column in (block.keys["bidder"], block.keys["quantity"]):
            continue
        if has_goods and normal(title) in wanted:
            chosen[wanted[normal(title)]] = column
        elif key in ("cap", "order"):
            found.complain(Marked(block.place(block.row, column), title), "should stand in a table of its own, with the titles "
                           "bidder and %s" % key)
        elif has_goods:
            _pass_over(found, block, column, columns)
        else:
            chosen[name] = column
    for name, column in chosen.items():
        found.goods.setdefault(name, Marked(block.place(block.row, column), name))
    return chosen


def _pass_over(found: Found, block: Block, column: int, columns: Columns) -> None:
    """Takes note of a column of the bids that is no good. Where --goods names the goods it is meant to be none."""
    over = "column %s (%s)" % (letters(column), _name(block.titles[column]))
    found.unread.append(over)
    if columns.goods is None and _has_amounts(block, column):
        found.doubts.append("%s has amounts and is no good: the table of goods has no row for it" % over)


def _look_at_columns(found: Found, block: Block, goods: Mapping[str, int], columns: Columns) -> None:
    """Complains of goods that have no column in a table of bids, and of a table that has none at all."""
    titles = Place(block.sheet, block.row + 1)
    for name in [name for name in found.goods if name not in goods]:
        found.complain(found.goods[name], "is a good, and no title of the bids, in row %d of %s, is spelled so"
                       % (titles.row, titles.sheet))
    known = set(map(normal, found.goods))
    for name in [name for name in columns.goods or [] if normal(name) not in known]:
        found.complain(Marked(titles, name), "is a good by --goods, and no title of this row is spelled so")
    if not found.goods and not columns.goods:
        last = block.place(block.row, block.keys["quantity"])
        found.complain(Marked(last, last.title), "stands in a row of titles that has no good: each good is the title of a column")


def _look_beside(found: Found, block: Block, row: int, cells: Sequence[Content]) -> None:
    """Complains of cells that stand under no title."""
    for column, content in enumerate(cells):
        has_title = column < len(block.titles) and not is_blank(block.titles[column])
        if not has_title and not is_empty(content):
            found.complain(block.at(row, cells, column), "stands in a column without a title")


def _look_at_goods(found: Found) -> None:
    """Complains of goods without a supply, and of reserves for some goods alone."""
    for good, cell in found.goods.items():
        if good not in found.supply:
            found.complain(cell, "has no supply. It stands in a table with the titles good and supply, or with others that "
                           "--column names, or in a row of the bids that begins with supply; a column that is no good is left "
                           "out by --goods, which names the goods")
        elif found.reserve and good not in found.reserve:
            found.complain(cell, "has no reserve, and other goods have one")


def _name(content: Content) -> str:
    """A name as it is shown: without blanks at its ends, and single ones inside."""
    return " ".join(str(content).split())


# -------------------------------------------------------------------------------------------------- what the cells say

class _Reading:
    """The cells as numbers and names. What can't be read is complained of, and stands for something that can be."""

    def __init__(self, found: Found, marks: Marks, manner: Manner) -> None:
        self.found, self.marks, self.manner = found, marks, manner
        self.goods = plain_names(found.goods, "good")
        self.bidders = plain_names([name for name in [_name(bid.bidder.content) for bid in found.bids] if name], "bidder")
        self._bids = [self._bid(bid) for bid in found.bids]

    def auction(self) -> Auction:
        found = self.found
        supply = [self._units(found.supply[good]) if good in found.supply else 0 for good in found.goods]
        reserve = [self._steps(found.reserve[good]) if good in found.reserve else 0 for good in found.goods]
        return Auction(list(self.goods.values()), supply, reserve, self._bids, self._caps(), self._order())

    def shown(self) -> Shown:
        return Shown({plain: name for name, plain in self.goods.items() if plain != name},
                     {plain: name for name, plain in self.bidders.items() if plain != name},
                     self.manner.step, self.marks.currency)

    def advice(self) -> List[str]:
        """Which step would do for all amounts, where the one that is stated doesn't."""
        if not any("no multiple of the step" in complaint.message for complaint in self.found.complaints):
            return []
        amounts = [*self.found.reserve.values(), *[cell for bid in self.found.bids for cell in bid.values.values()]]
        numbers = [_number(cell.content, self.marks.decimal) for cell in amounts if not is_empty(cell.content)]
        places = max([_places_of(number) for number in numbers if number is not None])
        step, read = Decimal(1).scaleb(-places), " that can be read" if None in numbers else ""
        return ["With --step %s all amounts%s would be multiples of the step." % (format(step, "f"), read)]

    def _bid(self, row: BidRow) -> Bid:
        name = _name(row.bidder.content)
        if not name:
            self.found.complain(row.bidder, "should be the name of a bidder")
        values = [self._value(row.values.get(good)) for good in self.found.goods]
        return Bid(self.bidders.get(name, NOBODY), values, self._units(row.quantity, unread=1))

    def _value(self, cell: Optional[Marked]) -> Optional[int]:
        """The value of a good for a bid; 0 where its table has no column of the good, which is complained of."""
        if cell is None:
            return 0
        return None if is_empty(cell.content) else self._steps(cell)

    def _caps(self) -> Dict[str, int]:
        caps: Dict[str, int] = {}
        for bidder, cap in self.found.caps:
            name = self._known(bidder)
            if name in caps:
                self.found.complain(bidder, "has a cap already")
            caps[name] = self._units(cap)
        return caps

    def _order(self) -> Optional[List[str]]:
        """The bidders by their ranks; those without a rank are told."""
        if not self.found.order:
            return None
        ranks: Dict[str, int] = {}
        for bidder, rank in self.found.order:
            name, number = self._known(bidder), self._units(rank)
            if number in ranks.values():
                self.found.complain(rank, "is the rank of another bidder too")
            ranks[name] = number
        last = self.found.order[-1][1]
        for name, plain in self.bidders.items():
            if plain not in ranks:
                self.found.complain(last._replace(content=name), "has no rank in the tie order, and others have one")
        # An order that not all are in would be at fault once more.
        is_whole = set(ranks) == set(self.bidders.values())
        return sorted(ranks, key=lambda plain: ranks[plain]) if is_whole else None

    def _known(self, bidder: Marked) -> str:
        name = _name(bidder.content)
        if not name:
            self.found.complain(bidder, "should be the name of a bidder")
        elif name not in self.bidders:
            self.found.complain(bidder, "is the name of nobody who bids")
        return self.bidders.get(name, NOBODY)

    def _steps(self, cell: Marked) -> int:
        return self._read(cell, lambda content: steps_of(content, self.marks.decimal, self.manner.step))

    def _units(self, cell: Marked, unread: int = 0) -> int:
        return self._read(cell, lambda content: units_of(content, self.marks.decimal), unread)

    def _read(self, cell: Marked, read: Callable[[Content], int], unread: int = 0) -> int:
        try:
            if is_empty(cell.content):
                raise FormError("should be a number")
            return read(cell.content)
        except FormError as error:
            self.found.complain(cell, str(error))
            return unread


def _number(content: Content, decimal: Optional[str]) -> Optional[Decimal]:
    """The number that stands in a cell; None where it can't be read."""
    try:
        return number_of(content, decimal)
    except FormError:
        return None


def _places_of(number: Decimal) -> int:
    """How many decimal places a number has."""
    exponent = number.normalize().as_tuple().exponent
    return max(0, -exponent) if isinstance(exponent, int) else 0


# --------------------------------------------------------------------------------------------- what the program says

def _ask(found: Found, auction: Auction, solver: Solver) -> None:
    """Complains of whatever the program finds at fault with the text, but in cells that are complained of already."""
    rows = _cells_of_rows(found)
    for error in faults(auction.text(), program=solver.program, library=solver.library):
        cells = rows[error.row - 1] if 0 < error.row <= len(rows) else []
        told = "has the fault %s" % error.code if isinstance(error, Fault) else "passes a limit (%s)" % (
            str(error).splitlines()[0].split(": ", 1)[-1])
        found.complain(_cell_of(error, cells, found), "%s. %s" % (told, error.advice))


def _cells_of_rows(found: Found) -> List[List[Marked]]:
    """The cells from which each row of the text was written, from the word on.

    What may be wrong with the tie order is told before, so its row has none.
    """
    goods = list(found.goods.values())
    reserves = [found.reserve.get(good, cell) for good, cell in found.goods.items()]
    supplies = [found.supply.get(good, cell) for good, cell in found.goods.items()]
    head: List[List[Marked]] = [[], goods[:1] + goods, goods[:1] + supplies, goods[:1] + reserves]
    bids = [[bid.bidder, bid.bidder, bid.quantity, *[bid.values.get(good, cell) for good, cell in found.goods.items()]]
            for bid in found.bids]
    return [*head, *bids, *[[bidder, bidder, cap] for bidder, cap in found.caps]]


def _cell_of(error: TextError, cells: Sequence[Marked], found: Found) -> Marked:
    """The cell that an error of the program is about."""
    if not cells:
        return next(iter(found.goods.values()))
    number = 2 if error.field is None else error.field.number
    return cells[min(number, len(cells)) - 1]


# -------------------------------------------------------------------------------------------------- what was understood

def _lines(sheets: Sequence[Sheet], found: Found, marks: Marks, manner: Manner, auction: Auction, shown: Shown) -> List[str]:
    """What was understood, in five lines."""
    return [
        "read: %s; passed over: %s" % (", ".join("%s (%s)" % (sheet.name, sheet.how) for sheet in sheets),
                                       _some(found.unread) or "nothing"),
        "goods: %s" % _goods_line(found, auction, shown),
        "bids: %s" % _bids_line(found, auction, shown),
        "amounts: %s" % _amounts_line(marks, manner),
        "names: %s" % (_some(["%s for %s" % pair for names in (shown.goods, shown.bidders) for pair in names.items()])
                       or "as they stand"),
    ]


def _some(items: Sequence[str]) -> str:
    """The first few, and how many more there are."""
    more = len(items) - MOST_SHOWN
    return ", ".join(items[:MOST_SHOWN]) + (" and %d more" % more if more > 0 else "")


def _goods_line(found: Found, auction: Auction, shown: Shown) -> str:
    reserves = " (0 where none is stated)" if not found.reserve else ""
    return "; ".join("%s: %d for sale, reserve %s%s" % (shown.good(good), supply, shown.money(reserve), reserves)
                     for good, supply, reserve in zip(auction.goods, auction.supply, auction.reserve))


def _bids_line(found: Found, auction: Auction, shown: Shown) -> str:
    rows = [bid.bidder.place.row for bid in found.bids]
    span = "rows %d to %d" % (min(rows), max(rows)) if rows else "no row"
    parts = ["%d of %d bidders, in %s" % (len(found.bids), len(auction.bidders), span)]
    takers = sum(bid.weight < 0 for bid in auction.bids)
    if takers:
        parts.append("%d of them to take back" % takers)
    if auction.caps:
        parts.append("caps: " + _some(["%s %d" % (shown.bidder(name), cap) for name, cap in auction.caps.items()]))
    named = [shown.bidder(name) for name in auction.tie_order]
    parts.append("tie order as %s: %s" % ("stated" if auction.order is not None else "the names come", _some(named)))
    return "; ".join(parts)


def _amounts_line(marks: Marks, manner: Manner) -> str:
    mark = "no decimal mark"
    if marks.decimal:
        by = "as stated" if marks.decimal_cell is None else "as %s in %s shows" % (
            marks.decimal_cell.content, marks.decimal_cell.place.cell)
        mark = "decimal %s, %s" % (NAMES[marks.decimal], by)
    return "in steps of %s%s; %s" % (manner.step, " " + marks.currency if marks.currency else "", mark)
