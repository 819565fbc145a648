"""Tables of bids as people keep them, to auctions and back."""

import csv
import io
from dataclasses import replace
from decimal import Decimal
from pathlib import Path
from typing import Any, List, Optional, Tuple

import pytest
from hypothesis import given, settings
from hypothesis import strategies as st

from product_mix import Auction, Bid
from product_mix.__main__ import main
from product_mix._sheets.blocks import Columns, normal
from product_mix._sheets.cells import read_sheets
from product_mix._sheets.names import plain_names
from product_mix._sheets.numbers import is_empty, number_of, steps_of
from product_mix._sheets.places import SheetError
from product_mix._sheets.reading import Manner, Understood, read_auction
from product_mix._sheets.writing import csv_text, sheet_rows
from product_mix._shown import Shown, read_shown, shown_beside
from product_mix._solver import Solver
from product_mix._text import NAME

from strategies import auctions
from test_words import Run, run as run  # noqa: F401  A fixture.

HALL = """\
good;supply;reserve
Innen;2;10,00
Außen;2;6,00

bidder;quantity;Innen;Außen
Änne Müller;1;40,50;
Bo & Söhne;2;24,00;16,00
Cleo;1;16,00;
Cleo;1;–;10,00
Cleo;-1;16,00;10,00
"""


def understood(text: str, manner: Manner = Manner(), name: str = "bids.csv") -> Understood:
    return read_auction(read_sheets(name, text.encode()), manner, Solver())


def complaints(text: str, manner: Manner = Manner()) -> List[str]:
    with pytest.raises(SheetError) as raised:
        understood(text, manner)
    return str(raised.value).splitlines()


def test_a_sheet() -> None:
    found = understood(HALL, Manner(Decimal("0.01")))
    assert found.auction == Auction(
        ["Innen", "Aussen"], [2, 2], [1000, 600],
        [Bid("Aenne_Mueller", [4050, None]), Bid("Bo_and_Soehne", [2400, 1600], 2), Bid("Cleo", [1600, None]),
         Bid("Cleo", [None, 1000]), Bid("Cleo", [1600, 1000], -1)])
    assert found.shown == Shown({"Aussen": "Außen"}, {"Aenne_Mueller": "Änne Müller", "Bo_and_Soehne": "Bo & Söhne"},
                                Decimal("0.01"))
    assert found.lines == [
        "read: bids.csv (UTF-8, semicolons); passed over: nothing",
        "goods: Innen: 2 for sale, reserve 10.00; Außen: 2 for sale, reserve 6.00",
        "bids: 5 of 3 bidders, in rows 6 to 10; 1 of them to take back; tie order as the names come: Änne Müller, "
        "Bo & Söhne, Cleo",
        "amounts: in steps of 0.01; decimal comma, as 10,00 in C2 shows",
        "names: Aussen for Außen, Aenne_Mueller for Änne Müller, Bo_and_Soehne for Bo & Söhne",
    ]


@pytest.mark.parametrize("data, how", [
    (HALL.encode("utf-8"), "UTF-8, semicolons"),
    (HALL.encode("utf-8-sig"), "UTF-8 with a mark, semicolons"),
    (HALL.encode("utf-16"), "UTF-16, semicolons"),
    (b"\xfe\xff" + HALL.encode("utf-16-be"), "UTF-16, semicolons"),
    (HALL.encode("utf-16-le"), "UTF-16 without a mark, semicolons"),
    (HALL.encode("utf-16-be"), "UTF-16 without a mark, semicolons"),
    (HALL.replace("–", "-").encode("latin-1"), "Latin-1, semicolons"),
    (HALL.encode("cp1252"), "Latin-1, semicolons"),
    (HALL.replace(";", "\t").encode(), "UTF-8, tabs"),
    (HALL.replace(",", ".").replace(";", ",").encode(), "UTF-8, commas"),
    (HALL.replace("\n", "\r\n").encode(), "UTF-8, semicolons"),
    (HALL.replace("\n", "\r").encode(), "UTF-8, semicolons"),
    (b"sep=;\r\n" + HALL.encode(), "UTF-8, semicolons"),
])
def test_kinds_of_files(data: bytes, how: str) -> None:
    found = read_auction(read_sheets("bids.csv", data), Manner(Decimal("0.01")), Solver())
    assert found.auction == understood(HALL, Manner(Decimal("0.01"))).auction and how in found.lines[0]


def test_supplies_as_rows_of_the_bids() -> None:
    found = understood("Bieter,Menge,A (kg),B\nVorrat,,5,6\nMindestpreis,,1,2\nAda,2,,3\n")
    assert found.auction == Auction(["A_kg", "B"], [5, 6], [1, 2], [Bid("Ada", [None, 3], 2)])
    assert found.shown.good("A_kg") == "A (kg)"


def test_reserves_may_be_missing() -> None:
    found = understood("good,supply\nA,5\nbidder,quantity,A\nAda,2,3\n")
    assert found.auction == Auction(["A"], [5], [0], [Bid("Ada", [3], 2)])
    assert found.lines[1] == "goods: A: 5 for sale, reserve 0 (0 where none is stated)"


def test_caps_and_the_tie_order() -> None:
    text = "good,supply\nA,5\nbidder,quantity,A\nAda,2,3\nBo,1,4\nCy,1,4\nbidder,cap,order\nBo,,1\nAda,1,3\nCy,-,2\n"
    found = understood(text)
    assert found.auction == Auction(["A"], [5], [0], [Bid("Ada", [3], 2), Bid("Bo", [4]), Bid("Cy", [4])],
                                    {"Ada": 1}, ["Bo", "Cy", "Ada"])
    assert found.lines[2] == "bids: 3 of 3 bidders, in rows 4 to 6; caps: Ada 1; tie order as stated: Bo, Cy, Ada"


def test_columns_that_are_named() -> None:
    text = "Kunde,Note,Stk,A,B\nsupply,,,5,6\nAda,x,2,,3\n"
    named = Columns({"bidder": "Kunde", "quantity": "STK"}, ["A", "B"])
    found = understood(text, Manner(columns=named))
    assert found.auction == Auction(["A", "B"], [5, 6], [0, 0], [Bid("Ada", [None, 3], 2)])
    assert found.lines[0] == "read: bids.csv (UTF-8, commas); passed over: column B (Note)"


def test_what_is_passed_over_is_told() -> None:
    text = "Auction of 3 May\n\ngood,supply\nA,5\nbidder,quantity,A,Remark\nAda,2,3,soon\n"
    assert understood(text).lines[0].endswith("passed over: row 1 of bids.csv, column D (Remark)")


def test_several_files() -> None:
    sheets = [*read_sheets("goods.csv", b"good,supply,reserve\nA,5,1\n"), *read_sheets("bids.csv", b"bidder;units;A\nAda;2;3\n")]
    found = read_auction(sheets, Manner(), Solver())
    assert found.auction == Auction(["A"], [5], [1], [Bid("Ada", [3], 2)])
    assert found.lines[0].startswith("read: goods.csv (UTF-8, commas), bids.csv (UTF-8, semicolons)")


# ------------------------------------------------------------------------------------------------------------- complaints

HEAD = "good,supply,reserve\nA,5,1\nB,6,2\n\nbidder,quantity,A,B\n"


@pytest.mark.parametrize("row, complaint", [
    ("Ada,1,4o,", "bids.csv, row 6, column C (A): '4o' is no number"),
    ("Ada,1,1e3,", "bids.csv, row 6, column C (A): '1e3' is no number"),
    ("Ada,1,5%,", "bids.csv, row 6, column C (A): '5%' is no number"),
    ("Ada,1,4.5,", "bids.csv, row 6, column C (A): '4.5' is no multiple of the step 1"),
    ("Ada,,4,", "bids.csv, row 6, column B (quantity): is empty, and should be a number"),
    ("Ada,–,4,", "bids.csv, row 6, column B (quantity): '–' should be a number"),
    ("Ada,1.5,4,", "bids.csv, row 6, column B (quantity): '1.5' is no whole number"),
    ("Ada,€5,4,", "bids.csv, row 6, column B (quantity): '€5' has a currency, and should be a number of units"),
    (",1,4,", "bids.csv, row 6, column A (bidder): is empty, and should be the name of a bidder"),
    ("Ada,2x,4,", "bids.csv, row 6, column B (quantity): '2x' is no number: write digits alone"),
    ("Ada,1,4,\nbidder,cap\n,2", "bids.csv, row 8, column A (bidder): is empty, and should be the name of a bidder"),
    ("Ada,1,4,\nbidder,cap\nAda,2,soon", "bids.csv, row 8, column C: 'soon' stands in a column without a title"),
    ("Ada,1,4,5,6", "bids.csv, row 6, column E: '6' stands in a column without a title"),
    ("Ada,1,,-", "bids.csv, row 6, column A (bidder): 'Ada' has the fault nothing. The bid offers no good. Give it a value, "
                 "or drop the row."),
    ("Ada,0,4,", "bids.csv, row 6, column B (quantity): '0' has the fault weight. A bid of weight 0 says nothing. Write for "
                 "how many units it is, or drop the row."),
    ("Ada,1,-4,", "bids.csv, row 6, column C (A): '-4' has the fault range. The number is negative, and here it has to be at "
                  "least 0. Look for a '-' too many."),
    ("Ada,1,€4,$5", "bids.csv, row 6, column D (B): '$5' has another currency than €4 in C6"),
    ('Ada,1,"1,500",', "bids.csv, row 6, column C (A): '1,500' may be 1500 or 1.500: say --decimal . or --decimal ,"),
    ('Ada,1,"4,0",4.0', "bids.csv, row 6, column D (B): '4.0' has a decimal point, and 4,0 in C6 a decimal comma"),
    ('Ada,1,"4,0","1,50.3"', "bids.csv, row 6, column D (B): '1,50.3' is no number with a decimal comma"),
    ("Ada,1,4,\nbidder,cap\nBo,2", "bids.csv, row 8, column A (bidder): 'Bo' is the name of nobody who bids"),
    ("Ada,1,4,\nbidder,cap\nAda,2\nAda,2", "bids.csv, row 9, column A (bidder): 'Ada' has a cap already"),
    ("Ada,-1,4,\nbidder,cap\nAda,2", "bids.csv, row 8, column A (bidder): 'Ada' has the fault weight. A bidder with a bid of "
                                     "negative weight can't have a cap. Drop the cap, or write the list without such bids."),
    ("Ada,1,4,\nBo,1,4,\nbidder,order\nAda,1\nBo,1", "bids.csv, row 10, column B (order): '1' is the rank of another bidder too"),
    ("Ada,1,4,\nBo,1,4,\nbidder,order\nAda,1", "bids.csv, row 9, column B (order): 'Bo' has no rank in the tie order, and others "
                                             "have one"),
    ("Ada,1,4,\ngood,supply\nA,5", "bids.csv, row 8, column A (good): 'A' is a good already, in A2"),
])
def test_each_complaint(row: str, complaint: str) -> None:
    assert complaints(HEAD + row + "\n")[0] == complaint
    assert len([line for line in complaints(HEAD + row + "\n") if line.startswith("bids.csv")]) == 1


@pytest.mark.parametrize("text, complaint", [
    ("bidder,quantity,A\nAda,1,4\n", "bids.csv, row 1, column C (A): 'A' has no supply. It stands in a table with the titles "
     "good and supply, or with others that --column names, or in a row of the bids that begins with supply; a column that is no "
     "good is left out by --goods, which names the goods"),
    ("good,supply\nA,5\nC,5\nbidder,quantity,A\nAda,1,4\n",
     "bids.csv, row 3, column A (good): 'C' is a good, and no title of the bids, in row 4 of bids.csv, is spelled so"),
    ("bidder,quantity,A\nsupply,,5\nAda,1,4\nbidder,quantity,A,B\nsupply,,5,3\nBo,1,4,2\n",
     "bids.csv, row 4, column D (B): 'B' is a good, and no title of the bids, in row 1 of bids.csv, is spelled so"),
    ("bidder,quantity\nAda,1\n", "bids.csv, row 1, column B (quantity): 'quantity' stands in a row of titles that has no "
     "good: each good is the title of a column"),
    ("good,supply\nA,5\n,5\nbidder,quantity,A\nAda,1,4\n", "bids.csv, row 3, column A (good): is empty, and should be the name of a good"),
    ("good,supply\nA,x\nbidder,quantity,A\nAda,1,4\n", "bids.csv, row 2, column B (supply): 'x' is no number: write digits alone"),
    ("good,supply,reserve\nA,5,\nbidder,quantity,A\nAda,1,4\n", "bids.csv, row 2, column C (reserve): is empty, and should be a number"),
    ("good,supply\nA,5\nbidder,quantity,A,cap\nAda,1,4,2\n",
     "bids.csv, row 3, column D (cap): 'cap' should stand in a table of its own, with the titles bidder and cap"),
    ("bidder,quantity,A,a\nsupply,,1,1\nAda,1,4,2\n",
     "bids.csv, row 1, column D (a): 'a' is the title of column C1 too, as a good"),
    ("bidder,quantity,name,A\nsupply,,,1\nAda,1,,2\n",
     "bids.csv, row 1, column C (name): 'name' is the title of column A1 too, as a bidder"),
    ("bidder,quantity,A,B,C,D,E,F,G,H,I\nsupply,,1,1,1,1,1,1,1,1,1\nAda,1,2,2,2,2,2,2,2,2,2\n",
     "bids.csv, row 1, column C (A): 'A' passes a limit (too many goods, at most 8). Sell goods that are as good as the same "
     "for everyone as one good; format 2 takes more than format 1."),
])
def test_complaints_of_goods(text: str, complaint: str) -> None:
    assert complaints(text)[0] == complaint


def test_all_complaints_at_once() -> None:
    told = complaints(HEAD + "Ada,1,4o,x\n,0,5.5,\nBo,20000,4,\n")
    assert [line.split(": ")[0].split("row ")[1] for line in told[:-1]] == [
        "6, column C (A)", "6, column D (B)", "7, column A (bidder)", "7, column B (quantity)", "7, column C (A)",
        "8, column B (quantity)"]
    assert told[-1] == "With --step 0.1 all amounts that can be read would be multiples of the step."


@pytest.mark.parametrize("step, values, wanted", [
    ("1", ["40.5", "30.25"], "0.01"), ("0.1", ["40.5", "30.25"], "0.01"), ("5", ["40", "32"], "1"),
])
def test_the_step_that_is_advised_does(step: str, values: List[str], wanted: str) -> None:
    """Also for the amounts that the stated step did for."""
    text = HEAD + "".join(["Ada,1,%s,\n" % value for value in values])
    assert complaints(text, Manner(Decimal(step)))[-1] == "With --step %s all amounts would be multiples of the step." % wanted
    assert understood(text, Manner(Decimal(wanted))).doubts == []


def test_a_small_step_is_advised_in_digits() -> None:
    assert complaints(HEAD + "Ada,1,0.00000001,\n")[-1].startswith("With --step 0.00000001 all")


def test_the_other_faults_are_told_where_a_supply_or_a_column_is_missing() -> None:
    told = complaints("bidder,quantity,A,B\nAda,0,4,5\nBo,1,-,\n")
    assert [line.split(": ")[0].split("row ")[1] for line in told] == [
        "1, column C (A)", "1, column D (B)", "2, column B (quantity)", "3, column A (bidder)"]
    told = complaints("good,supply\nA,5\nC,5\nbidder,quantity,A,B\nAda,0,4,\nBo,1,,5\n")
    assert [line.split(": ")[0].split("row ")[1] for line in told[:2]] == ["3, column A (good)", "5, column B (quantity)"]
    # What Bo offers for C isn't known, so it isn't said to offer nothing.
    assert told[2:] == ["Passed over: column D (B).",
                        "warning: column D (B) has amounts and is no good: the table of goods has no row for it"]


def test_a_good_without_a_row_is_told() -> None:
    """Its column is passed over, and hardly meant to be."""
    text = "good,supply\nA,5\nbidder,quantity,A,B,Note\nAda,1,4,3,soon\nBo,1,%s,2,\n"
    doubt = "column D (B) has amounts and is no good: the table of goods has no row for it"
    found = understood(text % "4")
    assert found.lines[0].endswith("passed over: column D (B), column E (Note)") and found.doubts == [doubt]
    assert complaints(text % "4o") == [
        "bids.csv, row 5, column C (A): '4o' is no number", "Passed over: column D (B), column E (Note).", "warning: " + doubt]
    assert understood(text % "4", Manner(columns=Columns(goods=["A"]))).doubts == []


def test_columns_beside_a_table_of_goods() -> None:
    assert complaints("good,supply\nA,5,soon\nbidder,quantity,A\nAda,1,4\n") == [
        "bids.csv, row 2, column C: 'soon' stands in a column without a title"]
    found = understood("good,supply,Limit (€),Place\nA,5,3,hall\nbidder,quantity,A\nAda,1,4\nbidder,cap,Phone\nAda,1,12\n")
    assert found.lines[0].endswith("passed over: column C (Limit (€)) of the table of goods, column D (Place) of the table of goods, "
                                   "column C (Phone) of the table of bidders")
    assert found.doubts == ["column C (Limit (€)) of the table of goods has amounts and is passed over: "
                            "--column 'reserve=Limit (€)' reads it, if they are reserves"]


def test_goods_that_are_not_named_are_left_out() -> None:
    text = "good,supply\nA,5\nB,3\nbidder,quantity,A,B\nAda,1,4,5\n"
    found = understood(text, Manner(columns=Columns(goods=["a"])))
    assert found.auction == Auction(["A"], [5], [0], [Bid("Ada", [4])])
    assert found.lines[0].endswith("passed over: the good B in row 3 of bids.csv, column D (B)")
    assert complaints(text, Manner(columns=Columns(goods=["A", "C"])))[0] == (
        "bids.csv, row 4: 'C' is a good by --goods, and no title of this row is spelled so")


@pytest.mark.parametrize("text, message", [
    ("Ann,1,40\n", "no row has the titles of a table of bids: bidder (bidder or bidders or name"),
    ("", "no row has the titles of a table of bids"),
    ("Kunde,Kisten,A\nAnn,1,40\n", "Other titles are named: --column bidder=Customer --column quantity=Boxes, and so for good"),
    ('bidder,quantity,A\n"Ann,1,40\n', "a quote that is opened has to be closed"),
])
def test_no_sheet(text: str, message: str) -> None:
    with pytest.raises(ValueError, match=message.replace("(", r"\(")):
        understood(text)


def test_other_files() -> None:
    with pytest.raises(ValueError, match="save it as .xlsx or as CSV"):
        read_sheets("old.xls", b"\xd0\xcf\x11\xe0 and more")
    with pytest.raises(ValueError, match="can't be read as a workbook|openpyxl isn't there"):
        read_sheets("broken.xlsx", b"PK\x03\x04 and more")
    with pytest.raises(ValueError, match="begins as UTF-8 does"):
        read_sheets("broken.csv", b"\xef\xbb\xbf\xff")


# ---------------------------------------------------------------------------------------------------- numbers and names

@pytest.mark.parametrize("content, decimal, number", [
    ("12", None, "12"), (" 12 ", None, "12"), ("12.5", ".", "12.5"), ("12,5", ",", "12.5"), ("1.234,5", ",", "1234.5"),
    ("1,234,567", ".", "1234567"), ("1,500", ".", "1500"), ("1,500", ",", "1.5"), ("1'234'567.5", ".", "1234567.5"),
    ("1 234", None, "1234"), ("1\u202f234\u00a0567", None, "1234567"), ("€12", None, "12"), ("12 €", None, "12"),
    ("EUR 12", None, "12"), ("-12", None, "-12"), ("−12", None, "-12"), ("–12", None, "-12"), ("-€12", None, "-12"),
    ("€-12", None, "-12"), ("+12", None, "12"), ("007", None, "7"), ("Fr. 1’500", None, "1500"),
    ("16,50 Euro", ",", "16.5"), ("16 zł", None, "16"), ("Kč 16", None, "16"), ("16,-", ",", "16"), ("16,--", ",", "16"),
    ("16.– €", ".", "16"), ("Fr. 1'500.—", ".", "1500"), ("-1.500,- euro", ",", "-1500"),
])
def test_numbers(content: str, decimal: Optional[str], number: str) -> None:
    assert number_of(content, decimal) == Decimal(number)


@pytest.mark.parametrize("content", ["", "x", "1 2", "1.2.3", "12.", ".5", "1,23,456", "--5", "€5€", "1e5", "٣", "5 kg", "(5)",
                                     "16,---", "16-", "16,-5", ",-", "16 Euros", "Euro 16 zł"])
def test_no_numbers(content: str) -> None:
    with pytest.raises(ValueError):
        number_of(content, ".")


@given(st.integers(-10 ** 9, 10 ** 9), st.sampled_from(["0.01", "0.05", "0.25", "1", "5", "1000"]), st.sampled_from(".,"),
       st.booleans())
def test_amounts_come_back(steps: int, step: str, decimal: str, has_groups: bool) -> None:
    """However an amount is written, it is the same amount."""
    written = format(steps * Decimal(step), ",f" if has_groups else "f")
    if decimal == ",":
        written = written.translate({ord(","): ".", ord("."): ","})
    assert steps_of(written, decimal, Decimal(step)) == steps


def test_one_currency_of_several_spellings() -> None:
    found = understood(HEAD + 'Ada,1,"16,- €","17,50 Euro"\nBo,1,EUR 3,\n', Manner(Decimal("0.01")))
    assert list(found.auction.bids) == [Bid("Ada", [1600, 1750]), Bid("Bo", [300, None])] and found.shown.currency == "€"
    assert found.lines[3] == "amounts: in steps of 0.01 €; decimal comma, as 16,- € in C6 shows"
    assert complaints(HEAD + "Ada,1,16 €,17 zł\n")[0].endswith("'17 zł' has another currency than 16 € in C6")


def test_empty_cells() -> None:
    assert all(map(is_empty, ["", " ", "-", "–", "—", "−", "--", " - ", "‑"])) and not any(map(is_empty, ["0", "-1", "x"]))


@given(st.lists(st.text(max_size=40), unique=True), st.sampled_from(["good", "bidder"]))
def test_plain_names(names: List[str], fallback: str) -> None:
    plain = plain_names(names, fallback)
    assert list(plain) == names and len(set(plain.values())) == len(names)
    assert all(NAME.fullmatch(name) for name in plain.values())
    assert all(plain[name] == name for name in names if NAME.fullmatch(name))


# ------------------------------------------------------------------------------------------------------------ round trips

LETTERS = st.text(st.characters(whitelist_categories=("L", "N"), whitelist_characters="-&. "), min_size=1, max_size=12)


def is_title(name: str) -> bool:
    return bool(Columns().key_of(name)) or is_empty(name)


SHOWN_NAMES = LETTERS.map(lambda name: " ".join(name.split())).filter(lambda name: name and not is_title(name))


@st.composite
def shown_auctions(draw: st.DrawFn) -> Tuple[Auction, Shown]:
    """Auctions that the program takes, with names of any letters."""
    auction = draw(auctions(most_goods=3))
    auction = replace(auction, bids=[replace(bid, weight=bid.weight or 1) for bid in auction.bids])
    goods = draw(st.lists(SHOWN_NAMES, min_size=len(auction.goods), max_size=len(auction.goods), unique_by=normal))
    bidders = draw(st.lists(SHOWN_NAMES, min_size=len(auction.bidders), max_size=len(auction.bidders), unique=True))
    step = draw(st.sampled_from(["1", "0.01", "0.5", "20"]))
    return auction, Shown(dict(zip(auction.goods, goods)), dict(zip(auction.bidders, bidders)), Decimal(step))


def as_shown(auction: Auction, shown: Shown) -> Auction:
    order = auction.order if auction.order is None or auction.bidders else None
    return replace(
        auction, goods=[shown.good(good) for good in auction.goods],
        bids=[replace(bid, bidder=shown.bidder(bid.bidder)) for bid in auction.bids],
        caps={shown.bidder(name): cap for name, cap in auction.caps.items()},
        order=None if order is None else [shown.bidder(name) for name in order])


@given(shown_auctions(), st.sampled_from([",", ";", "\t"]), st.sampled_from([".", ","]),
       st.sampled_from(["utf-8", "utf-8-sig", "utf-16"]))
@settings(max_examples=60)
def test_there_and_back(drawn: Tuple[Auction, Shown], separator: str, decimal: str, coding: str) -> None:
    """An auction becomes a sheet and comes back as it is shown."""
    auction, shown = drawn
    data = csv_text(sheet_rows(auction, shown, decimal), separator).encode(coding)
    found = read_auction(read_sheets("sheet.csv", data, separator), Manner(shown.step, decimal), Solver())
    assert as_shown(found.auction, found.shown) == as_shown(auction, shown)


def test_workbooks(tmp_path: Path, run: Run) -> None:
    openpyxl: Any = pytest.importorskip("openpyxl")
    path = tmp_path / "bids.xlsx"
    book = openpyxl.Workbook()
    for row in [["good", "supply", "reserve"], ["A", 5, 0.1], ["bidder", "quantity", "A"], ["Ada", 2, 40.5], ["Bo", 1, None],
                ["Cy", 1, "=1+1"]]:
        book.active.append(row)
    book.create_sheet("old").sheet_state = "hidden"
    book.save(path)
    status, _, err = run("sheet", path, "--step", "0.1")
    assert status == 3 and [line.split(": ")[0] for line in err.splitlines()] == [
        "bids.xlsx, sheet Sheet, row 5, column A (bidder)", "bids.xlsx, sheet Sheet, row 6, column A (bidder)",
        "bids.xlsx, sheet Sheet, row 6, column C"]
    assert err.splitlines()[2].endswith(
        "'=1+1' is a formula without a value: open the workbook in a spreadsheet, and save it")
    book.active["C5"], book.active["C6"] = 0.3, 7
    book.save(path)
    status, out, err = run("sheet", path, "--step", "0.1")
    assert status == 0 and out == "mix,1\ngoods,A\nsupply,5\nreserve,1\nbid,Ada,2,405\nbid,Bo,1,3\nbid,Cy,1,70\nend\n"
    assert "a workbook" in err
    text, back = tmp_path / "auction.csv", tmp_path / "back.xlsx"
    assert run("sheet", path, "--step", "0.1", "--out", text)[0] == 0 == run("sheet", text, "--out", back)[0]
    assert run("sheet", back, "--step", "0.1")[1] == out


# ---------------------------------------------------------------------------------------------------- on the command line

def test_the_names_beside_a_text(tmp_path: Path, run: Run) -> None:
    """What the other words print of the text has the names and amounts of the sheet."""
    sheet, text = tmp_path / "bids.csv", tmp_path / "auction.csv"
    sheet.write_text(HALL.replace("Cleo;-1;16,00;10,00\n", "Cleo;-1;16,00;10,00\nCleo;1;30,00;24,00\n"), encoding="utf-8")
    status, out, err = run("sheet", sheet, "--step", "0.01", "--out", text)
    assert (status, out) == (0, "") and len(err.splitlines()) == 5
    rows = list(csv.reader(io.StringIO(run("solve", text, "--csv")[1])))
    assert rows[1:3] == [["Änne Müller", "Innen", "1", "16.00", "16.00"], ["Änne Müller", "Außen", "0", "8.00", "0.00"]]
    assert "revenue: 48.00\n" in run("solve", text)[1]
    assert run("utility", text, "--prices", "16.00,8", "--csv")[1].splitlines()[1] == "Änne Müller,24.50"
    assert run("sheet", text)[1].splitlines()[2] == "Außen,2,6.00"


def test_csv_for_a_spreadsheet(tmp_path: Path, run: Run) -> None:
    """Decimal commas in amounts alone: names keep their points."""
    sheet, text = tmp_path / "bids.csv", tmp_path / "auction.csv"
    sheet.write_text("good,supply,reserve\nNo. 1,2,1.50\nbidder,quantity,No. 1\nA. B.,1,4.00\n", encoding="utf-8")
    assert run("sheet", sheet, "--step", "0.01", "--out", text)[0] == 0
    titles, row = ["bidder", "good", "quantity", "price", "payment"], ["A. B.", "No. 1", "1", "1,50", "1,50"]
    for sign, separator in ((";", ";"), ("tab", "\t"), (",", ",")):
        out = run("solve", text, "--csv", "--decimal", ",", "--separator", sign)[1]
        assert list(csv.reader(io.StringIO(out), delimiter=separator)) == [titles, row]
    assert run("solve", text, "--csv")[1].splitlines()[1] == "A. B.,No. 1,1,1.50,1.50"
    for form in ([], ["--json"], ["--text"]):
        assert run("solve", text, "--decimal", ",", *form)[::2] == (
            3, "--decimal and --separator say how --csv is written, and it isn't asked for\n")


def test_warnings_of_what_is_passed_over(tmp_path: Path, run: Run) -> None:
    sheet = tmp_path / "bids.csv"
    sheet.write_text("good,supply\nA,5\nbidder,quantity,A,B\nAda,1,4,3\n", encoding="utf-8")
    for words in (["sheet"], ["report"]):
        told = run(*words, sheet)[2].splitlines()
        assert told[5:] == ["warning: column D (B) has amounts and is no good: the table of goods has no row for it"]


def test_help_names_the_marks(capsys: pytest.CaptureFixture[str]) -> None:
    with pytest.raises(SystemExit):
        main(["sheet", "--help"])
    told = capsys.readouterr().out
    assert "--decimal MARK" in told and "--separator SIGN" in told


def test_the_text_alone(tmp_path: Path, run: Run) -> None:
    sheet = tmp_path / "bids.csv"
    sheet.write_text(HALL, encoding="utf-8")
    status, out, err = run("sheet", sheet, "--step", "0.01")
    assert status == 0 and out.splitlines()[4] == "bid,Aenne_Mueller,1,4050,-"
    assert err.splitlines()[-1] == "warning: the text alone has neither these names nor the step; --out FILE writes both"


def test_doubts(tmp_path: Path, run: Run) -> None:
    sheet = tmp_path / "bids.csv"
    sheet.write_text("good,supply,reserve\nGrün,5,9\nbidder,quantity,Grün\nÖko,6,5\n", encoding="utf-8")
    assert run("sheet", sheet)[2].splitlines()[5:7] == [
        "warning: Öko bids for 6 units of Grün, and 5 are for sale", "warning: Öko bids below the reserve: 5 for Grün"]


@pytest.mark.parametrize("words, told", [
    (["--step", "0"], "has to be above 0"), (["--step", "x"], "'x' is no step"), (["--step", "nan"], "has to be above 0"),
    (["--step", "0,25"], "'0,25' is no step: it is written with a point, as 0.25"),
    (["--column", "bidder"], "--column wants WHAT=TITLE"), (["--column", "who=x"], "--column wants WHAT=TITLE"),
])
def test_options(words: List[str], told: str, tmp_path: Path, run: Run) -> None:
    sheet = tmp_path / "bids.csv"
    sheet.write_text(HALL, encoding="utf-8")
    status, _, err = run("sheet", sheet, *words)
    assert status == 3 and told in err


def test_files_of_names(tmp_path: Path) -> None:
    shown = Shown({"A": "Ä"}, {"B": "B, and\nCo"}, Decimal("0.05"), "€")
    (tmp_path / "auction.names.csv").write_text(shown.text(), encoding="utf-8")
    assert shown_beside(str(tmp_path / "auction.csv")) == shown and shown_beside(str(tmp_path / "other.csv")) == Shown()
    for text in ("what,name,shown\nnone,a,b\n", "what,name,shown\nstep,,x\n", "what,name,shown\nstep,1\n", "\n\"x"):
        (tmp_path / "auction.names.csv").write_text(text)
        with pytest.raises(ValueError, match="is no file of names"):
            shown_beside(str(tmp_path / "auction.csv"))
    assert read_shown([]) == Shown()
