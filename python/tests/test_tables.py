"""Tables of outcomes, and doubts about auctions."""

import sys
from pathlib import Path
from typing import Any

import pytest

from product_mix import Auction, Bid, Doubt, FormError, Session, trade_range, warnings

from test_solving import cleared
from test_values import STALLS


def test_rows() -> None:
    rows = cleared(STALLS).rows()
    assert [tuple(row) for row in rows] == [
        ("Ann", "inside", 1, 16, 16), ("Ann", "outside", 0, 8, 0),
        ("Bo", "inside", 1, 16, 16), ("Bo", "outside", 1, 8, 8),
        ("Cleo", "inside", 0, 16, 0), ("Cleo", "outside", 1, 8, 8),
    ]
    assert rows[2].bidder == "Bo" and rows[2].quantity == 1 and rows[2].price == rows[2].payment == 16
    assert sum(row.payment for row in rows) == cleared(STALLS).revenue


def test_frames() -> None:
    pandas = pytest.importorskip("pandas")
    frame = cleared(STALLS).to_frame()
    assert list(frame.columns) == ["bidder", "good", "quantity", "price", "payment"] and len(frame) == 6
    assert str(frame.dtypes["payment"]) == "int64"
    assert frame.groupby("bidder")["payment"].sum().to_dict() == {"Ann": 16, "Bo": 24, "Cleo": 8}
    empty = cleared(Auction(["A"], [1], [0])).to_frame()
    assert isinstance(empty, pandas.DataFrame) and len(empty) == 0 and str(empty.dtypes["price"]) == "int64"
    found: Any = trade_range(Auction(["A"], [0], [0]).bid("S", 1, A=3).bid("T", 1, A=8), {"S": [1]}, 9)
    assert found.to_frame()["payment"].tolist() == [-3, 3]
    with Session(STALLS) as session:
        session.clear()
        session.clear()
    assert session.to_frame()["outcome"].tolist() == [1] * 6 + [2] * 6


def test_a_frame_without_pandas(monkeypatch: pytest.MonkeyPatch) -> None:
    modules: Any = sys.modules
    monkeypatch.setitem(modules, "pandas", None)
    with pytest.raises(ImportError, match="pip install pandas"):
        cleared(STALLS).to_frame()


def kinds(auction: Auction) -> "list[tuple[str, int]]":
    return [(doubt.kind, len(doubt.bids)) for doubt in warnings(auction)]


WINE = Auction(["red", "white"], [12, 8], [50, 40])


def test_no_doubts() -> None:
    assert warnings(STALLS) == [] == warnings(WINE)
    assert warnings(WINE.bid("Ada", 20, red=50, white=39)) == []
    assert warnings(WINE.bid("Ada", 3, red=60).bid("Ada", 3, red=60).bid("Bo", 3, red=60)) == []
    # Where nothing is for sale, bidders swap what they own.
    assert warnings(Auction(["A"], [0], [0]).bid("S", 1, A=3)) == []


def test_doubts_about_a_text_and_a_file(tmp_path: Path) -> None:
    auction = WINE.bid("Ada", 13, red=60)
    path = tmp_path / "wine.csv"
    path.write_text(auction.text())
    assert warnings(auction.text()) == warnings(path) == warnings(auction) != []
    with pytest.raises(FormError):
        warnings("mix;1\n")


def test_a_weight_above_all_supply() -> None:
    assert warnings(WINE.bid("Ada", 13, red=60)) == [
        Doubt("weight", "Ada bids for 13 units of red, and 12 are for sale", (Bid("Ada", (60, None), 13),))]
    assert kinds(WINE.bid("Ada", 21, red=60, white=60)) == [("weight", 1)]


def test_doubts_about_one_unit() -> None:
    auction = Auction(["A", "B"], [0, 1], [0, 0]).bid("P", 1, A=5)
    assert str(warnings(auction)[0]) == "P bids for 1 unit of A, and 0 are for sale"


def test_a_bid_below_the_reserves() -> None:
    assert [str(doubt) for doubt in warnings(WINE.bid("Ada", 1, red=49, white=39))] == [
        "Ada bids below the reserve: 49 for red, 39 for white"]
    assert kinds(WINE.bid("Ada", 1, red=49, white=40)) == []


def test_names_that_differ_in_case_alone() -> None:
    auction = Auction(["a", "B", "A"], [9, 9, 9], [0, 0, 0]).bid("Ada", 1, B=1).bid("ADA", 1, B=2).bid("Bo", 1, B=2)
    assert [str(doubt) for doubt in warnings(auction)] == [
        "the goods a and A differ in case alone", "the bidders Ada and ADA differ in case alone"]
    assert kinds(auction) == [("names", 0), ("names", 2)]


def test_a_cap_that_never_binds() -> None:
    bids = [Bid("Ada", (60, None), 3), Bid("Ada", (None, 60), 2)]
    assert [kinds(Auction(WINE.goods, [12, 8], [50, 40], bids, {"Ada": cap})) for cap in (4, 5, 6)] == [
        [], [("cap", 2)], [("cap", 2)]]


def test_bids_that_cancel() -> None:
    auction = WINE.bid("Ada", 3, red=60).bid("Ada", -2, red=60).bid("Bo", -2, red=60)
    assert [str(doubt) for doubt in warnings(auction)] == [
        "bids of Ada on the same values cancel: 60, - have the weight 1 together"]
