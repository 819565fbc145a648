"""Values and their texts."""

import pickle
import re
from pathlib import Path
from typing import Any, Callable, Tuple

import pytest
from hypothesis import given

from product_mix import Auction, Bid, Cleared, Facet, FormError, Outcome, Refused, Share, Tight, upgrade
from product_mix._text import rows_of

from conftest import EXAMPLES
from strategies import auctions

STALLS = Auction(
    ["inside", "outside"], [2, 2], [10, 6],
    [Bid("Ann", (40, None)), Bid("Bo", (24, 16), 2), Bid("Cleo", (16, None)), Bid("Cleo", (None, 10)),
     Bid("Cleo", (30, 24)), Bid("Cleo", (16, 10), -1)])


def parts(folder: Path) -> Tuple[bytes, bytes]:
    """The auction of an example, and what stands after it."""
    text = (folder / "auction.csv").read_bytes()
    end = re.search(rb"^end,*\r?\n", text, re.MULTILINE)
    assert end is not None
    return text[:end.end()], text[end.end():]


def as_written(text: bytes) -> bytes:
    """The text without what a spreadsheet adds: a mark, carriage returns, empty last fields, blank rows."""
    return b"".join(b"%s\n" % ",".join(row.fields).encode() for row in rows_of(text))


def format_of(text: bytes) -> int:
    return int(as_written(text).split(b"\n")[0].split(b",")[1])


@pytest.mark.parametrize("folder", EXAMPLES, ids=[folder.name for folder in EXAMPLES])
def test_an_example_is_read_and_written_again(folder: Path) -> None:
    text, _ = parts(folder)
    written = Auction.read(text).text(format_of(text)).encode()
    assert written == as_written(text)
    # All but the one that a spreadsheet saved.
    assert written == text or folder.name == "spreadsheet"


def test_an_outcome_of_an_example_is_read_and_written_again() -> None:
    tried = 0
    for folder in EXAMPLES:
        text, rest = parts(folder)
        auction = Auction.read(text)
        for outcome in (rest, (folder / "expected").read_bytes()):
            if outcome.startswith(b"outcome") and outcome.count(b"outcome,") == 1:
                tried += 1
                assert Outcome.read(outcome, auction).text(auction, format_of(text)).encode() == outcome
    assert tried >= 10


@given(auctions())
def test_what_is_written_is_read_back(auction: Auction) -> None:
    for format in range(auction.format, 4):
        assert Auction.read(auction.text(format)) == auction
        assert Auction.read(auction.text(format).encode()) == auction


@given(auctions(most_goods=5, changed=False))
def test_the_program_reads_what_is_written(auction: Auction) -> None:
    nothing = {good: 0 for good in auction.goods}
    tight = tuple(Tight(bidder, good, frozenset(), frozenset()) for bidder in auction.bidders for good in auction.goods)
    outcome = Cleared(nothing, {bidder: Share(nothing, 0) for bidder in auction.bidders}, nothing, tight)
    upgraded, same = upgrade(auction, outcome)
    # The program writes the bids bidder by bidder.
    bids = [bid for bidder in auction.bidders for bid in auction.bids if bid.bidder == bidder]
    assert upgraded == Auction(auction.goods, auction.supply, auction.reserve, bids, {}, auction.bidders)
    assert same == outcome


def test_a_value_is_what_its_parts_are() -> None:
    assert Bid("Ann", [1, None], 2) == Bid("Ann", (1, None), 2)
    auction = Auction(["A"], [1], [0]).bid("X", 1, A=5).bid("Y", 2, [3])
    assert auction == Auction(("A",), (1,), (0,), (Bid("X", (5,)), Bid("Y", (3,), 2)))
    assert hash(auction) == hash(pickle.loads(pickle.dumps(auction)))
    assert auction.without("X").bidders == ("Y",)
    with pytest.raises(AttributeError):
        auction.goods = ("B",)  # type: ignore[misc]


def test_bids_by_the_names_of_goods() -> None:
    assert Auction(["A", "B"], [1, 1], [0, 0]).bid("X", 1, B=5).bids == (Bid("X", (None, 5)),)
    with pytest.raises(ValueError, match="no good is named C"):
        Auction(["A"], [1], [0]).bid("X", 1, C=5)
    with pytest.raises(ValueError, match="not both"):
        Auction(["A"], [1], [0]).bid("X", 1, [5], A=5)


def test_a_new_bidder_is_last_in_the_tie_order() -> None:
    auction = Auction(["A"], [1], [0], order=["Y", "X"]).bid("X", 1, A=5).bid("Z", 1, A=4)
    assert auction.tie_order == ("Y", "X", "Z")
    assert auction.without("X").order == ("Y", "Z")


@pytest.mark.parametrize("auction, format", [
    (Auction(["A"], [1], [0]), 1),
    (Auction(list("ABCDE"), [1] * 5, [0] * 5), 1),
    (Auction(list("ABCDEF"), [1] * 6, [0] * 6), 2),
    (Auction(["A"], [1], [0], [Bid("B%d" % k, [1]) for k in range(64)]), 1),
    (Auction(["A"], [1], [0], [Bid("B%d" % k, [1]) for k in range(65)]), 2),
    (Auction(["A"], [1], [0], [Bid("B", [k], -1) for k in range(12)]), 1),
    (Auction(["A"], [1], [0], [Bid("B", [k], -1) for k in range(13)]), 2),
    (Auction(["A"], [1], [0], [Bid("B", [1])], order=["B"]), 2),
    (Auction(["A"], [1], [0], [Bid("B", [1])], caps={"B": 1}), 3),
])
def test_the_least_format(auction: Auction, format: int) -> None:
    assert auction.format == format
    assert auction.text().startswith("mix,%d\n" % format)


class Digit:
    """A whole number of another kind, as numpy has them."""

    def __index__(self) -> int:
        return 7


def test_whole_numbers_of_other_kinds() -> None:
    auction = Auction(["A"], [Digit()], [0], [Bid("X", [Digit()], Digit())])  # type: ignore[list-item,arg-type]
    assert "supply,7\n" in auction.text() and "bid,X,7,7\n" in auction.text()


@pytest.mark.parametrize("bid, why", [
    (Bid("Ada Lovelace", (1, 2)), "'Ada Lovelace' is no name"),
    (Bid("7P", (1, 2)), "'7P' is no name"),
    (Bid("X" * 33, (1, 2)), "is no name"),
    (Bid("X\n", (1, 2)), "is no name"),
    (Bid("X", (1,)), "1 value for 2 goods"),
    (Bid("X", (1, 2, 3)), "3 values for 2 goods"),
    (Bid("X", (1.5, 2)), "1.5 is no whole number"),  # type: ignore[arg-type]
    (Bid("X", (True, 2)), "True is no number"),
    (Bid("X", ("5", 2)), "'5' is no whole number"),  # type: ignore[arg-type]
    (Bid("X", (1, 2), 2.0), "2.0 is no whole number"),  # type: ignore[arg-type]
])
def test_a_bid_that_has_no_text(bid: Bid, why: str) -> None:
    with pytest.raises(ValueError, match=re.escape(why)) as caught:
        Auction(["A", "B"], [1, 1], [0, 0], [Bid("X", (1, 2)), bid]).text()
    assert isinstance(caught.value, FormError) and caught.value.bid is bid
    assert str(caught.value).startswith("bid 2, of %r: " % bid.bidder)


def test_a_number_that_is_too_long_to_write() -> None:
    digits = 5000
    try:
        str(10 ** digits)
    except ValueError:
        with pytest.raises(ValueError, match="too long"):
            Auction(["A"], [1], [0]).bid("X", 1, A=10 ** digits).text()
    else:  # Pythons before 3.10.7 write it
        assert "0" * digits in Auction(["A"], [1], [0]).bid("X", 1, A=10 ** digits).text()


@pytest.mark.parametrize("auction, why", [
    (Auction(["A B"], [1], [0]), "'A B' is no name"),
    (Auction(["A"], [1, 2], [0]), "supply has 2 numbers for 1 good"),
    (Auction(["A"], [1], []), "reserve has 0 numbers for 1 good"),
    (Auction(["A"], [1], [0], order=["7"]), "'7' is no name"),
])
def test_an_auction_that_has_no_text(auction: Auction, why: str) -> None:
    with pytest.raises(ValueError, match=re.escape(why)):
        auction.text()


LISTED = "write a list of numbers, in the order of the goods"


@pytest.mark.parametrize("make, why", [
    (lambda: Auction("tin", [1], [0]), "goods is a str: write a list of names"),
    (lambda: Auction(["tin"], {"tin": 1}, [0]), "supply is a dict: " + LISTED),
    (lambda: Auction(["tin"], [1], 5), "reserve is an int: " + LISTED),
    (lambda: Auction(["tin"], [1], [0], order="Ann"), "order is a str: write a list of names"),
    (lambda: Auction(["tin"], [1], [0], Bid("Ann", [5])), "bids is a Bid: write a list of Bid(bidder, values, weight)"),
    (lambda: Auction(["tin"], [1], [0], [("Ann", [5], 1)]), "bid 1 is a tuple: write Bid(bidder, values, weight)"),
    (lambda: Bid("Ann", {"tin": 5}), "values is a dict: " + LISTED),
    (lambda: Auction(["tin"], [1], [0]).bid("Ann", 1, {"tin": 5}), "values is a dict: " + LISTED),
])
def test_what_is_no_list(make: Callable[[], Any], why: str) -> None:
    with pytest.raises(FormError) as caught:
        make()
    assert str(caught.value) == why


def test_a_format_that_cannot_say_it() -> None:
    with pytest.raises(ValueError, match="caps can't be said in format 2"):
        Auction(["A"], [1], [0], caps={"B": 1}).text(2)
    with pytest.raises(ValueError, match="a tie order can't be said in format 1"):
        Auction(["A"], [1], [0], order=[]).text(1)


@pytest.mark.parametrize("format", [0, 4, "2"])
def test_a_format_that_does_not_exist(format: Any) -> None:
    with pytest.raises(FormError, match="there is no format %r" % format):
        STALLS.text(format)
    with pytest.raises(FormError, match="there is no format %r" % format):
        Cleared({}, {}, {}, ()).text(STALLS, format)


@pytest.mark.parametrize("text, line, why", [
    ("mix,4\nend\n", 1, "no such format"),
    ("mix,1\ngoods,A\n\nsupply,1.5\n", 4, "'1.5' is no number"),
    ("mix,1\ngoods,A\nsupply,1\nreserve,0\nbid,X,1\nend\n", 5, "there should be 3 fields after the word"),
    ("mix,1,2\ngoods,A\n", 1, "there should be 1 field after the word"),
    ("mix,1\ngoods,A\nsupply,1\nreserve,0\nbid,X,1,05\nend\n", 5, "'05' is no number"),
    ("mix,1\ngoods,A\nsupply,1\nreserve,0\norder,X\nend\n", 5, "a row 'end' should stand here"),
    ("mix,1\ngoods,A\nsupply,1\nreserve,0\nend\nend\n", 6, "no row should stand here"),
    ("mix,3\ngoods,A\nsupply,1\nreserve,0\ncap,X,1\ncap,X,2\nend\n", 6, "X has two caps"),
    ("mix,1\ngoods,A\n", None, "the text ends where a row 'supply' should stand"),
])
def test_a_text_that_is_no_auction(text: str, line: int, why: str) -> None:
    with pytest.raises(FormError, match=re.escape(why)) as caught:
        Auction.read(text)
    assert caught.value.line == line


def test_texts_and_files(tmp_path: Path) -> None:
    path = tmp_path / "auction of stalls.csv"
    path.write_bytes(b"\xef\xbb\xbf" + STALLS.text().replace("\n", ",,\r\n").encode())
    assert Auction.read(path) == Auction.read(str(path)) == Auction.read(path.read_bytes()) == STALLS
    with pytest.raises(FileNotFoundError):
        Auction.read("no file of this name")


def test_a_text_as_spreadsheets_save_it() -> None:
    quoted = '"mix","1"\r"goods","A"\r\n\n"supply",1,,\n,,\nreserve,"0"\nbid,X,"1",5\nend'
    assert Auction.read(quoted) == Auction(["A"], [1], [0]).bid("X", 1, A=5)


def test_a_refusal_is_read_and_written() -> None:
    auction = Auction(["A", "B"], [1, 1], [0, 0])
    refused = Outcome.read("outcome,1\nrefused,X,-,B,5,-5,-1\nend\n", auction)
    assert refused == Refused("X", Facet((None, "B"), {"A": 5, "B": -5}, -1))
    assert refused.text(auction) == "outcome,1\nrefused,X,-,B,5,-5,-1\nend\n"
    assert not refused.cleared


@pytest.mark.parametrize("text", [
    "outcome,3\nend\n", "outcome,1\ncleared\nprice,1,2\n", "outcome,1\nrefused,X,-,A,1\nend\n", "yes\n",
    "outcome,1\ncleared\nprice,1\nshare,X,1,1\nshare,X,1,1\nreturn,0\nend\n",
    "outcome,1\ncleared\nprice,1\nreturn,0\ntight,X,A,4,0\nend\n",
    "outcome,1\ncleared\nprice,1\nreturn,0\ntight,X,A,-1,0\nend\n",
    "outcome,1\ncleared\nprice,1\nreturn,0\ntight,X,A,03,0\nend\n",
    "outcome,1\ncleared\nprice,1\nreturn,0\ntight,X,A,0,100\nend\n",
])
def test_a_text_that_is_no_outcome(text: str) -> None:
    with pytest.raises(FormError):
        Outcome.read(text, ["A"])


def test_an_outcome_of_other_goods_has_no_text() -> None:
    outcome = Cleared({"B": 1}, {}, {"B": 0}, ())
    with pytest.raises(FormError, match="not a number for each of the goods A"):
        outcome.text(Auction(["A"], [1], [0]))
