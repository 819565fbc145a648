"""Faults and limits: each of them once, with its line and its field."""

import pickle
from pathlib import Path
from typing import Any, Callable, List, Optional, Tuple

import pytest

from product_mix import (
    Auction, Bid, Fault, Field, FormError, PastLimit, Session, Share, TextError, check, faults, solve, trade_range, upgrade,
    utility,
)
from product_mix._advice import _FAULTS, _LIMITS

from conftest import TOP
from test_solving import cleared, forged
from test_values import STALLS

HEAD = "mix,1\ngoods,red,white\nsupply,12,8\nreserve,50,40\n"
ORDERED = "mix,2\ngoods,A\nsupply,1\nreserve,0\nbid,P,1,5\nbid,Q,1,5\n"
CAPPED = "mix,3\ngoods,A\nsupply,3\nreserve,0\nbid,P,1,9\n"
OTTO = Auction(["permit"], [3], [2], [Bid("Otto", (5,), -1)])


def outcome_of_stalls(*changes: Tuple[str, str]) -> str:
    text = cleared(STALLS).text(STALLS)
    for old, new in changes:
        assert old in text
        text = text.replace(old, new, 1)
    return text


Call = Callable[[], Any]


def told(call: Call) -> TextError:
    with pytest.raises(TextError) as caught:
        call()
    return caught.value


def in_one_line(error: TextError) -> str:
    return " ".join(str(error).split())


FAULTS: List[Any] = [
    ("mix;1\ngoods;permit\n", 1, "header", 1, Field(1, "word", "mix;1")),
    ("\n,,\nmix,4\n", 1, "header", 3, Field(2, "format", "4")),
    ("mix,1\ngoods,A\nsupply,3\nbid,Ada,2,10\n", 4, "place", 4, Field(1, "word", "bid")),
    (HEAD + "bid,Ada,6,55\nend\n", 5, "fields", 5, None),
    (HEAD + "bid,7P,6,55,-\nend\n", 5, "name", 5, Field(2, "bidder", "7P")),
    (HEAD + "\n,,\r\nbid,Ada,6,-,4\nbid,Z\u00fcrich,6,55,-\nend\n", 6, "name", 8, Field(2, "bidder", "Z\u00fcrich")),
    ("mix,1\ngoods,red,red\n", 2, "repeated", 2, Field(3, "name of a good", "red")),
    (ORDERED + "order,P,P\nend\n", 7, "repeated", 7, Field(3, "bidder", "P")),
    (CAPPED + "cap,P,1\ncap,P,2\nend\n", 7, "repeated", 7, Field(2, "bidder", "P")),
    (HEAD + "bid,Ada,05,10,-\nend\n", 5, "number", 5, Field(3, "weight", "05")),
    (HEAD + "bid,Ada,5,-,10.50\nend\n", 5, "number", 5, Field(5, "value of white", "10.50")),
    (HEAD + "bid,Ada,5,,3\nend\n", 5, "number", 5, Field(4, "value of red", "")),
    (HEAD.replace("12", "1000001"), 3, "range", 3, Field(2, "supply of red", "1000001")),
    (HEAD + "bid,Ada,20000,10,5\nend\n", 5, "range", 5, Field(3, "weight", "20000")),
    (HEAD + "bid,Ada,2,10,%s\nend\n" % ("9" * 5000), 5, "range", 5, Field(5, "value of white", "9" * 5000)),
    (HEAD + "bid,Ada,0,10,5\nend\n", 5, "weight", 5, Field(3, "weight", "0")),
    (CAPPED + "bid,P,-1,3\ncap,P,1\nend\n", 7, "weight", 7, Field(2, "bidder", "P")),
    (HEAD + "bid,Ada,6,-,-\nend\n", 5, "nothing", 5, None),
    (HEAD + "bid,Ada,6,5,-\n\n\n", 6, "end", 8, None),
    ("", 1, "end", 2, None),
    (HEAD + "end\nend\n", 6, "after", 6, None),
    (ORDERED + "order,P,Z\nend\n", 7, "other", 7, Field(3, "bidder", "Z")),
    (CAPPED + "cap,Z,1\nend\n", 6, "other", 6, Field(2, "bidder", "Z")),
    # Fields in quotes may have line feeds in them, and a record ends where its quotes do.
    ('mix,1\ngoods,"red\n\nwine",white\n', 2, "name", 2, Field(2, "name of a good", "red\n\nwine")),
    ('"mix","1"\r\n"goods","A"\r\n"supply","1"\r\n"reserve","\n0"\r\nend\r\n', 4, "number", 4,
     Field(2, "reserve of A", "\n0")),
    ('mix,1\ngoods,A\nsupply,1\nreserve,0\nbid,"P\r\n\r",1,5\n', 5, "name", 5, Field(2, "bidder", "P\r\n\r")),
    ('mix,1\ngoods,A\n""\n"",""\nsupply,1\n\nreserve,x\n', 4, "number", 7, Field(2, "reserve of A", "x")),
    ('mix,1\ngoods,A\nsupply,"1\nreserve,0\n', 3, "number", 3, Field(2, "supply of A", "1\nreserve,0\n")),
]


@pytest.mark.parametrize("text, row, code, line, field", FAULTS,
                         ids=["%s-%d" % (case[2], at) for at, case in enumerate(FAULTS)])
def test_a_fault(text: str, row: int, code: str, line: int, field: Optional[Field]) -> None:
    fault = told(lambda: solve(text.encode()))
    assert isinstance(fault, Fault)
    assert (fault.row, fault.code, fault.line, fault.field) == (row, code, line, field)
    assert fault.source == "auction" and fault.advice
    if code != "end":
        assert fault.text and fault.text.split("\n")[0] in text
    assert "line %d (row %d): %s" % (line, row, code) in str(fault) and fault.advice in in_one_line(fault)


@pytest.mark.parametrize("call, source, line, code, field", [
    (lambda: upgrade(STALLS.text(2), cleared(STALLS)), "auction", 1, "header", Field(2, "format", "2")),
    (lambda: utility(STALLS, [2_000_001, 0]), "prices", 1, "range", Field(2, "price of inside", "2000001")),
    (lambda: check(STALLS, outcome_of_stalls(("outcome,1", "outcome,3"))), "outcome", 1, "range", Field(2, "version", "3")),
    (lambda: check(STALLS, outcome_of_stalls(("share,Ann", "share,Bo"))), "outcome", 4, "other", Field(2, "bidder", "Bo")),
    (lambda: check(STALLS, outcome_of_stalls(("tight,Ann,outside", "tight,Ann,inside"))), "outcome", 9, "other",
     Field(3, "good", "inside")),
    (lambda: check(STALLS, outcome_of_stalls(("price,16,8", "price,16,1000001"))), "outcome", 3, "range",
     Field(3, "price of outside", "1000001")),
    (lambda: check(STALLS, outcome_of_stalls(("outcome,1", "outcome,2\norder,Bo,Ann,Cleo"))), "outcome", 2, "other",
     Field(2, "bidder", "Bo")),
    (lambda: check(STALLS, outcome_of_stalls(("\nend", "\nend\nend"))), "outcome", 15, "after", None),
    (lambda: check(STALLS, "outcome,1\n"), "outcome", 2, "end", None),
    (lambda: check(STALLS, forged(STALLS, shares={"Ann": Share({"inside": 1, "outside": -1}, 16)})), "outcome", 4, "range",
     Field(4, "units of outside", "-1")),
    (lambda: check(OTTO, "outcome,1\nrefused,Ada,-,permit,5,-1\nend\n"), "outcome", 2, "other", Field(2, "bidder", "Ada")),
    (lambda: check(OTTO, "outcome,1\nrefused,Otto,-,permits,5,-1\nend\n"), "outcome", 2, "other",
     Field(4, "second choice", "permits")),
    (lambda: check(OTTO, "outcome,1\nrefused,Otto,permit,-,5,-1\nend\n"), "outcome", 2, "other",
     Field(4, "second choice", "-")),
    (lambda: trade_range(OTTO, {"Ada": [1]}, 9), "range", 1, "other", Field(2, "bidder", "Ada")),
    (lambda: trade_range(OTTO, {"Otto": [1]}, 9), "range", 1, "other", Field(3, "units of permit", "1")),
    (lambda: trade_range(OTTO, {}, 1_000_001), "range", 1, "range", Field(2, "ceiling of permit", "1000001")),
])
def test_a_fault_of_another_part(call: Call, source: str, line: int, code: str, field: Optional[Field]) -> None:
    fault = told(call)
    assert isinstance(fault, Fault)
    assert (fault.source, fault.line, fault.code, fault.field) == (source, line, code, field)


@pytest.mark.parametrize("call, advice", [
    (lambda: solve(STALLS.bid("Dan", 1, inside=-5)), "The number is negative"),
    (lambda: solve(Auction(["A"], [1], [-1])), "The number is negative"),
    (lambda: solve(STALLS.bid("Dan", -20000, inside=5)), "The number is too small or too large"),
    (lambda: solve(HEAD + "bid,Ada,1,2000000,5\nend\n"), "The number is too small or too large"),
    (lambda: trade_range(OTTO, {"Otto": [-1]}, 9), "The number is negative"),
    (lambda: solve(ORDERED + "order,P\nend\n"), "`order` names every bidder once."),
    (lambda: solve(HEAD + "bid,Ada,6,55\nend\n"), "The row has too few fields or too many."),
    (lambda: trade_range(OTTO, {"Ada": [1]}, 9), "No bid stands under this name. Copy it from the bids."),
    (lambda: trade_range(OTTO, {"Otto": [1]}, 9), "A unit is owned of a good whose reserve isn't 0."),
])
def test_advice_that_knows_the_field(call: Call, advice: str) -> None:
    assert told(call).advice.startswith(advice)


@pytest.mark.parametrize("call, why", [
    (lambda: check(cleared(STALLS), STALLS), "an auction stands in the place of the outcome"),  # type: ignore[arg-type]
    (lambda: upgrade(cleared(STALLS), STALLS), "an auction stands in the place of the outcome"),  # type: ignore[arg-type]
    (lambda: solve(cleared(STALLS)), "an outcome stands in the place of the auction"),  # type: ignore[arg-type]
])
def test_arguments_in_another_order(call: Call, why: str) -> None:
    with pytest.raises(FormError) as caught:
        call()
    assert str(caught.value) == why + ": the auction is the first argument, its outcome the second"


def test_a_fault_of_a_session() -> None:
    session = Session(STALLS)
    session.clear()
    session.add("Dan", 0, inside=4)
    fault = told(session.close)
    assert isinstance(fault, Fault) and (fault.source, fault.line, fault.code) == ("session", 2, "weight")
    assert fault.bid == Bid("Dan", (4, None), 0)
    session = Session(STALLS)
    session.drop("Dan")
    fault = told(session.close)
    assert isinstance(fault, Fault) and (fault.line, fault.code, fault.field) == (1, "other", Field(2, "bidder", "Dan"))


def test_a_fault_of_a_text_that_is_also_needed_as_a_value() -> None:
    """Such a text is read here, and what is wrong with it the program says, as it always does."""
    broken = STALLS.text().replace("24,16", "24,16.5")
    for call in (lambda: Session(broken), lambda: check(broken, cleared(STALLS)), lambda: upgrade(broken, cleared(STALLS))):
        fault = told(call)
        assert isinstance(fault, Fault) and (fault.source, fault.line, fault.code) == ("auction", 6, "number")
        assert fault.field == Field(5, "value of outside", "16.5")
    for call in (lambda: utility("mix;1\n", {"A": 1}), lambda: trade_range("mix;1\n", {"P": {"A": 1}}, 9)):
        assert told(call).line == 1
    with pytest.raises(FormError):
        utility(STALLS.text(), {"A": 1})


def test_a_fault_names_its_bid_and_its_file(tmp_path: Path) -> None:
    assert told(lambda: solve(STALLS.bid("Dan", 0, inside=3))).bid == Bid("Dan", (3, None), 0)
    assert told(lambda: solve(STALLS.bid("Dan", 1, inside=-3))).field == Field(4, "value of inside", "-3")
    path = tmp_path / "broken auction.csv"
    path.write_text(STALLS.text().replace("24,16", "24,16.5"))
    fault = told(lambda: solve(path))
    assert fault.source == str(path) and str(fault).startswith("%s, line 6 (row 6): number" % path)
    # The outcome stands in a file of its own, whose last line isn't ended, after an auction of which the same is so.
    outcome = tmp_path / "outcome.csv"
    outcome.write_bytes(b"\xef\xbb\xbf" + outcome_of_stalls(("16,8", "16,x")).rstrip().encode())
    fault = told(lambda: check(STALLS.text().rstrip(), outcome))
    assert isinstance(fault, Fault)
    assert (fault.source, fault.line, fault.row, fault.code) == (str(outcome), 3, 14, "number")


def bids(count: int, weight: int, bidder: str) -> List[Bid]:
    return [Bid(bidder.format(k), (k,), weight) for k in range(1, count + 1)]


LIMITS: List[Any] = [
    (b"\0" * 16_777_217, 0, "bytes", 16_777_216),
    (b"mix,1\ngoods,A,B,C,D,E,F\n", 2, "goods", 5),
    (b"mix,2\ngoods,A,B,C,D,E,F,G,H,I\n", 2, "goods", 8),
    (Auction(["A"], [1], [0], bids(65, 1, "B{}")).text(1), 69, "bidders", 64),
    (Auction(["A"], [1], [0], bids(257, 1, "B{}")), 261, "bidders", 256),
    (Auction(["A"], [1], [0], bids(401, 1, "Ada")), 405, "bids", 400),
    (Auction(["A"], [1], [0], bids(13, -1, "Ada")).text(1), 17, "negatives", 12),
    (Auction(list("ABCDEFGH"), [1] * 8, [0] * 8, [Bid("Ada", (5, *[k] * 7), -1) for k in range(1, 9)]), 12, "cells",
     4_194_304),
]


# The texts themselves would be too long for names, which are handed to the program in a variable.
@pytest.mark.parametrize("text, row, quantity, limit", LIMITS,
                         ids=["%s-%d" % (case[2], at) for at, case in enumerate(LIMITS)])
def test_a_limit(text: Any, row: int, quantity: str, limit: int) -> None:
    passed = told(lambda: solve(text))
    assert isinstance(passed, PastLimit)
    assert (passed.row, passed.quantity, passed.limit) == (row, quantity, limit)
    assert passed.line == (row or None) and str(limit) in str(passed) and passed.advice in in_one_line(passed)


def test_too_many_outcomes() -> None:
    session = Session(STALLS)
    for _ in range(65):
        session.clear()
    passed = told(session.close)
    assert isinstance(passed, PastLimit) and (passed.quantity, passed.limit, passed.line) == ("clears", 64, 65)


def told_of(document: str) -> List[str]:
    """The codes of which a part of docs/ERRORS.md tells."""
    return sorted(line.strip("# `") for line in document.splitlines() if line.startswith("### "))


def test_every_code_has_its_advice_and_comes_up_here() -> None:
    document = (TOP / "docs" / "ERRORS.md").read_text().split("## A list that")[0]
    of_faults, of_limits = document.split("\n## Limits\n")
    assert told_of(of_faults) == sorted({key.split()[0] for key in _FAULTS}) == sorted({case[2] for case in FAULTS})
    # Another test asks a session for too many outcomes.
    assert told_of(of_limits) == sorted(_LIMITS) == sorted({case[2] for case in LIMITS} | {"clears"})


def test_errors_go_through_a_pool_and_back() -> None:
    for call in (lambda: solve("mix;1\n"), lambda: solve(Auction(list("ABCDEFGHI"), [0] * 9, [0] * 9))):
        error = told(call)
        again = pickle.loads(pickle.dumps(error))
        assert type(again) is type(error) and str(again) == str(error) and again.__dict__ == error.__dict__


# ------------------------------------------------------------------------------------------------------ all of a text

def codes(text: str, **how: Any) -> List[Tuple[Optional[int], str]]:
    return [(error.line, getattr(error, "code", None) or getattr(error, "quantity")) for error in faults(text, **how)]


def test_no_faults() -> None:
    found = faults(STALLS.text())
    assert (len(found), found.sure, found.whole, str(found)) == (0, 0, True, "no faults")


def test_faults_of_a_value_have_their_bids() -> None:
    auction = Auction(["A"], [1], [0]).bid("X", 0, A=5).bid("Y", 1, A=5).bid("Z", 1, A=-5).bid("X", 0, A=6)
    found = faults(auction)
    assert [(error.source, error.line, error.bid) for error in found] == [
        ("auction", 5, auction.bids[0]), ("auction", 7, auction.bids[2]), ("auction", 8, auction.bids[3])]
    assert found.sure == 3 and len(faults(STALLS)) == 0
    with pytest.raises(FormError):
        faults(auction.bid("Ada Lovelace", 1, A=5))


def test_all_faults_of_bids_are_sure() -> None:
    bad = "bid,Ada L,6,55,-\n\nbid,Bo,1.5,3,4\nbid,Bo,1,3,4\nbid,Cy,,-,-\nbid,Cy,1,-,-\nend\n"
    text = HEAD.replace("12,8", "12.5,8") + bad
    found = faults(text)
    assert codes(text) == [(3, "number"), (5, "name"), (7, "number"), (9, "number"), (10, "nothing")]
    assert found.sure == 5 and found.whole
    assert [error.row for error in found] == [3, 5, 6, 8, 9]
    assert found[1].field == Field(2, "bidder", "Ada L")


def test_what_depends_on_a_row_that_failed_is_a_guess() -> None:
    # Without Q's only bid the order names somebody who doesn't bid; mended, it may be right.
    text = ORDERED.replace("bid,Q,1", "bid,Q,0") + "order,Q,P\nend\n"
    found = faults(text)
    assert codes(text) == [(6, "weight"), (7, "fields")]
    assert found.sure == 1 and found.whole
    assert "a guess" in str(found).splitlines()[4]


def test_rows_of_the_head_are_put_right() -> None:
    text = "mix,4\ngoods,red,red\nsupply,1\nreserve,0,x\nbid,Ada,0,5,5\nend\n"
    assert codes(text) == [(1, "header"), (2, "repeated"), (3, "fields"), (4, "number"), (5, "weight")]
    assert faults(text).sure == 1
    missing = "mix,1\ngoods,A\nsupply,3\nbid,Ada,0,10\nreserve,2\nend\n"
    assert codes(missing) == [(4, "place"), (4, "weight"), (5, "place")]


def test_limits_are_found_too() -> None:
    assert codes(Auction(["A"], [1], [0], bids(402, 1, "Ada")).text()) == [(405, "bids"), (406, "bids")]


def test_where_the_search_ends() -> None:
    many = HEAD + "bid,Ada,0,1,1\n" * 30 + "end\n"
    found = faults(many)
    assert len(found) == 20 and not found.whole and str(found).endswith("there may be more")
    assert len(faults(many, most=3)) == 3 and len(faults(many, most=99)) == 30
    assert codes(HEAD + "bid,Ada,0,1,1\n") == [(5, "weight"), (6, "end")] and faults(HEAD).whole
    assert codes("mix;1\ngoods;A\n") == [(1, "header")] and not faults("mix;1\n").whole
    assert codes(HEAD + "end\nend\nend\n") == [(6, "after")]


def test_faults_of_what_another_command_reads() -> None:
    text = STALLS.text() + outcome_of_stalls(("16,8", "16,x"), ("share,Bo", "share,Bob"))
    found = faults(text, "check")
    assert [error.line for error in found][:2] == [14, 15] and found.sure == 1
