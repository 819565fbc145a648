"""A section for each bidder: what it gets, and how each of its bids stands."""

from dataclasses import replace
from typing import Dict, List, Sequence, Tuple

from .._auction import Auction, Bid
from .._explaining import Sentences, listed, units
from .._outcome import Cleared
from .._standing import FILLED, PARTLY, UNFILLED, Standing, standings
from ..words._forms import Cell, Table
from .board import counted, in_currency
from .facts import Facts
from .html import Html, element, joined
from .tables import table_of

# Beyond so many bids in all, of each bidder so many at most stand on the page.
MOST_BIDS, MOST_BIDS_OF_ONE = 4000, 10


def bidders_section(facts: Facts, outcome: Cleared) -> Html:
    """The section, with one for each bidder in it."""
    shorter = len(facts.auction.bids) > MOST_BIDS
    lead = ["A bid takes what leaves most of its value at the prices, or nothing. An edge is where two choices leave as much."]
    if shorter:
        lead.append(
            "The %s bids are too many for a page. So a bidder's table has at most %d of them: those at an edge first, then those "
            "that came nearest to being filled, then those that leave least. `python3 -m product_mix explain auction.csv --bidder "
            "NAME` tells of all." % (format(len(facts.auction.bids), ","), MOST_BIDS_OF_ONE))
    own = _bids_by_bidder(facts.auction)
    sections = [_section(facts, outcome, replace(facts.auction, bids=bids), name, shorter) for name, bids in own.items()]
    return element("section", joined([element("h2", "The bidders", id="of-bidders"), element("p", " ".join(lead)), *sections]))


def _bids_by_bidder(auction: Auction) -> Dict[str, List[Bid]]:
    own: Dict[str, List[Bid]] = {name: [] for name in auction.bidders}
    for bid in auction.bids:
        own[bid.bidder].append(bid)
    return own


def _section(facts: Facts, outcome: Cleared, own: Auction, name: str, shorter: bool) -> Html:
    """What is told of one bidder, of whom alone the bids are at hand."""
    number = facts.numbers[name]
    found = list(enumerate(standings(own, outcome, name), 1))
    some = sorted(found, key=_nearness)[:MOST_BIDS_OF_ONE] if shorter else found
    table = _table(facts, outcome, own, name, sorted(some))
    return element("section", joined([
        element("h3", facts.shown.bidder(name), id="bidder-%d" % number), element("p", _share(facts, outcome, name)),
        element("p", _counts([standing for _, standing in found])), table_of("bids-of-%d" % number, table),
    ]))


def _nearness(numbered: Tuple[int, Standing]) -> Tuple[int, int, int]:
    """By which bids come first: those at an edge, then those that lack least to be filled, then those that leave least."""
    number, standing = numbered
    if standing.kind == PARTLY:
        return 0, 0, number
    return (2, standing.gain, number) if standing.kind == FILLED else (1, 0, number)


def _share(facts: Facts, outcome: Cleared, name: str) -> str:
    share, shown, auction = outcome.shares[name], facts.shown, facts.auction
    got = listed(["%d of %s" % (count, shown.good(good)) for good, count in share.bundle.items() if count])
    told = ["Gets %s and pays %s." % (got, shown.money(share.payment)),
            "By its bids that is worth %s more than it pays, and no other bundle leaves more at these prices."
            % shown.money(facts.gains[name])]
    if name in auction.caps:
        told.append("It takes at most %s of all goods together." % units(auction.caps[name]))
    if len(facts.numbers) > 1:
        told.append("Where several bundles are as good, it is served as number %d of %d."
                    % (facts.ranks[name], len(facts.ranks)))
    return " ".join(told)


def _counts(found: Sequence[Standing]) -> str:
    """How many of its bids stand how."""
    kinds = [standing.kind for standing in found]
    told = [(FILLED, "filled"), (PARTLY, "at the edge or in part"), (UNFILLED, "not filled")]
    return "Of %s %s." % (counted(len(found), "bid", "bids"),
                          listed(["%d %s" % (kinds.count(kind), words) for kind, words in told if kind in kinds]))


def _table(facts: Facts, outcome: Cleared, own: Auction, name: str, found: Sequence[Tuple[int, Standing]]) -> Table:
    sentences = Sentences(own, facts.shown)
    rows: List[Sequence[Cell]] = [
        [number, standing.bid.weight, sentences.standing(standing, outcome.prices),
         *[None if value is None else facts.shown.amount(value) for value in standing.bid.values]] for number, standing in found]
    columns = ["bid", "quantity", "how it stands", *["value of " + facts.shown.good(good) for good in own.goods]]
    return Table("Bids of %s%s" % (facts.shown.bidder(name), in_currency(facts)), columns, rows)
