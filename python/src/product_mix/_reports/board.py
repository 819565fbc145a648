"""The first page, for a board: what was for sale, at which prices it went, who got what, and how to repeat it."""

from typing import List, Optional, Sequence

from .._explaining import Sentences, listed
from .._outcome import Cleared, Refused
from ..words._common import verdict_words
from ..words._forms import Cell, Table
from ..words.solve import bidders_table, goods_table
from .facts import Facts
from .html import Html, element, joined
from .tables import table_of


def board(facts: Facts) -> Html:
    """The section."""
    return element("section", joined([
        element("h1", facts.title), *_lead(facts), _figures(facts), *_tables(facts), _verdict(facts), *_repeating(facts),
    ]), class_="board")


def bidder_link(facts: Facts, bidder: str) -> Html:
    """The bidder's name, which leads to its section."""
    return element("a", facts.shown.bidder(bidder), href="#bidder-%d" % facts.numbers[bidder])


def counted(count: int, one: str, more: str) -> str:
    """A number of things, in words for one and for more.

    >>> counted(1, "bid", "bids"), counted(1200, "bid", "bids")
    ('1 bid', '1,200 bids')
    """
    return "%s %s" % (format(count, ","), one if count == 1 else more)


def _lead(facts: Facts) -> List[Html]:
    shown, outcome = facts.shown, facts.outcome
    if isinstance(outcome, Refused):
        first, *rest = Sentences(facts.auction, shown).refusal(outcome)
        return [element("p", element("strong", "Nothing clears. "), first, " ", " ".join(rest[:2]), class_="lead"),
                element("ul", joined([element("li", line.lstrip(" -")) for line in rest[2:-1]])), element("p", rest[-1])]
    if not facts.verdict:
        return [element("p", element("strong", "The outcome isn't true, ", class_="bad"), "as the checker says below. What stands "
                        "here is what it claims; the rest of a report is left out.", class_="lead")]
    prices = listed(["%s costs %s" % (shown.good(good), shown.money(price)) for good, price in outcome.prices.items()])
    return [element("p", "%s a unit, whoever takes it. These are the lowest prices, none below its reserve, at which all bidders "
                    "can be given what they like best." % prices, class_="lead")]


def _figures(facts: Facts) -> Html:
    """The few numbers that say how large it is, and what came of it."""
    auction, outcome = facts.auction, facts.outcome
    pairs = [("goods", len(auction.goods)), ("bidders", len(auction.bidders)), ("bids", len(auction.bids))]
    told = [(name, format(count, ",")) for name, count in pairs]
    if isinstance(outcome, Cleared):
        sold = "%s of %s" % (format(sum(outcome.sold.values()), ","), format(sum(auction.supply), ","))
        told += [("units sold", sold), ("revenue", facts.shown.money(outcome.revenue))]
    return element("dl", joined([element("div", element("dt", name), element("dd", content)) for name, content in told]))


def _tables(facts: Facts) -> List[Html]:
    return [table_of("goods", _goods(facts)), _bidders(facts)]


def _goods(facts: Facts) -> Table:
    auction, outcome, shown = facts.auction, facts.outcome, facts.shown
    if isinstance(outcome, Refused):
        rows: Sequence[Sequence[Cell]] = [
            [shown.good(good), supply, shown.amount(reserve)]
            for good, supply, reserve in zip(auction.goods, auction.supply, auction.reserve)]
        return Table("Goods" + in_currency(facts), ["good", "for sale", "reserve"], rows)
    table = goods_table(auction, outcome, shown)
    paid = [outcome.prices[good] * outcome.sold[good] for good in auction.goods]
    rows = [[*row, shown.amount(money)] for row, money in zip(table.rows, paid)]
    total: Sequence[Cell] = ["together", sum(auction.supply), "", "", sum(outcome.sold.values()), sum(outcome.unsold.values()),
                             shown.amount(outcome.revenue)]
    return Table("Goods, prices and what was sold" + in_currency(facts), [*table.columns, "brings"], rows,
                 total if len(rows) > 1 else None)


def in_currency(facts: Facts) -> str:
    """What the caption of a table with amounts ends with."""
    return ", in %s" % facts.shown.currency if facts.shown.currency else ""


def _bidders(facts: Facts) -> Html:
    auction, outcome, shown = facts.auction, facts.outcome, facts.shown
    if not auction.bids:
        return element("p", "Nobody bids.")
    if isinstance(outcome, Cleared):
        # How much each asked for is only known where all lists stand for demands.
        most = facts.most or {name: 0 for name in auction.bidders}
        table = bidders_table(outcome, most, shown)
        rows: List[List[Cell]] = [[_name(facts, name), *row[1:]] for name, row in zip(outcome.shares, table.rows)]
        whole = table._replace(title="Who gets what" + in_currency(facts), rows=rows)
        return table_of("bidders", whole if facts.most else _without(whole, 1))
    counts = {name: 0 for name in auction.bidders}
    for bid in auction.bids:
        counts[bid.bidder] += 1
    rows = [[shown.bidder(name), count] for name, count in counts.items()]
    at = list(counts).index(outcome.bidder) if isinstance(outcome, Refused) else 0
    return table_of("bidders", Table("Who bids", ["bidder", "bids"], rows), [at])


def _name(facts: Facts, bidder: str) -> str:
    return bidder_link(facts, bidder) if facts.cleared is not None else facts.shown.bidder(bidder)


def _without(table: Table, at: int) -> Table:
    """The table without a column."""
    total = None if table.total is None else [*table.total[:at], *table.total[at + 1:]]
    return table._replace(columns=[*table.columns[:at], *table.columns[at + 1:]],
                          rows=[[*row[:at], *row[at + 1:]] for row in table.rows], total=total)


def _verdict(facts: Facts) -> Html:
    """What the checker says, in a sentence."""
    kind = "good" if facts.verdict else "bad"
    said = element("strong", verdict_words(facts.verdict, facts.shown), class_=kind)
    what = "the refusal" if isinstance(facts.outcome, Refused) else "the outcome"
    return element("p", "The checker, which is proved and shares no search with the solver, was asked whether %s is true, and says: "
                   % what, said, ".")


# ------------------------------------------------------------------------------------------------------ how to repeat it

def _repeating(facts: Facts) -> List[Html]:
    auction, outcome = facts.texts
    steps = [
        ("Take the two texts out of this file, which here is page.html; they stand at its end, and can be copied too.",
         "\n".join(_taken_out(text.name) for text in facts.texts), None),
        ("See that they are the ones that this page is of.", "sha256sum %s %s" % (auction.name, outcome.name),
         "\n".join("%s  %s" % (text.digest, text.name) for text in facts.texts)),
        ("Ask the checker.", "cat %s %s | product_mix check" % (auction.name, outcome.name), facts.said),
    ]
    if not facts.is_given:
        steps.append(("Solve it anew: the outcome is the same to the byte, so this prints nothing.",
                      "product_mix solve < %s | cmp - %s" % (auction.name, outcome.name), None))
    return [element("h2", "How to repeat it"), element("ol", joined([_step(*step) for step in steps])),
            element("p", "The program ", element("code", "product_mix"), " is built and proved by ", element("code", "./mix"),
                    " in a checkout of its repository, and copied to a folder by ", element("code", "./install"), ".",
                    class_="faint")]


def _taken_out(name: str) -> str:
    """The command that prints a text of the page: what stands between its first line and its last one."""
    return "sed '1,/^<pre id=\"%s\"/d; /^<\\/pre>/,$d' page.html > %s" % (name, name)


def _step(what: str, command: str, printed: Optional[str]) -> Html:
    told = [element("p", what), element("pre", command, tabindex=0, role="region", aria_label="Command: " + what)]
    if printed is not None:
        told += [element("p", "It prints:"), element("pre", printed, tabindex=0, role="region", aria_label="What it prints")]
    return element("li", *told)
