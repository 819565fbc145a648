"""The prices on their way from the reserves: a table of the steps, and a chart."""

from typing import List

from .._answers import Trail
from ..words._forms import Table
from ..words.trail import steps_table
from .board import counted, in_currency
from .chart import chart
from .facts import Facts
from .html import Html, element, joined
from .tables import table_of

# A longer trail is told of by its first rows and its last ones.
MOST_ROWS, FIRST_ROWS = 60, 40


def way_section(facts: Facts) -> Html:
    return element("section", joined([element("h2", "The prices on their way", id="way"), *_contents(facts)]))


def _contents(facts: Facts) -> List[Html]:
    trail = facts.trail
    if trail is None:
        return [element("p", "Prices rise far, and there are caps, so the program would take long to tell each step: it wasn't asked.")]
    if not trail.steps:
        return [element("p", "At the reserves nothing is wanted too much, so no price rises.")]
    lead = ("Prices start at the reserves. In each step some goods rise together, of which the bidders want more than there is, "
            "until they change their minds; when nothing is wanted too much any more, the prices stand.")
    return [element("p", lead), chart(facts.auction, trail, facts.shown), table_of("steps", _table(facts, trail))]


def _table(facts: Facts, trail: Trail) -> Table:
    table = steps_table(facts.auction, trail, facts.shown)
    steps, rows = len(trail.steps), list(table.rows)
    title = "%s of the prices%s" % (counted(steps, "step", "steps"), in_currency(facts))
    if len(rows) > MOST_ROWS:
        last = MOST_ROWS - FIRST_ROWS
        rows = [*rows[:FIRST_ROWS], *rows[-last:]]
        title += "; here are the first %d and the last %d rows" % (FIRST_ROWS, last)
    return table._replace(title=title, rows=rows)
