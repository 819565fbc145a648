"""The picture of an auction of one good or two, or of two that are chosen."""

from typing import List, Optional, Tuple

from .._outcome import Refused
from .._pictures.drawing import picture
from .facts import Facts
from .html import Html, element, joined

MOST_GOODS = 2
# More bids would be a cloud.
MOST_BIDS = 1500


def picture_section(facts: Facts) -> Optional[Html]:
    """The section, or None where there is no picture: of more goods than two none is chosen, or the outcome isn't true."""
    goods = facts.drawn or tuple(facts.auction.goods)
    if not facts.verdict or len(goods) > MOST_GOODS:
        return None
    return element("section", joined([element("h2", "The picture", id="picture"), *_contents(facts, goods)]))


def _contents(facts: Facts, goods: Tuple[str, ...]) -> List[Html]:
    refused = facts.outcome.bidder if isinstance(facts.outcome, Refused) else None
    count = sum(1 for bid in facts.auction.bids if refused in (None, bid.bidder))
    if count > MOST_BIDS:
        return [element("p", "There are %s bids, and of more than %s no picture is drawn." % (
            format(count, ","), format(MOST_BIDS, ",")))]
    drawn = picture(facts.auction, facts.outcome, bidder=refused, goods=goods, trail=facts.trail, shown=facts.shown)
    # The package's own drawing, whose names it escaped.
    box = element("div", Html(drawn), class_="wide", role="region", aria_label="The picture", tabindex=0)
    return [element("figure", box, class_="picture")]
