"""The certificate in words: what the checker looked at, and what tight pairs say."""

from typing import Dict, FrozenSet, List, NamedTuple, Sequence

from .._explaining import Sentences, listed
from .._outcome import Choice, Cleared, Tight
from ..words._forms import Cell, Table
from .board import counted
from .facts import Facts
from .html import Html, element, joined
from .tables import table_of

# So many pairs are all told of; of more, one of each kind, and of kinds so many.
MOST_PAIRS, MOST_KINDS = 80, 24


class Kind(NamedTuple):
    """What pairs have in common: the good, and the two sets."""

    good: str
    upper: FrozenSet[Choice]
    lower: FrozenSet[Choice]


def certificate_section(facts: Facts, outcome: Cleared) -> Html:
    return element("section", joined([
        element("h2", "Why it is right", id="certificate"),
        element("p", "The checker took the prices and the shares as they are, and found that"),
        element("ul", joined([element("li", line) for line in _found(facts, outcome)])), *_pairs(facts, outcome)]))


def _found(facts: Facts, outcome: Cleared) -> List[str]:
    """What the checker found true, with what it comes to here."""
    auction, shown = facts.auction, facts.shown
    back = ["%d of %s" % (count, shown.good(good)) for good, count in outcome.returns.items() if count]
    returned = "nothing goes back to the seller" if not back else (
        "%s go back to the seller: only goods whose price is their reserve" % listed(back))
    order = [shown.bidder(name) for name in auction.tie_order]
    found = ["no price is below its reserve;",
             "of each good what the bidders get and what goes back make up what was for sale, and %s;" % returned]
    if order:
        found += ["each list of bids stands for a demand, and at these prices no bundle leaves a bidder more than the one it gets;",
                  "each bidder pays price times quantity, %s together;" % shown.money(outcome.revenue)]
    found.append("no lower prices, none below its reserve, would do, whichever goods were cheaper"
                 + (";" if len(order) > 1 else "."))
    if len(order) > 1:
        found.append("where several bundles are as good for a bidder, it has the first one that leaves the others something that "
                     "they want: the one with most of %s%s. Bidders are served in this order: %s." % (
                         shown.good(auction.goods[0]), _then(facts), listed(order)))
    return found


def _then(facts: Facts) -> str:
    rest = facts.auction.goods[1:]
    return "" if not rest else ", of these the one with most of %s%s" % (
        facts.shown.good(rest[0]), ", and so on" if len(rest) > 1 else "")


# ------------------------------------------------------------------------------------------------------------ tight pairs

def _pairs(facts: Facts, outcome: Cleared) -> List[Html]:
    """What pairs say: each in a sentence where there are few."""
    pairs = outcome.tight
    if not pairs:
        return []
    sentences = Sentences(facts.auction, facts.shown)
    lead = ("That nobody could have had more is shown by a pair of sets of choices for each bidder and each good, which anyone can "
            "work out from the bids and the prices. More than a bidder has would be more than it wants, or would take from others "
            "what they have to have.")
    head = [element("h3", "Nobody could have had more"), element("p", lead)]
    if len(pairs) <= MOST_PAIRS:
        told = [element("li", sentences.pair(outcome, pair, facts.most, facts.utilities)) for pair in pairs]
        return [*head, element("ul", joined(told))]
    kinds = _kinds(pairs)
    often = sorted(kinds, key=lambda kind: -len(kinds[kind]))[:MOST_KINDS]
    some = "" if len(often) == len(kinds) else ", of the %d that most bidders have" % len(often)
    said = ("There are %s pairs, of %d kinds: a kind is the good and the two sets. Here is the first pair of each kind%s. All "
            "stand in the text of the outcome." % (format(len(pairs), ","), len(kinds), some))
    return [*head, element("p", said), table_of("kinds", _table(facts, outcome, sentences, {kind: kinds[kind] for kind in often}))]


def _kinds(pairs: Sequence[Tight]) -> Dict[Kind, List[Tight]]:
    kinds: Dict[Kind, List[Tight]] = {}
    for pair in pairs:
        kinds.setdefault(Kind(pair.good, pair.upper, pair.lower), []).append(pair)
    return kinds


def _table(facts: Facts, outcome: Cleared, sentences: Sentences, kinds: Dict[Kind, List[Tight]]) -> Table:
    rows: List[Sequence[Cell]] = [
        [facts.shown.good(kind.good), counted(len(pairs), "bidder", "bidders"),
         sentences.pair(outcome, pairs[0], facts.most, facts.utilities)] for kind, pairs in kinds.items()]
    return Table("Kinds of pairs", ["good", "how many have one", "the first of them"], rows)
