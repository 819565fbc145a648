"""Sentences on lists that are refused, on bids that are filled or not, and on tight pairs."""

from typing import Callable, Dict, FrozenSet, Iterable, List, Mapping, Sequence

from ._auction import Auction, Bid
from ._outcome import Amounts, Choice, Cleared, Refused, Tight
from ._shown import Shown
from ._standing import FILLED, PARTLY, Standing, standings, torn

#: What every bidder gains at prices, which the program tells.
Utilities = Callable[[Amounts], Mapping[str, int]]

NOTHING = "nothing"
WITHOUT: FrozenSet[Choice] = frozenset({None})


def listed(words: Sequence[str], last: str = "and") -> str:
    """Words in a row, with commas between them, and another word before the last."""
    return words[0] if len(words) == 1 else "%s %s %s" % (", ".join(words[:-1]), last, words[-1]) if words else NOTHING


def units(count: int) -> str:
    return "1 unit" if abs(count) == 1 else "%d units" % abs(count)


class Sentences:
    """What is told of an auction, with the names and amounts as they are shown."""

    def __init__(self, auction: Auction, shown: Shown) -> None:
        self.auction, self.shown = auction, shown

    def choice(self, choice: Choice) -> str:
        return NOTHING if choice is None else self.shown.good(choice)

    def choices(self, choices: Iterable[Choice], last: str) -> str:
        found = set(choices)
        return listed([self.choice(choice) for choice in (*self.auction.goods, None) if choice in found], last)

    def prices(self, prices: Amounts) -> str:
        return listed(["%s for %s" % (self.shown.money(price), self.shown.good(good)) for good, price in prices.items()])

    def bid(self, bid: Bid) -> str:
        """What a bid says."""
        offers = ["%s at up to %s" % (self.shown.good(good), self.shown.amount(value))
                  for good, value in zip(self.auction.goods, bid.values) if value is not None]
        verb = "a bid for" if bid.weight > 0 else "a bid that takes back"
        return "%s %s of %s" % (verb, units(bid.weight), listed(offers, "or"))

    # -------------------------------------------------------------------------------------------------- refused lists

    def refusal(self, refused: Refused) -> List[str]:
        """Where a list fails, and which of its bids meet there."""
        facet, name = refused.facet, self.shown.bidder(refused.bidder)
        pair = "%s and %s" % (self.choice(facet.choices[0]), self.choice(facet.choices[1]))
        own = [bid for bid in self.auction.bids if bid.bidder == refused.bidder]
        meeting = torn(own, self.auction.goods, facet.prices, frozenset(facet.choices))
        lines = [
            "The list of %s stands for no demand. It fails at the prices %s:" % (name, self.prices(facet.prices)),
            "there %s are as good for some of its bids, and no other choice is. These bids take so many units from the one to "
            "the other" % pair,
            "where a price moves; together they may not take back, and here their quantities add up to %d:" % facet.weight,
        ]
        lines += ["  - bid %d of %s: %s" % (own.index(bid) + 1, name, self.bid(bid)) for bid in meeting]
        lines.append("Look at the bids that take back: each wants bids beside it that take at least as much wherever it does.")
        return lines

    # ---------------------------------------------------------------------------------------------------- filled bids

    def bidder(self, outcome: Cleared, bidder: str) -> List[str]:
        """What a bidder got, and how each of its bids stands."""
        share, name = outcome.shares[bidder], self.shown.bidder(bidder)
        got = ["%d of %s" % (count, self.shown.good(good)) for good, count in share.bundle.items() if count]
        cap = self.auction.caps.get(bidder)
        capped = "" if cap is None else " It takes at most %s." % units(cap)
        lines = ["%s gets %s and pays %s.%s" % (name, listed(got), self.shown.money(share.payment), capped)]
        lines += ["  - bid %d, %s: %s" % (number, self.bid(found.bid), self.standing(found, outcome.prices))
                  for number, found in enumerate(standings(self.auction, outcome, bidder), 1)]
        return lines

    def standing(self, found: Standing, prices: Amounts) -> str:
        """How a bid stands, and at which price it would be filled."""
        best = self.choices(found.best, "or")
        if found.kind == FILLED:
            verb = "takes" if found.bid.weight > 0 else "takes back"
            return "%s; it %s %s, which leaves %s a unit" % (
                "filled" if found.bid.weight > 0 else "it counts", verb, self.choices(found.best - {None}, "or"),
                self.shown.money(found.gain))
        needs = listed(["%s cost less than %s (it costs %s)" % (self.shown.good(good), self.shown.amount(price),
                                                               self.shown.amount(prices[good]))
                        for good, price in found.below.items()], "or")
        would = "would be if %s" % needs if found.below else "is at no price of one good alone, as the cap goes to others of its bids"
        if found.kind == PARTLY and len(found.best) > 1:
            return "at the edge: %s are as good for it, so not all of it need be filled; all of it %s" % (best, would)
        return "%s; it %s%s" % (("filled in part, up to the cap", "wholly ", would) if found.kind == PARTLY else
                                ("not filled", "", would))

    # ---------------------------------------------------------------------------------------------------- tight pairs

    def pair(self, outcome: Cleared, pair: Tight, most: Mapping[str, int], utilities: Utilities) -> str:
        """What a tight pair says, in a sentence."""
        bounds = Bounds(self.auction, outcome, most, utilities)
        has = outcome.shares[pair.bidder].bundle
        name, good, without = self.shown.bidder(pair.bidder), self.shown.good(pair.good), _without(bounds, pair.bidder)
        said = ["%s has %d of %s and could have no more: of %s it wants at most %s at these prices" % (
            name, has[pair.good], good, self._together(pair.upper, without), units(bounds.may(pair.bidder, pair.upper)))]
        before = [other for other in self.auction.goods[:list(self.auction.goods).index(pair.good)]]
        held = [other for other in before if other in pair.upper and other not in pair.lower and has[other]]
        if held:
            said.append("it has %s" % listed(["%d of %s" % (has[other], self.shown.good(other)) for other in held]))
        if pair.lower:
            said.append(self._must(pair, bounds.must(pair.bidder, pair.lower), without))
        return listed(said) + "."

    def _together(self, choices: FrozenSet[Choice], without: str) -> str:
        """A set of choices, counted together."""
        goods = self.choices(choices - {None}, "and") + (" together" if len(choices - {None}) > 1 else "")
        return goods + (without if None in choices else "")

    def _must(self, pair: Tight, must: int, without: str) -> str:
        if pair.lower == WITHOUT:
            return "it has to go without at least %s, as the others can't" % units(must)
        return "at least %s of %s must go to it, as the others can't take more" % (
            units(must), self._together(pair.lower, without))


def _without(bounds: "Bounds", bidder: str) -> str:
    """How the units are called that a bidder goes without, where it does, or might at these prices."""
    if bounds.has(bidder, WITHOUT):
        return ", with the units that it goes without,"
    return ", with units that it might go without," if bounds.may(bidder, WITHOUT) else ""


class Bounds:
    """What members of the market may have of a set of choices, and what must go to them, from utilities at nearby prices."""

    def __init__(self, auction: Auction, outcome: Cleared, most: Mapping[str, int], utilities: Utilities) -> None:
        self.auction, self.outcome, self.most, self.utilities = auction, outcome, most, utilities
        self._here = utilities(outcome.prices)

    def may(self, bidder: str, choices: FrozenSet[Choice]) -> int:
        """How much of the set the bidder demands at most."""
        inside = [good for good in self.auction.goods if good in choices]
        if None not in choices:
            return self._moved(inside, -1)[bidder] - self._here[bidder]
        outside = [good for good in self.auction.goods if good not in choices]
        return self.most[bidder] - (self._here[bidder] - self._moved(outside, 1)[bidder])

    def must(self, bidder: str, choices: FrozenSet[Choice]) -> int:
        """How much of the set nobody else can take: those before it have theirs, those after it take what they may."""
        order = list(self.auction.tie_order)
        at = order.index(bidder)
        rest = self._all(choices) - self._seller_may(choices)
        rest -= sum(self.has(other, choices) for other in order[:at])
        return rest - sum(self.may(other, choices) for other in order[at + 1:])

    def bound(self, pair: Tight) -> int:
        """How much of its good a pair lets the bidder have."""
        has = self.outcome.shares[pair.bidder].bundle
        before = list(self.auction.goods)[:list(self.auction.goods).index(pair.good)]
        own = sum(has[good] * ((good in pair.lower) - (good in pair.upper)) for good in before)
        return self.may(pair.bidder, pair.upper) - self.must(pair.bidder, pair.lower) + own

    def _moved(self, goods: Sequence[str], by: int) -> Mapping[str, int]:
        return self.utilities({good: price + by * (good in goods) for good, price in self.outcome.prices.items()})

    def _all(self, choices: FrozenSet[Choice]) -> int:
        supply: Dict[Choice, int] = dict(zip(self.auction.goods, self.auction.supply))
        supply[None] = sum(self.most.values())
        return sum(supply[choice] for choice in choices)

    def _seller_may(self, choices: FrozenSet[Choice]) -> int:
        if None in choices:
            return sum(self.auction.supply)
        return sum(supply for good, supply, reserve in zip(self.auction.goods, self.auction.supply, self.auction.reserve)
                   if good in choices and self.outcome.prices[good] == reserve)

    def has(self, bidder: str, choices: FrozenSet[Choice]) -> int:
        """How much of the set the bidder has."""
        bundle: Dict[Choice, int] = {good: count for good, count in self.outcome.shares[bidder].bundle.items()}
        bundle[None] = self.most[bidder] - sum(bundle.values())
        return sum(bundle[choice] for choice in choices)


def pair_of(auction: Auction, outcome: Cleared, bidder: str) -> Tight:
    """One pair of a bidder: that of the first good that some of its bids offer to take."""
    bids = [bid for bid in auction.bids if bid.bidder == bidder]
    offered = [good for at, good in enumerate(auction.goods) if any(bid.values[at] is not None for bid in bids)]
    return next(pair for pair in outcome.tight if pair.bidder == bidder and pair.good == offered[0])
