"""What the page tells, as the program was asked for it."""

from typing import Dict, Mapping, NamedTuple, Optional, Sequence, Tuple, Union

from .._answers import Trail, Verdict, by_bidder, read_trail
from .._auction import Auction
from .._explaining import Utilities, listed
from .._lines import digest_of
from .._outcome import Cleared, Refused
from .._shown import Shown
from .._source import Source
from .._text import without_marks
from ..words._common import Given
from ..words.explain import utilities_of

# The program looks for the steps of an auction with caps unit by unit: beyond this rise of all prices it isn't asked.
MOST_RISE_WITH_CAPS = 100_000
# A title names so many goods.
MOST_NAMED = 3


class Text(NamedTuple):
    """A text that stands on the page, with line feeds, and its SHA-256; and that of the bytes that were read, if another."""

    name: str
    content: str
    digest: str
    other: Optional[str] = None


class Facts(NamedTuple):
    """An auction, its outcome, and what else is told of it where it cleared and the outcome is true.

    ``said`` is what the checker prints of the texts as they stand on the page; ``drawn`` are the goods that are chosen for
    the picture; ``numbers`` the bidders' numbers, from 1, by which sections are found, and ``ranks`` those in tie order.
    """

    title: str
    shown: Shown
    auction: Auction
    outcome: Union[Cleared, Refused]
    is_given: bool
    verdict: Verdict
    said: str
    texts: Sequence[Text]
    most: Mapping[str, int]
    gains: Mapping[str, int]
    trail: Optional[Trail]
    utilities: Utilities
    drawn: Tuple[str, ...]
    numbers: Mapping[str, int]
    ranks: Mapping[str, int]

    @property
    def cleared(self) -> Optional[Cleared]:
        """The outcome, where it cleared and is true."""
        return self.outcome if isinstance(self.outcome, Cleared) and self.verdict else None


def gathered(given: Given, title: Optional[str], drawn: Sequence[str]) -> Facts:
    """Asks the program for all that the page tells."""
    outcome, verdict = given.outcome()
    auction = given.auction()
    chosen = tuple([given.good(name) for name in drawn])
    alone = given.alone().data
    texts = [text_of_page("auction.csv", alone),
             text_of_page("outcome.csv", outcome.text(auction, Source(alone).format).encode("ascii"))]
    is_given = len(given.parts) > 1 or given.alone() != given.part
    utilities = utilities_of(given)
    said = given.solver.ask(["check"], "".join(text.content for text in texts).encode("ascii")).printed.decode("ascii").strip()
    facts = Facts(title or _title(auction, given.shown), given.shown, auction, outcome, is_given, verdict, said, texts, {}, {}, None,
                  utilities, chosen, _numbered(auction.bidders), _numbered(auction.tie_order))
    if facts.cleared is None:
        return facts
    trail = given.alone_answer(["trail"], read_trail) if _is_asked_for_steps(auction, facts.cleared) else None
    return facts._replace(most=given.alone_answer(["validate"], by_bidder("valid")), trail=trail,
                          gains=utilities(facts.cleared.prices))


def _numbered(names: Sequence[str]) -> Dict[str, int]:
    return {name: number for number, name in enumerate(names, 1)}


def _title(auction: Auction, shown: Shown) -> str:
    """What the auction is of."""
    names = [shown.good(good) for good in auction.goods]
    return "Auction of %s" % (listed(names) if len(names) <= MOST_NAMED else "%d goods" % len(names))


def text_of_page(name: str, data: bytes) -> Text:
    """The text as a page can have it: no marks, and line feeds alone, the last line too."""
    plain = without_marks(data).replace(b"\r\n", b"\n").replace(b"\r", b"\n")
    plain = plain if plain.endswith(b"\n") else plain + b"\n"
    return Text(name, plain.decode("utf-8", "replace"), digest_of(plain), digest_of(data) if plain != data else None)


def _is_asked_for_steps(auction: Auction, outcome: Cleared) -> bool:
    rise = sum(outcome.prices.values()) - sum(auction.reserve)
    return not auction.caps or rise <= MOST_RISE_WITH_CAPS
