"""The whole page: nothing of it is loaded from elsewhere, and it has no scripts."""

from typing import List, Tuple

from .. import __version__
from .bidders import bidders_section
from .board import board
from .certificate import certificate_section
from .drawn import picture_section
from .facts import Facts
from .html import Html, element, joined, void
from .style import STYLE
from .texts import texts_section
from .way import way_section

# Whatever stood on the page, a browser would neither load nor run it.
POLICY = "default-src 'none'; style-src 'unsafe-inline'"

# A section: what leads to it, the place, and what stands there.
Section = Tuple[str, str, Html]


def page(facts: Facts) -> str:
    """The page as the text of a file."""
    sections = _sections(facts)
    first, *rest = [content for _, _, content in sections]
    later = element("div", first, class_="after-board") if sections else Html("")
    main = element("main", joined([board(facts), _contents(sections), later, *rest]))
    body = element("body", joined([main, _footer()]))
    return "<!DOCTYPE html>\n%s\n" % element("html", joined([_head(facts), body]), lang="en")


def _head(facts: Facts) -> Html:
    return element("head", joined([
        void("meta", charset="utf-8"),
        void("meta", http_equiv="Content-Security-Policy", content=POLICY),
        void("meta", name="viewport", content="width=device-width, initial-scale=1"),
        element("title", facts.title),
        # A style stands as it is.
        element("style", Html(STYLE)),
    ]))


def _sections(facts: Facts) -> List[Section]:
    """What comes after the board."""
    found: List[Section] = []
    outcome = facts.cleared
    if outcome is not None:
        if outcome.shares:
            found.append(("The bidders", "of-bidders", bidders_section(facts, outcome)))
        found.append(("The prices on their way", "way", way_section(facts)))
    drawn = picture_section(facts)
    if drawn is not None:
        found.append(("The picture", "picture", drawn))
    if outcome is not None:
        found.append(("Why it is right", "certificate", certificate_section(facts, outcome)))
    found.append(("The texts", "texts", texts_section(facts)))
    return found


def _contents(sections: List[Section]) -> Html:
    links = [element("li", element("a", title, href="#" + place)) for title, place, _ in sections]
    return element("nav", element("h2", "On this page"), element("ul", joined(links)), aria_label="On this page")


def _footer() -> Html:
    return element("footer", element("p", "Made by product_mix %s." % __version__))
