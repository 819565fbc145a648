"""The texts themselves, with their SHA-256, and which of their names stand for those of the page."""

from typing import List

from ..words._forms import Table
from .facts import Facts, Text
from .html import Html, element, joined
from .tables import table_of

# A longer text is folded up, so that it fills neither the screen nor the paper.
MOST_LINES = 200


def texts_section(facts: Facts) -> Html:
    contents = [element("h2", "The texts", id="texts"), *_names(facts)]
    for title, text in zip(("The auction", "The outcome"), facts.texts):
        contents += _text(title, text)
    return element("section", joined(contents))


def _names(facts: Facts) -> List[Html]:
    """What is called and counted another way in the texts than on the page."""
    shown = facts.shown
    rows = [["good", shown.good(name), name] for name in facts.auction.goods if shown.good(name) != name]
    rows += [["bidder", shown.bidder(name), name] for name in facts.auction.bidders if shown.bidder(name) != name]
    told = []
    if shown.step != 1:
        told.append(element("p", "Amounts of the texts are whole, in steps of %s: %d stands for %s." % (
            shown.money(1), 1000, shown.money(1000))))
    if rows:
        table = Table("Names that the texts spell otherwise", ["what", "on this page", "in the texts"], rows)
        told += [element("p", "Names of the texts have plain letters."), table_of("names", table)]
    return told


def _text(title: str, text: Text) -> List[Html]:
    digest = element("p", "SHA-256 of ", element("code", text.name), ": ", element("code", text.digest))
    told = [element("h3", title), digest]
    if text.other is not None:
        told.append(element("p", "It was read from a file with other line ends, or a mark at its head, whose SHA-256 is ",
                            element("code", text.other), "."))
    # The first newline isn't part of it. It begins and ends lines of its own, by which a command finds it.
    whole = element("pre", "\n", text.content, id=text.name, class_="text", tabindex=0, role="region", aria_label=title)
    lines = text.content.count("\n")
    if lines <= MOST_LINES:
        return [*told, whole]
    summary = element("summary", "All %s lines" % format(lines, ","))
    return [*told, element("details", joined([summary, whole, ""]))]
