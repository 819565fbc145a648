"""HTML as text: elements, whose contents are escaped here and nowhere else."""

from html import escape
from typing import Dict, Iterable, Union


class Html(str):
    """A text that is HTML already, and is escaped no more."""


Attribute = Union[str, int, None]


def element(tag: str, *contents: str, **attributes: Attribute) -> Html:
    """An element, of texts that are escaped and of HTML that isn't.

    An attribute that Python has another word for ends in ``_``, and a ``_`` within stands for ``-``; None leaves it out.

    >>> element("td", "Bo & <Sons>", class_="number", aria_label='the "Bo"')
    '<td class="number" aria-label="the &quot;Bo&quot;">Bo &amp; &lt;Sons&gt;</td>'
    """
    return Html("<%s>%s</%s>" % (_opened(tag, attributes), "".join(map(escaped, contents)), tag))


def void(tag: str, **attributes: Attribute) -> Html:
    """An element that has no contents and no end.

    >>> void("meta", charset="utf-8")
    '<meta charset="utf-8">'
    """
    return Html("<%s>" % _opened(tag, attributes))


def joined(contents: Iterable[str], between: str = "\n") -> Html:
    """Texts and HTML, one after the other."""
    return Html(escaped(between).join(map(escaped, contents)))


def escaped(content: str) -> str:
    """The text as it stands between tags. Quotes stand for themselves there, and so a text of CSV stays what it is."""
    return content if isinstance(content, Html) else escape(content, quote=False)


def _opened(tag: str, attributes: Dict[str, Attribute]) -> str:
    return tag + "".join([
        ' %s="%s"' % (name.rstrip("_").replace("_", "-"), escaped(str(value)).replace('"', "&quot;"))
        for name, value in attributes.items() if value is not None])
