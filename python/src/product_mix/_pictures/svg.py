"""The elements of SVG, as text."""

import re
import unicodedata
from html import escape
from typing import NamedTuple, Optional, Sequence, Tuple, Union

#: A place in the picture: pixels to the right and down.
Spot = Tuple[float, float]
Line = Tuple[Spot, Spot]

#: A value of an attribute; None where the element hasn't the attribute.
Value = Union[str, float, None]

INK, GROUND, FAINT, STRIP_GROUND = "#222222", "#ffffff", "#dddddd", "#eeeeee"
FONT, SMALL = 14, 12
# How wide a letter is, as a part of the size of the font.
LETTER = 0.62

# What the classes of elements begin with; no style is said of them, they tell what is what.
CLASS = "mix-"

# What no XML may hold, though a name in a file of names may.
_FORBIDDEN = re.compile("[^\t\n\r\x20-\ud7ff\ue000-\ufffd\U00010000-\U0010ffff]")


class Box(NamedTuple):
    """A rectangle: its left, upper, right and lower side."""

    left: float
    top: float
    right: float
    bottom: float


def number(value: float) -> str:
    """A number to a tenth of a pixel.

    >>> number(120.0), number(7.25), number(-0.04)
    ('120', '7.2', '0')
    """
    digits = ("%.1f" % value).rstrip("0").rstrip(".")
    return "0" if digits == "-0" else digits


def readable(content: str) -> str:
    """The text as XML may hold it: whatever else stands in it is shown as a question mark in a diamond."""
    return _FORBIDDEN.sub("\ufffd", content)


def element(tag: str, content: str = "", kind: Optional[str] = None, **attributes: Value) -> str:
    """An element; the underscores in the names of its attributes stand for hyphens. Its kind is its class."""
    said = "" if kind is None else ' class="%s%s"' % (CLASS, kind)
    for name, value in attributes.items():
        if value is not None:
            told = value if isinstance(value, str) else number(value)
            said += ' %s="%s"' % (name.replace("_", "-"), escape(readable(told)))
    return "<%s%s>%s</%s>" % (tag, said, content, tag) if content else "<%s%s/>" % (tag, said)


def words(spot: Spot, content: str, size: int = FONT, anchor: str = "middle", weight: Value = None, style: Value = None,
          turned: bool = False, fill: str = INK) -> str:
    """A text on a line; its anchor, by default its middle, stands at the spot."""
    x, y = spot
    turn = "rotate(-90 %s %s)" % (number(x), number(y)) if turned else None
    return element("text", escape(readable(content)), x=x, y=y, font_size=size, text_anchor=anchor, font_weight=weight,
                   font_style=style, transform=turn, fill=fill)


def stroke(line: Line, colour: str = INK, width: float = 1, dashes: Value = None, kind: Optional[str] = None) -> str:
    """A straight line."""
    (x1, y1), (x2, y2) = line
    return element("line", kind=kind, x1=x1, y1=y1, x2=x2, y2=y2, stroke=colour, stroke_width=width, stroke_dasharray=dashes)


def rectangle(box: Box, fill: str, edge: Value = None, opacity: Value = None) -> str:
    return element("rect", x=box.left, y=box.top, width=box.right - box.left, height=box.bottom - box.top, fill=fill,
                   stroke=edge, fill_opacity=opacity)


def polygon(spots: Sequence[Spot], fill: str, edge: Value = None, width: Value = None, opacity: Value = None) -> str:
    return element("polygon", points=_joined(spots), fill=fill, stroke=edge, stroke_width=width, fill_opacity=opacity)


def circle(spot: Spot, radius: float, fill: str, edge: Value = None, width: Value = None, opacity: Value = None) -> str:
    return element("circle", cx=spot[0], cy=spot[1], r=radius, fill=fill, stroke=edge, stroke_width=width,
                   fill_opacity=opacity)


def _joined(spots: Sequence[Spot]) -> str:
    return " ".join(["%s,%s" % (number(x), number(y)) for x, y in spots])


def width_of(content: str, size: int) -> float:
    """About how wide a text is; wide letters take twice as much as others."""
    letters = sum(0 if unicodedata.combining(letter) else 1 + (unicodedata.east_asian_width(letter) in "WF")
                  for letter in content)
    return letters * size * LETTER


def document(width: float, height: float, title: str, told: str, parts: Sequence[str]) -> str:
    """The whole picture.

    It has a light ground of its own, not that of the page: as an image it can't see the page's colours, its own are
    chosen for a light ground, and so it is the same everywhere. It has neither identifiers nor style sheets, so many
    can stand in one page.
    """
    head = ('<svg xmlns="http://www.w3.org/2000/svg" role="img" width="%s" height="%s" viewBox="0 0 %s %s" '
            'font-family="sans-serif">' % (number(width), number(height), number(width), number(height)))
    described = [element("title", escape(readable(title))), element("desc", escape(readable(told)))]
    ground = rectangle(Box(0, 0, width, height), GROUND)
    return "\n".join([head, *described, ground, *parts, "</svg>"]) + "\n"
