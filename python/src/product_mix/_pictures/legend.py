"""The legend: every sign that occurs, and what it is."""

from typing import Callable, List, NamedTuple, Sequence, Tuple

from .svg import INK, SMALL, Box, Spot, rectangle, stroke, width_of, words

# How far apart the rows of a legend stand, how wide a sign is, and how far apart two entries.
ROW, SIGN, APART = 21, 30, 16


class Entry(NamedTuple):
    """A sign, drawn about a spot, and what it is."""

    draw: Callable[[Spot], str]
    text: str


def line_entry(text: str, colour: str = INK, width: float = 2, dashes: "str | None" = None) -> Entry:
    return Entry(lambda spot: stroke(((spot[0] - 9, spot[1]), (spot[0] + 9, spot[1])), colour, width, dashes), text)


def swatch_entry(text: str, colour: str) -> Entry:
    return Entry(lambda spot: rectangle(Box(spot[0] - 7, spot[1] - 6, spot[0] + 7, spot[1] + 6), colour, INK), text)


def words_entry(content: str, text: str) -> Entry:
    return Entry(lambda spot: words((spot[0], spot[1] + 4), content, SMALL, weight="bold"), text)


def legend(groups: Sequence[Sequence[Entry]], notes: Sequence[str], left: float, right: float,
           top: float) -> Tuple[List[str], float]:
    """The entries in rows, each group from a row of its own on, then the notes; and how far down they go."""
    parts: List[str] = []
    y = top
    for group in groups:
        x = left
        for entry in group:
            width = SIGN + width_of(entry.text, SMALL)
            if x > left and x + width > right:
                x, y = left, y + ROW
            parts += [entry.draw((x + 12, y)), words((x + SIGN, y + 4), entry.text, SMALL, anchor="start")]
            x += width + APART
        y += ROW if group else 0
    for note in notes:
        for line in _wrapped(note, right - left):
            parts.append(words((left, y + 4), line, SMALL, anchor="start", style="italic"))
            y += ROW - 3
    return parts, y


def _wrapped(note: str, width: float) -> List[str]:
    """The note in lines that are no wider than this, broken at blanks."""
    lines = [""]
    for word in note.split(" "):
        longer = (lines[-1] + " " + word).strip()
        if lines[-1] and width_of(longer, SMALL) > width:
            lines.append(word)
        else:
            lines[-1] = longer
    return lines
