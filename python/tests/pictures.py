"""The geometry of a picture: its signs and lines as numbers, a line of text for each."""

import xml.etree.ElementTree as ElementTree
from pathlib import Path
from typing import Iterator, List, Tuple

SVG = "{http://www.w3.org/2000/svg}"
CLASS = "mix-"
BIDS = ("open", "filled", "partly", "unfilled")
GOLDEN = Path(__file__).resolve().parent / "pictures"


def root_of(svg: str) -> ElementTree.Element:
    root = ElementTree.fromstring(svg)
    assert root.tag == SVG + "svg"
    return root


def geometry(svg: str) -> List[str]:
    """Each bid's sign as how it stands, its bidder, its middle and its radius; each line as its kind and its ends."""
    return sorted([*_bids(root_of(svg)), *_lines(root_of(svg))])


def golden(name: str) -> List[str]:
    """The lines of a file that were worked out by hand, without those that say how."""
    lines = (GOLDEN / name).read_text().splitlines()
    return sorted(line for line in lines if line and not line.startswith("#"))


def texts(svg: str) -> List[str]:
    """What is written in the picture."""
    return [element.text or "" for element in root_of(svg).iter(SVG + "text")]


def kind_of(element: ElementTree.Element) -> str:
    return (element.get("class") or "").replace(CLASS, "", 1)


def _bids(root: ElementTree.Element) -> Iterator[str]:
    for group in root.iter(SVG + "g"):
        if kind_of(group) in BIDS:
            title, shape = group[0], group[1]
            x, y, radius = _middle(shape, kind_of(group))
            yield "%s %s %g %g r %g" % (kind_of(group), (title.text or "").split(",")[0], x, y, radius)


def _middle(shape: ElementTree.Element, kind: str) -> Tuple[float, float, float]:
    """The middle of a sign, and the radius of the disc that has its area, as is said of each shape."""
    if shape.tag == SVG + "circle":
        return float(shape.attrib["cx"]), float(shape.attrib["cy"]), float(shape.attrib["r"])
    spots = [tuple(map(float, spot.split(","))) for spot in shape.attrib["points"].split()]
    left, right = min(x for x, _ in spots), max(x for x, _ in spots)
    top, bottom = min(y for _, y in spots), max(y for _, y in spots)
    part = 1.25 if kind == "partly" else 0.89
    return round((left + right) / 2, 1), round((top + bottom) / 2, 1), round((right - left) / 2 / part, 1)


def _lines(root: ElementTree.Element) -> Iterator[str]:
    for line in root.iter(SVG + "line"):
        if kind_of(line):
            yield "%s %s %s %s %s" % (kind_of(line), *[line.attrib[end] for end in ("x1", "y1", "x2", "y2")])
