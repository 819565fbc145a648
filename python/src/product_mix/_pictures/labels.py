"""Labels that find a place where nothing else stands, those that matter most first."""

from typing import Iterator, List, Optional, Sequence, Tuple

from .axes import part_in
from .svg import GROUND, Box, Line, Spot, rectangle, width_of, words

# How far from what it names a label may stand.
FAR = 14
# Where it may stand: to the right, above, below and to the left, and between.
DIRECTIONS = ((1, 0), (0.87, 0.5), (0.87, -0.5), (0.5, 0.87), (0.5, -0.87), (0, 1), (0, -1),
              (-1, 0), (-0.87, 0.5), (-0.87, -0.5), (-0.5, 0.87), (-0.5, -0.87))
# So far along a line a label upon it may stand, in parts of a hundred, the middle first.
PARTS = (50, 42, 58, 34, 66, 26, 74, 18, 82, 10, 90)


def box_at(spot: Spot, content: str, size: int) -> Box:
    """The box of a text whose middle is at the spot."""
    x, y = spot
    width, height = width_of(content, size) + 4, size + 3
    return Box(x - width / 2, y - height / 2, x + width / 2, y + height / 2)


def meet(one: Box, other: Box) -> bool:
    return one.left < other.right and other.left < one.right and one.top < other.bottom and other.top < one.bottom


class Labels:
    """Labels that have found a place, what no further one may stand on, and how many found none."""

    def __init__(self, frame: Box) -> None:
        self.frame = frame
        self.boxes: List[Box] = []
        self.lines: List[Line] = []
        self.faint: List[Line] = []
        self.drawn: List[str] = []
        self.left_out = 0

    def put(self, content: str, spots: "Iterator[Spot] | Sequence[Spot]", size: int, weight: Optional[str] = None,
            style: Optional[str] = None, own: Optional[Line] = None) -> bool:
        """Writes the text at the first spot where it stands on no line but its own; a spot on no faint line is better."""
        best = self._best(content, spots, size, own)
        if best is None:
            self.left_out += 1
            return False
        box = box_at(best, content, size)
        self.boxes.append(box)
        if own or self._is_on(self.faint, box):
            self.drawn.append(rectangle(box, GROUND))
        self.drawn.append(words((best[0], best[1] + size * 0.36), content, size, weight=weight, style=style))
        return True

    def _best(self, content: str, spots: "Iterator[Spot] | Sequence[Spot]", size: int, own: Optional[Line]) -> Optional[Spot]:
        lines = [line for line in self.lines if line != own]
        best = None
        for spot in spots:
            box = box_at(spot, content, size)
            if self._fits(box) and not self._is_on(lines, box):
                if not self._is_on(self.faint, box):
                    return spot
                best = best or spot
        return best

    def _fits(self, box: Box) -> bool:
        frame = self.frame
        is_inside = (frame.left <= box.left and box.right <= frame.right
                     and frame.top <= box.top and box.bottom <= frame.bottom)
        return is_inside and not any(meet(box, other) for other in self.boxes)

    def _is_on(self, lines: Sequence[Line], box: Box) -> bool:
        return any(part_in(line, box) for line in lines)


def around(spot: Spot, radius: float, content: str, size: int) -> Iterator[Spot]:
    """Spots for a text beside a sign, near ones first."""
    x, y = spot
    width, height = width_of(content, size) + 4, size + 3
    for gap in range(3, FAR, 4):
        for right, up in DIRECTIONS:
            yield x + right * (radius + gap + width / 2), y - up * (radius + gap + height / 2)


def along(line: Line) -> Iterator[Spot]:
    """Spots on a line, the middle first."""
    (x, y), (to_x, to_y) = line
    for part in PARTS:
        yield x + (to_x - x) * part / 100, y + (to_y - y) * part / 100


def spots_by_depth(cells: "Sequence[Tuple[int, int]]") -> List[Tuple[int, int]]:
    """The cells of a region, those farthest from its edge first: of its rows, columns and diagonals."""
    region = set(cells)
    depths = {cell: _depth(region, cell) for cell in region}
    return sorted(region, key=lambda cell: (-depths[cell], cell))


def _depth(region: "set[Tuple[int, int]]", cell: Tuple[int, int]) -> int:
    column, row = cell
    far = 1
    while all((column + far * a, row + far * b) in region for a in (-1, 0, 1) for b in (-1, 0, 1)):
        far += 1
    return far
