"""All faults of a text, one after the other."""

from dataclasses import dataclass
from typing import Iterator, List, Optional, Set, Tuple

from ._auction import Auction
from ._errors import Place, TextError
from ._program import PathName
from ._refusals import Told, error_at, told_by
from ._solver import DONE, UNMET, Solver, error_of
from ._source import HEAD, AuctionOrText, Part, Source, part_of, place_of
from ._text import Row, rows_of
from ._writing import text_of

MOST_FAULTS = 20

# The names of goods in a row that is made in the place of one that failed.
MADE_GOODS = ("G1", "G2", "G3", "G4", "G5", "G6", "G7", "G8")
# The code of rows that end too early, and the code of every row that stands after the last one.
END, AFTER = "end", "after"


@dataclass(frozen=True)
class Faults:
    """The faults of a text and the limits that it passes, in order.

    The first ``sure`` of them are there whatever is done about those before them. The rest is a guess: each was found
    without a row on which it may depend. ``whole`` is False where the search ended before the text did.
    """

    found: Tuple[TextError, ...]
    sure: int
    whole: bool

    def __len__(self) -> int:
        return len(self.found)

    def __iter__(self) -> Iterator[TextError]:
        return iter(self.found)

    def __getitem__(self, at: int) -> TextError:
        return self.found[at]

    def __str__(self) -> str:
        told = [str(error) for error in self.found]
        if self.sure < len(told):
            told.insert(self.sure, "what follows is a guess: it may be gone once the above is mended")
        if not self.whole:
            told.append("there may be more")
        return "\n".join(told) if told else "no faults"


def faults(text: AuctionOrText, command: str = "validate", *, most: int = MOST_FAULTS, program: Optional[PathName] = None,
           library: Optional[PathName] = None) -> Faults:
    """The faults of an auction, or of a text, at most so many, as the program tells them one after the other.

    A text is the whole one for a command: for ``check`` an auction and an outcome, and so on. The program is asked
    again without the row that failed; in the place of one of the first four rows it gets one that is put right. What it
    then says of rows that depend on those may be wrong, and is counted as a guess. Each fault is an exception, a
    :class:`Fault` or a :class:`PastLimit`, that isn't raised.

    >>> found = faults("mix,1\\ngoods,permit\\nsupply,3\\nreserve,2.5\\nbid,Ada Lovelace,2,10\\nbid,Bo,0,10\\nend\\n")
    >>> [(fault.line, fault.code, fault.field.content) for fault in found]
    [(4, 'number', '2.5'), (5, 'name', 'Ada Lovelace'), (6, 'weight', '0')]
    """
    search = _Search(Source(text).part if isinstance(text, Auction) else part_of("text", text), command)
    solver = Solver(program, library)
    while len(search.found) < most:
        reply = solver.ask([command], search.text())
        if reply.status in (DONE, UNMET):
            return search.faults(whole=True)
        told = told_by(reply.printed)
        if told is None:
            raise error_of(reply, [search.part], command)
        if not search.go_on_after(told):
            return search.faults(whole=told.code == END)
    return search.faults(whole=False)


class _Search:
    """A text from which the rows that failed are taken, what was found, and of which kind those rows were."""

    def __init__(self, part: Part, command: str) -> None:
        self.part = part
        self.command = command
        self.rows = list(rows_of(part.data))
        self.found: List[TextError] = []
        self._past_end = len(self.rows) + 1
        self._sure = 0
        self._changed: Set[str] = set()

    def text(self) -> bytes:
        """The text as it now stands; as it is, as long as nothing was found."""
        return text_of([row.text for row in self.rows]).encode() if self.found else self.part.data

    def faults(self, whole: bool) -> Faults:
        return Faults(tuple(self.found), self._sure, whole)

    def go_on_after(self, told: Told) -> bool:
        """Takes note of what is told, and puts the row right or leaves it out; whether there is something to go on with."""
        at = told.row - 1
        if not 0 <= at < len(self.rows):
            self._note(self._past_rows(told), "")
            return False
        row = self.rows[at]
        bids = self.part.bids
        place = Place(self.part.name, row.line, row.text, bid=bids[row.number - 1] if row.number <= len(bids) else None)
        fields = [earlier.fields for earlier in self.rows[:at + 1]]
        self._note(error_at(told._replace(row=row.number), place, fields, self.command), row.fields[0])
        if told.code == AFTER or (at == 0 and row.fields[0] != HEAD[0]):
            return False
        if at < len(HEAD):
            self._put_right(at)
        else:
            self._changed.add(row.fields[0])
            del self.rows[at]
        return True

    def _past_rows(self, told: Told) -> TextError:
        """What is told of the row that is missing at the end, or of the text as a whole."""
        number = self._past_end if told.row else 0
        place, _ = place_of([self.part], number)
        return error_at(told._replace(row=number), place, [row.fields for row in self.rows], self.command)

    def _note(self, error: TextError, word: str) -> None:
        if self._sure == len(self.found) and self._is_sure(word):
            self._sure += 1
        self.found.append(error)

    def _is_sure(self, word: str) -> bool:
        """Whether a row that begins with the word depends on none that was changed."""
        if self._changed & {"mix", "goods"}:
            return False
        return word in ("reserve", "bid") or self._changed <= {"supply", "reserve"}

    def _put_right(self, at: int) -> None:
        """Puts a row into the place of one of the first four, or before it where it isn't the one that is wanted there."""
        wanted, row = HEAD[at], self.rows[at]
        self._changed.add(wanted)
        goods = self.rows[1].fields[1:] if at > 1 else MADE_GOODS[:max(1, len(row.fields) - 1)]
        fields = {"mix": ["mix", "3"], "goods": ["goods", *goods]}.get(wanted, [wanted, *["0"] * len(goods)])
        made = Row(row.number, row.line, ",".join(fields), fields)
        self.rows[at:at + (row.fields[0] == wanted)] = [made]
