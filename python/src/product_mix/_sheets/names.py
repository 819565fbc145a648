"""Names of any letters, and the plain ones that stand for them in a text."""

import re
import unicodedata
from typing import Dict, Iterable

from .._text import NAME

MOST_LETTERS = 32

# Letters that are more than a plain letter with a mark on it.
_LETTERS = {"ä": "ae", "ö": "oe", "ü": "ue", "Ä": "Ae", "Ö": "Oe", "Ü": "Ue", "ß": "ss", "ø": "o", "Ø": "O", "ł": "l",
            "Ł": "L", "đ": "d", "Đ": "D", "æ": "ae", "Æ": "Ae", "œ": "oe", "Œ": "Oe", "ı": "i", "&": "_and_"}


def plain_names(shown: Iterable[str], fallback: str) -> Dict[str, str]:
    """A plain name for each shown one, all different: itself where it is one, else as close as can be.

    >>> plain_names(["Ann", "Zürich AG", "Zuerich AG", "東京", "7up"], "bidder")
    {'Ann': 'Ann', 'Zürich AG': 'Zuerich_AG', 'Zuerich AG': 'Zuerich_AG_2', '東京': 'bidder', '7up': 'bidder_7up'}
    """
    names = list(dict.fromkeys(shown))
    # A name that can stay as it is stays so, whatever comes before it.
    plain = {name: name for name in names if NAME.fullmatch(name)}
    taken = set(plain)
    for name in names:
        if name not in plain:
            plain[name] = _free(_plain(name, fallback), taken)
            taken.add(plain[name])
    return {name: plain[name] for name in names}


def _plain(name: str, fallback: str) -> str:
    spelled = "".join([_LETTERS.get(letter, letter) for letter in unicodedata.normalize("NFC", name)])
    bare = unicodedata.normalize("NFKD", spelled).encode("ascii", "ignore").decode("ascii")
    bare = re.sub(r"[^A-Za-z0-9.-]+", "_", bare).strip("_.-")
    if not bare:
        return fallback
    return (bare if bare[0].isalpha() else "%s_%s" % (fallback, bare))[:MOST_LETTERS]


def _free(name: str, taken: Iterable[str]) -> str:
    """The name, with a number where it is taken."""
    free, number = name, 1
    while free in taken:
        number += 1
        end = "_%d" % number
        free = name[:MOST_LETTERS - len(end)] + end
    return free
