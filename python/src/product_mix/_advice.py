"""What the codes and limits of the program mean for whoever has to mend a text."""

from typing import Mapping, Optional, Sequence

# By the code of a fault; where the word of the row or what is known of its fields tells more, by both.
_FAULTS = {
    "header": "The first row is none of mix,1, mix,2 and mix,3. Mend it; a file that was saved with semicolons has to be "
              "saved with commas.",
    "header upgrade": "Only an auction of format 1 can be upgraded: its first row is mix,1.",
    "place": "This word may not stand here: after goods, supply and reserve come bids and then end; caps stand after the "
             "bids in format 3, order before end in formats 2 and 3. Look for a misspelled word, or for a row that is "
             "missing or stands twice.",
    "fields order": "`order` names every bidder once. Copy them from the bids.",
    "fields": "The row has too few fields or too many. Write '-' for a good that a bid leaves out.",
    "name": "A name is a letter, then letters, digits, '_', '-' or '.', at most 32 characters, without blanks and "
            "without marks on letters: Ada_Lovelace, B7, Zuerich.",
    "repeated": "A name stands twice where it may stand once. Take one out, or give it another name.",
    "number": "A number is digits, with '-' before them if need be: no blank, no '+', no leading zero, no point. For "
              "decimals take a smaller unit, as cents.",
    "range": "The number is too small or too large for its place. Take a larger unit for all values and reserves, or for "
             "all supplies and weights.",
    "range negative": "The number is negative, and here it has to be at least 0. Look for a '-' too many.",
    "range outcome": "The version of the outcome isn't that of its auction: 1 for format 1, 2 for formats 2 and 3.",
    "range own": "The number is too small or too large, or the supply of a good and all that is owned of it are more than "
                 "1,000,000.",
    "weight": "A bid of weight 0 says nothing. Write for how many units it is, or drop the row.",
    "weight cap": "A bidder with a bid of negative weight can't have a cap. Drop the cap, or write the list without such "
                  "bids.",
    "weight add": "The weight is 0, or it is negative and the bidder has a cap. Write for how many units the bid is, or "
                  "drop the row.",
    "nothing": "The bid offers no good. Give it a value, or drop the row.",
    "end": "The rows end too early: a row is missing here, most often the last one. If the file was cut short, fetch it "
           "again.",
    "after": "A row stands after the last one that is wanted. Send each auction by itself, and with it only what the "
             "command wants.",
    "other": "The name isn't the one that is wanted here. Most often the outcome is of another auction.",
    "other cap": "No bid stands under this name. Copy it from the bids.",
    "other order": "The row wants the name of every bidder once. Copy them from the bids.",
    "other drop": "There is no such bidder at this point of the session.",
    "other owner": "No bid stands under this name. Copy it from the bids.",
    "other owned": "A unit is owned of a good whose reserve isn't 0. An owner sells at any price: set the reserve to 0, or "
                   "leave the good out.",
    "other own": "No bid stands under this name, or a unit is owned of a good whose reserve isn't 0: an owner sells at any "
                 "price, so set the reserve to 0, or leave the good out.",
}

_LIMITS = {
    "bytes": "The text is too long. Look whether it is an auction at all.",
    "goods": "Sell goods that are as good as the same for everyone as one good; format 2 takes more than format 1.",
    "bidders": "The auction is too large; format 2 takes more bidders than format 1.",
    "bids": "Bids of one bidder with the same values can be joined to one, whose weight is the sum of theirs.",
    "negatives": "Format 2 counts the cells of such bids instead. Bids with the same values can be joined to one.",
    "cells": "The bids of negative weight of this bidder take too much work. Split the bidder in two, or leave the last of "
             "these bids out.",
    "clears": "Begin another session with the auction as it then stands.",
}

# How many there may be, where that doesn't depend on the format; and in formats 1, 2 and 3 where it does.
_MOST: Mapping[str, Sequence[int]] = {
    "bytes": [16_777_216] * 3,
    "goods": [5, 8, 8],
    "bidders": [64, 256, 256],
    "bids": [400] * 3,
    "negatives": [12] * 3,
    "cells": [4_194_304] * 3,
    "clears": [64] * 3,
}


def advice_for_fault(code: str, word: str, command: str, known: str = "") -> str:
    """What to do about a fault in a row that begins with a word, with a command, and with what is known of its field."""
    for key in ("%s %s" % (code, known), "%s %s" % (code, word), "%s %s" % (code, command), code):
        if key in _FAULTS:
            return _FAULTS[key]
    return "docs/ERRORS.md says what to do."


def advice_for_limit(quantity: str) -> str:
    """What to do where a limit is passed."""
    return _LIMITS.get(quantity, "docs/ERRORS.md says what to do.")


def most_of(quantity: str, format: int) -> Optional[int]:
    """How many there may be in a format."""
    most = _MOST.get(quantity)
    return None if most is None else most[format - 1]
