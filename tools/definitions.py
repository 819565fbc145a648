"""The definitions and lemmas of specs/ and proofs/, and what each of them cites. For tools/reading and
checks/unused.

It is a reading by words and imports, and no compiler's: a name that is bound in a definition and is that of another
definition too, in the same file or imported, counts as cited.
"""
from __future__ import annotations

import pathlib
import re
from typing import Iterator, NamedTuple, Optional

CRATES = pathlib.Path(__file__).resolve().parent.parent / "crates"

# The module of a definition, as imports write it, and its name.
Key = tuple[str, str]

IMPORT = re.compile(r"(?:ghost )?use (\S+?)\.\{(.*)\};?$")
WHOLE_IMPORT = re.compile(r"(?:ghost )?use (\S+) as (\S+?);?$")
# What begins a definition: `pub name : ..`, `abbrev pub name : ..`, `pub record name ..`.
BEGINS = re.compile(r"(?:(?:abbrev|unfoldable) )?(?:pub )?(?:record (?P<record>[^\s{]+)|(?P<name>[^\s(){}\[\],;.:]+) : )")
# A name, or names of which each is part of the one before it.
WORD = re.compile(r"[^\s(){}\[\],;:λ|&]+")


class Definition(NamedTuple):
    key: Key
    file: str
    line: int
    # Whether it answers a goal of the prover.
    is_answer: bool
    # Its lines, without comments.
    lines: list[str]


class Imports(NamedTuple):
    """What the words of a file stand for."""

    names: dict[str, Key]
    modules: dict[str, str]


def sources(suffix: str, folders: tuple[str, ...] = ("src", "specs", "proofs")) -> Iterator[pathlib.Path]:
    for folder in folders:
        yield from sorted(CRATES.glob(f"*/{folder}/**/*.{suffix}"))


def without_comments(text: str, mark: str) -> list[str]:
    return [re.sub(rf"(^|\s){mark}.*", "", line) for line in text.split("\n")]


def is_import(line: str) -> bool:
    return line.lstrip().startswith(("use ", "ghost use "))


def module_of(file: pathlib.Path) -> str:
    return ".".join(("Rattle", *file.relative_to(CRATES).with_suffix("").parts))


def imports_of(lines: list[str]) -> Imports:
    found = Imports({}, {})
    for line in filter(is_import, lines):
        if several := IMPORT.match(line.strip()):
            for item in filter(None, map(str.strip, several[2].split(","))):
                name, _, other = item.partition(" as ")
                found.names[first_word(other or name)] = (several[1], name)
        elif whole := WHOLE_IMPORT.match(line.strip()):
            found.modules[whole[2]] = whole[1]
    return found


def first_word(name: str) -> str:
    """An operator is called by the first of its words, and `◌` is the place of what it is applied to."""
    return next(filter(None, name.split("◌")), name)


def definitions_in(file: pathlib.Path, lines: list[str]) -> Iterator[Definition]:
    """The definitions and lemmas of a file, each with its lines: those further in, further equations of it, and the
    heads of the modules that it stands in."""
    current: Optional[tuple[int, Definition]] = None
    heads: list[tuple[int, str]] = []
    for number, line in enumerate(lines, 1):
        text = line.strip()
        depth = len(line) - len(line.lstrip())
        if not text or is_import(line):
            continue
        if current and depth > current[0]:
            current[1].lines.append(line)
            continue
        heads = [head for head in heads if head[0] < depth]
        begins = BEGINS.match(text)
        if text.startswith("module "):
            heads.append((depth, line))
            current = None
        elif begins and (name := begins["record"] or begins["name"]):
            is_answer = "goal." in text or file.name == "Proof.antt"
            own = [*(head for _, head in heads), line]
            current = (depth, Definition((module_of(file), name), str(file.relative_to(CRATES)), number, is_answer, own))
            yield current[1]
        elif current and depth == current[0]:
            current[1].lines.append(line)


def cited_in(lines: list[str], module: str, imports: Imports) -> Iterator[Key]:
    """What these lines of a file may cite: each word as a name of its own module, and what it imports by that name. Of
    words that are joined by dots the first counts, and where it is a module the second; the others are fields."""
    for line in lines:
        for word in WORD.findall(line):
            first, *rest = word.split(".")
            yield module, first
            yield module, f"◌{first}◌"
            if first in imports.names:
                yield imports.names[first]
            if rest and first in imports.modules:
                yield imports.modules[first], rest[0]
