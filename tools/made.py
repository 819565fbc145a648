"""What a script makes of a document between two marks, `<!-- made: NAME -->` and `<!-- end of NAME -->`. For
tools/reading and tools/map."""
from __future__ import annotations

import difflib
import pathlib
import re


def compare_or_write(script: str, document: pathlib.Path, made: dict[str, str], writes: bool) -> int:
    """Writes what is made under each name between its marks, or tells where the document has something else; the status
    is 1 then, or where marks are missing."""
    old = new = document.read_text()
    for name, text in made.items():
        start, end = f"<!-- made by tools/{script}: {name} -->", f"<!-- end of {name} -->"
        between = re.compile(re.escape(start) + "\n.*?" + re.escape(end), re.DOTALL)
        if not between.search(new):
            print(f"{script}: {document.name} has no marks {start} and {end}")
            return 1
        new = between.sub(lambda _: f"{start}\n\n{text}\n\n{end}", new, count=1)
    return settle(script, document, old, new, writes)


def settle(script: str, file: pathlib.Path, old: str, new: str, writes: bool) -> int:
    """Writes the new text to the file, or tells where it has another."""
    if old == new:
        print(f"{script}: {file.name} is as it is made")
        return 0
    if writes:
        file.write_text(new)
        print(f"{script}: {file.name} was written")
        return 0
    print(*difflib.unified_diff(old.splitlines(), new.splitlines(), "as it stands", "as it is made", n=0, lineterm=""), sep="\n")
    print(f"{script}: {file.name} isn't what is made of the sources today; tools/{script} --write writes it")
    return 1
