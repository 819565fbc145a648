"""The page for researchers and the one for R, as they stand."""

import doctest
import importlib.util
import os
import re
import shutil
import subprocess
from pathlib import Path
from typing import List

import pytest

from product_mix import __version__
from product_mix._program import find_program

from conftest import TOP

RESEARCH = TOP / "docs" / "RESEARCH.md"


def blocks(language: str) -> "list[str]":
    return re.findall(r"^```%s\n(.*?)^```$" % language, RESEARCH.read_text(), re.MULTILINE | re.DOTALL)


def test_its_python(tmp_path: Path, monkeypatch: pytest.MonkeyPatch) -> None:
    has_numpy = importlib.util.find_spec("numpy") is not None
    told = "\n".join(block for block in blocks("pycon") if has_numpy or "numpy" not in block)
    monkeypatch.chdir(tmp_path)
    test = doctest.DocTestParser().get_doctest(told, {}, RESEARCH.name, str(RESEARCH), 0)
    runner = doctest.DocTestRunner(optionflags=doctest.NORMALIZE_WHITESPACE)
    assert len(test.examples) > 15 and runner.run(test).failed == 0


def printed_by_r(folder: Path, script: str) -> str:
    """What R prints of a script at the top of the checkout, with the program on the path."""
    (folder / "product_mix").symlink_to(Path(find_program()).resolve())
    (folder / "page.R").write_text(script)
    path = "%s:%s" % (folder, os.environ["PATH"])
    return subprocess.run(["Rscript", str(folder / "page.R")], cwd=TOP, env={**os.environ, "PATH": path}, check=True,
                          stdout=subprocess.PIPE, stderr=subprocess.STDOUT, text=True).stdout


def without_ends(text: str) -> List[str]:
    """The lines without the blanks at their ends, which R pads."""
    return [line.rstrip() for line in text.splitlines()]


@pytest.fixture
def r_page() -> str:
    if shutil.which("Rscript") is None:
        pytest.skip("there is no R")
    return (TOP / "docs" / "R.md").read_text()


def test_the_page_for_r(r_page: str, tmp_path: Path) -> None:
    parts = re.findall(r"^```r\n(.*?)^```\n\n```\n(.*?)^```$|^```r\n(.*?)^```$", r_page, re.MULTILINE | re.DOTALL)
    assert len(parts) == 3
    script = "".join(part[0] or part[2] for part in parts)
    assert without_ends(printed_by_r(tmp_path, script)) == without_ends("".join(part[1] for part in parts))


def test_the_page_for_r_by_the_library(r_page: str, tmp_path: Path) -> None:
    library = Path(os.environ.get("PRODUCT_MIX_LIBRARY") or TOP / "c" / "out" / "libproduct_mix.so.1")
    if not library.exists():
        pytest.skip("there is no library")
    found = re.search(r"^```r-library\n(.*?)^```\n\n```\n(.*?)^```$", r_page, re.MULTILINE | re.DOTALL)
    assert found is not None
    shutil.copytree(TOP / "r", tmp_path / "r")
    flags = {"PKG_CPPFLAGS": "-I%s" % (TOP / "c"), "PKG_LIBS": "%s -Wl,-rpath,%s" % (library, library.parent)}
    subprocess.run(["R", "CMD", "SHLIB", "product_mix.c"], cwd=tmp_path / "r", env={**os.environ, **flags}, check=True,
                   stdout=subprocess.DEVNULL)
    before = "".join(re.findall(r"^```r\n(.*?)^```$", r_page, re.MULTILINE | re.DOTALL))
    script = before + "cat('the library\\n')\n" + found[1].replace('"r/product_mix"', repr(str(tmp_path / "r" / "product_mix")))
    printed = printed_by_r(tmp_path, script).split("the library\n")[1]
    assert without_ends(printed) == without_ends(found[2])


def test_the_citation() -> None:
    text = (TOP / "CITATION.cff").read_text()
    assert "cff-version: 1.2.0\n" in text and "version: %s\n" % __version__ in text
