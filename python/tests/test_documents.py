"""The examples in the docstrings and in the README, as they stand."""

import doctest
import importlib
import pkgutil
import re
from pathlib import Path

import pytest

import product_mix

README = Path(__file__).resolve().parents[1] / "README.md"
MODULES = ["product_mix", *[module.name for module in pkgutil.walk_packages(product_mix.__path__, "product_mix.")]]


@pytest.mark.parametrize("name", MODULES)
def test_docstrings(name: str) -> None:
    assert doctest.testmod(importlib.import_module(name)).failed == 0


def has_pandas() -> bool:
    return importlib.util.find_spec("pandas") is not None


def test_the_readme(tmp_path: Path, monkeypatch: pytest.MonkeyPatch) -> None:
    """Its sessions are one, run in a folder of their own; a part that wants pandas is left out where there is none."""
    blocks = re.findall(r"^```pycon\n(.*?)^```$", README.read_text(), re.MULTILINE | re.DOTALL)
    told = "\n".join(block for block in blocks if has_pandas() or "to_frame" not in block)
    monkeypatch.chdir(tmp_path)
    test = doctest.DocTestParser().get_doctest(told, {}, "README.md", str(README), 0)
    runner = doctest.DocTestRunner(optionflags=doctest.NORMALIZE_WHITESPACE)
    assert len(test.examples) > 15 and runner.run(test).failed == 0


def test_every_public_name_is_told_of() -> None:
    text = README.read_text()
    for name in product_mix.__all__:
        value = getattr(product_mix, name)
        assert value.__doc__, name
        assert re.search(r"`%s\b|\b%s\(" % (name, name), text), name
