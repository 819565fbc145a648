"""What the tests share: the checkout's examples, both ways to a solver, and programs that behave badly."""

import os
import stat
import textwrap
from pathlib import Path
from typing import Callable, Dict, Iterator

import pytest
from hypothesis import HealthCheck, settings

from product_mix import ProgramNotFound
from product_mix._library import LIBRARY_VARIABLE, usual_library
from product_mix._program import find_program

TOP = Path(__file__).resolve().parents[2]
EXAMPLES = sorted(folder for folder in (TOP / "examples").iterdir() if folder.is_dir())

# A call may take long on a busy machine, and nothing here depends on how long.
settings.register_profile(
    "checks", deadline=None, suppress_health_check=[HealthCheck.too_slow], derandomize=True, database=None)
settings.load_profile("checks")


def pytest_sessionstart(session: pytest.Session) -> None:
    try:
        find_program()
    except ProgramNotFound as error:
        pytest.exit(str(error), returncode=1)


@pytest.fixture(params=["program", "library"])
def way(request: pytest.FixtureRequest) -> Dict[str, str]:
    """The arguments that lead to the program, and to the library where there is one."""
    if request.param == "program":
        return {"program": find_program()}
    named = os.environ.get(LIBRARY_VARIABLE)
    if named:
        return {"library": named}
    if usual_library() is None:
        pytest.skip("there is no library")
    return {}


@pytest.fixture
def script(tmp_path: Path) -> Callable[[str], str]:
    """Makes a program of the lines of a shell script."""

    def make(lines: str) -> str:
        path = tmp_path / "program"
        path.write_text("#!/bin/sh\n" + textwrap.dedent(lines))
        path.chmod(path.stat().st_mode | stat.S_IXUSR)
        return str(path)

    return make


@pytest.fixture
def bare(monkeypatch: pytest.MonkeyPatch) -> Iterator[pytest.MonkeyPatch]:
    """No variable names a solver, and the library is nowhere."""
    monkeypatch.delenv("PRODUCT_MIX", raising=False)
    monkeypatch.delenv("PRODUCT_MIX_LIBRARY", raising=False)
    monkeypatch.setattr("product_mix._solver.usual_library", lambda: None)
    yield monkeypatch
