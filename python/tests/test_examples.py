"""The scripts in examples, run as a reader would run them, on few seeds."""

import os
import subprocess
import sys
from pathlib import Path
from typing import Any, List

import pytest

from conftest import TOP

EXAMPLES = TOP / "python" / "examples"
# Of each script the words that make it short, and how many lines it prints.
SHORT = {
    "revenue_by_reserve.py": (["--seeds", "2"], 12),
    "way_of_prices.py": (["--most", "12"], 14),
    "cost_of_a_cap.py": (["--seeds", "2"], 7),
}


def run(name: str, words: List[str], folder: Path) -> List[List[str]]:
    environment = {**os.environ, "PYTHONPATH": str(TOP / "python" / "src"), "MPLBACKEND": "Agg"}
    ended = subprocess.run([sys.executable, str(EXAMPLES / name), *words], cwd=folder, env=environment, check=True,
                           stdout=subprocess.PIPE, text=True)
    return [line.replace("%", "").replace("+", "").split() for line in ended.stdout.splitlines()]


def test_each_script_is_short_and_told_of() -> None:
    assert sorted(path.name for path in EXAMPLES.glob("*.py")) == sorted(SHORT)
    for name in SHORT:
        assert len((EXAMPLES / name).read_text().splitlines()) < 60
        assert name in (TOP / "docs" / "RESEARCH.md").read_text()


@pytest.mark.parametrize("name", sorted(SHORT))
def test_a_script(name: str, tmp_path: Path) -> None:
    words, count = SHORT[name]
    lines = run(name, words, tmp_path)
    assert len(lines) == count
    rows: Any = [[int(number) for number in line] for line in lines[1:]]
    if name == "revenue_by_reserve.py":
        # At 1,000, the top of the values, nobody gains by buying.
        assert [row[0] for row in rows] == list(range(0, 1001, 100)) and rows[-1][2] <= rows[0][2]
    elif name == "way_of_prices.py":
        # A larger demand never lowers a price of substitutes, and the bank never gets more than it bids for.
        assert all(before[1] <= after[1] and before[2] <= after[2] for before, after in zip(rows, rows[1:]))
        assert all(row[3] + row[4] <= row[0] for row in rows)
    else:
        # The cap of everything costs nothing, that of nothing leaves no gain.
        assert [row[0] for row in rows] == [100, 80, 60, 40, 20, 0] and rows[-1][1] == 0 and rows[0][2] >= rows[-1][2]


def test_a_plot(tmp_path: Path) -> None:
    pytest.importorskip("matplotlib")
    run("way_of_prices.py", ["--most", "2", "--plot", "way.png"], tmp_path)
    assert (tmp_path / "way.png").read_bytes().startswith(b"\x89PNG")
