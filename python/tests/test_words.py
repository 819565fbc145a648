"""The words of the command line, on files."""

import csv
import io
import json
import subprocess
import sys
from pathlib import Path
from typing import Any, Callable, Dict, List, Tuple

import pytest

from product_mix.__main__ import WORDS, main

from conftest import EXAMPLES, TOP

STALLS = str(TOP / "examples" / "stalls" / "auction.csv")
#: What the words print on standard output and on standard error, and the status.
Run = Callable[..., Tuple[int, str, str]]


@pytest.fixture
def run(capsys: pytest.CaptureFixture[str]) -> Run:
    def call(*words: object) -> Tuple[int, str, str]:
        status = main([str(word) for word in words])
        printed = capsys.readouterr()
        return status, printed.out, printed.err

    return call


def example(name: str, file: str = "auction.csv") -> Path:
    return TOP / "examples" / name / file


def of_command(command: str) -> List[str]:
    return [folder.name for folder in EXAMPLES if (folder / "command").read_text().split()[0] == command and not (
        folder / "status").exists()]


def test_the_table_of_an_outcome(run: Run) -> None:
    status, out, err = run("solve", STALLS)
    assert (status, err) == (0, "") and out == """\
good     for sale  reserve  price  sold  unsold
-----------------------------------------------
inside          2       10     16     2       0
outside         2        6      8     2       0

bidder    asked for  got of inside  got of outside  pays
--------------------------------------------------------
Ann               1              1               0    16
Bo                2              1               1    24
Cleo              2              0               1     8
--------------------------------------------------------
together          5              2               2    48

revenue: 48
the checker says: yes
"""


@pytest.mark.parametrize("name", [folder.name for folder in EXAMPLES])
def test_the_programs_own_text(name: str, run: Run) -> None:
    """Each example by its word, which prints what the program prints, with the same status."""
    word = example(name, "command").read_text().split()[0]
    wanted = example(name, "status").read_text() if example(name, "status").exists() else "0"
    status, out, _ = run(word, example(name), *([] if word == "upgrade" else ["--text"]))
    assert (status, out) == (int(wanted), example(name, "expected").read_text())


@pytest.mark.parametrize("name", of_command("solve"))
def test_the_lines_of_the_examples(name: str, run: Run) -> None:
    """The table as CSV says what the printed outcome says: row by row the shares, and price times quantity."""
    rows = list(csv.reader(example(name, "expected").open()))
    prices = next(list(map(int, row[1:])) for row in rows if row[0] == "price")
    goods = next(row[1:] for row in csv.reader(example(name).open()) if row[0].endswith("goods"))
    wanted = [[row[1], good, units, str(price), str(price * int(units))] for row in rows if row[0] == "share"
              for good, units, price in zip(goods, row[2:], prices)]
    status, out, _ = run("solve", example(name), "--csv")
    assert status == 0 and list(csv.reader(io.StringIO(out))) == [["bidder", "good", "quantity", "price", "payment"], *wanted]


def test_json(run: Run) -> None:
    told: Dict[str, Any] = json.loads(run("solve", STALLS, "--json")[1])
    assert told["prices"] == {"inside": 16, "outside": 8} and told["revenue"] == 48 and told["checked"] is True
    assert told["shares"]["Bo"] == {"bundle": {"inside": 1, "outside": 1}, "payment": 24}
    assert json.loads(run("validate", STALLS, "--json")[1]) == {"units": {"Ann": 1, "Bo": 2, "Cleo": 2}}
    assert json.loads(run("trail", STALLS, "--json")[1])["steps"][1] == {
        "goods": ["inside", "outside"], "length": 2, "slope": -1}
    assert json.loads(run("trial", 7, "--json")[1])["bidders"] == 40


def test_every_word_has_every_form(run: Run) -> None:
    for name in [folder.name for folder in EXAMPLES]:
        word = example(name, "command").read_text().split()[0]
        for form in [] if word == "upgrade" else [[], ["--csv"], ["--json"]]:
            status, out, err = run(word, example(name), *form)
            assert status == int(example(name, "status").read_text()) if example(name, "status").exists() else status == 0
            assert out and not err, (name, form)


def test_a_refusal(run: Run) -> None:
    status, out, _ = run("solve", example("not-a-demand"))
    assert status == 1 and out.startswith("The list of Otto stands for no demand")
    row = list(csv.reader(io.StringIO(run("solve", example("not-a-demand"), "--csv")[1])))[1]
    assert row == example("not-a-demand", "expected").read_text().splitlines()[1].replace(",-,", ",,").split(",")[1:]


def test_an_outcome_in_a_file_of_its_own(run: Run, tmp_path: Path) -> None:
    outcome = tmp_path / "outcome.csv"
    outcome.write_text(run("solve", STALLS, "--text")[1])
    assert run("check", STALLS, outcome)[:2] == (0, "yes\n")
    outcome.write_text(outcome.read_text().replace("share,Bo,1,1,24", "share,Bo,1,1,20"))
    assert run("check", STALLS, outcome)[:2] == (1, "no: the payment of Bo isn't price times quantity, which is 24\n")
    assert json.loads(run("check", STALLS, outcome, "--json")[1]) == {
        "true": False, "reason": "pay", "bidder": "Bo", "amount": 24}


def test_prices_for_utility(run: Run) -> None:
    assert run("utility", STALLS, "--prices", "16,8", "--text")[1] == "utility,Ann,24\nutility,Bo,16\nutility,Cleo,16\nend\n"
    assert run("utility", STALLS, "--prices", "16")[0] == 3
    assert run("utility", STALLS, "--prices", "16,8.5")[::2] == (3, "8.5 is no multiple of the step 1\n")
    assert run("utility", STALLS, "--prices", "16,x")[0] == 3


def test_faults_and_limits(run: Run, tmp_path: Path) -> None:
    text = tmp_path / "auction.csv"
    text.write_text(Path(STALLS).read_text().replace("40,-", "40.5,-"))
    status, out, err = run("solve", text)
    assert (status, out) == (3, "") and err.startswith("%s, line 5 (row 5): number\n    bid,Ann,1,40.5,-\n" % text)
    text.write_text("mix,1\ngoods,A,B,C,D,E,F\n")
    assert run("solve", text)[0] == 4
    text.write_text("bidder;quantity;inside\n")
    status, _, err = run("solve", text)
    assert status == 3 and "python -m product_mix sheet FILE" in err
    assert run("solve", tmp_path / "none.csv")[::2] == (5, "%s: No such file or directory\n" % (tmp_path / "none.csv"))
    assert run("solve", tmp_path)[0] == 5


def test_no_solver(run: Run) -> None:
    status, out, err = run("solve", STALLS, "--program", "/nowhere/product_mix")
    assert (status, out) == (8, "") and err == "there is no program /nowhere/product_mix, which program= names\n"


@pytest.mark.parametrize("words", [[], ["frob"], ["solve"], ["trial"], ["solve", STALLS, "--csv", "--json"]])
def test_unknown_words(words: List[str], run: Run) -> None:
    with pytest.raises(SystemExit) as ended:
        run(*words)
    assert ended.value.code == 2


@pytest.mark.parametrize("word", [[], *[[word] for word in WORDS]])
def test_help(word: List[str], capsys: pytest.CaptureFixture[str]) -> None:
    with pytest.raises(SystemExit) as ended:
        main([*word, "--help"])
    assert ended.value.code == 0
    told = capsys.readouterr().out
    assert all(name in told for name in WORDS) if not word else "usage: python -m product_mix %s" % word[0] in told


def test_as_a_process() -> None:
    """Standard input, and names of any letters in any locale."""
    words = [sys.executable, "-m", "product_mix", "solve", "-"]
    environment = {**__import__("os").environ, "PYTHONIOENCODING": "ascii"}
    done = subprocess.run(words, input=Path(STALLS).read_bytes(), stdout=subprocess.PIPE, env=environment, check=False)
    assert done.returncode == 0 and done.stdout.decode().startswith("good ")
    closed = subprocess.run(["sh", "-c", "%s -m product_mix solve %s | true" % (sys.executable, STALLS)],
                            stderr=subprocess.PIPE, check=False)
    assert closed.stderr == b""
