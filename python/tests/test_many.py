"""The word many: lines that are whole, runs that are killed and go on, and all ways in which texts come."""

import io
import json
import os
import signal
import subprocess
import sys
import tarfile
import time
import zipfile
from concurrent.futures import CancelledError, ThreadPoolExecutor
from hashlib import sha256
from pathlib import Path
from types import ModuleType
from typing import Any, Callable, Dict, List

import pytest

from product_mix import Auction, solve
from product_mix.__main__ import main
from product_mix._lines import LineFile
from product_mix._many import run_many
from product_mix._program import Reply
from product_mix._texts import texts_in

from conftest import TOP
from test_values import STALLS

REFUSED = Auction(["A"], [1], [0]).bid("P", -1, A=5)
FAULTY = "mix,1\ngoods,A\nsupply,1\nreserve,0\nbid,P,1,05\nend\n"
# Other processes find the package wherever they run.
ENVIRONMENT = {**os.environ, "PYTHONPATH": str(TOP / "python" / "src")}
PAST_LIMIT = "mix,1\ngoods,A,B,C,D,E,F\n"


@pytest.fixture
def here(tmp_path: Path, monkeypatch: pytest.MonkeyPatch) -> Path:
    monkeypatch.chdir(tmp_path)
    return tmp_path


def lines_in(path: Path) -> List[Dict[str, Any]]:
    return [json.loads(line) for line in path.read_text().splitlines()]


def many(*words: object) -> int:
    return main(["many", *[str(word) for word in words], "--workers", "2"])


def four(folder: Path) -> None:
    (folder / "deep").mkdir(parents=True)
    (folder / "a b.csv").write_text(STALLS.text())
    (folder / "deep" / "näher.csv").write_text(REFUSED.text())
    (folder / "faulty.csv").write_text(FAULTY)
    (folder / "limit.csv").write_text(PAST_LIMIT)
    (folder / "notes.txt").write_text("no auction")


def test_each_status(here: Path, capsys: pytest.CaptureFixture[str]) -> None:
    four(here / "texts")
    assert many("texts") == 0
    told = "4 texts: 1 cleared, 1 refused, 1 faulty, 1 past a limit"
    assert capsys.readouterr().out == told + "; 1 files of other names were left out\n"
    lines = {line["name"]: line for line in lines_in(here / "outcomes.jsonl")}
    cleared, refused = lines["texts/a b.csv"], lines["texts/deep/näher.csv"]
    outcome = solve(STALLS)
    assert cleared["outcome"] == outcome.text(STALLS) and cleared["sha256"] == sha256(STALLS.text().encode()).hexdigest()
    assert (cleared["status"], cleared["prices"], cleared["revenue"]) == ("cleared", {"inside": 16, "outside": 8}, 48)
    assert cleared["seconds"] > 0 and cleared["error"] is None
    assert refused["status"] == "refused" and refused["outcome"] == solve(REFUSED).text(REFUSED)
    assert refused["prices"] is refused["revenue"] is refused["error"] is None
    assert lines["texts/faulty.csv"]["status"] == "faulty" and lines["texts/faulty.csv"]["outcome"] == "fault,5,number\n"
    assert lines["texts/faulty.csv"]["error"].startswith("texts/faulty.csv, line 5 (row 5): number")
    assert lines["texts/limit.csv"]["status"] == "limit" and lines["texts/limit.csv"]["outcome"] == "limit,2,goods\n"

    before = (here / "outcomes.jsonl").read_bytes()
    assert many("texts") == 0
    assert "; 4 were done before; " in capsys.readouterr().out and (here / "outcomes.jsonl").read_bytes() == before
    # Another text of the same name is another auction.
    (here / "texts" / "faulty.csv").write_text(STALLS.text())
    assert many("texts", "texts/a b.csv") == 0
    assert (here / "outcomes.jsonl").read_bytes().startswith(before) and len(lines_in(here / "outcomes.jsonl")) == 5


def test_archives(here: Path, capsys: pytest.CaptureFixture[str]) -> None:
    text = STALLS.text().encode()
    with zipfile.ZipFile("texts.zip", "w") as archive:
        archive.writestr("deep/one two.csv", text)
        archive.writestr("deep/", b"")
        archive.writestr("readme", b"")
    with tarfile.open("texts.tar.gz", "w:gz") as tar:
        for name in ("./one.csv", "two.text"):
            member = tarfile.TarInfo(name)
            member.size = len(text)
            tar.addfile(member, io.BytesIO(text))
    Path("broken.zip").write_bytes(b"PK\x03\x04 no more")
    Path("broken.tar").write_bytes(b"no archive")
    assert many("texts.zip", "texts.tar.gz", "broken.zip", "broken.tar", "missing.csv", "--out", "out.jsonl") == 1
    printed = capsys.readouterr()
    assert printed.out.startswith("5 texts: 2 cleared, 0 refused, 0 faulty, 0 past a limit; 3 without an answer")
    assert sorted(line.split(":")[0] for line in printed.err.splitlines()) == ["broken.tar", "broken.zip", "missing.csv"]
    names = sorted(line["name"] for line in lines_in(here / "out.jsonl"))
    assert names == ["texts.tar.gz/./one.csv", "texts.zip/deep/one two.csv"]
    assert many("texts.tar.gz", "--pattern", "*.text", "--out", "out.jsonl") == 0
    assert lines_in(here / "out.jsonl")[2]["name"] == "texts.tar.gz/two.text"


def slow_program(script: Callable[[str], str]) -> str:
    return script("cat >/dev/null; sleep 0.2; printf 'outcome,1\\ncleared\\nprice,0\\nreturn,1\\nend\\n'\n")


def test_a_run_that_is_killed_goes_on(here: Path, script: Callable[[str], str]) -> None:
    """Killed with no warning in the middle, it has whole lines, and then does what is missing."""
    (here / "texts").mkdir()
    for number in range(20):
        (here / "texts" / ("%d.csv" % number)).write_text("mix,1\ngoods,A\nsupply,1\nreserve,0\nend\n")
    words = [sys.executable, "-m", "product_mix", "many", "texts", "--workers", "2", "--program", slow_program(script)]
    out = here / "outcomes.jsonl"
    process = subprocess.Popen(words, env=ENVIRONMENT, stdout=subprocess.DEVNULL)
    while not out.exists() or out.read_bytes().count(b"\n") < 3:
        assert process.poll() is None
        time.sleep(0.05)
    process.send_signal(signal.SIGKILL)
    process.wait()
    first = out.read_bytes()
    done = first.count(b"\n")
    assert 3 <= done < 20
    # A line in the making, as a kill in the middle of its writing leaves it.
    out.write_bytes(first[:first.rindex(b"\n") + 1] + b'{"name": "texts/7.csv", "sha')
    ended = subprocess.run(words, env=ENVIRONMENT, capture_output=True, text=True)
    assert ended.returncode == 0 and "20 texts: 20 cleared" in ended.stdout and "%d were done before" % done in ended.stdout
    lines = lines_in(out)
    assert len(lines) == 20 == len({line["name"] for line in lines})
    assert out.read_bytes().startswith(first[:first.rindex(b"\n") + 1])


@pytest.mark.parametrize("content", [
    b"my notes\n", b"my notes", b"mix,1\n", b'{"name": "a", "status": "cleared"}\n', b'[1]\n', b'{"no', b"\x00\x01"])
def test_a_file_of_something_else_is_left_alone(here: Path, content: bytes, capsys: pytest.CaptureFixture[str]) -> None:
    (here / "mine").write_bytes(content)
    assert many(here / "none.csv", "--out", "mine") != 0
    assert "line 1 is no line of outcomes" in capsys.readouterr().err and (here / "mine").read_bytes() == content


def test_one_run_at_a_time(here: Path) -> None:
    code = "from product_mix._lines import LineFile\nwith LineFile('out'): print('has it', flush=True); input()"
    other = subprocess.Popen([sys.executable, "-c", code], env=ENVIRONMENT, stdin=subprocess.PIPE, stdout=subprocess.PIPE)
    assert other.stdout is not None and other.stdout.readline() == b"has it\n"
    with pytest.raises(ValueError, match="another run adds to out"):
        LineFile("out")
    other.communicate(b"\n")
    LineFile("out").__exit__(None, None, None)


def test_a_solver_that_fails_has_no_line_and_is_tried_again(
        here: Path, script: Callable[[str], str], capsys: pytest.CaptureFixture[str]) -> None:
    (here / "one.csv").write_text(STALLS.text())
    assert many("one.csv", "--program", script("cat >/dev/null; kill -9 $$\n")) == 1
    printed = capsys.readouterr()
    assert "one.csv: " in printed.err and "SIGKILL" in printed.err and "1 without an answer" in printed.out
    assert (here / "outcomes.jsonl").read_bytes() == b""
    assert many("one.csv") == 0 and lines_in(here / "outcomes.jsonl")[0]["status"] == "cleared"


def test_a_number_of_workers(here: Path, capsys: pytest.CaptureFixture[str]) -> None:
    for bad in ("0", "-1", "two"):
        with pytest.raises(SystemExit):
            main(["many", "texts", "--workers=" + bad])
        assert "is no number of processes" in capsys.readouterr().err


@pytest.mark.parametrize("words, module, wanted", [
    (["--dask", "tcp://127.0.0.1:1"], "dask", "pip install distributed"),
    (["--mpi"], "mpi4py.futures", "pip install mpi4py")])
def test_engines_that_are_not_installed(here: Path, words: List[str], module: str, wanted: str,
                                        monkeypatch: pytest.MonkeyPatch, capsys: pytest.CaptureFixture[str]) -> None:
    monkeypatch.setitem(sys.modules, module, None)
    assert main(["many", "texts", *words]) == 8
    assert wanted in capsys.readouterr().err and (here / "outcomes.jsonl").read_bytes() == b""


@pytest.mark.parametrize("error", [OSError("Timed out trying to connect"), ValueError("not a valid address")])
def test_a_scheduler_that_is_not_there(here: Path, error: Exception, monkeypatch: pytest.MonkeyPatch,
                                       capsys: pytest.CaptureFixture[str]) -> None:
    def connect(address: str) -> None:
        raise error

    dask, distributed = ModuleType("dask"), ModuleType("dask.distributed")
    vars(dask)["distributed"], vars(distributed)["Client"] = distributed, connect
    monkeypatch.setitem(sys.modules, "dask", dask)
    assert main(["many", "texts", "--dask", "nowhere"]) == 8
    assert capsys.readouterr().err == "there is no scheduler of Dask at nowhere: %s\n" % error


def test_a_scheduler_that_is_gone_has_a_name(here: Path, monkeypatch: pytest.MonkeyPatch,
                                             capsys: pytest.CaptureFixture[str]) -> None:
    """Its futures are cancelled, with an error that says nothing but its name."""
    def cancelled(*_: object, **__: object) -> None:
        raise CancelledError

    (here / "one.csv").write_text(STALLS.text())
    monkeypatch.setattr("product_mix._many.line_of", cancelled)
    with ThreadPoolExecutor(1) as executor, LineFile("out") as lines:
        assert run_many(texts_in(["one.csv"], "*.csv"), lines, executor).failed == 1
    assert capsys.readouterr().err == "one.csv: CancelledError\n"


def test_workers_of_dask_are_not_counted_here(here: Path, capsys: pytest.CaptureFixture[str]) -> None:
    assert main(["many", "texts", "--dask", "nowhere", "--workers", "2"]) == 2
    assert "--workers doesn't go with --dask" in capsys.readouterr().err and not (here / "outcomes.jsonl").exists()


def test_ctrl_c(here: Path, monkeypatch: pytest.MonkeyPatch, capsys: pytest.CaptureFixture[str]) -> None:
    def stop(*_: object, **__: object) -> None:
        raise KeyboardInterrupt

    monkeypatch.setattr("product_mix.words.many.run_many", stop)
    assert many("texts") == 130 and "the same command does what is missing" in capsys.readouterr().err


def test_a_thousand_files(here: Path, monkeypatch: pytest.MonkeyPatch) -> None:
    (here / "texts").mkdir()
    for number in range(1000):
        (here / "texts" / ("auction %d.csv" % number)).write_text("mix,1\ngoods,A\nsupply,%d\nreserve,0\nend\n" % number)
    reply = Reply(0, b"outcome,1\ncleared\nprice,0\nreturn,1\nend\n")
    monkeypatch.setattr("product_mix._solver.Solver.ask", lambda *_: reply)
    with ThreadPoolExecutor(2) as executor:
        for before in (0, 1000):
            with LineFile("out") as lines:
                tally = run_many(texts_in(["texts"], "*.csv"), lines, executor)
                assert (tally.statuses["cleared"], tally.before, len(lines.done)) == (1000, before, 1000)
    assert sorted(line["name"] for line in lines_in(here / "out")) == sorted(
        "texts/auction %d.csv" % number for number in range(1000))
