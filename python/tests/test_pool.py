"""Work in pools: windows, orders, errors, and workers that are killed."""

import os
import signal
import subprocess
import sys
import threading
import time
from concurrent.futures import BrokenExecutor, Executor, Future, ProcessPoolExecutor, ThreadPoolExecutor
from pathlib import Path
from typing import Any, Iterator, List, Optional, Tuple

import pytest

from product_mix import Auction, Cleared, Fault, FormError, Refused, WorkerLost, solve, solve_many
from product_mix._pool import MOST_BROKEN, Pool, local_pool, run_all

from conftest import TOP
from test_values import STALLS

#: What a worker does: its number, the file that it makes before it is killed, or nothing of this kind.
Task = Tuple[int, Optional[str]]


def double(number: int) -> int:
    if number % 10 == 3:
        raise ValueError("%d isn't liked" % number)
    return 2 * number


def end_worker(task: Task) -> int:
    """Kills the worker with each task that names a file, unless the file is there; ``always`` never is."""
    number, mark = task
    if mark is not None and not os.path.exists(mark):
        if mark != "always":
            Path(mark).touch()
        os.kill(os.getpid(), signal.SIGKILL)
    return number


def two() -> Executor:
    return local_pool(2)


@pytest.mark.parametrize("window", [1, 3, 1000])
def test_results_come_in_order_and_an_error_stops_no_other(window: int) -> None:
    with ThreadPoolExecutor(3) as executor:
        results = list(run_all(double, range(25), Pool(executor), window))
        assert [task for task, _ in results] == list(range(25))
        for number, result in results:
            assert str(result) == ("%d isn't liked" % number if number % 10 == 3 else str(2 * number))
        assert executor.submit(double, 4).result() == 8


def test_at_most_a_window_is_in_flight() -> None:
    taken: List[int] = []

    def numbers() -> Iterator[int]:
        for number in range(50):
            taken.append(number)
            yield number

    with ThreadPoolExecutor(2) as executor:
        results = run_all(double, numbers(), Pool(executor), 4)
        for number in range(10):
            next(results)
            assert len(taken) <= number + 4
        results.close()
    assert len(taken) <= 14


def test_without_order_nobody_waits_for_a_slow_one() -> None:
    gate = threading.Event()

    def wait_at(number: int) -> int:
        if number == 0:
            gate.wait()
        return number

    with ThreadPoolExecutor(2) as executor:
        results = run_all(wait_at, range(6), Pool(executor), 2, in_order=False)
        assert sorted(next(results)[0] for _ in range(5)) == [1, 2, 3, 4, 5]
        gate.set()
        assert [task for task, _ in results] == [0]


def test_a_worker_that_is_killed_once_loses_nothing(tmp_path: Path) -> None:
    tasks: List[Task] = [(number, None) for number in range(12)]
    tasks[5] = (5, str(tmp_path / "mark"))
    assert [result for _, result in run_all(end_worker, tasks, Pool(two), 4)] == list(range(12))


@pytest.mark.parametrize("in_order", [True, False])
def test_the_task_that_kills_each_worker_is_told_and_no_other(in_order: bool) -> None:
    tasks: List[Task] = [(number, "always" if number in (3, 7) else None) for number in range(10)]
    results = {task[0]: result for task, result in run_all(end_worker, tasks, Pool(two), 5, in_order)}
    assert sorted(results) == list(range(10))
    for number, result in results.items():
        assert isinstance(result, WorkerLost) if number in (3, 7) else result == number


def test_an_executor_that_is_handed_in_and_breaks() -> None:
    with ProcessPoolExecutor(1) as executor:
        results = run_all(end_worker, [(0, None), (1, None), (2, "always"), (3, None)], Pool(executor), 1)
        assert [next(results)[1], next(results)[1]] == [0, 1]
        with pytest.raises(WorkerLost, match="takes no more tasks"):
            next(results)


def test_an_executor_that_takes_no_more() -> None:
    executor = ThreadPoolExecutor(1)
    executor.shutdown()
    with pytest.raises(WorkerLost, match="takes no more tasks: cannot schedule new futures after shutdown"):
        list(run_all(double, [1], Pool(executor)))


def test_workers_that_never_work() -> None:
    class Broken(Executor):
        def submit(self, *arguments: Any, **named: Any) -> "Future[Any]":
            raise BrokenExecutor("no worker starts")

    made: List[Executor] = []

    def make() -> Executor:
        made.append(Broken())
        return made[-1]

    with pytest.raises(WorkerLost, match="one after the other"):
        list(run_all(double, [1], Pool(make)))
    assert len(made) == MOST_BROKEN + 1


# ---------------------------------------------------------------------------------------------------------- solve_many

def auctions() -> List[Any]:
    refused = Auction(["A"], [1], [0]).bid("P", -1, A=5)
    return [STALLS, refused, STALLS.text(), "mix,1\nno auction\n", "/no/such/file.csv", None, STALLS.bid("Dan", 1, [1]), STALLS]


def test_solve_many() -> None:
    results = list(solve_many(auctions(), ThreadPoolExecutor(2)))
    kinds = [type(result) for result in results]
    assert kinds == [Cleared, Refused, Cleared, Fault, FileNotFoundError, TypeError, FormError, Cleared]
    assert results[0] == results[2] == results[7] == solve(STALLS)
    error: Any = results[6]
    assert error.bid.bidder == "Dan"


def test_solve_many_by_processes_of_its_own() -> None:
    results = list(solve_many([STALLS, "x\n", STALLS.text()], two))
    assert results[0] == results[2] == solve(STALLS) and isinstance(results[1], Fault) and results[1].line == 1


def test_progress_where_there_is_tqdm(capsys: pytest.CaptureFixture[str]) -> None:
    pytest.importorskip("tqdm")
    with ThreadPoolExecutor(2) as executor:
        assert len(list(solve_many([STALLS, STALLS], executor, progress=True))) == 2
    assert "2/2" in capsys.readouterr().err


def test_progress_where_there_is_none(monkeypatch: pytest.MonkeyPatch, capsys: pytest.CaptureFixture[str]) -> None:
    monkeypatch.setitem(sys.modules, "tqdm", None)
    with ThreadPoolExecutor(2) as executor:
        assert len(list(solve_many([STALLS, STALLS], executor, progress=True))) == 2
    assert capsys.readouterr().err == ""


def test_nothing_starts_before_a_result_is_wanted() -> None:
    def none() -> Iterator[Auction]:
        raise AssertionError
        yield STALLS

    solve_many(none())
    with pytest.raises(ValueError, match="window"):
        solve_many([STALLS], window=0)


def test_workers_end_with_their_parent() -> None:
    """A parent that is killed leaves no worker behind."""
    parent = subprocess.Popen([sys.executable, "-c", (
        "import os, time\nfrom product_mix._pool import local_pool\nfor pid in {local_pool(1).submit(os.getpid).result()}:\n"
        "    print(pid, flush=True)\ntime.sleep(600)")], env={**os.environ, "PYTHONPATH": str(TOP / "python" / "src")},
        stdout=subprocess.PIPE, text=True)
    assert parent.stdout is not None
    worker = int(parent.stdout.readline())
    parent.kill()
    parent.wait()
    parent.stdout.close()
    for _ in range(600):
        if not os.path.exists("/proc/%d" % worker) or "(zombie)" in Path("/proc/%d/status" % worker).read_text():
            return
        time.sleep(0.1)
    pytest.fail("the worker goes on")
