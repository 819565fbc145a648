"""Work in a pool: any executor, with a window of tasks in flight, and a new pool where a worker was lost."""

import multiprocessing
import os
import signal
import threading
from concurrent.futures import FIRST_COMPLETED, BrokenExecutor, Executor, Future, ProcessPoolExecutor, wait
from itertools import chain, islice
from typing import Any, Callable, Dict, Generator, Generic, Iterable, List, Optional, Set, Tuple, TypeVar, Union

from ._errors import WorkerLost, shortened

#: An executor, or what makes one. An executor that is handed in is used as it is, and never shut down.
ExecutorOrMaker = Union[Executor, Callable[[], Executor]]

Task = TypeVar("Task")
Result = TypeVar("Result")

# Enough to keep some thirty workers busy while one auction takes long.
WINDOW = 128
# Where so many executors broke with no answer in between, it is hardly the tasks.
MOST_BROKEN = 8


def local_pool(workers: Optional[int] = None) -> Executor:
    """Processes of this machine, as many as there are processors unless told, which end when this one does."""
    return ProcessPoolExecutor(workers, initializer=_follow_parent)


def _follow_parent() -> None:
    # Ctrl-C goes to all of them, and the parent decides what comes of it.
    signal.signal(signal.SIGINT, signal.SIG_IGN)
    parent = multiprocessing.parent_process()
    if parent is not None:
        threading.Thread(target=_end_after, args=(parent,), daemon=True).start()


def _end_after(parent: Any) -> None:
    # A parent that is killed leaves its workers waiting for tasks.
    parent.join()
    os._exit(1)


class Pool:
    """The executor that was handed in, or one that is made, and made anew where it breaks."""

    def __init__(self, executor: Optional[ExecutorOrMaker] = None) -> None:
        self._executor: Optional[Executor] = None
        self._make: Optional[Callable[[], Executor]] = None
        self._broken_in_a_row = 0
        if isinstance(executor, Executor):
            self._executor = executor
        else:
            self._make = executor or local_pool

    def submit(self, work: Callable[[Task], Result], task: Task) -> "Future[Result]":
        if self._executor is None:
            assert self._make is not None
            self._executor = self._make()
        try:
            return self._executor.submit(work, task)
        except BrokenExecutor:
            raise
        except Exception as error:
            # Where a scheduler is gone or an executor shut down, each has an error of its own.
            why = shortened(str(error).split("\n")[0]) or type(error).__name__
            raise WorkerLost("the executor takes no more tasks: %s" % why) from error

    def leave_broken(self, why: BaseException) -> None:
        """The next task goes to a new executor; where none can be made, or one after the other breaks, this is the end."""
        self._broken_in_a_row += 1
        if self._make is None:
            raise WorkerLost("a worker of the executor was lost, and it takes no more tasks: %s" % why) from why
        self.close()
        if self._broken_in_a_row > MOST_BROKEN:
            raise WorkerLost("workers are lost one after the other, whatever they have to do: %s" % why) from why

    def note_answer(self) -> None:
        self._broken_in_a_row = 0

    def close(self) -> None:
        if self._make is not None and self._executor is not None:
            self._executor.shutdown(cancel_futures=True)
            self._executor = None


def run_all(work: Callable[[Task], Result], tasks: Iterable[Task], pool: Pool, window: int = WINDOW,
            in_order: bool = True) -> Generator[Tuple[Task, Union[Result, Exception]], None, None]:
    """Each task with its result or its error, in their order or else as they end; at most a window of them in flight."""
    flight = _Flight(work, tasks, pool)
    try:
        while flight.fill(window):
            for future in flight.ended(in_order):
                yield flight.take(future)
    finally:
        flight.cancel()
        pool.close()


class _Flight(Generic[Task, Result]):
    """The tasks in flight, in their order.

    Where a worker is lost, its executor is broken, and all that were in flight are lost with it. It can't be told which of
    them was to blame, so they are run again one by one: the one with which a worker is lost again has an error, and no
    other.
    """

    def __init__(self, work: Callable[[Task], Result], tasks: Iterable[Task], pool: Pool) -> None:
        self._work = work
        self._rest = iter(tasks)
        self._pool = pool
        self._tasks: "Dict[Future[Result], Task]" = {}
        self._lost: "Set[Future[Result]]" = set()

    def fill(self, window: int) -> bool:
        """Starts tasks up to the window, unless lost ones wait for their turn; whether any is in flight."""
        while len(self._tasks) < window and not self._lost:
            task = list(islice(self._rest, 1))
            if not task:
                break
            self._start(task[0])
        return bool(self._tasks)

    def ended(self, in_order: bool) -> "List[Future[Result]]":
        """The first task once it has ended; or all that have ended, once there is one."""
        futures = list(self._tasks)
        done = wait(futures[:1] if in_order else futures, return_when=FIRST_COMPLETED).done
        return [future for future in futures if future in done]

    def take(self, future: "Future[Result]") -> "Tuple[Task, Union[Result, Exception]]":
        """A task that has ended, with its result or its error."""
        if future not in self._lost and _is_lost(future):
            self._settle(future)
        task = self._tasks.pop(future)
        if future in self._lost:
            self._lost.remove(future)
            return task, self._again(task)
        return task, self._result_of(future)

    def cancel(self) -> None:
        for future in self._tasks:
            future.cancel()

    def _start(self, task: Task) -> None:
        try:
            self._tasks[self._pool.submit(self._work, task)] = task
        except BrokenExecutor as error:
            self._rest = chain([task], self._rest)
            self._settle_after(error)

    def _settle(self, future: "Future[Result]") -> None:
        error = future.exception()
        assert error is not None
        self._settle_after(error)

    def _settle_after(self, error: BaseException) -> None:
        """Nothing runs in a broken executor, so it shows at once which tasks were lost."""
        wait(self._tasks)
        self._lost = {future for future in self._tasks if _is_lost(future)}
        self._pool.leave_broken(error)

    def _again(self, task: Task) -> Union[Result, Exception]:
        """The result of a task that runs alone."""
        try:
            return self._result_of(self._pool.submit(self._work, task))
        except BrokenExecutor as error:
            self._pool.leave_broken(error)
            return WorkerLost("the worker was lost twice, the second time with nothing else to do: it was killed, or there "
                              "was no memory left")

    def _result_of(self, future: "Future[Result]") -> Union[Result, Exception]:
        try:
            result = future.result()
        except BrokenExecutor:
            raise
        except Exception as error:
            return error
        self._pool.note_answer()
        return result


def _is_lost(future: "Future[Any]") -> bool:
    return not future.cancelled() and isinstance(future.exception(), BrokenExecutor)
