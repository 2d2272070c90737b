"""Who does the work: this process, several processes, or a Dask cluster; the results come in the order of the tasks, whoever is first.

Only so many tasks are under way at a time, so that what is held does not grow with their number."""

from __future__ import annotations

import logging
import multiprocessing
import os
import threading
from collections import deque
from concurrent.futures import ProcessPoolExecutor
from concurrent.futures.process import BrokenProcessPool
from contextlib import contextmanager, suppress
from importlib import import_module
from itertools import islice
from typing import Any, Callable, Iterable, Iterator, TypeVar

from ..errors import Faults
from .ending import leave_to_parent

Item = TypeVar("Item")
Task = TypeVar("Task")
Result = TypeVar("Result")
Submit = Callable[[Callable[[Task], Result], Task], Any]

AHEAD = 3  # tasks under way for each worker
PATIENCE = 30  # seconds in which a scheduler has to answer


class Done:
    """What was done at once, to be asked for its result."""

    def __init__(self, value: Any) -> None:
        self.value = value

    def result(self) -> Any:
        """The result."""
        return self.value


def here(function: Callable[[Task], Result], task: Task) -> Done:
    """Does a task in this process."""
    return Done(function(task))


def pieces(items: Iterable[Item], size: int) -> Iterator[list[Item]]:
    """Items by so many at a time."""
    rest = iter(items)
    while piece := list(islice(rest, size)):
        yield piece


def in_order(
    submit: Submit[Task, Result], function: Callable[[Task], Result], tasks: Iterable[Task], ahead: int
) -> Iterator[Result]:
    """The results of tasks in their order, with so many under way."""
    waiting: deque[Any] = deque()
    for task in tasks:
        waiting.append(submit(function, task))
        if len(waiting) >= ahead:
            yield waiting.popleft().result()
    while waiting:
        yield waiting.popleft().result()


def serve() -> None:
    """Begins a process that works for another: it leaves signals to that one, and ends with it."""
    leave_to_parent()
    parent = multiprocessing.parent_process()

    def follow() -> None:
        if parent is not None:
            parent.join()
            os._exit(1)

    threading.Thread(target=follow, daemon=True).start()


@contextmanager
def processes(jobs: int) -> Iterator[tuple[Submit[Any, Any], int]]:
    """Several processes, and how many tasks are to be under way."""
    pool = ProcessPoolExecutor(jobs, multiprocessing.get_context("fork"), serve)
    try:
        yield pool.submit, AHEAD * jobs
    except BrokenProcessPool:
        raise Faults(["a process that did the work was ended from outside, maybe for want of memory: give fewer (-j)"]) from None
    finally:
        pool.shutdown(wait=True, cancel_futures=True)


def cluster_errors() -> tuple[type[BaseException], ...]:
    """What the client of a cluster raises where the scheduler or all workers are lost."""
    cancelled = import_module("concurrent.futures").CancelledError
    core, scheduler = import_module("distributed.comm.core"), import_module("distributed.scheduler")
    return (
        OSError,
        TimeoutError,
        cancelled,
        import_module("asyncio").CancelledError,
        core.CommClosedError,
        scheduler.KilledWorker,
    )


def client_of(address: str) -> Any:
    """The client of a Dask scheduler."""
    try:
        distributed = import_module("distributed")
    except ImportError:
        raise Faults(["--dask needs Dask: apt-get install python3-dask python3-distributed"]) from None
    try:
        return distributed.Client(address, timeout=PATIENCE, set_as_default=False)
    except (OSError, TimeoutError, ValueError) as error:
        raise Faults(
            [f"no Dask scheduler answers at {address} ({error}): start one (dask scheduler), or mend the address"]
        ) from None


@contextmanager
def cluster(address: str) -> Iterator[tuple[Submit[Any, Any], int]]:
    """A Dask cluster, and how many tasks are to be under way. A task whose worker is lost is done by another one. What Dask would log of
    lost connections, with tracebacks, is told here in a sentence where it matters."""
    logging.disable(logging.CRITICAL)
    client = client_of(address)

    def submit(function: Callable[[Any], Any], task: Any) -> Any:
        return client.submit(function, task, pure=False)

    try:
        workers = sum(client.nthreads().values())
        if not workers:
            raise Faults([f"the Dask scheduler at {address} has no workers: start some (dask worker {address})"])
        yield submit, AHEAD * workers
    except ImportError as error:
        raise Faults(
            [f"the workers of {address} lack what the work needs ({error}): install heronditch for their Python"]
        ) from None
    except cluster_errors() as error:
        raise Faults(
            [f"the Dask cluster at {address} is lost ({type(error).__name__}): start it, and go on with --resume"]
        ) from None
    finally:
        with suppress(*cluster_errors()):
            client.close(timeout=5)
