"""Keeps as many workers busy as there are processors."""
from __future__ import annotations

import os
import selectors
import socket
import time
from collections import deque
from dataclasses import asdict, dataclass, replace
from typing import Callable, Generator, Iterator

from .nursery import Nursery
from .results import DIED, Examined, Known, Result
from .worker import FrameReader, Orders, examined_from_json, known_as_json, write_frame

BATCH_PAGES = 16
FIRST_BATCH_PAGES = 8  # while it isn't known how many pages there are
BATCH_BYTES = 256 << 10
SORTED_PAGES = 256  # for each worker, at the end
STOP_SECONDS = 0.5  # within which a run stops
WAITING_BATCHES = 2  # of a worker: the one that it works on, and the next


@dataclass(frozen=True)
class Task:
    """A page that is to be tried. `held` are the digests for which earlier results are there."""

    title: str
    stamp: str
    revision: str
    size: int  # bytes
    known: "Known | None"
    held: "tuple[bytes, bytes] | None"

    def as_json(self) -> dict:
        return {
            "title": self.title,
            "stamp": self.stamp,
            "revision": self.revision,
            "known": known_as_json(self.known),
            "held": None if self.held is None else [digest.hex() for digest in self.held],
        }


@dataclass(frozen=True)
class Done:
    """What a worker sends back: pages, and the bytes of their output where all goes into one file."""

    pages: "list[Examined]"
    output: bytes


class Worker:
    """A process that works off batches, as the one that leads sees it."""

    def __init__(self, nursery: Nursery, orders: Orders) -> None:
        self._nursery = nursery
        self._process_id, self.stream = nursery.start()
        self._target = self.stream.makefile("wb")
        self._frames = FrameReader(self.stream)
        self.batches: "deque[list[Task]]" = deque()
        self.processor = orders.processor
        self._write(asdict(orders))

    def send(self, batch: "list[Task]") -> None:
        self.batches.append(batch)
        self._write({"pages": [task.as_json() for task in batch]})

    def _write(self, header: "dict[str, object]") -> None:
        try:
            write_frame(self._target, header)
        except ConnectionError:
            pass  # its end is found when it is read

    def receive(self) -> "list[Done] | None":
        """The answers to the oldest batches that are whole by now; None where the worker has ended."""
        frames = self._frames.read()
        if frames is None:
            return None
        for _ in frames:
            self.batches.popleft()
        return [
            Done([examined_from_json(page) for page in header["pages"]], output)
            for header, output in frames
        ]

    def let_end(self) -> None:
        """Lets the worker end when it is through with what it has; that it has is seen when it is read."""
        try:
            self.stream.shutdown(socket.SHUT_WR)
        except OSError:
            pass  # it has ended

    def end(self) -> int:
        """Ends the worker, and returns its exit status."""
        self.stream.close()
        return self._nursery.end(self._process_id)


def largest_first_at_the_end(
    tasks: "Iterator[Task]", pages: "Callable[[], int]", jobs: int
) -> "Iterator[Task]":
    """The tasks, the last of them by their sizes, so that no worker is left alone with a large page."""
    uncounted = FIRST_BATCH_PAGES * WAITING_BATCHES * jobs  # that are given before the pages are counted
    for given, task in enumerate(tasks, 1):
        yield task
        if given > uncounted and pages() - given <= SORTED_PAGES * jobs:
            yield from sorted(tasks, key=lambda task: task.size, reverse=True)


def batches_of(tasks: "Iterator[Task]", pages: "Callable[[], int]", jobs: int) -> "Iterator[list[Task]]":
    """The tasks by batches. `pages` counts how many tasks there are at most.

    The last batches are small, so that all workers end at about the same time. The first ones, as many as the
    workers take at once, are given before the pages are counted.
    """
    batch: "list[Task]" = []
    size, given, batches, most = 0, 0, 0, FIRST_BATCH_PAGES
    for task in tasks:
        if batch and (len(batch) >= most or size + task.size > BATCH_BYTES):
            yield batch
            given, batches = given + len(batch), batches + 1
            if batches >= jobs * WAITING_BATCHES:
                most = min(BATCH_PAGES, (pages() - given) // (jobs * 8))
            batch, size = [], 0
        batch.append(task)
        size += task.size
    if batch:
        yield batch


class Engine:
    """Works tasks off on several processes. A process that ends takes no more than one page with it."""

    def __init__(
        self, nursery: Nursery, orders: Orders, jobs: int, is_stopped: "Callable[[], bool]"
    ) -> None:
        self._nursery = nursery
        self._orders = orders
        self._is_stopped = is_stopped
        self._jobs = jobs
        self._selector = selectors.DefaultSelector()
        self._workers: "list[Worker]" = []
        self._again: "deque[list[Task]]" = deque()  # pages whose worker ended, each by itself
        processors = sorted(os.sched_getaffinity(0))
        self._free_processors = processors if len(processors) == jobs else []

    def close(self) -> None:
        """Lets all workers end, and waits for them a little while."""
        for worker in self._workers:
            worker.let_end()
        end = time.monotonic() + STOP_SECONDS
        while self._workers and time.monotonic() < end:
            for key, _ in self._selector.select(max(0.0, end - time.monotonic())):
                if key.data.receive() is None:
                    self._remove(key.data)
        self._selector.close()

    def run(self, tasks: "Iterator[Task]", pages: "Callable[[], int]") -> "Generator[Done, None, None]":
        """`pages` counts how many tasks there are at most."""
        batches = batches_of(largest_first_at_the_end(tasks, pages, self._jobs), pages, self._jobs)
        try:
            while not self._is_stopped():
                self._hand_out(batches)
                if not any(worker.batches for worker in self._workers):
                    return
                for key, _ in self._selector.select(STOP_SECONDS):
                    yield from self._received(key.data)
        finally:
            self.close()

    def _hand_out(self, batches: "Iterator[list[Task]]") -> None:
        for waiting in range(WAITING_BATCHES):
            for number in range(self._jobs):
                is_new = number >= len(self._workers)
                if not is_new and len(self._workers[number].batches) > waiting:
                    continue
                batch = self._again.popleft() if self._again else next(batches, [])
                if not batch:
                    return
                if is_new:
                    self._start_worker()
                self._workers[number].send(batch)

    def _start_worker(self) -> None:
        processor = self._free_processors.pop(0) if self._free_processors else None
        worker = Worker(self._nursery, replace(self._orders, processor=processor))
        self._workers.append(worker)
        self._selector.register(worker.stream, selectors.EVENT_READ, worker)

    def _remove(self, worker: Worker) -> int:
        """Takes a worker away that has ended, and returns its exit status."""
        self._selector.unregister(worker.stream)
        self._workers.remove(worker)
        if worker.processor is not None:
            self._free_processors.append(worker.processor)
        return worker.end()

    def _received(self, worker: Worker) -> "list[Done]":
        done = worker.receive()
        if done is not None:
            return done
        status = self._remove(worker)
        # Each page is tried by itself, so that the one at fault is found.
        at_fault = worker.batches.popleft() if worker.batches and len(worker.batches[0]) == 1 else []
        self._again.extend([task] for batch in worker.batches for task in batch)
        if not at_fault:
            return []
        task = at_fault[0]
        failure = Result(DIED, f"the worker ended with status {status}")
        nothing = Known("", b"", [], b"")
        return [
            Done(
                [Examined(task.title, task.size, nothing, {c: failure for c in self._orders.commands})],
                b"",
            )
        ]
