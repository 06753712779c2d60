"""A process that forks workers, so that each has all modules from its beginning."""
from __future__ import annotations

import array
import gc
import os
import signal
import socket
import sys
from collections import deque
from typing import Callable, Iterable, NoReturn

from .program import end_with_parent, name_process

MOST_BYTES = 100  # of a request, and of an answer
MOST_AHEAD = 64  # workers, so that all requests and answers find room in the socket
FORK, END = b"fork", b"end"
STOPPING = (signal.SIGINT, signal.SIGTERM, signal.SIGHUP)  # what a terminal or a system asks a run to stop by


class NurseryError(Exception):
    """The process that forks workers has ended."""


class Nursery:
    """The process, for the one that leads.

    It is forked before the file of results is opened, since a connection of SQLite must not be carried into
    another process. It ends with the process that leads, and the workers end with it.
    """

    def __init__(self, work: "Callable[[socket.socket], None]") -> None:
        """`work` is what a worker does, with a socket to the process that leads."""
        self._socket, theirs = socket.socketpair(socket.AF_UNIX, socket.SOCK_SEQPACKET)
        self._process_id = fork(lambda: tend(theirs, work), "batch-nursery", [theirs.fileno()])
        theirs.close()
        self._asked: "deque[socket.socket]" = deque()  # of workers whose numbers haven't been read yet
        self._started: "deque[tuple[int, socket.socket]]" = deque()  # ahead, and not given out yet

    def start_ahead(self, count: int) -> None:
        """Lets so many workers be forked for `start` to give, and doesn't wait for it."""
        for _ in range(min(count, MOST_AHEAD)):
            self._ask_for_worker()

    def start(self) -> "tuple[int, socket.socket]":
        """A worker: its process, and the socket to it."""
        if not self._started and not self._asked:
            self._ask_for_worker()
        self._read_started()
        return self._started.popleft()

    def end(self, worker_id: int) -> int:
        """Ends a worker that hasn't ended by itself. Its exit status, or the negative number of a signal."""
        self._read_started()
        self._ask(END + b"%d" % worker_id)
        return self._answer()

    def _ask_for_worker(self) -> None:
        ours, theirs = socket.socketpair()
        with theirs:
            descriptors = array.array("i", [theirs.fileno()])
            self._ask(FORK, [(socket.SOL_SOCKET, socket.SCM_RIGHTS, descriptors)])
        self._asked.append(ours)

    def _read_started(self) -> None:
        while self._asked:
            self._started.append((self._answer(), self._asked.popleft()))

    def _ask(self, request: bytes, ancillary: "Iterable[tuple]" = ()) -> None:
        try:
            self._socket.sendmsg([request], ancillary)
        except ConnectionError:
            pass  # its end is found when the answer is read

    def _answer(self) -> int:
        try:
            answer = self._socket.recv(MOST_BYTES)
        except ConnectionError:
            answer = b""
        if not answer:
            raise NurseryError("the process that starts the others was ended; the same words go on from here")
        return int(answer)

    def close(self) -> None:
        """Ends the process, and all workers that are left."""
        os.kill(self._process_id, signal.SIGKILL)
        os.waitpid(self._process_id, 0)
        for stream in (self._socket, *self._asked, *(stream for _, stream in self._started)):
            stream.close()


def tend(leader: socket.socket, work: "Callable[[socket.socket], None]") -> None:
    """Forks workers and ends them, as it is asked."""
    gc.freeze()  # what was made so far isn't looked through again, so that all workers go on sharing it
    size = array.array("i", [0]).itemsize
    while True:
        request, ancillary, _, _ = leader.recvmsg(MOST_BYTES, socket.CMSG_SPACE(size))
        if not request:
            return
        if request == FORK:
            descriptor = array.array("i", ancillary[0][2])[0]
            with socket.socket(fileno=descriptor) as stream:
                answer = fork(lambda: work(stream), "batch-worker", [descriptor])
        else:
            worker_id = int(request[len(END) :])
            os.kill(worker_id, signal.SIGKILL)
            _, status = os.waitpid(worker_id, 0)
            answer = -os.WTERMSIG(status) if os.WIFSIGNALED(status) else os.WEXITSTATUS(status)
        leader.send(b"%d" % answer)


def fork(work: "Callable[[], None]", name: str, kept: "list[int]") -> int:
    """Lets a new process do this work, and returns its number. It has no other descriptor open than these."""
    parent = os.getpid()
    process_id = os.fork()
    if process_id == 0:
        work_and_exit(work, name, kept, parent)
    return process_id


def work_and_exit(work: "Callable[[], None]", name: str, kept: "list[int]", parent: int) -> NoReturn:
    status = 1
    try:
        end_with_parent()
        name_process(name)
        for number in STOPPING:  # the process that leads is told too, and ends this one
            signal.signal(number, signal.SIG_IGN)
        for descriptor in map(int, os.listdir("/proc/self/fd")):
            if descriptor > 2 and descriptor not in kept:
                close_quietly(descriptor)
        if os.getppid() == parent:  # otherwise it ended before this process asked to end with it
            work()
            status = 0
    except BaseException:  # nothing of the parent's may go on here
        import traceback  # which is seldom wanted

        traceback.print_exc()
        sys.stderr.flush()
    finally:
        os._exit(status)


def close_quietly(descriptor: int) -> None:
    try:
        os.close(descriptor)
    except OSError:
        pass  # that through which the list was read
