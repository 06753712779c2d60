"""The program `wtround_cases`, which answers a case a line, as a running process that is asked."""
from __future__ import annotations

import binascii
import ctypes
import fcntl
import hashlib
import os
import resource
import select
import signal
import subprocess
import time
from collections import deque
from dataclasses import dataclass
from typing import Iterable, Iterator, Mapping, Union

from . import siblings

CHUNK = 1 << 20
PIPE_BYTES = 1 << 20
SET_PIPE_SIZE = 1031  # F_SETPIPE_SZ of Linux, which Python knows by name since 3.10
PROBE_SECONDS = 10.0
KEPT_BYTES = 16 << 20
TRIM_THRESHOLD, MMAP_THRESHOLD = -1, -3  # M_TRIM_THRESHOLD and M_MMAP_THRESHOLD of the C library
END_WITH_PARENT, SET_NAME = 1, 15  # PR_SET_PDEATHSIG and PR_SET_NAME of Linux
LIBC = ctypes.CDLL(None)
# The C library keeps more of the small pieces of memory that a page gave back for the next one, without
# joining them. With 100 of each size (in place of 7) 3 % of the instructions are saved, with all of them 5 %,
# but memory is seven times as large.
PLAIN = {"GLIBC_TUNABLES": "glibc.malloc.tcache_count=100"}
# mimalloc (Debian's libmimalloc2.0) with large pages takes up to a sixth less of the processor's time. Where
# the machine has none, the loader says so on standard error, which nobody reads, and goes on without it.
QUICK = {**PLAIN, "LD_PRELOAD": "libmimalloc.so.2", "MIMALLOC_LARGE_OS_PAGES": "1"}


class ProgramError(Exception):
    """The program cannot be used; the message says why."""


class Unstable(ProgramError):
    """The program can't be started, or ends when it is asked."""


class Died(Exception):
    """The program ended in the middle of a case; the message says how."""


class TooSlow(Exception):
    """The answer was not there in time."""


@dataclass(frozen=True)
class Question:
    line: bytes  # a case, without its line break
    seconds: float  # within which it must be answered


@dataclass(frozen=True)
class Answer:
    status: int
    out_hex: bytes  # what standard output took, in hex
    line: str  # what standard error took, without `wtround: ` and the line break
    names: "list[str]"  # the pages that were asked for, in order, where the case wanted them
    seconds: float  # of processor time; where several answers came at once, by their bytes

    @property
    def out(self) -> bytes:
        return binascii.unhexlify(self.out_hex)


# Why there is no answer; OSError where the program cannot be started.
Failure = Union[Died, TooSlow, OSError]


def find_program(given: "str | None") -> str:
    """The path of `wtround_cases`: that given, the clone's, that beside the tools, or that on the PATH."""
    if given is not None:
        if not os.access(given, os.X_OK) or os.path.isdir(given):
            raise ProgramError(f"{given} is no program that can be run")
        return os.path.realpath(given)
    clone = os.path.join(
        siblings.PACKAGE_PARENT, os.pardir, "crates", "wtround_cases", "out", "wtround_cases"
    )
    for path in (clone, siblings.find("wtround_cases")):
        if path is not None and os.access(path, os.X_OK):
            return os.path.realpath(path)
    from shutil import which  # only where it is wanted, so that the other runs begin sooner

    found = which("wtround_cases")
    if found is not None:
        return os.path.realpath(found)
    raise ProgramError("there is no wtround_cases beside this tool or on the PATH; --program names one")


def digest_of_file(path: str) -> str:
    """The first 16 hexadecimal digits of the SHA-256 of a file."""
    digest = hashlib.sha256()
    with open(path, "rb") as file:
        for chunk in iter(lambda: file.read(CHUNK), b""):
            digest.update(chunk)
    return digest.hexdigest()[:16]


def case(
    words: "Iterable[str]",
    input_hex: bytes = b"",
    pages: "Mapping[str, bytes] | None" = None,
    wants_names: bool = False,
) -> bytes:
    """The line of a case, without its line break. The input is in hex already, the pages are not."""
    entries = (
        binascii.hexlify(name.encode()) + b"=" + binascii.hexlify(text)
        for name, text in (pages or {}).items()
    )
    words_hex = (binascii.hexlify(word.encode()) for word in words)
    fields = [b",".join(words_hex), input_hex, b",".join(entries)]
    return b"\t".join([*fields, b"names"] if wants_names else fields)


class Cases:
    """A running `wtround_cases`. It is started when it is first asked, and anew after it died."""

    def __init__(
        self, path: str, memory_limit: "int | None" = None, settings: "dict[str, str]" = PLAIN
    ) -> None:
        self._path = path
        self._memory_limit = memory_limit  # in bytes
        self._settings = settings  # of the environment, where the user sets nothing
        self._process: "subprocess.Popen[bytes] | None" = None
        self._is_fresh = True
        self._room = memoryview(bytearray(CHUNK))

    def start_ahead(self) -> None:
        """Starts it before it is asked. Why that fails, if it does, is said when it is asked."""
        try:
            self._start()
        except OSError:
            pass

    def ask(self, question: Question) -> Answer:
        """Raises Died, TooSlow or OSError."""
        (answer,) = self.ask_all([question])
        if isinstance(answer, Exception):
            raise answer
        return answer

    def ask_all(self, questions: "list[Question]") -> "list[Union[Answer, Failure]]":
        """The answers to several questions that are asked at once, or why there are none, in their order.

        Where a process that has answered other cases before dies or lacks memory, the case is asked once
        more of a fresh one: so it is never blamed for what others left behind.
        """
        answers: "list[Union[Answer, Failure]]" = []
        while len(answers) < len(questions):
            was_fresh = self._process is None or self._is_fresh
            more, failure = self._ask_some(questions[len(answers) :])
            answers += more
            is_its_own = was_fresh and not more or isinstance(failure, (TooSlow, OSError))
            if failure is not None and is_its_own:
                answers.append(failure)
        return answers

    def _ask_some(
        self, questions: "list[Question]"
    ) -> "tuple[list[Answer], Union[Answer, Failure, None]]":
        """The answers up to the first case at which the process fails, and how it fails there."""
        answers: "list[Answer]" = []
        try:
            process = self._process or self._start()
            for text, seconds in self._exchange(process, questions):
                answer = read_answer(text, seconds)
                if answer.line == "no memory":
                    self.close()
                    return answers, answer
                self._is_fresh = False
                answers.append(answer)
        except (Died, TooSlow, OSError) as failure:
            self.close()
            return answers, failure
        return answers, None

    def _start(self) -> "subprocess.Popen[bytes]":
        process = subprocess.Popen(
            [self._path],
            stdin=subprocess.PIPE,
            stdout=subprocess.PIPE,
            stderr=subprocess.DEVNULL,
            bufsize=0,
            env={**self._settings, **os.environ},
            preexec_fn=self._limit,
        )
        for stream in (process.stdin, process.stdout):
            assert stream is not None
            os.set_blocking(stream.fileno(), False)
            widen(stream.fileno())
        self._process, self._is_fresh = process, True
        return process

    def _limit(self) -> None:
        end_with_parent()
        resource.setrlimit(resource.RLIMIT_CORE, (0, 0))
        if self._memory_limit is not None:
            resource.setrlimit(resource.RLIMIT_AS, (self._memory_limit, self._memory_limit))

    def _exchange(
        self, process: "subprocess.Popen[bytes]", questions: "list[Question]"
    ) -> "Iterator[tuple[bytes, float]]":
        """Writes all lines, and gives each one that comes back, with its seconds of processor time."""
        assert process.stdin is not None and process.stdout is not None
        target, source = process.stdin.fileno(), process.stdout.fileno()
        rest = memoryview(b"\n".join([*(question.line for question in questions), b""]))
        poll = select.poll()
        poll.register(source, select.POLLIN)
        poll.register(target, select.POLLOUT)
        waiting, parts = deque(questions), [b""]
        spent, start = processor_time(process.pid), time.monotonic()
        while waiting:
            if len(rest):
                rest = rest[self._write_some(target, rest) :]
                if not len(rest):
                    poll.unregister(target)
            remaining = start + waiting[0].seconds - time.monotonic()
            if remaining <= 0:
                raise TooSlow
            poll.poll(remaining * 1000 + 1)
            chunk = self._read_some(source)
            if chunk == b"":
                raise Died(self._ending(process))
            parts.append(chunk or b"")
            if b"\n" not in parts[-1]:
                continue
            *texts, rest_of_line = b"".join(parts).split(b"\n")
            parts = [rest_of_line]
            if len(texts) > len(waiting):
                raise Died("it answers more than it was asked")
            before, spent, start = spent, processor_time(process.pid), time.monotonic()
            sizes = [len(waiting.popleft().line) + len(text) for text in texts]
            yield from zip(texts, shares(spent - before, sizes))

    def _read_some(self, source: int) -> "bytes | None":
        """What can be read now; None where nothing is there yet, empty at the end.

        It is read into room that stays: the C library would ask the system for so much anew each time.
        """
        try:
            return bytes(self._room[: os.readv(source, [self._room])])
        except BlockingIOError:
            return None

    def _write_some(self, target: int, rest: memoryview) -> int:
        try:
            return os.write(target, rest) if len(rest) else 0
        except BlockingIOError:
            return 0
        except BrokenPipeError:
            return len(rest)  # its end is found when it is read

    def _ending(self, process: "subprocess.Popen[bytes]") -> str:
        try:
            status = process.wait(timeout=5)
        except subprocess.TimeoutExpired:
            return "it closed its output"
        if status >= 0:
            return f"it ended with status {status}"
        try:
            name = signal.Signals(-status).name
        except ValueError:
            name = f"signal {-status}"
        return f"it was ended by {name}"

    def close(self) -> None:
        """Ends the process."""
        process, self._process = self._process, None
        if process is None:
            return
        process.kill()
        process.wait()
        for stream in (process.stdin, process.stdout):
            assert stream is not None
            stream.close()


def end_with_parent() -> None:
    """Lets this process be ended when the one that started it ends."""
    LIBC.prctl(END_WITH_PARENT, signal.SIGKILL)


def name_process(name: str) -> None:
    """Gives this process a name, of at most fifteen bytes, that `ps` and `top` show."""
    LIBC.prctl(SET_NAME, name.encode())


def be_patient() -> None:
    """Lets this process, when what it waits for is there, wait until others wait too or had their time.

    Otherwise a worker is let in at each answer of its program, and the two take the processor's caches from
    each other twice a page. What it starts isn't so patient, but would lose a priority above the usual one.
    """
    try:
        if os.sched_getscheduler(0) == os.SCHED_OTHER and os.nice(0) >= 0:
            os.sched_setscheduler(0, os.SCHED_BATCH | os.SCHED_RESET_ON_FORK, os.sched_param(0))
    except OSError:
        pass  # it is quicker so, and nothing else


def keep_memory() -> None:
    """Lets the C library keep what this process gives back, where it can be told to.

    Otherwise it gives the room of each group of cases to the system, and asks for as much at the next.
    """
    set_option = getattr(LIBC, "mallopt", None)
    if set_option is not None:
        set_option(TRIM_THRESHOLD, KEPT_BYTES)
        set_option(MMAP_THRESHOLD, KEPT_BYTES)


def widen(descriptor: int) -> None:
    """Makes room in a pipe for whole pages, where the system allows it."""
    try:
        fcntl.fcntl(descriptor, SET_PIPE_SIZE, PIPE_BYTES)
    except OSError:
        pass


def processor_time(process_id: int) -> float:
    """The seconds of processor time of a process, by the clock that Linux keeps of each."""
    try:
        return time.clock_gettime((~process_id << 3) | 2)
    except OSError:
        return time.monotonic()


def shares(seconds: float, sizes: "list[int]") -> "list[float]":
    """The seconds, shared out by these sizes."""
    return [seconds * size / sum(sizes) for size in sizes]


def read_answer(text: bytes, seconds: float) -> Answer:
    fields = text.split(b"\t")
    if text == b"no memory":
        return Answer(8, b"", "no memory", [], seconds)
    if len(fields) < 3 or not fields[0].isdigit():
        raise Died(
            f"its answer is none: {siblings.importer.printable(text[:60].decode('utf-8', 'replace'))}"
        )
    line = binascii.unhexlify(fields[2]).decode("utf-8", "replace").rstrip("\n")
    line = line[len("wtround: ") :] if line.startswith("wtround: ") else line
    names = (
        [binascii.unhexlify(name).decode() for name in fields[3].split(b",") if name]
        if len(fields) > 3
        else []
    )
    return Answer(int(fields[0]), fields[1], line, names, seconds)


def settings_for(path: str, commands: "Iterable[str]", memory_limit: "int | None") -> "dict[str, str]":
    """The settings of the environment with which the program is quickest, of those with which it answers.

    Raises ProgramError where it cannot be asked one by one, or lacks one of these commands. Where memory is
    limited it is left with the C library's allocator, since mimalloc takes more room than it uses.
    """
    asked = list(commands)
    if memory_limit is None and resource.getrlimit(resource.RLIMIT_AS)[0] == resource.RLIM_INFINITY:
        try:
            refuse_unfit(path, asked, QUICK)
            return QUICK
        except Unstable:
            pass
    refuse_unfit(path, asked, PLAIN)
    return PLAIN


def refuse_unfit(path: str, commands: "Iterable[str]", settings: "dict[str, str]") -> None:
    """Raises ProgramError where the program cannot be asked one by one, or lacks one of these commands."""
    cases = Cases(path, settings=settings)
    try:
        for command in commands:
            words = [command] if command == "wikitext" else [command, "Main"]
            line = case(words, b"", {"Main": b""}, wants_names=True)
            answer = cases.ask(Question(line, PROBE_SECONDS))
            if answer.status == 1:
                raise ProgramError(
                    f"{path} does not know the command {command}: use a later wtround_cases, or leave it out"
                )
    except TooSlow:
        raise ProgramError(f"{path} does not answer line by line: use a later wtround_cases") from None
    except (Died, OSError) as error:
        raise Unstable(
            f"{path} is no wtround_cases that this tool can ask ({error}): use a later one"
        ) from None
    finally:
        cases.close()
