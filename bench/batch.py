#!/usr/bin/env python3
"""Measures `wtround-batch`: pages a second, there and back, on one processor and on all of them.

  bench/batch.py [--pages N] [--rounds N] [--from FOLDER] [--commands WORDS] [--program FILE]
                 [--stay] [--watch]

It makes N pages (10,000) from those of examples/ and from the sections that `wtround gen` makes, one to
forty of them, or takes N copies of the pages of FOLDER in turn. Then it runs `tools/batch` over them in
turn on one processor and on all, each time from nothing, after one run that doesn't count, with the Python
that runs this file. It prints for each run the pages and megabytes a second, the processor time of all its
processes, on how many processors they ran at once on average, how much of these processors' time other
processes had, and how much the host of a virtual machine gave to others, and the peak memory of the largest
process; and at the end the middle one of the rates' ratios, and the ratio of all runs together.

Before each pair it has every processor do the same arithmetic, which needs no memory but the nearest cache,
first one after the other and then all at once. Where that takes more processor time at once, the processors
slow one another down, or the host slows them, and no program can be as many times as fast as there are
processors.

The processors of a virtual machine aren't equally fast, and none is as fast at one time as at another: one
is mostly a thread of a core that has two, and half as fast again while the host lets the other one rest. So
a run on one processor is moved to the next one every half second: then it shows what one has on average.
With --stay it stays on the first, in the next round on the second, and so on.

On a machine that does other work the rates depend on that work. What can be told there is how far more
processors would help: the rates of two runs are as their processors divided by their processor times, as
long as no fewer processors are wanted than there are. With --watch it prints how many they wanted (on
which they ran, or for which they waited); to see this takes a tenth of a processor or more, and so makes
the runs on all processors slower.
"""
import argparse
import os
import resource
import shutil
import statistics
import subprocess
import sys
import tempfile
import threading
import time
from dataclasses import dataclass
from pathlib import Path

TOP = Path(__file__).resolve().parent.parent
TOOL = TOP / "tools" / "batch"
TURN_SECONDS = 0.5  # that a run on one processor has on each
ARITHMETIC = "import hashlib\nfor _ in range(4000): hashlib.sha256(bytes(16384)).digest()"
# Without what a shell may tell Python: some forbid it to keep compiled modules.
ENVIRONMENT = {name: value for name, value in os.environ.items() if not name.startswith("PYTHON")}


def sections(count: int) -> str:
    """The page that `wtround gen` makes."""
    return "".join(
        f"== Section {k} ==\n\nWord ''{k}'' and [[Page {k}]].\n\n* item {k}\n\n{{{{T}}}}\n\n"
        for k in range(1, count + 1)
    )


def make_pages(folder: Path, count: int, taken: "list[Path]") -> int:
    """Makes the pages, and says how many bytes they have."""
    folder.mkdir()
    examples = TOP / "examples" / "pages"
    for path in examples.glob("Template*"):
        shutil.copy(path, folder)
    (folder / "Template%3AT.wiki").write_text("'''t'''")
    opava = (examples / "Opava.wiki").read_text()
    size = sum(path.stat().st_size for path in folder.iterdir())
    for k in range(count - len(list(folder.iterdir()))):
        if taken:
            text = taken[k % len(taken)].read_bytes()
        else:
            text = (opava.replace("Opava", f"Town {k}") if k % 2 else sections(1 + k // 2 % 40)).encode()
        (folder / f"Page_{k}.wiki").write_bytes(text)
        size += len(text)
    return size


def threads_below(process_id: int) -> "list[Path]":
    """The threads of a process and of those below it."""
    children: "dict[int, list[int]]" = {}
    for path in Path("/proc").glob("[0-9]*/stat"):
        try:
            parent = int(path.read_text().rpartition(")")[2].split()[1])
        except OSError:
            continue
        children.setdefault(parent, []).append(int(path.parent.name))
    found, waiting = [], [process_id]
    while waiting:
        found.append(waiting.pop())
        waiting.extend(children.get(found[-1], []))
    return [thread for number in found for thread in Path(f"/proc/{number}/task").glob("*")]


class Regular(threading.Thread):
    """Does something every so many seconds, until it is stopped."""

    def __init__(self, process_id: int, seconds: float) -> None:
        super().__init__(daemon=True)
        self._process_id = process_id
        self._seconds = seconds
        self._is_stopped = threading.Event()

    def run(self) -> None:
        while not self._is_stopped.wait(self._seconds):
            self.step()

    def step(self) -> None:
        raise NotImplementedError

    def stop(self) -> None:
        self._is_stopped.set()
        self.join()


class Mover(Regular):
    """Moves a process and those below it from one processor to the next."""

    def __init__(self, process_id: int, processors: "list[int]") -> None:
        """It is on the first of these now."""
        super().__init__(process_id, TURN_SECONDS)
        self._processors = processors
        self._turn = 0

    def step(self) -> None:
        self._turn = (self._turn + 1) % len(self._processors)
        for thread in threads_below(self._process_id):
            try:
                os.sched_setaffinity(int(thread.name), {self._processors[self._turn]})
            except OSError:
                pass  # it has ended


class Watcher(Regular):
    """Sums up how long the threads of a process and of those below it ran, and waited for a processor."""

    def __init__(self, process_id: int) -> None:
        super().__init__(process_id, 0.1)
        self._seen: "dict[str, tuple[int, int]]" = {}  # nanoseconds that a thread ran and waited

    def step(self) -> None:
        for thread in threads_below(self._process_id):
            try:
                ran, waited, _ = map(int, (thread / "schedstat").read_text().split())
                self._seen[str(thread)] = ran, waited
            except (OSError, ValueError):
                pass

    def wanted(self) -> float:
        """Seconds."""
        return sum(ran + waited for ran, waited in self._seen.values()) / 1e9


@dataclass(frozen=True)
class Spent:
    """Seconds that some processors have spent since the machine began."""

    busy: float  # on processes, and on the system's work for them
    stolen: float  # on what the host does besides


def spent(processors: "list[int]") -> Spent:
    lines = (line.split() for line in Path("/proc/stat").read_text().splitlines())
    names = {f"cpu{number}" for number in processors}
    counts = [list(map(int, words[1:9])) for words in lines if words[0] in names]
    tick = os.sysconf("SC_CLK_TCK")
    busy = sum(user + nice + system + irq + soft for user, nice, system, _, _, irq, soft, _ in counts)
    return Spent(busy / tick, sum(count[7] for count in counts) / tick)


@dataclass(frozen=True)
class Measured:
    seconds: float
    used: float  # seconds of processor time of all processes
    wanted: "float | None"  # and with what they waited for
    others: float  # the part of these processors' time that other processes had
    stolen: float  # and that the host gave to others
    peak: float  # MB of the largest process


@dataclass(frozen=True)
class Runner:
    """What is the same in all runs."""

    root: Path
    words: "list[str]"
    is_watched: bool

    def run(self, processors: "list[int]", at_once: int) -> Measured:
        """A run on so many of these processors at once; on one, it is moved from each to the next."""
        for name in ("state", "state.lock", "state-wal", "state-shm"):
            (self.root / name).unlink(missing_ok=True)
        used_before, spent_before = used_by_children(), spent(processors)
        started = time.monotonic()
        command = [sys.executable, str(TOOL), *self.words, "--quiet", "--state", "state", "-j", str(at_once)]
        process = subprocess.Popen(
            command, cwd=self.root, env=ENVIRONMENT, stderr=subprocess.DEVNULL,
            preexec_fn=lambda: os.sched_setaffinity(0, processors[:at_once]),
        )  # fmt: skip
        threads = [Mover(process.pid, processors)] if at_once < len(processors) else []
        watcher = Watcher(process.pid)
        threads += [watcher] if self.is_watched else []
        for thread in threads:
            thread.start()
        if process.wait() != 0:
            raise SystemExit("the run failed")
        seconds = time.monotonic() - started
        for thread in threads:
            thread.stop()
        used, spent_after = used_by_children() - used_before, spent(processors)
        others = max(0.0, spent_after.busy - spent_before.busy - used)
        return Measured(
            seconds=seconds,
            used=used,
            wanted=watcher.wanted() if self.is_watched else None,
            others=others / len(processors) / seconds,
            stolen=(spent_after.stolen - spent_before.stolen) / len(processors) / seconds,
            peak=resource.getrusage(resource.RUSAGE_CHILDREN).ru_maxrss / 1000,
        )


def used_by_children() -> float:
    """Seconds of processor time."""
    used = resource.getrusage(resource.RUSAGE_CHILDREN)
    return used.ru_utime + used.ru_stime


def arithmetic_time(processors: "list[int]") -> float:
    """Seconds of processor time that the arithmetic takes on all of these processors at once."""
    before = used_by_children()
    processes = [
        subprocess.Popen(
            [sys.executable, "-c", ARITHMETIC], env=ENVIRONMENT,
            preexec_fn=lambda number=number: os.sched_setaffinity(0, {number}),
        )
        for number in processors
    ]  # fmt: skip
    for process in processes:
        process.wait()
    return used_by_children() - before


def told(measured: Measured, processors: int, pages: int, size: int) -> str:
    seconds, used = measured.seconds, measured.used
    wanted = "" if measured.wanted is None else f"{measured.wanted / seconds:.2f} wanted, "
    return (
        f"{processors} processors: {pages / seconds:,.0f} pages/s, {size / seconds / 1e6:.2f} MB/s, "
        f"{seconds:.2f} s, {used:.1f} s of processor time, on {used / seconds:.2f} processors, {wanted}"
        f"{100 * measured.others:.0f} % had by others, {100 * measured.stolen:.0f} % taken by the host, "
        f"peak {measured.peak:.0f} MB"
    )


def main() -> None:
    parser = argparse.ArgumentParser(
        description=__doc__, formatter_class=argparse.RawDescriptionHelpFormatter
    )
    parser.add_argument("--pages", type=int, default=10_000)
    parser.add_argument("--rounds", type=int, default=3)
    parser.add_argument("--from", dest="folder", type=Path)
    parser.add_argument("--commands", default="wikitext")
    parser.add_argument("--program")
    parser.add_argument("--stay", action="store_true")
    parser.add_argument("--watch", action="store_true")
    arguments = parser.parse_args()
    taken = sorted(arguments.folder.glob("*.wiki")) if arguments.folder else []
    words = [arguments.commands]
    if arguments.program is not None:
        words += ["--program", os.path.realpath(arguments.program)]
    everything = sorted(os.sched_getaffinity(0))
    with tempfile.TemporaryDirectory() as folder:
        root = Path(folder)
        size = make_pages(root / "pages", arguments.pages, taken)
        load = os.getloadavg()[0]
        print(f"{arguments.pages:,} pages, {size:,} bytes, {arguments.commands}, load {load:.1f}")
        runner = Runner(root, words, arguments.watch)
        runner.run(everything, len(everything))
        measure(runner, everything, arguments, size)


def measure(runner: Runner, everything: "list[int]", arguments: argparse.Namespace, size: int) -> None:
    count = len(everything)
    pairs: "list[tuple[Measured, Measured]]" = []
    alone = together = 0.0  # seconds of arithmetic
    for number in range(arguments.rounds):
        start = number % count
        turns = everything[start:] + everything[:start]
        alone += sum(arithmetic_time([processor]) for processor in turns)
        together += arithmetic_time(turns)
        one = runner.run(turns[:1] if arguments.stay else turns, 1)
        all_of_them = runner.run(everything, count)
        pairs.append((one, all_of_them))
        times = all_of_them.used / one.used
        print(told(one, 1, arguments.pages, size))
        print(told(all_of_them, count, arguments.pages, size))
        print(
            f"rates {one.seconds / all_of_them.seconds:.2f} to 1; processor times {times:.3f} to 1, "
            f"so {min(count, count / times):.2f} to 1 where {count} processors are free",
            flush=True,
        )
    middle = statistics.median(one.seconds / many.seconds for one, many in pairs)
    rate = sum(one.seconds for one, _ in pairs) / sum(many.seconds for _, many in pairs)
    times = sum(many.used for _, many in pairs) / sum(one.used for one, _ in pairs)
    print(f"the middle one of {len(pairs)}: {middle:.2f} to 1; all together {rate:.2f} to 1")
    print(f"processor times, all together: {times:.3f} to 1; of arithmetic alone {together / alone:.3f} to 1")


if __name__ == "__main__":
    main()
