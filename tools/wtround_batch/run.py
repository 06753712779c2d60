"""One run over the chosen pages of a wiki."""
from __future__ import annotations

import os
import time
from collections import Counter
from dataclasses import dataclass, field
from functools import cached_property
from typing import BinaryIO, Iterator, Union

from .engine import Done, Engine, Task
from .nursery import Nursery
from .program import digest_of_file
from .progress import Progress
from .results import FAILURE_WORDS, LIMITED, Examined, Known
from .siblings import importer
from .store import Export, Store, StoreError, digest_of, remember, taken_digest, unsure
from .wiki import Folder, Namespaces, Skipped, full_name
from .worker import Orders

# Between two commits, which become rarer as a run goes on.
LEAST_COMMIT_SECONDS, MOST_COMMIT_SECONDS = 0.5, 5.0
Source = Union[Folder, Export]


@dataclass(frozen=True)
class Choice:
    """Which pages of the wiki are tried: all, or those of a list or of some namespaces."""

    namespaces: Namespaces
    list_path: "str | None"

    def titles(self, source: Source) -> "Iterator[Union[str, Skipped]]":
        return source.titles(self.namespaces) if self.list_path is None else listed_titles(self.list_path)

    def count(self, source: Source) -> int:
        """How many titles these are, with what is skipped."""
        if self.list_path is None:
            return source.count(self.namespaces)
        with open(self.list_path, encoding="utf-8", errors="replace") as file:
            return sum(1 for line in file if line.strip())


def listed_titles(path: str) -> "Iterator[Union[str, Skipped]]":
    """The titles of a list, a line each; empty lines are passed over."""
    with open(path, encoding="utf-8", errors="replace") as file:
        for line in file:
            text = line.strip()
            try:
                if text:
                    yield full_name(text)
            except importer.BadTitle as error:
                yield Skipped(text, str(error))


@dataclass
class Counts:
    """What came of a run. Each page counts once for each command under its outcome."""

    pages: int = 0
    kept: int = 0  # pages whose results were there before
    skipped: int = 0
    seconds: float = 0.0
    outcomes: "Counter[str]" = field(default_factory=Counter)

    def failures(self) -> str:
        """The outcomes that somebody should look at, for the line of progress."""
        words = [
            f"{count:,} {FAILURE_WORDS[outcome]}"
            for outcome, count in self.outcomes.items()
            if outcome in FAILURE_WORDS
        ]
        return "".join(f", {word}" for word in words)


class Target:
    """Where the output of a run goes, and the file of all lines if it goes there.

    Its name with a number is part of what makes a result hold: where the output is gone, the number is
    raised, and all is done anew. The length of the file of lines is stored with the results: what was
    written and isn't stored is cut off when a run begins.
    """

    def __init__(self, store: Store, orders: Orders, path: "str | None", starts_anew: bool) -> None:
        self._store = store
        self._file: "BinaryIO | None" = None
        kind = orders.output + (" packed" if orders.is_packed else "")
        self._name = f"{kind} {os.path.realpath(path)}" if path is not None else kind
        if orders.output == "lines":
            assert path is not None
            starts_anew = self._open(path, starts_anew)
        elif orders.output == "files":
            starts_anew = starts_anew or not os.path.isdir(orders.output_folder)
            os.makedirs(orders.output_folder, exist_ok=True)
        if starts_anew:
            store.count_up(f"epoch of {self._name}")

    def _open(self, path: str, starts_anew: bool) -> bool:
        """Opens the file of lines where it was left, and says whether it begins anew."""
        length = int(self._store.about(f"length of {self._name}", "-1"))
        self._file = open(path, "r+b" if os.path.exists(path) else "w+b")
        size = self._file.seek(0, os.SEEK_END)
        if length < 0 and size > 0:
            raise StoreError(
                f"{path} is there and holds no lines of this file of results: remove it, or name another"
            )
        starts_anew = starts_anew or length < 0 or size < length
        self._file.truncate(0 if starts_anew else length)
        self._file.seek(0, os.SEEK_END)
        if starts_anew:
            self._store.set_about(f"length of {self._name}", "0")
        return starts_anew

    def makings(self, program_digest: str, orders: Orders) -> "tuple[str, str]":
        """What makes a result besides the page: the second where the limits made it."""
        making = f"{program_digest} {self._name} {self._store.about(f'epoch of {self._name}', '0')}"
        return making, f"{making} within {orders.time_limit:g} s, {orders.memory_limit or 'all'} bytes"

    def add(self, lines: bytes) -> None:
        if self._file is not None and lines:
            self._file.write(lines)

    def flush(self) -> None:
        """Is called before the results are stored."""
        if self._file is not None:
            self._file.flush()
            self._store.set_about(f"length of {self._name}", str(self._file.tell()))


class Run:
    def __init__(
        self, store: Store, source: Source, choice: Choice, orders: Orders, target: Target
    ) -> None:
        self._store = store
        self._source = source
        self._choice = choice
        self._orders = orders
        self._target = target
        self._digests: "dict[str, bytes | None]" = {}
        self._started = self._next_commit = 0.0
        self.counts = Counts()
        self.is_stopped = False  # is set when the run shall end
        self.number = 0

    @cached_property
    def _titles(self) -> int:
        """How many titles are chosen, with what is skipped. They are counted while the workers work."""
        return self._choice.count(self._source)

    @cached_property
    def program(self) -> str:
        """The digest of the program, made when it is first wanted: of a new wiki, while the workers work."""
        return digest_of_file(self._orders.program)

    @cached_property
    def _makings(self) -> "tuple[str, str]":
        return self._target.makings(self.program, self._orders)

    def go(self, nursery: Nursery, jobs: int, progress: Progress) -> None:
        """Tries every chosen page, until it is stopped. What was stored stays stored, however this ends."""
        self._started = time.monotonic()
        self._store.clear_skipped("list")
        self.number = self._store.count_up("run")
        engine = Engine(nursery, self._orders, jobs, lambda: self.is_stopped)
        self._store.begin()
        results = engine.run(self._tasks(), lambda: self._titles)
        try:
            for done in results:
                self._take(done)
                progress.show(self.counts.pages, self.total, self.counts.failures())
        finally:
            results.close()
            self._commit()
            self.counts.seconds = time.monotonic() - self._started

    @property
    def total(self) -> int:
        """The number of chosen pages, as far as is known which titles are none."""
        return self._titles - self.counts.skipped

    def _tasks(self) -> "Iterator[Task]":
        """The pages that have to be tried. Those whose results hold are counted here."""
        is_new = self._store.is_empty()
        for title in self._choice.titles(self._source):
            if self.is_stopped:
                return
            if isinstance(title, Skipped):
                self.counts.skipped += 1
                self._store.add_skipped(title, "list")
                continue
            entry = self._source.entry(title)
            known = None if is_new else self._store.known(title)
            held = None if known is None else self._store.held(title, self._orders.commands, self._makings)
            is_same = known is not None and entry.stamp != "" and entry.stamp == known.stamp
            if is_same and held is not None and self._holds(known, held):
                self._keep(title)
                self._commit_now_and_then()
            else:
                yield Task(title, entry.stamp, entry.revision, entry.bytes, known, held)

    def _holds(self, known: "Known | None", held: "tuple[bytes, bytes]") -> bool:
        if known is None or held != (known.digest, known.taken_digest):
            return False
        try:
            current = taken_digest((name, self._digest_of_template(name)) for name in known.names)
        except OSError:
            return False
        return known.taken_digest in (current, unsure(current))

    def _digest_of_template(self, name: str) -> "bytes | None":
        if name not in self._digests:
            text = self._source.text(name)
            remember(self._digests, name, None if text is None else digest_of(text))
        return self._digests[name]

    def _take(self, done: Done) -> None:
        self._target.add(done.output)
        for page in done.pages:
            self._take_page(page)
        self._commit_now_and_then()

    def _take_page(self, page: Examined) -> None:
        if page.known.digest:
            self._store.set_known(page.title, page.known)
        if not page.results:
            self._keep(page.title)
            return
        self.counts.pages += 1
        for command, result in page.results.items():
            making = self._makings[1 if result.outcome in LIMITED else 0]
            self._store.set_result(page.title, command, page.known, making, self.number, page.bytes, result)
            self.counts.outcomes[result.outcome] += 1

    def _keep(self, title: str) -> None:
        self._store.keep(title, self._orders.commands, self.number)
        self.counts.pages += 1
        self.counts.kept += 1
        for outcome in self._store.outcomes(title, self._orders.commands):
            self.counts.outcomes[outcome] += 1

    def _commit_now_and_then(self) -> None:
        now = time.monotonic()
        if now >= self._next_commit:
            self._commit()
            self._store.begin()
            wait = min(max(now - self._started, LEAST_COMMIT_SECONDS), MOST_COMMIT_SECONDS)
            self._next_commit = now + wait

    def _commit(self) -> None:
        self._target.flush()
        self._store.commit()
