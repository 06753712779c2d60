"""The states of long pages that were made last: while no file of the folder is written none is made twice."""
from __future__ import annotations

import threading
from collections import OrderedDict
from concurrent.futures import CancelledError, Future, ThreadPoolExecutor
from dataclasses import dataclass
from typing import Callable, Optional, Tuple

from .pages import PageFolder
from .prepared import State
from .refusals import Refusal

LONG_PAGE = 65_536  # bytes: of a shorter one the HTML is made sooner than all files are looked at
MOST_KEPT = 8
MOST_BYTES = 67_108_864  # of the HTML of all of them
AT_ONCE = 2  # that are made before anybody asks for them


@dataclass(frozen=True)
class Known:
    """A page and its state. `fingerprint` is the folder's before they were read, or nothing where that can't
    be told."""

    page: bytes
    state: State
    fingerprint: Optional[bytes]


class KnownStates:
    """Each is looked at again before it is answered: the folder's fingerprint, and the tag."""

    def __init__(
        self,
        folder: PageFolder,
        state_of: Callable[[str, bytes], State],
        tag_of: Callable[[str, bytes, bytes], str],
    ) -> None:
        self._folder = folder
        self._state_of = state_of
        self._tag_of = tag_of
        self._lock = threading.RLock()  # what is called when a state was made takes it again
        self._known: "OrderedDict[str, Future[Known]]" = OrderedDict()  # by full names
        self._pool = ThreadPoolExecutor(AT_ONCE)

    def close(self) -> None:
        with self._lock:
            for coming in list(self._known.values()):
                coming.cancel()
        self._pool.shutdown(wait=False)

    def taken(self, name: str) -> Tuple[bytes, State]:
        """A page, and its HTML with the tag of both. Where the page changes meanwhile the tag is that of no
        page."""
        page = self._folder.read(name)
        if len(page) < LONG_PAGE:
            return page, self._state_of(name, page)
        known = self._found(name)
        if known is None or known.page != page or not self._is_still(name, known):
            known = self._made(name)
            coming: "Future[Known]" = Future()
            coming.set_result(known)
            self._keep(name, coming)
        return known.page, known.state

    def begin(self, name: str) -> None:
        """Makes the state of a long page for somebody who will soon ask for it, in the form that the editor
        asks for."""
        if len(self._folder.read(name)) < LONG_PAGE:
            return
        with self._lock:
            before = self._known.get(name)
            if before is None or before.done():
                self._keep(name, self._pool.submit(self._again, name, before))

    def _again(self, name: str, before: "Optional[Future[Known]]") -> Known:
        known = result_of(before)
        if known is None or not self._is_still(name, known):
            known = self._made(name)
            _ = known.state.for_editor  # it is made now
        return known

    def _made(self, name: str) -> Known:
        fingerprint = self._folder.fingerprint()
        page = self._folder.read(name)
        return Known(page, self._state_of(name, page), fingerprint)

    def _is_still(self, name: str, known: Known) -> bool:
        if known.fingerprint is None or known.fingerprint != self._folder.fingerprint():
            return False
        return self._tag_of(name, self._folder.read(name), known.state.html_hash) == known.state.tag

    def _found(self, name: str) -> Optional[Known]:
        """Waits for the state where it is being made."""
        with self._lock:
            coming = self._known.get(name)
        return result_of(coming)

    def _keep(self, name: str, coming: "Future[Known]") -> None:
        with self._lock:
            self._known[name] = coming
            self._known.move_to_end(name)
        coming.add_done_callback(lambda _: self._forget())

    def _forget(self) -> None:
        """Forgets states, the oldest first, until those that are left aren't too many, nor too many bytes."""
        with self._lock:
            room = MOST_BYTES
            for count, (name, coming) in enumerate(reversed(list(self._known.items()))):
                known = result_of(coming) if coming.done() else None
                room -= len(known.state.document) if known is not None else 0
                if count >= MOST_KEPT or room < 0:
                    del self._known[name]


def result_of(coming: "Optional[Future[Known]]") -> Optional[Known]:
    """Nothing where there is none, or it couldn't be made."""
    if coming is None:
        return None
    try:
        return coming.result()
    except (CancelledError, Refusal, OSError):
        return None
