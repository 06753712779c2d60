"""Edits that were shown to a client before they are stored, and the states that they will make."""
from __future__ import annotations

import secrets
import threading
from collections import OrderedDict
from concurrent.futures import Future, ThreadPoolExecutor
from dataclasses import dataclass
from functools import cached_property
from typing import Callable, Optional, Tuple

from .differences import unified
from .documents import with_sources_alone, without_places
from .fingerprints import names_tag
from .other_tools import titles
from .refusals import Refusal

MOST_KEPT = 16  # edits, each with two pages
MOST_BYTES = 67_108_864  # of the HTML of the states that they will make, all together
AT_ONCE = 2  # such states that are made while clients look at what changes


@dataclass(frozen=True)
class Edit:
    """A new page that `wtround edit` answered: whose, of which state of it, and the page as it was.

    `fingerprint` is the folder's before that state was read, `html_hash` that of its HTML, `sent` a hash of
    what the client sent.
    """

    name: str
    tag: str
    page: bytes
    new: bytes
    sent: str
    fingerprint: Optional[bytes]
    html_hash: bytes

    @property
    def is_changed(self) -> bool:
        return self.new != self.page

    @cached_property
    def diff(self) -> str:
        """What the client is shown."""
        return unified(self.page.decode(), self.new.decode(), titles.file_name(self.name))


@dataclass(frozen=True)
class State:
    """The HTML and the tag that a page has, or will have."""

    document: bytes
    html_hash: bytes
    tag: str

    @cached_property
    def for_editor(self) -> bytes:
        """The HTML in the form that the editor page asks for."""
        return without_places(with_sources_alone(self.document))


@dataclass(frozen=True)
class Foreseen:
    """A page that an edit will probably make; `coming` makes its state meanwhile."""

    page: bytes
    coming: "Future[State]"

    def of(self, page: bytes) -> "Optional[Future[State]]":
        """What makes the state of the page that the edit made, if that is the foreseen one."""
        if page == self.page:
            return self.coming
        self.coming.cancel()  # where it hasn't begun
        return None


@dataclass
class Kept:
    """An edit that was shown. `coming` makes the state that it leads to; nothing, where that is too much to
    keep."""

    edit: Edit
    coming: "Optional[Future[State]]"

    def state(self) -> Optional[State]:
        """Waits for the state; nothing where it isn't kept, hasn't been begun, or couldn't be made."""
        coming = self.coming
        if coming is None or coming.cancel():
            return None
        try:
            return coming.result()
        except (Refusal, OSError):
            return None


class PreparedEdits:
    """Keeps the last edits that were shown, by words that nobody can guess. Each is compared with the page
    again when it is to be stored."""

    def __init__(self, state_of: Callable[[str, bytes], State]) -> None:
        self._state_of = state_of
        self._lock = threading.RLock()  # what is called when a state is cancelled takes it again
        self._edits: "OrderedDict[str, Kept]" = OrderedDict()
        self._pool = ThreadPoolExecutor(AT_ONCE)

    def close(self) -> None:
        with self._lock:
            while self._edits:
                self._forget_oldest()
        self._pool.shutdown(wait=False)

    def foresee(self, name: str, page: bytes) -> Foreseen:
        """Begins the state of a page that an edit will probably make, also in the editor's form."""
        return Foreseen(page, self._pool.submit(self._state_for_editor, name, page))

    def _state_for_editor(self, name: str, page: bytes) -> State:
        state = self._state_of(name, page)
        _ = state.for_editor  # it is made now
        return state

    def keep(self, kept: Kept) -> str:
        """The word under which an edit is found again. The state that it leads to is begun, if it wasn't."""
        word = secrets.token_hex(16)
        edit = kept.edit
        with self._lock:
            if kept.coming is None and edit.is_changed:
                kept.coming = self._pool.submit(self._state_of, edit.name, edit.new)
            coming = kept.coming
            self._edits[word] = kept
            while len(self._edits) > MOST_KEPT:
                self._forget_oldest()
        if coming is not None:
            coming.add_done_callback(lambda _: self._forget_states())
        return word

    def find(self, word: str, name: str) -> Kept:
        """Refuses with 410 where there is none of this word, or one of another page."""
        with self._lock:
            kept = self._edits.get(word)
        if kept is None or kept.edit.name != name:
            raise Refusal(410, "NotPrepared", "The server keeps this edit no longer: send the HTML again.")
        return kept

    def led_to(self, name: str, field: str) -> Optional[Tuple[bytes, State]]:
        """A page that an edit led to, with its state, whose tag the field If-Match names: nothing where there
        is none, or it isn't made yet."""
        with self._lock:
            edits = [kept for kept in reversed(self._edits.values()) if kept.edit.name == name]
        for kept in edits:
            state = kept.state() if kept.coming is not None and kept.coming.done() else None
            if state is not None and names_tag(field, state.tag):
                return kept.edit.new, state
        return None

    def forget(self, word: str, name: str) -> None:
        """Forgets an edit of a page that nobody will store."""
        with self._lock:
            kept = self._edits.get(word)
            if kept is not None and kept.edit.name == name:
                self._edits.move_to_end(word, last=False)
                self._forget_oldest()

    def _forget_oldest(self) -> None:
        _, kept = self._edits.popitem(last=False)
        if kept.coming is not None:
            kept.coming.cancel()  # where it hasn't begun

    def _forget_states(self) -> None:
        """Forgets states, the oldest first, until those that are left aren't too many bytes."""
        with self._lock:
            room = MOST_BYTES
            for kept in reversed(self._edits.values()):
                if kept.coming is None or not kept.coming.done():
                    continue
                state = kept.state()
                room -= len(state.document) if state is not None else 0
                if room < 0:
                    kept.coming = None
