"""When a page is stale: the tag (ETag) of a page and of what its templates give."""
from __future__ import annotations

import hashlib
import html
import re
import threading
from collections import OrderedDict
from typing import Optional

from .other_tools import titles
from .pages import PageFolder, revision

# Where a call's target begins, behind all braces, which are looked at once, from the first one on.
CALL = re.compile(r"(?<!\{)\{\{+([^{}|]+)")
HIDDEN = re.compile(r"<!--.*?(?:-->|\Z)|</?(?:include|no|only)[^<>]*>", re.DOTALL | re.IGNORECASE)
MOST_NAMES = 100_000  # that are remembered
TAG = re.compile(r'\s*(?:W/)?"([\x21\x23-\x7e]*)"\s*(?:,|\Z)')


def hash_of(data: bytes) -> bytes:
    return hashlib.sha256(data).digest()


def etag(folder: PageFolder, name: str, page: bytes, html_hash: bytes) -> str:
    """The tag of a page and its HTML, of which the hash (`hash_of`) is given.

    It is a hash of the page, of its HTML, in which stands all that its templates give, and of every page that
    a call names in letters, in the page or in these in turn. So it changes with each of them, and also with a
    template whose name other calls or arguments make up, where that shows anything.
    """
    digest = hashlib.sha256(hash_of(page) + html_hash)
    seen, texts = {name}, [page]
    while texts:
        for called in NAMES.of(texts.pop()):
            if called in seen:
                continue
            seen.add(called)
            text = folder.read_if_there(called)
            digest.update(hash_of(called.encode()))
            digest.update(hash_of(text) if text is not None else b"absent")
            if text is not None:
                texts.append(text)
    return f'W/"{revision(page)}/{digest.hexdigest()[:32]}"'


def names_reached(folder: PageFolder, page: bytes) -> set:
    """The full names that calls name in letters, in a page or in these pages in turn."""
    reached, texts = set(), [page]
    while texts:
        for called in NAMES.of(texts.pop()):
            if called not in reached:
                reached.add(called)
                text = folder.read_if_there(called)
                if text is not None:
                    texts.append(text)
    return reached


class NamesOfPages:
    """Remembers which pages a page names, of the pages that were looked at last."""

    def __init__(self) -> None:
        self._lock = threading.Lock()
        self._known: "OrderedDict[bytes, tuple]" = OrderedDict()  # by the hashes of the pages
        self._count = 0  # of all names, and one for each page

    def of(self, page: bytes) -> tuple:
        key = hash_of(page)
        with self._lock:
            names = self._known.get(key)
            if names is not None:
                self._known.move_to_end(key)
                return names
        names = names_in(page)
        with self._lock:
            if key not in self._known:
                self._known[key] = names
                self._count += 1 + len(names)
            while self._count > MOST_NAMES:
                self._count -= 1 + len(self._known.popitem(last=False)[1])
        return names


NAMES = NamesOfPages()


def names_in(page: bytes) -> tuple:
    """The full names of the pages that calls in a text name in letters, in their order, each once."""
    text = HIDDEN.sub("", page.decode("utf-8", "replace"))
    names = (full_name_of_target(found) for found in CALL.findall(text))
    return tuple(dict.fromkeys(name for name in names if name is not None))


def full_name_of_target(target: str) -> Optional[str]:
    text = html.unescape(target).strip(" \t\n")
    is_page = text.startswith(":")
    try:
        title = titles.read_title(text[1:] if is_page else text)
    except titles.BadTitle:
        return None
    if not title.name or title.fragment is not None:
        return None
    return title.full_name if title.namespace or is_page else f"Template:{title.name}"


def tags_of(field: str) -> list:
    """The tags in a field If-Match or If-None-Match, without `W/` and quotes; none where it is malformed."""
    tags, place = [], 0
    while place < len(field):
        found = TAG.match(field, place)
        if not found:
            return []
        tags.append(found[1])
        place = found.end()
    return tags


def names_tag(field: str, tag: str) -> bool:
    """Whether the field names this tag."""
    return tags_of(tag)[0] in tags_of(field)
