"""Convert between MediaWiki wikitext and annotated HTML for visual editors, and write edits back byte for byte.

>>> import bughtiso
>>> page = "'''Opava''' is a {{T|town}}."
>>> pages = {"Template:T": "''{{{1}}}''"}
>>> html = bughtiso.html(page, pages)
>>> bughtiso.wikitext(html) == page
True
"""
from __future__ import annotations

from ._commands import (
    ByteCount,
    BytePlace,
    Finding,
    NodeNumber,
    Pages,
    Range,
    Text,
    edit,
    expand,
    html,
    lint,
    ranges,
    run,
    wikitext,
)
from ._engines import Answer, Engine, Unavailable, engine
from ._refusal import Refusal

__version__ = "0.2.0"

__all__ = [
    "Answer",
    "ByteCount",
    "BytePlace",
    "Engine",
    "Finding",
    "NodeNumber",
    "Pages",
    "Range",
    "Refusal",
    "Text",
    "Unavailable",
    "edit",
    "engine",
    "expand",
    "html",
    "lint",
    "ranges",
    "run",
    "wikitext",
]
