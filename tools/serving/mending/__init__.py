"""Of the HTML that an editor sends, in whatever serialisation, the document that wtround takes.

The rules are those of the module client/bughtiso.js ("What save mends" in client/README.md), file by file;
both are tried with the documents of client/tests/documents. `mended` and `marked` are the calls for others.
"""
from typing import Optional

from .marks import add_marks
from .markup import read_body, written
from .mender import Mender
from .original import Original

__all__ = ["marked", "mended"]

RETURN = "&#13;"  # as wtround writes a carriage return of a page


def marked(document: str, page: str) -> str:
    """The document of an edited page, mended, with the marks that `edit` asks for. `page` is its HTML as
    wtround wrote it. Raises Refusal."""
    original = Original(read_body(page))
    body = Mender(original).page(read_body(document, RETURN in page))
    add_marks(body, original)
    return written(body)


def mended(document: str, page: Optional[str] = None) -> str:
    """The document of a page, mended. `page` is its HTML as wtround wrote it, where that is known. Raises
    Refusal."""
    if page is None:
        return written(Mender(None).page(read_body(document)))
    return written(Mender(Original(read_body(page))).page(read_body(document, RETURN in page)))
