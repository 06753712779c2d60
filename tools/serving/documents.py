"""What is asked of a document that wtround wrote: without data-parsoid or with sources alone, its body alone,
offsets in other units or none."""
from __future__ import annotations

import re
from typing import Callable, Dict, Tuple

from .refusals import Refusal

# In what wtround writes data-parsoid is the last attribute, and no text or value has a bare `<` or `>`.
DATA_PARSOID = re.compile(rb" data-parsoid='([^'<>]*)'(?=/?>)")
WITHOUT_SOURCE = re.compile(rb""" data-parsoid='(?![^'<>]*"src":)[^'<>]*'(?=/?>)""")
ANY_DATA_PARSOID = re.compile(rb"""\sdata-parsoid\s*=\s*("[^"]*"|'[^']*'|[^\s"'>]*)""", re.IGNORECASE)
SOURCE = re.compile(rb'(?:"|&quot;|&#34;)src(?:"|&quot;|&#34;):')
PLACES = re.compile(rb"""( data-parsoid='\{(?:"c":"[^'<>]*",)?"dsr":)\[[0-9,]*\]""")
RANGES = re.compile(rb'"dsr":\[([0-9]+),([0-9]+),([0-9]+),([0-9]+)\]')
BODY = re.compile(rb"<body[^<>]*>(.*)</body>", re.DOTALL)

NO_UNIT = "none"  # for places that are all 0
UNITS: Dict[str, Callable[[bytes], int]] = {
    "byte": len,
    "char": lambda part: len(part.decode()),
    "ucs2": lambda part: len(part.decode().encode("utf-16-le")) // 2,
}


def without_data_parsoid(document: bytes) -> bytes:
    """Half as long; an edit doesn't need the attribute, `wikitext` does."""
    return DATA_PARSOID.sub(b"", document)


def with_sources_alone(document: bytes) -> bytes:
    """With data-parsoid where it tells a source, as of a template, and nowhere else."""
    return WITHOUT_SOURCE.sub(b"", document)


def in_form_of(edited: bytes, original: bytes, page: bytes, unit: str) -> bytes:
    """A document with data-parsoid as its edit has it, whoever wrote that: everywhere (with places in this
    unit), where it tells a source alone, or nowhere."""
    told = ANY_DATA_PARSOID.findall(edited)
    if not told:
        return without_data_parsoid(original)
    original = with_offsets(original, page, unit)
    return with_sources_alone(original) if all(map(SOURCE.search, told)) else original


def body_of(document: bytes) -> bytes:
    """What stands in the body."""
    found = BODY.search(document)
    return found[1] if found else document


def without_places(document: bytes) -> bytes:
    """With places and widths that are all 0: so a block's HTML is the same wherever it stands in the page."""
    return PLACES.sub(rb"\1[0,0,0,0]", document)


def with_offsets(document: bytes, page: bytes, unit: str) -> bytes:
    """The document with the places and widths of `dsr` counted in bytes, characters, or units of UTF-16, or
    in nothing."""
    if unit == NO_UNIT:
        return without_places(document)
    if unit not in UNITS:
        sentence = f"The offsetType must be one of {', '.join([*UNITS, NO_UNIT])}."
        raise Refusal(400, "BadOffsetType", sentence)
    if unit == "byte" or page.isascii():
        return document
    places = {0}
    for start, end, opening, closing in map(range_in, DATA_PARSOID.findall(document)):
        places.update((start, start + opening, end - closing, end))
    counts = counts_at(sorted(places), page, UNITS[unit])

    def in_unit(found: "re.Match[bytes]") -> bytes:
        start, end, opening, closing = range_in(found[0])
        before, after = counts[start], counts[end]
        widths = counts[start + opening] - before, after - counts[end - closing]
        return b'"dsr":[%d,%d,%d,%d]' % (before, after, *widths)

    return DATA_PARSOID.sub(lambda found: RANGES.sub(in_unit, found[0], count=1), document)


def range_in(data: bytes) -> Tuple[int, ...]:
    """The start, the end and the two widths in a data-parsoid, all in bytes."""
    found = RANGES.search(data)
    assert found is not None  # each that wtround writes has them
    return tuple(map(int, found.groups()))


def counts_at(places: list, page: bytes, count: Callable[[bytes], int]) -> Dict[int, int]:
    """How many units stand before each of these places, which are in bytes and ascend from 0."""
    counts = {0: 0}
    for before, place in zip(places, places[1:]):
        counts[place] = counts[before] + count(page[before:place])
    return counts
