"""Entities of the page in which letters were typed."""
from __future__ import annotations

from typing import List, Optional

from .markup import Child, Element

Pieces = List[Child]


def with_entity(pieces: Pieces, character: str, entity: Element) -> Optional[Pieces]:
    """What stands in an entity, with the entity itself in place of its character; nothing where that isn't
    there."""
    for at, piece in enumerate(pieces):
        if isinstance(piece, str):
            put = cut_at(piece, character, entity)
        else:
            inside = with_entity(piece.children, character, entity)
            put = None if inside is None else [Element(piece.name, piece.attributes, inside)]
        if put is not None:
            return [*pieces[:at], *put, *pieces[at + 1 :]]
    return None


def cut_at(text: str, character: str, entity: Element) -> Optional[Pieces]:
    """The text with the entity for its character; nothing where that isn't there."""
    before, found, behind = text.partition(character) if character else (text, "", "")
    if not found:
        return None
    pieces: Pieces = [before, entity, behind]
    return [piece for piece in pieces if piece != ""]
