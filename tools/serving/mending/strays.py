"""What VisualEditor moves out of a block that it changes: comments, include tags, skips, switches and
categories."""
from __future__ import annotations

from typing import Dict, List, Optional, Set, Tuple

from .kinds import is_hidden_name
from .markup import Child, Element
from .original import Kept, Original
from .texts import append

NEAR = 24  # characters of text on each side by which a place is found again
MOST_STRAYS = 200  # more stay where they are, and the edit is refused by name


def put_back(page: Element, original: Original) -> None:
    """Puts each stray back into the element that it stood in, beside the neighbour that it had there. `page`
    is a mended body."""
    homes: Dict[int, Element] = {}
    strays: List[Tuple[Element, Kept]] = []
    find(page, 0, original, homes, strays)
    strays = [(part, kept) for part, kept in strays if kept.parent and kept.parent.part.number in homes]
    if not 0 < len(strays) <= MOST_STRAYS:
        return
    remove(page, {id(part) for part, _ in strays})
    for part, kept in strays:
        assert kept.parent is not None
        insert(homes[kept.parent.part.number], part, kept)


def find(
    part: Element,
    number: int,
    original: Original,
    homes: Dict[int, Element],
    strays: List[Tuple[Element, Kept]],
) -> None:
    """Finds the elements that have a number, and the strays. `number` is that of the nearest kept element
    that it is or stands in, 0 for the body."""
    for child in part.elements():
        if "about" in child.attributes:
            continue
        kept = original.nodes.get(child.number)
        if kept is not None and is_hidden_name(child.name):
            if (kept.parent.part.number if kept.parent is not None else 0) != number:
                strays.append((child, kept))
            continue
        if kept is not None:
            homes.setdefault(child.number, child)
        find(child, number if kept is None else child.number, original, homes, strays)


def remove(part: Element, strays: Set[int]) -> bool:
    """Takes parts out, by their `id()`; texts on the two sides of one become one text, and a new element that
    held nothing else goes. Answers whether something was taken out."""
    children: List[Child] = []
    is_changed = False
    for child in part.children:
        if isinstance(child, str):
            append(children, child)
        elif id(child) in strays:
            is_changed = True
        elif remove(child, strays) and child.number == 0 and not child.children:
            is_changed = True
        else:
            children.append(child)
    if is_changed:
        part.children = children
    return is_changed


def insert(home: Element, element: Element, kept: Kept) -> None:
    """Puts an element into the block in which it stood in the page."""
    assert kept.parent is not None
    siblings = kept.parent.part.children
    before = siblings[kept.at - 1] if kept.at > 0 else None
    behind = siblings[kept.at + 1] if kept.at + 1 < len(siblings) else None
    place = beside_element(home.children, before, 1)
    if place is None:
        place = beside_element(home.children, behind, 0)
    if place is not None:
        home.children.insert(place, element)
    elif before is None:
        home.children.insert(0, element)
    elif not (isinstance(before, str) and into_text(home, element, before, behind)):
        home.children.append(element)


def beside_element(children: List[Child], neighbour: Optional[Child], step: int) -> Optional[int]:
    if neighbour is None or isinstance(neighbour, str) or neighbour.number == 0:
        return None
    number = neighbour.number
    for at, child in enumerate(children):
        if not isinstance(child, str) and child.number == number:
            return at + step
    return None


def into_text(home: Element, element: Element, before: str, behind: Optional[Child]) -> bool:
    """Puts an element between two texts that have become one: where their ends meet, or where one of them
    is."""
    end, start = before[-NEAR:], behind[:NEAR] if isinstance(behind, str) else ""
    for wanted, offset in ((end + start, len(end)), (end, len(end)), (start, 0)):
        if not wanted:
            continue
        for at, child in enumerate(home.children):
            place = child.find(wanted) if isinstance(child, str) else -1
            if place >= 0:
                assert isinstance(child, str)
                cut = place + offset
                pieces = (child[:cut], element, child[cut:])
                home.children[at : at + 1] = [piece for piece in pieces if piece != ""]
                return True
    return False
