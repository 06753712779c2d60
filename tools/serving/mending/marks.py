"""Marks for the command `edit`, which writes anew only what is marked: `content` on blocks whose inside was
changed, `children` where blocks or items came or went. docs/editing.md says where a mark may stand."""
from __future__ import annotations

from typing import List, Optional, Set

from .kinds import CELLS, HEADINGS, ITEMS, LINES
from .markup import Child, Element
from .original import Original
from .texts import WHITE, is_same

# What can be written anew, so that it may stand where it didn't stand in the page.
WRITABLE = HEADINGS | frozenset("b i a br p hr li".split())


def add_marks(page: Element, original: Original) -> None:
    """`page` is a mended body."""
    present = {part.number for part in page.walk()}
    for block in page.elements():
        adopt(block, original, present)
    settle(page, 0, original)
    if child_numbers(page) != child_numbers(original.page):
        mark(page, "children")
    for child in page.elements():
        mark_in(child, original)


def mark(part: Element, word: str) -> None:
    part.attributes["data-wt-edit"] = word


def mark_in(part: Element, original: Original) -> None:
    if part.name == "section":
        for child in part.elements():
            mark_in(child, original)
        return
    kept = original.nodes.get(part.number)
    if kept is None or "about" in part.attributes:
        return
    if part.name in LINES or (part.name in ITEMS | CELLS and kept.is_inline):
        if not is_same(part, kept.part):
            mark(part, "content")
            if part.name != "p":
                drop_last_blanks(part)
            for child in part.elements():
                drop_skips(child, original)
        return
    is_top_list = part.name in ("ul", "ol") and kept.parent is None
    if is_top_list and child_numbers(part) != child_numbers(kept.part):
        mark(part, "children")
    for child in part.elements():
        mark_in(child, original)


def drop_last_blanks(part: Element) -> None:
    """`edit` would keep blanks at the end of a heading, an item or a cell by a `<nowiki/>` behind them."""
    last = part.children[-1] if part.children else None
    if not isinstance(last, str):
        return
    rest = last.rstrip(WHITE)
    if rest != "":
        part.children[-1] = rest
    else:
        part.children.pop()


def drop_skips(part: Element, original: Original) -> None:
    """The letters that joined a link (`[[dog]]s`) stand behind a skip in it, which covers its `]]`; `edit`
    writes a changed link with all its text between its brackets, so the skip goes. `part` stands in a marked
    block."""
    kept = original.nodes.get(part.number)
    is_link = part.name == "a" and "about" not in part.attributes
    if is_link and kept is not None and not is_same(part, kept.part):
        part.children = [c for c in part.children if isinstance(c, str) or c.get("typeof") != "mw:Skip"]
    for child in part.elements():
        drop_skips(child, original)


def child_numbers(part: Element) -> List[int]:
    """The numbers of the children, 0 for a new one; those of sections count as the body's. What belongs to a
    group beside its first element isn't counted."""
    numbers: List[int] = []
    for child in part.elements():
        if child.name == "section":
            numbers += child_numbers(child)
        elif "about" not in child.attributes or "data-mw" in child.attributes:
            numbers.append(child.number)
    return numbers


# ---------------------------------------------------------------- nodes that moved


def adopt(block: Element, original: Original, present: Set[int]) -> None:
    """A paragraph, heading or item in which something stands that can't be written anew, all of it from one
    other block, which is gone, becomes that block: so two blocks that were joined are saved as the second one
    without the first. `present` has the numbers that stand in the page."""
    if block.name in ("section", "ul", "ol"):
        for inner in block.elements():
            adopt(inner, original, present)
        return
    if block.name not in LINES and block.name != "li":
        return
    parents = {parent_of(part, original) for part in nearest_kept(block) if not can_be_anew(part)}
    if len(parents) != 1:
        return
    number = parents.pop()
    gone = original.nodes.get(number)
    if number == block.number or number in present or gone is None or gone.part.name != block.name:
        return
    block.attributes = dict(gone.part.attributes)
    present.add(number)


def settle(parent: Element, number: int, original: Original) -> None:
    """Takes the number off what stands elsewhere than in the page, where it can be written anew: its place
    among the kept nodes of its kept parent is another one. What can't be written keeps its number, and the
    edit is refused by name. `number` is that of the page's node that the parent is, 0 for the body."""
    while True:
        kept = nearest_kept(parent)
        at_home = [part for part in kept if parent_of(part, original) == number]
        in_order = heaviest_rising(at_home)
        moved = {part.number for part in kept if id(part) not in in_order and can_be_anew(part)}
        if not moved:
            break
        make_new(parent, moved)
    for part in kept:
        if "about" not in part.attributes:
            settle(part, part.number, original)


def nearest_kept(part: Element) -> List[Element]:
    """The kept elements in a part that stand in no other kept element of it."""
    found: List[Element] = []
    for child in part.elements():
        if child.number != 0:
            found.append(child)
        else:
            found += nearest_kept(child)
    return found


def parent_of(part: Element, original: Original) -> int:
    """The number of its parent in the page."""
    kept = original.nodes.get(part.number)
    if kept is None:
        return -1
    return kept.parent.part.number if kept.parent is not None else 0


def can_be_anew(part: Element) -> bool:
    if "about" in part.attributes:
        return False
    return part.name in WRITABLE or part.get("typeof") in ("mw:Entity", "mw:Nowiki", "mw:Skip")


class Chain:
    """Parts whose numbers rise, from the last one."""

    __slots__ = ("part", "before", "weight")

    def __init__(self, part: Element, before: "Optional[Chain]", own_weight: int) -> None:
        self.part = part
        self.before = before
        self.weight = own_weight + weight_of(before)


def weight_of(chain: Optional[Chain]) -> int:
    return chain.weight if chain is not None else 0


def heaviest_rising(parts: List[Element]) -> Set[int]:
    """Of parts in the order of the document those that stay, by their `id()`: their numbers rise, and as many
    stay as can, first of those that can't be written anew."""
    numbers = [part.number for part in parts]
    if all(left < right for left, right in zip(numbers, numbers[1:])):
        return {id(part) for part in parts}
    ranks = {number: at for at, number in enumerate(sorted(set(numbers)), 1)}
    # The heaviest chain that ends at a rank or below, as a tree of prefixes.
    best: List[Optional[Chain]] = [None] * (len(ranks) + 1)
    for part, number in zip(parts, numbers):
        rank = ranks[number]
        chain = Chain(part, heaviest_below(best, rank - 1), 1 if can_be_anew(part) else len(parts) + 1)
        at = rank
        while at < len(best):
            if weight_of(best[at]) < chain.weight:
                best[at] = chain
            at += at & -at
    heaviest: Optional[Chain] = None
    for found in best:
        if weight_of(found) > weight_of(heaviest):
            heaviest = found
    stay = set()
    while heaviest is not None:
        stay.add(id(heaviest.part))
        heaviest = heaviest.before
    return stay


def heaviest_below(best: List[Optional[Chain]], rank: int) -> Optional[Chain]:
    found: Optional[Chain] = None
    while rank > 0:
        if weight_of(best[rank]) > weight_of(found):
            found = best[rank]
        rank -= rank & -rank
    return found


def make_new(parent: Element, numbers: Set[int]) -> None:
    """`numbers` are those of the nearest kept parts in it that become new."""
    children: List[Child] = []
    for child in parent.children:
        if isinstance(child, str):
            children.append(child)
            continue
        number = child.number
        if number == 0:
            make_new(child, numbers)
        if number not in numbers:
            children.append(child)
            continue
        for name in ("id", "data-parsoid", "data-mw"):
            child.attributes.pop(name, None)
        kind = child.get("typeof")
        if kind in ("mw:Entity", "mw:Nowiki"):
            children += child.children
        elif kind != "mw:Skip":
            children.append(child)
    parent.children = children
