"""From what an editor and a browser left in a document to a tree that the program reads.

Where a page is known as it was opened, an element is *kept* if it has the `id` of a node of the page and is
of that node's kind; any other is new.
"""
from __future__ import annotations

from typing import Callable, Dict, Iterable, List, NamedTuple, Optional, Set

from .kinds import (
    ATTRIBUTES, CELLS, ITEMS, LINES, LISTS, TAGS, hidden_kind, is_blank, is_block, is_block_name,
    is_hidden_name, is_island, is_mark, may_have, name_of,
)  # fmt: skip
from .entities import with_entity
from .lines import drop_empty_lines
from .links import Line, link_target, with_edges_outside
from .markup import Child, Element
from .original import Kept, Original, kind_of
from .places import Places
from .strays import put_back
from .styles import is_plain, says_bold, says_italic, styled_pieces
from .texts import NOT_WHITE, append, is_empty, is_line_break, tidy

Pieces = List[Child]


class Weight(NamedTuple):
    """What tells which of several elements keeps a number."""

    things: int  # groups, extensions and other islands in it
    is_hollow: bool  # nothing is shown


class Mender:
    """`original` is the page as it was, where that is known."""

    def __init__(self, original: Optional[Original]) -> None:
        self.original = original
        self._owners: Dict[int, Element] = {}  # which element has a number, of several that have it
        self._weights: Dict[int, Weight] = {}  # of elements that have a number with others, by their `id()`
        self._in_link = False
        self._styles: Set[str] = set()  # in which of bold and italic (`b`, `i`) what is read stands
        # The kinds of the page's categories, switches and the like that are still there.
        self._hidden_kinds: Optional[Set[str]] = None

    def page(self, root: Element) -> Element:
        """The body of the page that stands in this element."""
        self._claim(root)
        attributes = self.original.page.attributes if self.original else self._attributes(root, "body", 0)
        page = Element("body", dict(attributes), self._blocks(root.children))
        Places(self.original).fit(page)
        if self.original is not None:
            put_back(page, self.original)
        drop_empty_lines(page, self.original)
        return page

    # ------------------------------------------------------------ numbers

    def _claim(self, root: Element) -> None:
        """Finds the owner of each number: of several elements of the right kind, as the halves of a paragraph
        that was split, the one that holds most of what can't be written anew; of those the first that shows
        something, else the first."""
        for element in root.walk():
            number = element.number
            if number == 0 or not self._is_of_kind(element, number):
                continue
            owner = self._owners.get(number)
            if owner is None or self._is_better(element, owner):
                self._owners[number] = element

    def _is_better(self, element: Element, owner: Element) -> bool:
        """Whether an element rather has a number than the one before it that has it too."""
        now, before = self._weight(element), self._weight(owner)
        is_shown = before.is_hollow and not now.is_hollow
        return now.things > before.things or (now.things == before.things and is_shown)

    def _weight(self, element: Element) -> Weight:
        """Each element is looked into once, however many others have its number."""
        weight = self._weights.get(id(element))
        if weight is None:
            weight = self._weights[id(element)] = Weight(things_in(element), is_hollow(element))
        return weight

    def _is_of_kind(self, element: Element, number: int) -> bool:
        """Whether the element can be the page's node of this number."""
        if self.original is None:
            return True
        kept = self.original.nodes.get(number)
        if kept is None or kind_of(name_of(element), element.get) != kept.kind:
            return False
        data = element.attributes.get("data-parsoid")
        return data is None or data == kept.part.get("data-parsoid")

    def _number_of(self, element: Element) -> int:
        """Its number, where it is the one that has it; else 0."""
        number = element.number
        return number if number != 0 and self._owners.get(number) is element else 0

    def _untouched(self, element: Element) -> Optional[Element]:
        """A copy of the page's own block, where the element is as it was opened."""
        kept = self._kept(element.number)
        return copied(kept.part) if kept is not None and self._is_untouched(element, kept.part) else None

    def _is_untouched(self, element: Element, part: Element) -> bool:
        if element.name != part.name and element.get("data-wt-name") != part.name:
            return False
        if any(element.attributes.get(name) != value for name, value in part.attributes.items()):
            return False
        if part.number != 0 and self._owners.get(part.number) is not element:
            return False
        if "id" in element.attributes and "id" not in part.attributes:
            return False
        if len(element.children) != len(part.children):
            return False
        return all(
            child == other
            if isinstance(child, str) or isinstance(other, str)
            else self._is_untouched(child, other)
            for child, other in zip(element.children, part.children)
        )

    def _kept(self, number: int) -> Optional[Kept]:
        return self.original.nodes.get(number) if self.original is not None else None

    def _attributes(self, element: Element, name: str, number: int) -> Dict[str, str]:
        """The attributes that stay: of a kept element those that it had, of a new one those that its kind may
        have."""
        kept = self._kept(number)
        attributes = {}
        for attribute, value in element.attributes.items():
            if may_have(name, attribute) if number == 0 else attribute in ATTRIBUTES:
                if kept is None or attribute in kept.part.attributes:
                    attributes[attribute] = value
        return attributes

    def _part(self, element: Element, name: str, children: Pieces) -> Element:
        return Element(name, self._attributes(element, name, self._number_of(element)), children)

    # ------------------------------------------------------------ blocks

    def _blocks(self, nodes: Iterable[Child]) -> Pieces:
        """What stands in the body, in a section, in a box: blocks, and white space between them. Text and
        inline elements that stand there directly are a new paragraph."""
        out: Pieces = []
        loose: Pieces = []
        for node in nodes:
            if isinstance(node, str):
                if loose or not is_blank(node):
                    loose.append(node)
                else:
                    append(out, NOT_WHITE.sub(" ", node))
                continue
            name = name_of(node)
            if name == "":
                continue
            if not self._stands_in_body(node, name, bool(loose)):
                loose.append(node)
                continue
            out += self._paragraphs(loose)
            loose = []
            for piece in self._block(node, name):
                if not self._has_vanished(piece):
                    append(out, piece)
        out += self._paragraphs(loose)
        return out

    def _stands_in_body(self, element: Element, name: str, is_in_line: bool) -> bool:
        """Whether an element directly in the body belongs there; else it stands in a paragraph whose own
        element is gone. `is_in_line`: such a paragraph has begun."""
        if "about" not in element.attributes and not is_hidden_name(name):
            return is_block_name(name)
        kept = self._kept(self._number_of(element))
        if kept is not None and (kept.parent is None or is_in_line or not is_hidden_name(name)):
            return kept.parent is None
        return not is_in_line or is_block_name(name)

    def _has_vanished(self, piece: Child) -> bool:
        """A paragraph or heading of which nothing is left."""
        if isinstance(piece, str) or piece.name not in LINES or "about" in piece.attributes:
            return False
        if self.original is None and piece.number != 0:
            return False
        kept = self._kept(piece.number)
        return is_empty(piece.children) and (kept is None or not is_empty(kept.part.children))

    def _paragraphs(self, nodes: Pieces) -> Pieces:
        """`nodes` are texts and inline elements without a block."""
        if not nodes:
            return []
        return [piece for piece in self._lines({}, "p", self._inline(nodes)) if not self._has_vanished(piece)]

    def _block(self, element: Element, name: str) -> Pieces:
        """`name` is our name for the element."""
        untouched = self._untouched(element)
        if untouched is not None:
            return [untouched]
        if "about" in element.attributes:
            return [self._as_it_stands(element, name)]
        if is_hidden_name(name):
            return self._hidden(element, name)
        if name in LINES:
            attributes = self._attributes(element, name, self._number_of(element))
            return self._lines(attributes, name, self._inline(element.children))
        if name in LISTS:
            return self._list(element, name)
        if name == "hr":
            return [self._part(element, name, [])]
        if name == "pre":
            content = self._flat(self._inline(element.children), never)
            return [tidy(self._part(element, name, content), self.original)]
        if name == "section":
            return [self._part(element, name, self._blocks(element.children))]
        if name in ("table", "tbody", "tr"):
            return [self._table_part(element, name)]
        return self._blocks(element.children)

    def _lines(self, attributes: Dict[str, str], name: str, content: Pieces) -> Pieces:
        """A paragraph or heading; where blocks stand in it, it is split round them, and its first part that
        isn't empty stays what it was."""
        if not any(map(is_block, content)):
            return [tidy(Element(name, attributes, content), self.original)]
        out: Pieces = []
        line: Optional[Element] = None
        is_first = True
        for piece in content:
            if is_block(piece):
                line = None
                out.append(piece)
                continue
            if line is None:
                if isinstance(piece, str) and is_blank(piece):
                    continue
                line = Element(name, attributes) if is_first else Element("p")
                is_first = False
                out.append(line)
            append(line.children, piece)
        return [tidy(p, self.original) if not isinstance(p, str) and p.name in LINES else p for p in out]

    def _list(self, element: Element, name: str) -> Pieces:
        made = self._part(element, name, [])
        item_name = "dd" if name == "dl" else "li"
        item: Optional[Element] = None
        for node in element.children:
            if not isinstance(node, str):
                item = self._in_list(made, node, item_name, item)
            elif is_blank(node):
                append(made.children, NOT_WHITE.sub(" ", node))
            else:
                item = tidy(Element(item_name, {}, [node]), self.original)
                made.children.append(item)
        has_items = any(not is_hidden_name(part.name) for part in made.elements())
        kept = self._kept(made.number)
        was_empty = kept is not None and is_empty(kept.part.children)
        return [made] if has_items or was_empty else list(made.elements())

    def _in_list(
        self, made: Element, element: Element, item_name: str, last: Optional[Element]
    ) -> Optional[Element]:
        """`element` is a child of the list that is made, `item_name` what its items are, `last` its last item
        so far. Answers its last item then."""
        name = name_of(element)
        if name == "":
            return last
        if "about" in element.attributes or is_hidden_name(name):
            made.children += self._block(element, name)
            return last
        if name in LISTS:
            item = last if last is not None else Element(item_name)
            if last is None:
                made.children.append(item)
            item.children += self._list(element, name)
            return item
        is_item = name in ITEMS
        if is_item:
            item = self._item(element, name)
        else:
            flat = self._flat(self._inline_element(element), is_list)
            item = tidy(Element(item_name, {}, flat), self.original)
        if is_empty(item.children) and not (is_item and item.number != 0):
            return last
        made.children.append(item)
        return item

    def _item(self, element: Element, name: str) -> Element:
        content = self._inline(element.children)
        last = blocks_behind_text(content)

        def stays(part: Element) -> bool:
            return is_list(part) and (part.number != 0 or id(part) in last)

        return tidy(self._part(element, name, self._flat(content, stays)), self.original)

    def _table_part(self, element: Element, name: str) -> Element:
        part = self._part(element, name, [])
        for node in element.children:
            if isinstance(node, str):
                append(part.children, node)
                continue
            child_name = name_of(node)
            is_cell = child_name in CELLS and "about" not in node.attributes
            if not is_cell and (is_block_name(child_name) or is_hidden_name(child_name)):
                part.children += self._block(node, child_name)
            else:
                part.children += self._inline_element(node)
        return part

    def _cell(self, element: Element, name: str) -> Element:
        """A cell or caption: new paragraphs in it, before any block of the page, are lines of its text, and
        so are other new blocks before text."""
        content = self._inline(element.children)
        last = blocks_behind_text(content)
        is_behind_block = False

        def stays(part: Element) -> bool:
            nonlocal is_behind_block
            is_new = part.number == 0 and "about" not in part.attributes
            is_last = id(part) in last and part.name not in LINES
            is_behind_block = is_behind_block or not is_new or is_last
            return is_behind_block

        return tidy(self._part(element, name, self._flat(content, stays)), self.original)

    # ------------------------------------------------------------ what stands in a line

    def _inline(self, nodes: Iterable[Child]) -> Pieces:
        """Texts, inline elements, and the blocks that stand among them."""
        line = Line()
        for node in nodes:
            if isinstance(node, str):
                line.add(node)
                continue
            pieces = self._inline_element(node)
            if name_of(node) == "a" and self._number_of(node) != 0:
                line.add_link(pieces)
                continue
            for piece in pieces:
                line.add(piece)
        return line.end()

    def _inline_element(self, element: Element) -> Pieces:
        name = name_of(element)
        if name == "":
            return []
        if "about" in element.attributes:
            return [self._as_it_stands(element, name)]
        if is_hidden_name(name):
            return self._hidden(element, name)
        if name in CELLS:
            return [self._cell(element, name)]
        if name in ITEMS:
            return [self._item(element, name)]
        if is_block_name(name):
            return self._block(element, name)
        if name == "br":
            return [self._part(element, name, [])]
        if name == "a":
            return self._link(element)
        if name == "span" and "typeof" in element.attributes:
            return self._special(element)
        is_kept = self._number_of(element) != 0
        if name in ("b", "i") or (is_kept and name in TAGS):
            return self._styled(element, name)
        return self._by_style(element) if name in ("span", "font") else self._inline(element.children)

    def _has_lost_inside(self, element: Element, children: Pieces) -> bool:
        """Whether a link or a style vanishes because its inside did. Of a page that isn't known only a new
        one does."""
        kept = self._kept(self._number_of(element))
        is_bare = all(not isinstance(piece, str) and is_line_break(piece) for piece in children)
        if not is_bare or (kept is not None and is_empty(kept.part.children)):
            return False
        return self.original is not None or self._number_of(element) == 0

    def _styled(self, element: Element, name: str) -> Pieces:
        """Bold, italic, a pair of tags. New bold round blocks is in each of them."""
        is_style = name in ("b", "i")
        is_new = self._number_of(element) == 0
        if is_style and is_new and is_plain(element, name):
            return self._by_style(element)
        if is_style and name in self._styles and not self._has_above(element, name):
            return self._inline(element.children)
        pieces = self._within([name] if is_style else [], element.children)
        if is_new and any(map(is_block, pieces)):
            return styled_pieces(pieces, name, self.original)
        children = self._flat(pieces, never)
        return children if self._has_lost_inside(element, children) else [self._part(element, name, children)]

    def _has_above(self, element: Element, name: str) -> bool:
        """Whether the page has the element inside another one of this name; of a page that isn't known,
        whether it may have it so."""
        if self.original is None:
            return self._number_of(element) != 0
        kept = self._kept(self._number_of(element))
        above = kept.parent if kept is not None else None
        while above is not None and above.part.name != name:
            above = above.parent
        return above is not None

    def _within(self, styles: List[str], children: Iterable[Child]) -> Pieces:
        """What stands in bold or italic text, of which these styles begin here: bold in bold is its inside,
        since no apostrophes say it."""
        begun = set(styles) - self._styles
        self._styles |= begun
        pieces = self._inline(children)
        self._styles -= begun
        return pieces

    def _by_style(self, element: Element) -> Pieces:
        """A `span` or `font` of another document: bold and italic by its style, else its inside."""
        styles = [name for name, says in (("i", says_italic), ("b", says_bold)) if says(element)]
        begun = [name for name in styles if name not in self._styles]
        pieces = self._within(begun, element.children)
        if is_empty(pieces):
            return pieces
        for name in begun:
            pieces = styled_pieces(pieces, name, self.original)
        return pieces

    def _link(self, element: Element) -> Pieces:
        if self._in_link:
            return self._inline(element.children)
        self._in_link = True
        content = self._flat(self._inline(element.children), never)
        self._in_link = False
        kept = self._kept(self._number_of(element))
        rel = kept.part.get("rel") if kept is not None else element.get("rel")
        href = element.get("href")
        is_new = self._number_of(element) == 0
        was = kept.part.get("href") if kept is not None else "" if is_new else href
        target = link_target(href, rel, was)
        if target is None or self._has_lost_inside(element, content):
            return content
        link = Element("a", target, content) if is_new else self._part(element, "a", content)
        for name, value in target.items():
            if link.get(name) != value:
                link.attributes[name] = value
        if kept.part.text() == link.text() if kept is not None else not is_new:
            return [link]
        return with_edges_outside(link, kept.part.text() if kept is not None else "")

    def _special(self, element: Element) -> Pieces:
        """A `span` with a `typeof`: an entity, a nowiki, an island."""
        kind = element.get("typeof")
        if is_island(element.get):
            island = self._part(element, "span", [])
            return [island, *self._inline(element.children)] if self._number_of(element) != 0 else [island]
        if self._number_of(element) == 0 or kind not in ("mw:Entity", "mw:Nowiki"):
            return self._inline(element.children)
        part = self._part(element, "span", self._inline(element.children))
        if kind == "mw:Entity":
            return self._entity(part)
        if any(child.get("typeof") != "mw:Entity" for child in part.elements()):
            return part.children
        return [] if is_empty(part.children) and not self._was_empty(part) else [part]

    def _was_empty(self, part: Element) -> bool:
        kept = self._kept(part.number)
        return kept is None or is_empty(kept.part.children)

    def _entity(self, part: Element) -> Pieces:
        """An entity holds its character alone: what was typed in it stands beside it."""
        kept = self._kept(part.number)
        if kept is None:
            return [part]
        was, now = kept.part.text(), part.text()
        if part.children == [was]:
            return [part]
        whole = Element(part.name, part.attributes, [was])
        is_blank_still = now != "" and is_blank(now) and is_blank(was) and not any(part.elements())
        if is_blank_still:
            return [whole]
        found = with_entity(part.children, was, whole)
        return part.children if found is None else found

    def _hidden(self, element: Element, name: str) -> Pieces:
        """A comment, an include tag, a skip, a switch, a category: those of the page; and of new ones what
        the program refuses by name, and not passes over."""
        is_ours = any(element.get(key).startswith("mw:") for key in ("typeof", "property", "rel"))
        part = self._part(element, name, [])
        is_kept = self.original is None or self._number_of(element) != 0
        return [part] if is_ours and (is_kept or not (is_mark(part) or self._is_copy(part))) else []

    def _is_copy(self, part: Element) -> bool:
        """Whether the page has such a category or switch as this new one, which is still there."""
        if self._hidden_kinds is None:
            nodes = self.original.nodes if self.original is not None else {}
            parts = [nodes[number].part for number in self._owners if number in nodes]
            self._hidden_kinds = {hidden_kind(part) for part in parts if is_hidden_name(part.name)}
        return hidden_kind(part) in self._hidden_kinds

    def _as_it_stands(self, element: Element, name: str) -> Element:
        """A group or a part of one: nothing in it is mended."""
        number = self._number_of(element)
        part = Element(element.name if name == "box" else name)
        for attribute, value in element.attributes.items():
            is_lost = number == 0 and attribute in ("id", "data-parsoid")
            if attribute in ATTRIBUTES and not is_lost:
                part.attributes[attribute] = value
        for node in element.children:
            if isinstance(node, str):
                append(part.children, node)
                continue
            child_name = name_of(node)
            if child_name != "":
                name = child_name if node.name == "template" else node.name
                part.children.append(self._as_it_stands(node, name))
        return part

    def _flat(self, pieces: Pieces, stays: Callable[[Element], bool]) -> Pieces:
        """Blocks where none may stand become their inside, with a line break to what stands before and behind
        them; groups stay. `stays`: whether a block may stand there."""
        out: Pieces = []
        is_behind_block = False
        for piece in pieces:
            is_one = not isinstance(piece, str) and is_block(piece)
            is_inner = is_one and "about" not in piece.attributes and not stays(piece)
            content = self._flat(piece.children, never) if is_inner else [piece]
            if is_empty(content) and (is_inner or is_behind_block):
                continue
            is_staying = is_one and not is_inner
            if (is_inner or is_behind_block) and not is_staying and not is_empty(out):
                append(out, Element("br"))
            for inner in content:
                append(out, inner)
            is_behind_block = is_inner
        return out


def copied(part: Element) -> Element:
    children = [child if isinstance(child, str) else copied(child) for child in part.children]
    return Element(part.name, dict(part.attributes), children)


def never(_: Element) -> bool:
    return False


def is_list(part: Element) -> bool:
    return part.name in LISTS


def things_in(element: Element) -> int:
    """How many groups, extensions and other islands stand in an element."""
    return sum("id" in inner.attributes and is_island(inner.get) for inner in element.walk())


def blocks_behind_text(pieces: Pieces) -> Set[int]:
    """The pieces behind the last text or inline element, by their `id()`."""
    last = -1
    for at, piece in enumerate(pieces):
        is_text = not is_blank(piece) if isinstance(piece, str) else not is_hidden_name(piece.name)
        if is_text and not is_block(piece):
            last = at
    return {id(piece) for piece in pieces[last + 1 :]}


def is_hollow(element: Element) -> bool:
    """Whether an element shows nothing, as the half of a split paragraph that keeps nothing but its `br`."""
    return is_blank(element.text()) and not any("id" in inner.attributes for inner in element.walk())
