"""What stands where no page can have it, as text behind a list in an item or a row without a table, is put
where it may stand. Groups stay where they are."""
from __future__ import annotations

from typing import AbstractSet, List, Optional

from .kinds import CELLS, ITEMS, LINES, LISTS, is_blank, is_block, is_hidden_name
from .markup import Child, Element
from .original import Original
from .texts import NOT_WHITE, append, is_blank_text, is_line_break, tidy

Pieces = List[Child]

IN_CELL = LINES | LISTS | {"hr", "pre", "table"}
IN_BODY = IN_CELL | {"section"}
IN_TABLE = frozenset(["caption", "tbody"])
CELLS_OF_ROW = frozenset(["td", "th"])
ROWS = frozenset(["tr"])


class Places:
    """`original` is the page as it was, where that is known."""

    def __init__(self, original: Optional[Original]) -> None:
        self.original = original

    def fit(self, part: Element) -> Element:
        """Puts what is in an element where it may be, and answers the element."""
        name, pieces = part.name, part.children
        if is_group(part):
            return part
        if name in ("body", "section"):
            part.children = self._blocks(pieces, IN_BODY)
        elif name in LISTS:
            part.children = self._items(pieces, name)
        elif name in ITEMS:
            part.children = self._item(pieces)
        elif name in CELLS:
            part.children = self._cell(pieces)
        elif name == "table":
            part.children = self._table(pieces)
        elif name == "tbody":
            part.children = self._filled(pieces, ROWS, "tbody", "tr")
        elif name == "tr":
            part.children = self._filled(pieces, CELLS_OF_ROW, "tr", "td")
        return part

    def _new(self, name: str, pieces: Pieces) -> Element:
        return self.fit(tidy(Element(name, {}, pieces), self.original))

    def _blocks(self, pieces: Pieces, may_be: AbstractSet[str]) -> Pieces:
        """Blocks: text among them is a new paragraph, and a block that may not stand there is its inside.
        `may_be`: names of those that may."""
        out: Pieces = []
        line: Pieces = []

        def close() -> None:
            nonlocal line
            if any(is_shown(piece, may_be is IN_BODY) for piece in line):
                out.append(self._new("p", line))
            else:
                for piece in line:
                    if not is_line_break(piece):
                        append(out, as_separator(piece))
            line = []

        for piece in pieces:
            if isinstance(piece, str) or not is_block(piece):
                line.append(piece)
                continue
            close()
            if piece.name in may_be or is_group(piece):
                out.append(self.fit(piece))
            else:
                out += self._blocks(piece.children, may_be)
        close()
        return out

    def _items(self, pieces: Pieces, name: str) -> Pieces:
        """Items of a list of this name, each of its kind."""
        kinds = ("dd", "dt") if name == "dl" else ("li",)
        items: Pieces = []
        for piece in pieces:
            if not isinstance(piece, str) and piece.name in ITEMS and piece.name not in kinds:
                piece = piece if is_group(piece) else Element(kinds[0], {}, piece.children)
            items.append(piece)
        return self._filled(items, frozenset(kinds), name, kinds[0])

    def _item(self, pieces: Pieces) -> Pieces:
        """An item: text behind a list in it is an indented line behind that list."""
        out: Pieces = []
        line: Pieces = []  # behind a list
        has_list = False

        def close() -> None:
            nonlocal line
            if any(is_shown(piece, False) for piece in line):
                indented, made = self._new("dd", without_breaks(line)), out[-1]
                if not isinstance(made, str) and is_named(made, "dl"):
                    out[-1] = Element("dl", dict(made.attributes), [*made.children, indented])
                else:
                    out.append(Element("dl", {}, [indented]))
            else:
                for piece in line:
                    if not is_line_break(piece):
                        append(out, piece)
            line = []

        for piece in pieces:
            if not isinstance(piece, str) and piece.name in LISTS:
                close()
                out.append(self.fit(piece))
                has_list = True
            elif has_list:
                line.append(piece)
            else:
                out.append(piece)
        close()
        return out

    def _cell(self, pieces: Pieces) -> Pieces:
        """A cell: text behind a block in it is a new paragraph."""
        begin = next((at for at, piece in enumerate(pieces) if is_block(piece)), None)
        return pieces if begin is None else pieces[:begin] + self._blocks(pieces[begin:], IN_CELL)

    def _table(self, pieces: Pieces) -> Pieces:
        """A table: all its rows are in one `tbody`, that of the page where it is there."""
        held = [piece for piece in pieces if not is_free(piece, IN_TABLE) and not is_named(piece, "caption")]
        bodies = [piece for piece in held if not isinstance(piece, str) and is_named(piece, "tbody")]
        body = next((part for part in bodies if part.number != 0), bodies[0] if bodies else Element("tbody"))
        if len(held) > 1 or not bodies:
            rows: Pieces = []
            for piece in held:
                rows += piece.children if not isinstance(piece, str) and is_named(piece, "tbody") else [piece]
            body = Element("tbody", dict(body.attributes), rows)
        out: Pieces = []
        is_put = False
        for piece in pieces:
            if is_free(piece, IN_TABLE):
                append(out, as_separator(piece))
            elif not isinstance(piece, str) and is_named(piece, "caption"):
                out.append(self.fit(piece))
            elif not is_put:
                out.append(self.fit(body))
                is_put = True
        return out

    def _filled(self, pieces: Pieces, may_be: AbstractSet[str], outer: str, name: str) -> Pieces:
        """Items, rows or cells: what is none is in a new one. `may_be`: names of those that may stand there;
        `outer`: the name of what holds them, of which one in another is its inside; `name`: of a new one."""
        out: Pieces = []
        inside: Pieces = []

        def close() -> None:
            nonlocal inside
            if inside:
                out.append(self._new(name, inside))
            inside = []

        for piece in pieces:
            is_outer = is_named(piece, outer)
            is_one = not isinstance(piece, str) and piece.name in may_be
            is_further = bool(inside) and is_of_group(piece, inside[-1])
            if is_further or not (is_one or is_outer or is_free(piece, may_be)):
                inside.append(piece)
                continue
            close()
            if isinstance(piece, str) or is_free(piece, may_be):
                out.append(as_separator(piece))
            elif not is_outer:
                out.append(self.fit(piece))
            else:
                out += self._filled(piece.children, may_be, outer, name)
        close()
        return out


def is_group(part: Element) -> bool:
    return "about" in part.attributes


def is_named(piece: Child, name: str) -> bool:
    """Whether a piece is an element of this name and no group."""
    return not isinstance(piece, str) and piece.name == name and not is_group(piece)


def is_of_group(piece: Child, before: Child) -> bool:
    """Whether a piece is a further element of the group before it."""
    if isinstance(piece, str) or isinstance(before, str):
        return False
    return is_group(piece) and "data-mw" not in piece.attributes and piece.get("about") == before.get("about")


def is_free(piece: Child, may_be: AbstractSet[str]) -> bool:
    """Whether a piece may stand where it is without being looked into: blanks, what shows nothing, a group
    of a kind that may be there. `may_be`: names of elements that may."""
    if isinstance(piece, str):
        return is_blank(piece)
    return is_hidden_name(piece.name) or (is_group(piece) and (piece.name in may_be or not is_line(piece)))


def is_line(part: Element) -> bool:
    """Whether a group is one that shows something and begins here; one that shows nothing is an empty
    `span`, which may be anywhere."""
    return "data-mw" in part.attributes and (part.name != "span" or bool(part.children))


def is_shown(piece: Child, is_in_body: bool) -> bool:
    """Whether a piece of text needs a block. `is_in_body`: the page may have an inline group by itself
    there."""
    if isinstance(piece, str):
        return not is_blank(piece)
    if is_group(piece):
        return not is_in_body and is_line(piece)
    return not is_hidden_name(piece.name) and not is_line_break(piece)


def as_separator(piece: Child) -> Child:
    """Blanks as they may stand between blocks."""
    return NOT_WHITE.sub(" ", piece) if isinstance(piece, str) else piece


def without_breaks(line: Pieces) -> Pieces:
    """A line without the blanks and the line breaks in front of it."""
    begin = next(at for at, piece in enumerate(line) if not is_blank_text(piece) and not is_line_break(piece))
    return line[begin:]
