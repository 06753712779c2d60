"""What is mended in the texts of a block that an editor changed."""
from __future__ import annotations

import json
import re
from itertools import islice
from typing import Iterable, Iterator, List, Optional, Set, Tuple

from .kinds import CELLS, ITEMS, is_blank, is_block, is_hidden_name, is_island, is_mark
from .markup import Child, Element
from .original import PUT_SIGNS, Kept, Original

WHITE = " \t\n"
NOT_WHITE = re.compile("[^ \t\n\r]")
# What becomes of signs that browsers and editors put; of others nothing.
MENDED = {"\r": "\n", "\u00a0": " ", "\v": " ", "\f": " "}
PUT = re.compile(f"\r\n|{PUT_SIGNS.pattern}")


def append(pieces: List[Child], piece: Child) -> None:
    """Puts a piece at the end; texts that meet become one."""
    if piece == "":
        return
    if isinstance(piece, str) and pieces and isinstance(pieces[-1], str):
        pieces[-1] += piece
    else:
        pieces.append(piece)


def is_line_break(piece: Child) -> bool:
    """A line break that an editor made."""
    return not isinstance(piece, str) and piece.name == "br" and piece.number == 0


def is_blank_text(piece: Child) -> bool:
    return isinstance(piece, str) and is_blank(piece)


def is_empty(pieces: List[Child]) -> bool:
    """Whether nothing but white space and the line break that a browser puts into an empty block stands
    there."""
    return all(is_blank_text(piece) or is_line_break(piece) for piece in pieces)


def is_same(now: Element, was: Element) -> bool:
    """Whether two elements are the same, inside too."""
    if now.name != was.name or len(now.children) != len(was.children):
        return False
    for name, value in was.attributes.items():
        if now.get(name) != value and name not in ("data-parsoid", "data-mw"):
            return False
    return all(
        child == other if isinstance(child, str) or isinstance(other, str) else is_same(child, other)
        for child, other in zip(now.children, was.children)
    )


def tidy(block: Element, original: Optional[Original]) -> Element:
    """Mends a block with text whose inside isn't that of the page: the line break at its end, which shows
    nothing; blanks at its ends, no-break spaces, carriage returns and line breaks that the page hadn't
    there; and line breaks that it had before comments and include tags."""
    kept = original.nodes.get(block.number) if original is not None else None
    if kept is None and block.number != 0:
        return block
    if kept is not None and is_same(block, kept.part):
        return block
    end = next((at for at, piece in enumerate(block.children) if is_block(piece)), -1)
    lead = block.children[:end] if end >= 0 else block.children[:]
    drop_last_break(lead, end >= 0)
    was = kept.part.text() if kept is not None else ""
    Texts(was, block.text(), original).mend(block, lead)
    trim_edges(block, lead, kept, was)
    block.children = [piece for piece in lead if piece != ""] + (block.children[end:] if end >= 0 else [])
    if kept is not None and (block.name in ITEMS or block.name in CELLS):
        block.children = with_lines(block.children, kept.part.children)
    if kept is not None and block.name == "p":
        block.children = with_comment_lines(block.children, kept.part.children)
    return block


def with_lines(now: List[Child], was: List[Child]) -> List[Child]:
    """What an item or a cell holds, each comment and include tag of it on a line of its own if it was on one:
    with the text before it a browser takes away the line break, which nobody sees."""
    numbers = on_lines(was)
    out: List[Child] = []
    for piece in now:
        if not isinstance(piece, str) and piece.number in numbers and not (out and ends_line(out[-1])):
            append(out, "\n")
        append(out, piece)
    return out


def with_comment_lines(now: List[Child], was: List[Child]) -> List[Child]:
    """What a paragraph holds, where the line break before a comment line is gone, as where the words on both
    sides of it were joined: the comment comes before the line in which it would be, for it ends with a line
    break of its own."""
    numbers = comment_lines(was)
    if not numbers:
        return now
    out: List[Child] = []
    line: List[Child] = []  # what is begun, and before it the comments that were in it
    comments: List[Child] = []

    def end() -> None:
        for piece in comments + line:
            append(out, piece)
        line.clear()
        comments.clear()

    before: Optional[Child] = None
    for piece in now:
        if isinstance(piece, str):
            start = piece.rfind("\n") + 1
            append(line, piece[:start])
            if start > 0:
                end()
            append(line, piece[start:])
        elif piece.number in numbers and not (is_on_line(before) and before not in comments[-1:]):
            comments.append(piece)
        else:
            line.append(piece)
        before = piece
    end()
    return out


def is_on_line(before: Optional[Child]) -> bool:
    return before is not None and ends_line(before)


def comment_lines(pieces: List[Child]) -> Set[int]:
    """The numbers of the comments on lines of their own: they end with a line break."""
    numbers = on_lines(pieces)
    for piece in pieces:
        if not isinstance(piece, str) and piece.number in numbers:
            source = json.loads(piece.get("data-parsoid") or "{}").get("src")
            if not isinstance(source, str) or not source.endswith("\n"):
                numbers.discard(piece.number)
    return numbers


def on_lines(pieces: List[Child]) -> Set[int]:
    """The numbers of the comments and include tags that come directly after a line break."""
    numbers: Set[int] = set()
    is_on_line = False
    for piece in pieces:
        if isinstance(piece, str):
            is_on_line = ends_line(piece)
        elif not is_mark(piece):
            is_on_line = False
        elif is_on_line and piece.number != 0:
            numbers.add(piece.number)
    return numbers


def ends_line(piece: Child) -> bool:
    """Whether a comment or an include tag that comes after this piece is on a line of its own still, or after
    another one."""
    return piece.rstrip(" \t").endswith("\n") if isinstance(piece, str) else is_mark(piece)


def drop_last_break(lead: List[Child], is_before_block: bool) -> None:
    """`lead` is what stands in a block before any block in it."""
    last = len(lead) - 1
    while last >= 0 and is_blank_text(lead[last]):
        last -= 1
    if last < 0 or not is_line_break(lead[last]):
        return
    del lead[last]
    if not is_before_block:
        del lead[last:]


def trim_edges(block: Element, lead: List[Child], kept: Optional[Kept], was: str) -> None:
    """Takes blanks off a block's ends where the page's block has none there."""
    if block.name == "pre" or not lead:
        return
    first = lead[0]
    if isinstance(first, str) and not was.startswith(tuple(WHITE)):
        lead[0] = first.lstrip(WHITE)
    last = lead[-1]
    is_item_with_list = block.name in ITEMS and any(map(is_block, block.children))
    if not isinstance(last, str) or is_item_with_list or (kept is not None and not kept.is_inline):
        return
    if not was.endswith(tuple(WHITE)):
        lead[-1] = last.rstrip(WHITE)


class Texts:
    """The texts of a block beside those that the page has. Before and behind what was changed the page's
    white space is put back: browsers put no-break spaces for blanks, and blanks for line breaks, next to what
    is typed."""

    def __init__(self, was: str, now: str, original: Optional[Original]) -> None:
        most = min(len(was), len(now))
        back = count_same(zip(reversed(was), reversed(now)), most)
        front = count_same(zip(was, now), most - back)
        self._was = was
        self._now = now
        self._original = original
        self._from = front
        self._to = len(now) - back
        self._longer = len(now) - len(was)
        self._at = 0  # where in the block's text the next piece begins
        # The signs that the page has in what was changed.
        self._signs = set(PUT_SIGNS.findall(was[front : len(was) - back]))

    def mend(self, block: Element, lead: List[Child]) -> None:
        self._pieces(lead, block.name in ("p", "pre"), False)
        if block.name != "p":
            return
        lead[:] = [part for piece in lead for part in split_at_lines(piece)]
        has_indents, has_trails = re.search("\n[ \t]", self._was), re.search("[ \t]\n", self._was)
        for at, piece in enumerate(lead):
            if isinstance(piece, str):
                mended = piece if has_indents else re.sub("\n[ \t]+", "\n", piece)
                lead[at] = mended if has_trails else without_trails(mended)

    def _pieces(self, pieces: List[Child], is_paragraph: bool, is_new: bool) -> None:
        """`is_paragraph`: line breaks may stand among them; `is_new`: they stand in a new element that holds
        none."""
        for at, piece in enumerate(pieces):
            if isinstance(piece, str):
                mended = self._text(piece, is_paragraph)
                pieces[at] = mended.replace("\n", " ") if is_new else mended
            elif is_hidden_name(piece.name) or is_island(piece.get) or piece.get("typeof") != "":
                self._at += len(piece.text())
            else:
                is_split = is_paragraph and is_new_style(piece)
                self._pieces(piece.children, is_split, is_new or (piece.number == 0 and not is_split))

    def _text(self, text: str, is_paragraph: bool) -> str:
        first = self._at
        last = self._at = first + len(text)
        start = min(max(self._from, first), last)
        end = min(max(self._to, start), last)
        front = self._was[first:start]
        back = self._was[end - self._longer : last - self._longer] if end < last else ""
        return front + self._typed(start, end, is_paragraph) + back

    def _typed(self, start: int, end: int, is_paragraph: bool) -> str:
        """What was typed or pasted from a place of the block's text to another."""

        def put(found: "re.Match[str]") -> str:
            return found[0] if self._is_of_page(start + found.start()) else MENDED.get(found[0][0], "")

        mended = PUT.sub(put, self._now[start:end])
        return re.sub("\n(?:[ \t]*\n)+", "\n", mended) if is_paragraph else re.sub("\n+", " ", mended)

    def _is_of_page(self, at: int) -> bool:
        """Whether the sign at a place of the block's text stays: the page has one in what was changed, or
        between the same characters anywhere, as where the text was moved into a new block."""
        if self._now[at] in self._signs:
            return True
        three = self._now[max(at - 1, 0) : at + 2]
        return self._original is not None and self._original.has_sign(three)


def without_trails(text: str) -> str:
    """A text without blanks at the ends of its lines but the last."""
    *lines, last = text.split("\n")
    return "\n".join([line.rstrip(" \t") for line in lines] + [last])


def is_new_style(piece: Child) -> bool:
    """Bold or italic that an editor made."""
    return not isinstance(piece, str) and piece.number == 0 and piece.name in ("b", "i")


def split_at_lines(piece: Child) -> List[Child]:
    """Bold and italic end with a line in wikitext: what an editor made over several lines of a paragraph
    begins anew on each."""
    if isinstance(piece, str) or not is_new_style(piece):
        return [piece]
    out: List[Child] = []
    line = Element(piece.name, dict(piece.attributes))
    for child in inner_pieces(piece):
        if child != "\n":
            append(line.children, child)
            continue
        if line.children:
            out.append(line)
        line = Element(piece.name, dict(piece.attributes))
        append(out, child)
    if line.children:
        out.append(line)
    return out


def inner_pieces(style: Element) -> Iterator[Child]:
    """What stands in a style, each line break by itself, without the blanks round it."""
    for child in style.children:
        if not isinstance(child, str):
            yield from split_at_lines(child)
            continue
        lines = child.split("\n")
        for at, line in enumerate(lines):
            if at > 0:
                yield "\n"
                line = line.lstrip(" \t")
            yield line.rstrip(" \t") if at < len(lines) - 1 else line


def count_same(pairs: Iterable[Tuple[str, str]], most: int) -> int:
    """How many of the first pairs are the same character, or white space of the page (the first) for which a
    browser put a blank; `most` at most."""
    count = 0
    for was, now in islice(pairs, most):
        if was != now and (now not in (" ", "\u00a0") or was not in WHITE):
            break
        count += 1
    return count
