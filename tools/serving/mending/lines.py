"""White space of paragraphs that HTML doesn't show and wikitext can't hold: empty lines, and blanks at the
ends of lines. An editor leaves it where it takes out what stood beside it."""
from __future__ import annotations

import re
from typing import List, Optional

from .markup import Child, Element
from .original import Original
from .texts import WHITE

INDENT = re.compile("\n[ \t]")
TRAIL = re.compile("[ \t]\n")


def drop_empty_lines(part: Element, original: Optional[Original]) -> None:
    """Of the paragraphs in a mended part, changed in place. Those of a page that isn't known stay as they
    are, and those in which the page has an empty line."""
    for child in part.elements():
        if "about" in child.attributes:
            continue
        if child.name != "p":
            drop_empty_lines(child, original)
            continue
        kept = original.nodes.get(child.number) if original is not None else None
        were = kept.part.children if kept is not None else []
        if not has_empty_lines(were) if kept is not None else child.number == 0:
            child.children = without_empty_lines(child.children, were)


def has_empty_lines(pieces: List[Child]) -> bool:
    return len(shown_lines(pieces)) < len(lines_of(pieces))


def without_empty_lines(pieces: List[Child], were: List[Child]) -> List[Child]:
    """What stands in a paragraph, without empty lines and without blanks at the ends of its lines. Such
    blanks stay where the page's paragraph, which holds `were`, has some."""
    texts = [piece for piece in were if isinstance(piece, str)]
    has_indents, has_trails = any(map(INDENT.search, texts)), any(map(TRAIL.search, texts))
    lines = shown_lines(pieces)
    for at, line in enumerate(lines):
        if not (has_indents if at > 0 else begins_blank(were)):
            line[0] = without_indent(line[0])
        if not (has_trails if at < len(lines) - 1 else ends_blank(were)):
            line[-1] = without_trail(line[-1])
    return joined(lines)


def shown_lines(pieces: List[Child]) -> List[List[Child]]:
    """The lines of a paragraph that aren't empty. Comments that are alone on a line between others, which
    wikitext doesn't count as one, come before the next line. Any other element has a place in the source,
    also one that shows nothing."""
    shown: List[List[Child]] = []
    comments: List[Child] = []
    for line in lines_of(pieces):
        if not all(map(is_nothing, line)):
            shown.append(comments + line)
            comments = []
        elif all(isinstance(piece, str) for piece in line):
            continue
        elif shown:
            comments += line
        else:
            shown.append(line)
    return [*shown, comments] if comments else shown


def lines_of(pieces: List[Child]) -> List[List[Child]]:
    """Each line has a piece at least."""
    lines: List[List[Child]] = [[]]
    for piece in pieces:
        if isinstance(piece, str):
            first, *others = piece.split("\n")
            lines[-1].append(first)
            lines += [[text] for text in others]
        else:
            lines[-1].append(piece)
    return lines


def joined(lines: List[List[Child]]) -> List[Child]:
    """The pieces of the lines, with line breaks between them; texts that meet become one."""
    out: List[Child] = []
    texts: List[str] = []  # that make one
    for at, line in enumerate(lines):
        if at > 0:
            texts.append("\n")
        for piece in line:
            if isinstance(piece, str):
                texts.append(piece)
            else:
                out += ["".join(texts), piece]
                texts = []
    return [piece for piece in [*out, "".join(texts)] if piece != ""]


def is_nothing(piece: Child) -> bool:
    """Blanks or a comment."""
    return piece.strip(WHITE) == "" if isinstance(piece, str) else piece.get("typeof") == "mw:Comment"


def begins_blank(pieces: List[Child]) -> bool:
    return bool(pieces) and isinstance(pieces[0], str) and pieces[0].startswith(tuple(WHITE))


def ends_blank(pieces: List[Child]) -> bool:
    return bool(pieces) and isinstance(pieces[-1], str) and pieces[-1].endswith(tuple(WHITE))


def without_indent(piece: Child) -> Child:
    return piece.lstrip(WHITE) if isinstance(piece, str) else piece


def without_trail(piece: Child) -> Child:
    return piece.rstrip(WHITE) if isinstance(piece, str) else piece
