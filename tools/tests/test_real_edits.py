"""What bench/selser.py counts by: a reader of documents that sees what they show, and how bytes changed."""
import random
import sys
import unittest

from loading import REPOSITORY

sys.path.insert(0, str(REPOSITORY / "bench"))
sys.dont_write_bytecode = True

from edits.judging import EXACT, IN_BLOCK, OUTSIDE, judged  # noqa: E402
from edits.kinds import KINDS, Document, Edited  # noqa: E402
from edits.program import pages_of  # noqa: E402
from edits.shown import first_difference, shown  # noqa: E402
from edits.small_pages import small_pages  # noqa: E402

KIND = {kind.name: kind for kind in KINDS}


def document(body: str) -> str:
    return f'<!DOCTYPE html><html><head><meta charset="utf-8"/></head><body>{body}</body></html>'


def block(name: str, start: int, end: int, inside: str, number: int = 1) -> str:
    return f"<{name} id=\"mw{number}\" data-parsoid='{{\"dsr\":[{start},{end},0,0]}}'>{inside}</{name}>"


ENTITY = '<span typeof="mw:Entity" id="mw2">&amp;</span>'
COMMENT = '<meta typeof="mw:Comment" id="mw3"/>'
CALL = '<span about="#mwt1" typeof="mw:Transclusion" id="mw5">%s</span>'
REFERENCE = "<span typeof=\"mw:Extension/ref\" id=\"mw4\" data-parsoid='{\"src\":\"%s\"}'></span>"


class Shown(unittest.TestCase):
    def test_what_shows_the_same(self) -> None:
        for one, other in [
            ("<p>a &amp; b</p>", f"<p>a {ENTITY} b</p>"),
            ("<p>a b</p>", f"<p>a {COMMENT}b</p>"),
            ('<p id="mw1">a</p>', '<section data-mw-section-id="0"><p id="mw7">a</p>\n</section>'),
            ("<ul><li>a</li><li>b</li></ul>", "<ul>\n<li>a\n</li>\n<li>b</li></ul>"),
            ("<ul><li>a <ul><li>b</li></ul></li></ul>", "<ul><li>a <ul>\n<li>b</li></ul> </li></ul>"),
            ('<p><i about="#mwt1" typeof="mw:Transclusion">t</i></p>', '<p><i about="#mwt4">t</i></p>'),
            (f"<p>{CALL % 't'}</p>", '<p about="#mwt1" typeof="mw:Transclusion">t</p>'),
            (f"<p>a</p>{CALL % ''}<p>b</p>", f"<p>a{CALL % ''}</p><p>b</p>"),
            (f"<p>a{CALL % 't'}b</p>", "<p>atb</p>"),
        ]:
            with self.subTest(one=one):
                self.assertIsNone(first_difference(document(one), document(other)))

    def test_what_shows_something_else(self) -> None:
        for one, other in [
            ("<p>a b</p>", "<p>a  b</p>"),
            ("<p>a</p>", "<h2>a</h2>"),
            ("<p>a</p>", "<p>a</p><p>b</p>"),
            ("<p>a</p><p>b</p>", "<p>a</p>"),
            ("<p>a</p>", "<p><b>a</b></p>"),
            ("<p>a\nb</p>", "<p>a b</p>"),
            ('<p><a rel="mw:WikiLink" href="./A">a</a></p>', '<p><a rel="mw:WikiLink" href="./B">a</a></p>'),
            ("<p><b>a</b><b>b</b></p>", "<p><b>ab</b></p>"),
            ("<ul><li>a</li><li>b</li></ul>", "<ul><li>a<ul><li>b</li></ul></li></ul>"),
            (f"<p>{REFERENCE % 'x'}</p>", f"<p>{REFERENCE % 'y'}</p>"),
            (f"<p>a{CALL % 't'}</p>", f"<p>a{CALL % 'u'}</p>"),
            (f"<p>a{CALL % ''}</p>", f"<p>a{CALL % 't'}</p>"),
            ('<p><span class="k">t</span></p>', f"<p>{CALL % 't'}</p>"),
            ('<p><span id="mw5">t</span></p>', f"<p>{CALL % 't'}</p>"),
            ('<p>a</p><meta property="mw:PageProp/notoc"/>', "<p>a</p>"),
        ]:
            with self.subTest(one=one):
                self.assertIsNotNone(first_difference(document(one), document(other)))

    def test_texts_are_one(self) -> None:
        self.assertEqual(shown(document(f"<p>a{COMMENT}{ENTITY}b</p>")), [("p", (), ["a&b"])])


class Judged(unittest.TestCase):
    PAGE = b"a ] b\n\nc d\n\ne"

    def judge(self, kind: str, new: bytes, first: tuple = (7, 10), **texts: str) -> str:
        return judged(KIND[kind], Edited("", first, first, **texts), self.PAGE, new)

    def test_typed(self) -> None:
        for new, wanted in [
            (b"a ] b\n\nc x d\n\ne", EXACT),
            (b"a ] b\n\nc x &#100;\n\ne", IN_BLOCK),
            (b"a &#93; b\n\nc x d\n\ne", OUTSIDE),
            (b"a ] b\n\nc x d\n\nf", OUTSIDE),
            (b"a ] b\n\n", OUTSIDE),
        ]:
            with self.subTest(new=new):
                self.assertEqual(self.judge("word typed in a paragraph", new, come=" x"), wanted)

    def test_of_each_rule(self) -> None:
        bold = {"gone": "c", "come": "'''c'''"}
        for kind, new, texts, wanted in [
            ("word made bold", b"a ] b\n\n'''c''' d\n\ne", bold, EXACT),
            ("word made bold", b"a ] b\n\n'''c'''<nowiki/> d\n\ne", bold, IN_BLOCK),
            ("word erased", b"a ] b\n\n d\n\ne", {"gone": "c"}, EXACT),
            ("paragraph split", b"a ] b\n\nc\n\nd\n\ne", {}, EXACT),
            ("paragraph split", b"a ] b\n\nc\n\n<nowiki/>d\n\ne", {}, IN_BLOCK),
            ("paragraph removed", b"a ] b\n\ne", {}, EXACT),
            ("paragraph removed", b"a ] b\n\n \n\ne", {}, IN_BLOCK),
            ("paragraph added", b"a ] b\n\nc d\n\nx\n\ne", {}, EXACT),
            ("paragraph added", b"a ] b\n\nc  d\n\nx\n\ne", {}, IN_BLOCK),
            ("paragraph made a heading", b"a ] b\n\n== c d ==\n\ne", {}, EXACT),
        ]:
            with self.subTest(kind=kind, new=new):
                self.assertEqual(self.judge(kind, new, **texts), wanted)


class Edits(unittest.TestCase):
    def test_each_kind_changes_what_is_shown(self) -> None:
        text = "one two three four"
        rows = "".join(block("tr", 0, 1, block("td", 0, 1, text, 9 + k), 20 + k) for k in (0, 1))
        items = block("li", 0, 1, text, 3) + block("li", 0, 1, text, 4)
        inline = f'{text} <b id="mw30">one two</b> <a id="mw31">three four</a>'
        whole = document(
            block("p", 0, 1, inline, 1)
            + block("p", 0, 1, text, 2)
            + block("h2", 0, 1, text, 8)
            + block("ul", 0, 1, items, 7)
            + block("dl", 0, 1, block("dd", 0, 1, text, 6), 5)
            + f"<table><tbody>{rows}</tbody></table>"
        )
        read = Document(whole)
        chance = random.Random(1)
        for kind in KINDS:
            with self.subTest(kind=kind.name):
                made = [kind.of(read, part, chance) for part in read.parts(kind.parts)]
                edited = [it for it in made if it is not None]
                self.assertTrue(edited)
                for it in edited:
                    if kind.name != "paragraphs exchanged":
                        self.assertIsNotNone(first_difference(whole, it.document))

    def test_pages(self) -> None:
        pages = pages_of(REPOSITORY / "examples/pages")
        self.assertGreaterEqual(len(pages), 12)
        self.assertFalse([page.title for page in pages if page.title.startswith("Template:")])
        self.assertTrue(all("Template:Lang" in page.templates for page in pages))
        self.assertEqual(len({page.text for page in small_pages(50, random.Random(2))}), 50)


if __name__ == "__main__":
    unittest.main()
