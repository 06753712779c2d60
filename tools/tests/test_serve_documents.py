"""Offsets in other units than bytes, over outside pages where they are here; the reader and writer of HTML,
and diffs."""
import cProfile
import difflib
import json
import random
import re
import unittest
from html.parser import HTMLParser
from pathlib import Path
from typing import Iterator, List, Tuple
from unittest import mock

from loading import REPOSITORY
from serving_case import ServingCase
from timing import TimedCase

from serving import differences, documents, fingerprints
from serving.mending import marked, mended
from serving.mending.markup import Element, read_body, written
from serving.refusals import Refusal
from serving.tags import bears_mark, numbers

VECTORS = REPOSITORY.parent / "shared/vectors"
SHARED = REPOSITORY / "client/tests/documents"


def outside_pages() -> Iterator[Tuple[str, bytes, bytes]]:
    """A name, the page and its HTML."""
    for path in sorted(VECTORS.glob("*-html.tsv")):
        for number, line in enumerate(path.read_text().splitlines()):
            words, _, pages, status, out, _ = line.split("\t")
            if status != "0":
                continue
            title = words.split(",")[1]
            texts = dict(page.split("=") for page in pages.split(","))
            if title in texts:
                yield f"{path.name}:{number}", bytes.fromhex(texts[title]), bytes.fromhex(out)


class Ranges(HTMLParser):
    """The ranges of a document's elements."""

    def __init__(self, document: bytes) -> None:
        super().__init__()
        self.found: List[list] = []
        self.feed(document.decode())

    def handle_starttag(self, tag: str, attributes: list) -> None:
        data = dict(attributes).get("data-parsoid")
        if data is not None:
            self.found.append(json.loads(data)["dsr"])

    handle_startendtag = handle_starttag


def utf16(text: bytes) -> int:
    return len(text.decode().encode("utf-16-le")) // 2


class Offsets(ServingCase):
    def check(self, page: bytes, document: bytes) -> int:
        ranges = Ranges(document).found
        for unit, count in (("ucs2", utf16), ("char", lambda text: len(text.decode())), ("byte", len)):
            wanted = []
            for start, end, opening, closing in ranges:
                widths = [count(page[start : start + opening]), count(page[end - closing : end])]
                wanted.append([count(page[:start]), count(page[:end]), *widths])
            self.assertEqual(Ranges(documents.with_offsets(document, page, unit)).found, wanted)
        return len(ranges)

    def test_pages_of_many_scripts(self) -> None:
        texts = [
            "== 😀 ==\n'''é''' [[日本|𝄞 x]] &nbsp;\n* ß {{lang|de|ä}} <!-- 😀 -->\n", "😀" * 50 + " ''x''",
            "plain ''x''",
            'a "dsr":[1,2,3,4] <nowiki>é "dsr":[1,2,3,4]</nowiki> \'\'b\'\'',
        ]  # fmt: skip
        for k, text in enumerate(texts):
            (self.pages / f"P{k}.wiki").write_text(text)
            with self.subTest(text=text):
                document = self.ask("GET", f"/x/v3/page/html/P{k}")[2]
                self.assertGreater(self.check(text.encode(), document), 1)
                came = self.ask("GET", f"/x/v3/page/html/P{k}?offsetType=ucs2")[2]
                self.assertEqual(came, documents.with_offsets(document, text.encode(), "ucs2"))

    @unittest.skipUnless(VECTORS.is_dir(), "there are no outside pages")
    def test_outside_pages(self) -> None:
        pages = count = 0
        for name, page, document in outside_pages():
            if not page.isascii():
                with self.subTest(page=name):
                    pages += 1
                    count += self.check(page, document)
        self.assertGreater(pages, 300)
        self.assertGreater(count, 2000)

    @unittest.skipUnless(VECTORS.is_dir(), "there are no outside pages")
    def test_outside_pages_without_data_parsoid(self) -> None:
        for name, _, document in outside_pages():
            with self.subTest(page=name):
                bare = documents.without_data_parsoid(document)
                self.assertEqual(Ranges(bare).found, [])
                body = read_body(document.decode())
                for element in [body, *body.walk()]:
                    element.attributes.pop("data-parsoid", None)
                self.assertEqual(written(body).encode(), bare)


# ---------------------------------------------------------------- what is mended


def as_browsers_write(part: Element) -> str:
    """As `outerHTML` writes it."""
    head = f"<{part.name}" + "".join(
        f' {name}="{in_value(value)}"' for name, value in part.attributes.items()
    ) + ">"
    if part.name in ("br", "hr", "meta", "link"):
        return head
    inside = (
        in_text(child) if isinstance(child, str) else as_browsers_write(child) for child in part.children
    )
    return f"{head}{''.join(inside)}</{part.name}>"


def in_text(text: str) -> str:
    return text.replace("&", "&amp;").replace("\u00a0", "&nbsp;").replace("<", "&lt;").replace(">", "&gt;")


def in_value(text: str) -> str:
    return text.replace("&", "&amp;").replace("\u00a0", "&nbsp;").replace('"', "&quot;")


def replaced(text: str, pairs: List[List[str]]) -> str:
    for before, after in pairs:
        assert before in text, before
        text = text.replace(before, after, 1)
    return text


def calls_of(document: str) -> int:
    """How many functions are called to mend a document."""
    profile = cProfile.Profile()
    try:
        profile.runcall(mended, document)
    except Refusal as refusal:
        assert refusal.error == "HtmlRefused"
    return sum(entry.callcount for entry in profile.getstats())


class Mending(unittest.TestCase):
    @unittest.skipUnless(VECTORS.is_dir(), "there are no outside pages")
    def test_outside_pages_come_back(self) -> None:
        count = 0
        for name, _, data in outside_pages():
            document = data.decode()
            with self.subTest(page=name):
                count += 1
                body = read_body(document)
                self.assertEqual(written(body), document)
                self.assertEqual(marked(document, document), document)
                self.assertEqual(mended(document), document)
                if "&#" not in document.replace("&#39;", ""):
                    sent = f"<!DOCTYPE html><html><head></head>{as_browsers_write(body)}</html>"
                    self.assertEqual(marked(sent, document), document)
        self.assertGreater(count, 1000)

    @unittest.skipUnless(SHARED.is_dir(), "there is no client here")
    def test_the_documents_of_the_client(self) -> None:
        """Those over which the JavaScript module is tried too."""
        page = (SHARED / "page.html").read_text("utf-8")
        for case in json.loads((SHARED / "cases.json").read_text("utf-8")):
            with self.subTest(case=case["name"]):
                self.assertEqual(marked(replaced(page, case["edited"]), page), replaced(page, case["wanted"]))

    def test_strays_go_back(self) -> None:
        """What VisualEditor moves out of a block that it changes."""
        page = (
            '<!DOCTYPE html><html><head><meta charset="utf-8"/></head><body>'
            '<p id="mw1">one <meta typeof="mw:Comment" id="mw2"/>two <b id="mw3">x</b>'
            '<meta typeof="mw:Comment" id="mw4"/></p>\n'
            '<p id="mw5">a</p></body></html>'
        )
        for edited in (
            page.replace('one <meta typeof="mw:Comment" id="mw2"/>two', "one two").replace(
                '<p id="mw1">', '<meta typeof="mw:Comment" id="mw2"/><p id="mw1">'
            ),
            page.replace(
                '<meta typeof="mw:Comment" id="mw4"/></p>', '</p><meta typeof="mw:Comment" id="mw4"/>'
            ),
        ):
            self.assertEqual(marked(edited, page), page)
            changed = marked(edited.replace("one ", "One "), page)
            self.assertEqual(
                changed,
                page.replace("one ", "One ").replace('<p id="mw1"', '<p id="mw1" data-wt-edit="content"'),
            )

    def test_other_serialisations(self) -> None:
        wanted = mended("<p>a <b>b</b> é&lt;</p>")
        for text in (
            "\ufeff<!DOCTYPE html>\r\n<HTML><HEAD><TITLE>x</TITLE></HEAD><BODY><P>a <B>b</B> &eacute;&LT;</P>"
            "</BODY></HTML>",
            '<?xml version="1.0"?><html><head/><body><p>a <b>b</b> <![CDATA[é<]]></p></body></html>',
            "<p hidden contenteditable=true>a <!-- c --><strong style=x>b</strong> &#xE9;&lt;",
            "<div><script>if (a < b) '</p>'</script><font color=red>a</font> <b>b</b> &#233;&lt;</div>",
        ):
            with self.subTest(text=text):
                self.assertEqual(mended(text).replace("\n", ""), wanted)

    def test_work_grows_with_the_length_alone(self) -> None:
        """Of what makes readers of HTML slow. Calls are counted, since times vary with the machine's other work."""
        pieces = [
            "<", "<b>x</b>", "&", "&amp", "</b>", "<!---->", "<b a=b>x</b>", "<p>", "<li>",
            "<b " + "a=b " * 40 + ">x</b>", "<template></template>",
            "<p id=mw1>x</p>", "<table><tr><td>x", "<br>", "\n \n", "<a href=./x>x </a>", "<?x>", "&#x41;",
            "<ul><li>a</ul>", "x <!-- c -->",
        ]  # fmt: skip
        for piece in pieces:
            with self.subTest(piece=piece):
                calls = [calls_of(piece * (length // len(piece))) for length in (5_000, 20_000)]
                self.assertLess(calls[1], 5 * calls[0] + 1000)

    def test_work_does_not_grow_with_what_stands_before(self) -> None:
        """Copies of a number beside a block that holds much; lists in a list; a style round many blocks."""
        for first, piece, last in (
            ("<p id=mw1>" + "<b id=mw2>x</b> " * 1000 + "</p>", "<p id=mw1>x</p>", ""),
            ("<ul><li>a</li>", "<ul><li>b</li></ul>", "</ul>"),
            ("<p>", "<b id=mw2>x</b>", "</p>"),
            ("<p><i ", "a{}=1 ", ">x</i></p>"),
            ("<b>", "<p>x</p>", "</b>"),
            ('<b style="font-weight:normal"><i>', "<ul><li>x</li></ul>", "</i></b>"),
        ):
            with self.subTest(first=first[:50], piece=piece):
                none, few, many = (
                    calls_of(first + "".join(map(piece.format, range(count))) + last)
                    for count in (0, 250, 1000)
                )
                self.assertLess(many - none, 5 * (few - none) + 1000)
                self.assertLess(few - none, 250 * 1000)

    def test_blanks_at_the_end_of_an_item(self) -> None:
        for text in ("<ul><li>a <br></li></ul>", "<ul><li> a \n</ul>", "<ul><li>a<br> </li></ul>"):
            with self.subTest(text=text):
                self.assertIn("<ul><li>a</li></ul>", mended(text))

    def test_a_comment_stays_on_its_line(self) -> None:
        """In an item or a cell, when a browser took away the line break with the text before it."""
        mark = '<meta typeof="mw:Comment" id="mw{}"/>'
        for block in (
            '<ul id="mw1"><li id="mw2">{}{}<ul id="mw9"><li id="mw10">r</li></ul></li></ul>',
            '<table id="mw1"><tbody id="mw2"><tr id="mw3"><td id="mw4">{}{}<p id="mw9">r</p></td></tr></tbody>'
            "</table>",
        ):
            for marks in (mark.format(5), mark.format(5) + mark.format(6)):
                page = written(read_body(block.format("q\n", marks)))
                for text in ("x", "<b>x</b>", "x ", "", "x\n"):
                    with self.subTest(block=block, text=text):
                        wanted = written(read_body(block.format(text.strip() + "\n", marks)))
                        self.assertEqual(mended(block.format(text, marks), page), wanted)
                unbroken = written(read_body(block.format("q ", marks)))
                self.assertEqual(
                    mended(block.format("x", marks), unbroken), written(read_body(block.format("x", marks)))
                )

    def test_a_comment_line_of_a_paragraph_comes_before_its_line(self) -> None:
        """Where the line break before it is gone."""
        mark = """<meta typeof="mw:Comment" id="mw{}" data-parsoid='{{"src":"&lt;!--c-->{}"}}'/>"""
        page = '<p id="mw1">{}</p>'

        def saved(was: str, now: str) -> str:
            return mended(page.format(now), written(read_body(page.format(was))))

        def whole(inside: str) -> str:
            return written(read_body(page.format(inside)))

        for marks in (mark.format(2, "\\n"), mark.format(2, "\\n") + mark.format(3, "\\n")):
            for now, wanted in (
                (f"a{marks}b", f"{marks}ab"),
                (f"x{marks}b", f"{marks}xb"),
                (f"a\n{marks}c", f"a\n{marks}c"),
                (f"a\nq{marks}b", f"a\n{marks}qb"),
                (f"a\nq <i>r</i>{marks}b\nc", f"a\n{marks}q <i>r</i>b\nc"),
                (f"{marks}b", f"{marks}b"),
            ):
                with self.subTest(now=now):
                    self.assertEqual(saved(f"a\n{marks}b", now), whole(wanted))
        between = mark.format(2, "")
        self.assertEqual(saved(f"a\n{between}b", f"a{between}b"), whole(f"a{between}b"))

    def test_what_is_cut_off_is_refused(self) -> None:
        for text in ("<p>x<!-- c", "<p", '<p a="x>', "<script>x", "<![CDATA[x", "</p", "<b>" * 1000):
            with self.subTest(text=text[:20]), self.assertRaises(Refusal) as raised:
                mended(text)
            self.assertEqual(raised.exception.status, 422)


# ---------------------------------------------------------------- other parts


class Diffs(TimedCase):
    def patched(self, old: str, diff: str) -> str:
        """The new text, by the diff."""
        lines, out, at = differences.lines_of(old), [], 0
        for line in re.findall(r"[^\n]*\n|[^\n]+$", diff)[2:]:
            head = re.match(r"@@ -(\d+)(?:,(\d+))? \+", line)
            if head:
                start = int(head[1]) - (0 if head[2] == "0" else 1)
                out += lines[at:start]
                at = start
            elif line[0] in " -":
                self.assertEqual(lines[at].rstrip("\n"), line[1:].rstrip("\n"))
                out += [lines[at]] if line[0] == " " else []
                at += 1
            elif line[0] == "+":
                out.append(line[1:])
            else:
                out[-1:] = [out[-1].rstrip("\n")] if out and not out[-1] == lines[at - 1 : at] else out[-1:]
        return "".join(out + lines[at:])

    def test_small_texts_as_difflib_has_them(self) -> None:
        random.seed(2)
        for _ in range(300):
            old = "".join(random.choice("abcd") + "\n" for _ in range(random.randrange(30)))
            new = "".join(random.choice("abcd") + "\n" for _ in range(random.randrange(30)))
            with self.subTest(old=old, new=new):
                self.assertEqual(self.patched(old, differences.unified(old, new, "x")), new)
        lines = [f"line {k}\n" for k in range(100)]
        changed = [*lines[:10], "new\n", *lines[11:50], *lines[53:]]
        wanted = "".join(difflib.unified_diff(lines, changed, "x", "x"))
        self.assertEqual(differences.unified("".join(lines), "".join(changed), "x"), wanted)

    def test_the_last_line_break(self) -> None:
        self.assertEqual(
            differences.unified("a", "b", "x"),
            "--- x\n+++ x\n@@ -1 +1 @@\n-a\n\\ No newline at end of file\n+b\n\\ No newline at end of file\n",
        )
        self.assertEqual(differences.unified("", "b\n", "x"), "--- x\n+++ x\n@@ -0,0 +1 @@\n+b\n")
        self.assertEqual(differences.unified("a\n", "a\n", "x"), "")

    def test_long_texts_take_time_in_proportion(self) -> None:
        for line in ("same\n", "line {}\n"):

            def two_texts(count: int) -> Tuple[str, str]:
                old = "".join(line.format(k) for k in range(count))
                return old, "first\n" + old.replace("line 500\n", "line x\n") + "last\n"

            with self.subTest(line=line):
                self.assert_time_in_proportion(
                    lambda texts: differences.unified(*texts, "x"), two_texts, 25_000
                )

    def test_all_paragraphs_under_many_headings_take_time_in_proportion(self) -> None:
        def section(number: int, word: str) -> str:
            return f"== {number} ==\n" + "".join(f"{word} {k % 3}\n\n" for k in range(199))

        def two_texts(count: int) -> List[str]:
            return ["".join(section(k, word) for k in range(count)) for word in ("was", "is")]

        def compare(texts: List[str]) -> None:
            old, new = texts
            self.assertEqual(self.patched(old, differences.unified(old, new, "x")), new)

        self.assert_time_in_proportion(compare, two_texts, 25)


class Tags(TimedCase):
    def test_marks(self) -> None:
        for text, is_marked in {
            '<p id="mw1" data-wt-edit="content">': True, "<p\ndata-wt-edit = ''/>": True, "<p data-wt-edit=x>": True,
            '<a title="<b>"><p data-wt-edit="x">': True, "<!-- ' --><p data-wt-edit='x'>": True,
            "<p data-wt-edit>": False, "<P data-wt-edit='x'>": False, "data-wt-edit='x'": False,
            """<p data-mw='{"wt":"<p data-wt-edit=x>"}'>""": False, """<p title="' data-wt-edit='x'">""": False,
            "<!-- <p data-wt-edit='x'> -->": False, "<p>&lt;p data-wt-edit='x'&gt;</p>": False,
            "<p x-data-wt-edit='x'>": False, "<!-- <p data-wt-edit='x'>": False, "<p data-wt-edit='x": False,
        }.items():  # fmt: skip
            with self.subTest(text=text):
                self.assertEqual(bears_mark(text.encode()), is_marked)

    def test_numbers(self) -> None:
        for text, found in {
            '<P ID=mw1><b class=x id = "mw20">': [(b"p", b"mw1"), (b"b", b"mw20")],
            """<p data-mw='<i id="mw1">' id='mw2'>""": [(b"p", b"mw2")],
            """<p title='id="mw1"'><p id="mw1x"><p id="mw0"><p id><p data-id="mw1"> id="mw1">""": [],
        }.items():
            with self.subTest(text=text):
                self.assertEqual(list(numbers(text.encode())), found)

    def test_they_take_time_in_proportion(self) -> None:
        for piece in (b"<", b"<a ", b"<a '", b"<a \"'", b"<!--", b"<a x='", b"<aa", b"<a data-wt-edit", b"<a id=mw1"):
            with self.subTest(piece=piece):
                self.assert_time_in_proportion(
                    lambda text: (bears_mark(text), list(numbers(text))),
                    lambda length: piece * (length // len(piece)) + b"data-wt-edit",
                    250_000,
                )


class Calls(TimedCase):
    def test_names(self) -> None:
        for text, names in {
            "{{a}} {{ A | b }} {{a_b\n|x}}": ("Template:A", "Template:A b"),
            "{{:a}} {{user:x}} {{{1}}} {{{{{1}}}}}": ("A", "User:X", "Template:1"),
            "{{#if:x|{{t}}}} {{a[b}} {{a#b}} {{}}": ("Template:T",),
            "{{a<!-- {{x}} -->b}} {{<includeonly>subst:</includeonly>c}} {{&eacute;}}": (
                "Template:Ab", "Template:Subst:c", "Template:é"
            ),
        }.items():
            with self.subTest(text=text):
                self.assertEqual(fingerprints.names_in(text.encode()), names)

    def test_names_take_time_in_proportion(self) -> None:
        for front, piece in ((b"", b"{"), (b"a <no", b"a"), (b"{{", b" "), (b"", b"<!--")):
            with self.subTest(front=front, piece=piece):
                self.assert_time_in_proportion(
                    lambda text: self.assertEqual(fingerprints.names_in(text), ()),
                    lambda count: front + piece * count,
                    125_000,
                )

    def test_names_that_are_remembered(self) -> None:
        """The pages that were looked at last, up to a number of names in all."""
        names = fingerprints.NamesOfPages()
        with mock.patch.object(fingerprints, "MOST_NAMES", 50):
            for k in range(40):
                self.assertEqual(names.of(b"{{c%d}}{{b}}" % k), (f"Template:C{k}", "Template:B"))
                self.assertEqual(names.of(b"{{kept}}"), ("Template:Kept",))
            with mock.patch.object(fingerprints, "names_in", side_effect=AssertionError("it was read again")):
                self.assertEqual(names.of(b"{{kept}}"), ("Template:Kept",))
                with self.assertRaises(AssertionError):
                    names.of(b"{{c0}}{{b}}")

    def test_tags(self) -> None:
        for field, tags in {
            'W/"1/a"': ["1/a"], '"a", W/"b"': ["a", "b"], '"a" "b"': [], "a": [], "*": [], "": [],
            '"a",': ["a"], '"a"x': [],
        }.items():  # fmt: skip
            self.assertEqual(fingerprints.tags_of(field), tags)


if __name__ == "__main__":
    unittest.main()
