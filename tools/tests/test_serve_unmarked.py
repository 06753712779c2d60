"""Edits without marks: by `selser`; with an older program, which hasn't that command, by `edit`."""
import json
import re
import stat
from urllib.parse import quote

from serving_case import PROGRAM, ServingCase

from serving.program import Program

TRANSFORM = "/localhost/v3/transform/html/to/wikitext/"
ROW = "</tr><tr><td>z</td></tr>"

OLDER = """#!/bin/sh
# The program without the command `selser`; it notes its commands.
echo "$1" >>"{log}"
if [ $# -eq 0 ] || [ "$1" = selser ]; then
    echo "wtround: usage: wtround html TITLE | wikitext | edit TITLE" >&2
    exit 1
fi
exec "{program}" "$@"
"""


class Unmarked(ServingCase):
    def setUp(self) -> None:
        super().setUp()
        assert PROGRAM is not None
        program = Program(PROGRAM, str(self.pages))
        self.addCleanup(program.close)
        if not program.takes_unmarked:
            self.skipTest("this program has no command `selser`")

    def new_page(self, title: str, page: str, before: str, after: str, **fields: object) -> str:
        """What the transform answers for an edit of the page's HTML; nothing is stored."""
        path = self.pages / f"{title}.wiki"
        path.write_text(page)
        html, _ = self.html(title)
        self.assertIn(before, html)
        body = json.dumps({"html": html.replace(before, after, 1), **fields}).encode()
        status, _, answer = self.ask(
            "POST", f"{TRANSFORM}{quote(title)}", body, Content_Type="application/json"
        )
        self.assertEqual((status, path.read_text()), (200, page), answer[:500])
        return answer.decode()

    def test_what_was_not_changed_keeps_its_bytes(self) -> None:
        for page, before, after, wanted in [
            ("[[Hugh Capet]]'s ] heirs", "heirs", "sons", "[[Hugh Capet]]'s ] sons"),
            ("* a ]\n** b", ">a ]", ">c ]", "* c ]\n** b"),
            ("a b<ref>c</ref>\n\nd", "a b", "a</p><p>b", "a\n\nb<ref>c</ref>\n\nd"),
            ("{|\n|-\n| x ] || y\n|}", "</tr>", ROW, "{|\n|-\n| x ] || y\n|-\n| z\n|}"),
        ]:
            for fields in ({}, {"mended": True}):
                with self.subTest(page=page, **fields):
                    self.assertEqual(self.new_page("Short", page, before, after, **fields), wanted)

    def test_what_a_browser_writes_is_mended(self) -> None:
        made = self.new_page("Short", "a ] b", "a ] b", "a ] <strong>b</strong><br>")
        self.assertEqual(made, "a ] '''b'''")

    def test_zero_width_spaces_of_the_page_stay_between_two_changes(self) -> None:
        made = self.new_page("Short", "a b\u200bc [[d|e\u200bf]] g\u200bh", "a b", "x b")
        self.assertEqual(made, "x b\u200bc [[d|e\u200bf]] g\u200bh")
        html, tag = self.html("Short")
        sent = html.replace(">a b", ">x b").replace("h</p>", "y</p>")
        self.save("Short", sent, tag)
        self.assertEqual((self.pages / "Short.wiki").read_text(), "x b\u200bc [[d|e\u200bf]] g\u200by")

    def test_signs_of_the_page_stay_in_links_items_and_cells(self) -> None:
        for text in ("b\u200bc", "b\ufeffc\fd", "b\u00a0c\u200bd"):
            shown = text.replace("\f", "&#12;")
            for page in ("[[a|x {} y]]", "* x {} y", "{{|\n| x {} y\n|}}", "== x {} y =="):
                with self.subTest(page=page, text=text):
                    made = self.new_page("Short", page.format(text), f"x {shown} y", f"X {shown} Y")
                    self.assertEqual(made, page.replace("x", "X").replace("y", "Y").format(text))

    def test_what_was_moved_into_a_new_block_keeps_its_signs(self) -> None:
        made = self.new_page("Short", "a b\u200bc d\u00a0e", "c d", "c</p><p>d")
        self.assertEqual(made, "a b\u200bc\n\nd\u00a0e")

    def test_blanks_that_show_nothing_are_left_out(self) -> None:
        row = "</tr><tr><td> a </td><td>b</td></tr>"
        for page, before, after, wanted in [
            ("* one ]", ">one ]", "> ]", "* ]"),
            ("one ]", ">one ]", ">\u00a0]", "]"),
            ("; one ]\n: x", ">one ]", "> ]", "; ]\n: x"),
            ("== one ] ==", ">one ]", "> ]", "== ] =="),
            ("== ] one ==", ">] one", ">] ", "== ] =="),
            ("{|\n| one ]\n|}", ">one ]", "> ]", "{|\n| ]\n|}"),
            ("* one ", "</ul>", "<li> a </li></ul>", "* one \n* a"),
            ("{|\n|-\n| a || b\n|}", "</tr>", row, "{|\n|-\n| a || b\n|-\n| a\n| b\n|}"),
        ]:
            with self.subTest(page=page, after=after):
                self.assertEqual(self.new_page("Short", page, before, after), wanted)

    def test_what_is_new_and_cannot_be_written_is_refused(self) -> None:
        footnote = """<sup typeof="mw:Extension/ref" data-mw='{"name":"ref"}'>[1]</sup>"""
        file = '<figure typeof="mw:File"><a href="./File:A.png"><img src="x"></a></figure>'
        for page, before, after, error in [
            ("a b", "</p>", '<link rel="mw:PageProp/Category" href="./Category:X"></p>', "BadContent"),
            ("a b", "</p>", '</p><meta property="mw:PageProp/notoc">', "BadContent"),
            ("a\n[[Category:X]]", "Category:X", "Category:Y", "BadContent"),
            ("a b", "</p>", f"{footnote}</p>", "BadContent"),
            ("a b", "</p>", f"</p>{file}", "ElementDoesNotFit"),
        ]:
            with self.subTest(after=after):
                (self.pages / "Short.wiki").write_text(page)
                html, tag = self.html("Short", "?data_parsoid=false")
                self.assertIn(before, html)
                status, told = self.save("Short", html.replace(before, after, 1), tag)
                self.assertEqual((status, told["error"], self.page("Short")), (422, error, page))

    def test_a_copy_of_what_shows_nothing_is_left_out(self) -> None:
        page = "a\n[[Category:X]]\n__NOTOC__"
        category = '<link rel="mw:PageProp/Category" href="./Category:X">'
        for copy in (category, '<meta property="mw:PageProp/notoc">'):
            self.assertEqual(self.new_page("Short", page, "</p>", f"{copy}</p>"), page)

    def test_carriage_returns_of_the_page_stay(self) -> None:
        page = "a b\r\nc d\n\ne f\r\ng h"
        (self.pages / "Short.wiki").write_bytes(page.encode())
        html, tag = self.html("Short")
        self.assertEqual(html.count("&#13;"), 2)
        sent = html.replace("&#13;", "\r").replace("e f", "e x\r\ny").replace("h<", "i<")
        self.assertEqual(self.save("Short", sent, tag)[0], 200)
        self.assertEqual(self.page("Short"), page.replace("e f", "e x\r\ny").replace("h", "i"))

    def test_the_same_html_mended_or_not_is_two_edits(self) -> None:
        (self.pages / "Short.wiki").write_text("a b")
        html, tag = self.html("Short")
        headers = {"Content_Type": "application/json", "If_Match": tag}
        statuses = []
        for fields in ({"mended": True}, {"mended": "1"}, {"mended": False}, {}):
            body = json.dumps({"html": html.replace("a b<", "a c\u00a0d<"), **fields}).encode()
            statuses.append(self.ask("POST", "/save/Short", body, **headers)[0])
        self.assertEqual(statuses, [200, 200, 412, 412])
        self.assertEqual(self.page("Short"), "a c\u00a0d")

    def test_names_of_tags_may_be_in_capitals(self) -> None:
        (self.pages / "Short.wiki").write_text("a b")
        html, tag = self.html("Short")
        capitals = re.sub("</?[a-z0-9]+", lambda name: name[0].upper(), html)
        self.assertEqual(self.save("Short", capitals.replace("a b<", "a c<"), tag)[0], 200)

    def test_of_line_breaks_that_a_deletion_leaves_nothing_is_written(self) -> None:
        categories = "[[Category:X]]\n[[Category:Y]]\n[[Category:Z]]"
        for page, deleted, left, wanted in [
            ("a b\nc", "\nc", "\n</p><p>c", "a b\n\nc"),
            ("a b\nc", "\nc", "\n", "a b"),
            ("a b\nc", "a b", "", "c"),
            ("a\n[[Category:X]]", "<link .*?/>", "", "a"),
            ("a\n[[Category:X]]\nb", "\nb", "\n", "a\n[[Category:X]]"),
            (categories, "<link [^>]*:X.*?/>", "", categories[15:]),
            (categories, "<link [^>]*:Y.*?/>", "", "[[Category:X]]\n[[Category:Z]]"),
            (categories, "<link [^>]*:Z.*?/>", "", categories[:-15]),
            ("[[File:A.png|thumb]]\na b", "<span .*?</span>", "", "a b"),
            ("a\n<!--k-->\nb\nc", "b\n", "\n", "a\n<!--k-->\nc"),
        ]:
            with self.subTest(page=page, deleted=deleted):
                (self.pages / "Short.wiki").write_text(page)
                found = re.search(deleted, self.html("Short")[0])
                assert found is not None
                self.assertEqual(self.new_page("Short", page, found[0], left), wanted)

    def test_a_page_is_saved(self) -> None:
        before = self.page()
        html, tag = self.html("Opava", "?data_parsoid=false")
        sent = html.replace("its library", "its  own library")
        status, told = self.save("Opava", sent, tag)
        self.assertEqual((status, self.page()), (200, before.replace("its library", "its  own library")))
        self.assertEqual(self.save("Opava", sent, tag)[1]["stored_before"], True)

    def test_html_that_was_given_back_changes_nothing(self) -> None:
        for title in ("Opava", "Salt road", "Help:Editing"):
            html, tag = self.html(title)
            status, told = self.save(title, html, tag)
            self.assertEqual((status, told["changed"], told["diff"]), (200, False, ""))

    def test_refusals_name_the_block(self) -> None:
        html, tag = self.html("Opava")
        for fields in ({}, {"mended": True}):
            body = json.dumps({"html": html.replace(">Troppau<", ">Oppeln<"), **fields}).encode()
            headers = {"Content_Type": "application/json", "If_Match": tag}
            status, _, answer = self.ask("POST", "/save/Opava", body, **headers)
            told = json.loads(answer)
            self.assertEqual((status, told["error"], told["node"]), (422, "InTemplate", "mw5"))

    def test_a_fragment_is_refused(self) -> None:
        _, tag = self.html("Opava")
        body = json.dumps({"html": "<html><body><p>x</p></body></html>", "mended": True}).encode()
        headers = {"Content_Type": "application/json", "If_Match": tag}
        status, _, answer = self.ask("POST", "/save/Opava", body, **headers)
        self.assertEqual((status, json.loads(answer)["error"]), (422, "NothingKept"))

    def test_a_mark_in_a_value_is_none(self) -> None:
        """Older browsers write `<` in values as it is: what a call holds isn't an element of the document."""
        page = "{{Lang|de|<p data-wt-edit=x>}} a"
        (self.pages / "Value.wiki").write_text(page)
        html, tag = self.html("Value")
        sent = html.replace("&lt;p data-wt-edit=x&gt;", "<p data-wt-edit=x>").replace(" a<", " b<")
        self.assertIn("<p data-wt-edit=x>", sent)
        status, told = self.save("Value", sent, tag)
        self.assertEqual((status, self.page("Value")), (200, page.replace(" a", " b")), told)

    def test_text_behind_a_list_of_an_item(self) -> None:
        (self.pages / "Behind.wiki").write_text("* a\n** b\n* c\n\n{|\n| d\n* e\n|}")
        html, tag = self.html("Behind")
        for old, new in (("b</li></ul>", "b</li></ul><p>x <b>y</b></p>"), ("e</li></ul>", "e</li></ul>z <i>w</i>")):
            self.assertIn(old, html)
            html = html.replace(old, new)
        status, told = self.save("Behind", html, tag)
        wanted = "* a\n** b\n*: x '''y'''\n* c\n\n{|\n| d\n* e\n\nz ''w''\n|}"
        self.assertEqual((status, self.page("Behind")), (200, wanted), told)


class OwnTemplate(ServingCase):
    """A page that shows itself, as the documentation of a template does."""

    def test_it_is_saved_twice(self) -> None:
        page = self.pages / "Template%3AShown.wiki"
        page.write_text("x <noinclude>\n\nsee {{Shown}} b\n</noinclude>")
        html, tag = self.html("Template:Shown")
        for old, new in ((">x <meta", ">y <meta"), (" b</p>", " c</p>")):
            status, told = self.save("Template:Shown", html.replace(old, new), tag, "?html=1")
            self.assertEqual((status, told["changed"]), (200, True), told)
            html, tag = told["html"], told["etag"]
            self.assertEqual((html, tag), self.html("Template:Shown"))
        self.assertEqual(page.read_text(), "y <noinclude>\n\nsee {{Shown}} c\n</noinclude>")

    def test_where_a_page_stops_being_utf8(self) -> None:
        for data in (b"a\xe2\x82(b", b"a\xffb", b"a\xe2\x82", b"\xed\xa0\x80", b"\xf0\x80"):
            (self.pages / "Bad.wiki").write_bytes(data)
            lines = []
            for form in ("html", "wikitext"):
                _, _, answer = self.ask("GET", f"/localhost/v3/page/{form}/Bad")
                lines.append(json.loads(answer)["line"])
            self.assertEqual(lines[0], lines[1], data)


class OlderProgram(ServingCase):
    def start(self):  # type: ignore[no-untyped-def]
        import serving_case

        script, self.log = self.root / "older", self.root / "log"
        script.write_text(OLDER.format(log=self.log, program=PROGRAM))
        script.chmod(script.stat().st_mode | stat.S_IXUSR)
        whole, serving_case.PROGRAM = serving_case.PROGRAM, str(script)
        try:
            return super().start()
        finally:
            serving_case.PROGRAM = whole

    def test_edits_get_their_marks(self) -> None:
        before = self.page()
        html, tag = self.html("Opava")
        for fields in ({}, {"mended": True}):
            body = json.dumps({"html": html.replace("six hundred", "many hundred"), **fields}).encode()
            status, _, answer = self.ask("POST", f"{TRANSFORM}Opava", body, Content_Type="application/json")
            self.assertEqual((status, answer.decode()), (200, before.replace("six hundred", "many hundred")))
        commands = self.log.read_text().split("\n")
        self.assertEqual((commands.count("edit"), commands.count("selser")), (2, 0))

    def test_it_is_asked_for_its_usage_once(self) -> None:
        html, _ = self.html("Opava")
        for word in ("many", "some"):
            body = json.dumps({"html": html.replace("six hundred", f"{word} hundred")}).encode()
            status, _, _ = self.ask("POST", f"{TRANSFORM}Opava", body, Content_Type="application/json")
            self.assertEqual(status, 200)
        self.assertEqual(self.log.read_text().split("\n")[:-1].count(""), 1)
