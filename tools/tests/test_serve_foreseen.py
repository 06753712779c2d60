"""The page that an edit will probably make: its HTML is made while the program makes the page."""
import json
import os
import threading
import time
import unittest
from contextlib import contextmanager
from typing import Dict, Iterator, List, Optional, Tuple
from unittest import mock

from serving_case import SECONDS, ServingCase

from serving.documents import with_sources_alone, without_places
from serving.foreseen import foreseen, shared
from serving.known import KnownStates
from serving.pages import step_of
from serving.prepared import PreparedEdits, State
from serving.program import Program
from serving.refusals import Refusal
from serving.site import TextRoom

EDITORS = "?data_parsoid=sources&offsetType=none"

# What stands in the HTML, what is put there, and the same in the page; nothing where no page is foreseen.
CHANGES: List[Tuple[str, str, str, str]] = [
    ("is a town in", "is an old town in", "is a town in", "is an old town in"),
    ("</a></b> is a", "</a></b>, once Troppau, is a", "]]''' is a", "]]''', once Troppau, is a"),
    (">Moravice</a>", ">Mohra</a>", "[[Moravice (river)|Moravice]]", "[[Moravice (river)|Mohra]]"),
    ("East &amp; West", "East &amp; the West", "East & West", "East & the West"),
    ("</i></p>", "</i> indeed</p>", "''slowly''\n", "''slowly'' indeed\n"),
    ("<p id=", "<p>New.</p><p id=", "", ""),
    ("is a town in", "is a <b>town</b> in", "", ""),
    ('id="mw3"', 'id="mw4"', "", ""),
]
PAGE = (
    "'''[[Opava]]''' is a town in the east.\n\n"
    "It lies on the [[Moravice (river)|Moravice]], between East & West.\n\n"
    "The river flows ''slowly''\n\nThis is a town in another land.\n"
)


class Pages(ServingCase):
    def test_what_is_foreseen(self) -> None:
        (self.pages / "Town.wiki").write_text(PAGE)
        document = self.html("Town")[0].encode()
        given = without_places(with_sources_alone(document))
        for old, new, old_source, new_source in CHANGES:
            edited = given.replace(old.encode(), new.encode(), 1)
            self.assertNotEqual(edited, given)
            wanted = PAGE.replace(old_source, new_source, 1).encode() if old_source else None
            with self.subTest(old=old, new=new):
                self.assertEqual(foreseen(PAGE.encode(), document, given, edited), wanted)
        for edited in (given, b"", b"x", given + given):
            self.assertIsNone(foreseen(PAGE.encode(), document, given, edited))

    def test_the_second_of_two_that_are_the_same(self) -> None:
        page = "one town\n\n''one'' town\n\none town\n"
        (self.pages / "Town.wiki").write_text(page)
        document = self.html("Town")[0].encode()
        given = without_places(with_sources_alone(document))
        edited = b"city".join(given.rsplit(b"town", 1))
        wanted = "city".join(page.rsplit("town", 1)).encode()
        self.assertEqual(foreseen(page.encode(), document, given, edited), wanted)

    def test_what_both_begin_and_end_with(self) -> None:
        for old, new, front, back in [
            (b"", b"", 0, 0),
            (b"a", b"", 0, 0),
            (b"abc", b"abc", 3, 3),
            (b"abcd", b"abd", 2, 1),
            (b"aaa", b"aa", 2, 2),
        ]:
            self.assertEqual((shared(old, new, False), shared(old, new, True)), (front, back))


class LongPages(ServingCase):
    """Over the program, as if the example were a long page."""

    def setUp(self) -> None:
        super().setUp()
        for name in ("serving.known.LONG_PAGE", "serving.site.LONG_PAGE"):
            long_page = mock.patch(name, 0)
            long_page.start()
            self.addCleanup(long_page.stop)
        self.texts: List[str] = []  # of which HTML was asked that aren't stored
        room = mock.patch.object(TextRoom, "page", autospec=True, side_effect=self.noted)
        self.text_page = TextRoom.page
        room.start()
        self.addCleanup(room.stop)
        time.sleep(2 * step_of(os.stat(self.pages)) / 1e9)

    def noted(self, room: TextRoom, text: bytes) -> object:
        self.texts.append(text.decode())
        return self.text_page(room, text)

    def preview(self, old: str, new: str) -> Tuple[str, Dict]:
        html, tag = self.html("Opava", EDITORS)
        self.assertIn(old, html)
        body = {"html": html.replace(old, new, 1), "mended": True, "offsetType": "none"}
        status, shown = self.post(body, tag, "?preview=1")
        self.assertEqual((status, shown["changed"]), (200, True), shown)
        return tag, shown

    def post(self, body: Dict, tag: str, query: str = "") -> Tuple[int, Dict]:
        headers = {"Content_Type": "application/json", "If_Match": tag}
        status, _, answer = self.ask("POST", f"/save/Opava{query}", json.dumps(body).encode(), **headers)
        return status, json.loads(answer)

    def store(self, tag: str, shown: Dict, begun: int = 1) -> str:
        """The new page, after its HTML was fetched ahead: that is the last of so many that were begun. (What isn't
        begun yet is made for whoever fetches it, and isn't kept for the save.)"""
        end = time.monotonic() + SECONDS
        while len(self.texts) < begun and time.monotonic() < end:
            time.sleep(0.01)
        status, headers, body = self.ask("GET", f"/prepared/Opava/{shown['prepared']}{EDITORS}")
        self.assertEqual(status, 200)
        with mock.patch.object(Program, "_run", side_effect=AssertionError("the program was run")):
            status, told = self.post({"prepared": shown["prepared"]}, tag)
        self.assertEqual((status, told.get("etag")), (200, headers["etag"]), told)
        self.assertEqual(self.html("Opava", EDITORS), (body.decode(), told["etag"]))
        return self.page()

    def test_its_html_is_made_once(self) -> None:
        before = self.page()
        tag, shown = self.preview("is a town in", "is an old town in")
        self.assertEqual(self.store(tag, shown), before.replace("is a town in", "is an old town in"))
        self.assertEqual(self.texts, [self.page()])

    def test_an_edit_behind_another(self) -> None:
        """It is foreseen from the state that the one before led to, before this state is looked at again."""
        self.store(*self.preview("is a town in", "is an old town in"))
        time.sleep(2 * step_of(os.stat(self.pages)) / 1e9)
        _, tag = self.html("Opava", EDITORS)
        del self.texts[:]

        def taken(known: KnownStates, name: str) -> Tuple[bytes, State]:
            end = time.monotonic() + SECONDS
            while not self.texts and time.monotonic() < end:
                time.sleep(0.01)  # it was begun in a thread of its own
            self.assertEqual(len(self.texts), 1)
            return look(known, name)

        look = KnownStates.taken
        html = self.html("Opava", EDITORS)[0].replace("six hundred", "seven hundred")
        edit = {"html": html, "mended": True, "offsetType": "none"}
        with mock.patch.object(KnownStates, "taken", taken):
            status, shown = self.post(edit, tag, "?preview=1")
        self.assertEqual(status, 200, shown)
        self.assertIn("seven hundred", self.store(tag, shown))
        self.assertEqual(self.texts, [self.page()])

    @contextmanager
    def foreseen_first(self) -> Iterator[None]:
        """The program answers an edit only once the HTML of the page that was foreseen is made."""
        made = threading.Event()

        def state_for_editor(edits: PreparedEdits, name: str, page: bytes) -> State:
            try:
                return state(edits, name, page)
            finally:
                made.set()

        def selser(program: Program, title: str, html: bytes) -> bytes:
            self.assertTrue(made.wait(SECONDS))
            return answered(program, title, html)

        state, answered = PreparedEdits._state_for_editor, Program.selser
        with mock.patch.object(PreparedEdits, "_state_for_editor", state_for_editor):
            with mock.patch.object(Program, "selser", selser):
                yield

    def test_what_is_foreseen_wrongly(self) -> None:
        before = self.page()
        with self.foreseen_first():
            tag, shown = self.preview("is a town in", "is a ''town'' in")
        page = self.store(tag, shown, begun=2)
        self.assertNotEqual(page, before.replace("is a town in", "is a ''town'' in"))
        self.assertEqual(self.texts, [before.replace("is a town in", "is a ''town'' in"), page])

    def test_an_edit_that_is_refused_or_stale(self) -> None:
        html, tag = self.html("Opava", EDITORS)
        html = html.replace("is a town in", "is an old town in")
        edit = {"html": html, "mended": True, "offsetType": "none"}
        before = self.page()
        self.assertEqual(self.post(edit, 'W/"1/2"', "?preview=1")[0], 412)
        refused = mock.patch.object(Program, "selser", side_effect=Refusal(422, "Moved", "No."))
        with refused:
            self.assertEqual(self.post(edit, tag, "?preview=1")[0], 422)
        self.assertEqual(self.page(), before)
        self.assertEqual(self.post(edit, tag, "?preview=1")[0], 200)

    def test_html_that_cannot_be_made(self) -> None:
        """It is made anew for the page that the edit made."""
        calls: List[str] = []

        def html(program: Program, title: str, room: Optional[str] = None) -> bytes:
            calls.append(title)
            if room is not None and sum(title.startswith("Text ") for title in calls) == 1:
                raise Refusal(503, "TimeLimit", "Too long.")
            return made(program, title, room)

        made = Program.html
        with mock.patch.object(Program, "html", html):
            tag, shown = self.preview("is a town in", "is an old town in")
            status, _, body = self.ask("GET", f"/prepared/Opava/{shown['prepared']}")
            self.assertEqual(status, 200)
            self.assertIn(b"is an old town in", body)
            self.assertEqual(self.post({"prepared": shown["prepared"]}, tag)[0], 200)


if __name__ == "__main__":
    unittest.main()
