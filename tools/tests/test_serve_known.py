"""The states of long pages that the server keeps: made once, and anew after anything was written."""
import os
import re
import time
import unittest
from typing import Tuple
from unittest import mock

from serving_case import SECONDS, ServingCase, edited

from serving.pages import PageFolder, step_of  # (serving_case has put the tools on the path)
from serving.program import Program

EDITORS = "?data_parsoid=sources&offsetType=none"


class KnownStates(ServingCase):
    def setUp(self) -> None:
        super().setUp()
        long_page = mock.patch("serving.known.LONG_PAGE", 0)
        long_page.start()
        self.addCleanup(long_page.stop)
        counted = mock.patch.object(Program, "_run", autospec=True, side_effect=Program._run)
        self.run_count = counted.start()
        self.addCleanup(counted.stop)
        self.settle()

    def settle(self) -> None:
        """Waits until no clock's step hides the next writing of a file."""
        time.sleep(2 * step_of(os.stat(self.pages)) / 1e9)

    def runs(self, title: str = "Opava", query: str = "") -> Tuple[str, str, int]:
        """A page's HTML and tag, and how often the program was run for it."""
        before = self.run_count.call_count
        html, tag = self.html(title, query)
        return html, tag, self.run_count.call_count - before

    def test_a_state_is_made_once(self) -> None:
        html, tag, count = self.runs()
        self.assertEqual(count, 1)
        self.assertEqual(self.runs(), (html, tag, 0))
        self.assertEqual(self.runs(query=EDITORS)[1:], (tag, 0))
        self.assertEqual(self.runs("Template:Lang")[2], 1)
        self.assertEqual(self.runs()[2], 0)

    def test_an_edit_of_it_runs_the_program_for_the_edit_alone(self) -> None:
        html, tag, _ = self.runs()
        before = self.run_count.call_count
        status, told = self.save("Opava", edited(html), tag, "?preview=1")
        self.assertEqual((status, told["changed"]), (200, True))
        words = [call[0][1] for call in self.run_count.call_args_list[before:]]
        self.assertIn(["edit", "Opava"], words)
        self.assertNotIn(["html", "Opava"], words)

    def test_after_a_file_was_written_it_is_made_anew(self) -> None:
        for name in ("Opava.wiki", "Template%3ALang.wiki", "New.wiki"):
            html, tag, _ = self.runs()
            path = self.pages / name
            path.write_text((path.read_text() if path.exists() else "") + "!")
            now, other, count = self.runs()
            with self.subTest(name=name):
                self.assertGreater(count, 0)
                self.assertEqual((now, other) == (html, tag), name == "New.wiki")
            self.settle()

    def test_directly_after_a_file_was_written_nothing_is_kept(self) -> None:
        path = self.pages / "New.wiki"
        path.write_text("x")
        with mock.patch.object(time, "time_ns", return_value=path.stat().st_ctime_ns):
            self.assertEqual([self.runs()[2], self.runs()[2]], [1, 1])

    def test_files_that_were_written_unseen(self) -> None:
        """What is named in letters is read again, whatever the sizes and times of files say."""
        for name in ("Template%3ALang.wiki", "Opava.wiki"):
            with mock.patch.object(PageFolder, "fingerprint", return_value=b"same"):
                html, tag, _ = self.runs()
                path = self.pages / name
                path.write_text(path.read_text().swapcase())
                now, other, count = self.runs()
            with self.subTest(name=name):
                self.assertEqual(count, 1)
                self.assertNotEqual((now, other), (html, tag))

    def test_a_stale_save_is_refused(self) -> None:
        html, tag, _ = self.runs()
        path = self.pages / "Opava.wiki"
        times = os.stat(path)
        path.write_text(self.page().replace("Opava", "opavA"))
        os.utime(path, ns=(times.st_atime_ns, times.st_mtime_ns))  # the time of the change is another one
        stored = self.stored()
        status, told = self.save("Opava", edited(html), tag)
        self.assertEqual((status, told["error"], self.stored()), (412, "Stale", stored))

    def test_the_editor_page_makes_it_ahead(self) -> None:
        before = self.run_count.call_count
        self.assertEqual(self.ask("GET", "/editor/Opava")[0], 200)
        html, tag, _ = self.runs(query=EDITORS)
        self.assertEqual(self.run_count.call_count - before, 1)
        self.assertEqual(self.ask("GET", "/editor/Opava")[0], 200)
        self.assertEqual(self.runs(query=EDITORS), (html, tag, 0))

    def test_a_page_that_is_refused(self) -> None:
        (self.pages / "Bad.wiki").write_bytes(b"\xff")
        self.settle()
        for path in ("/editor/Bad", "/localhost/v3/page/html/Bad", "/localhost/v3/page/html/Bad"):
            status, _, body = self.ask("GET", path)
            self.assertEqual(status, 200 if path.startswith("/editor") else 422, body)
        self.assertEqual(self.ask("GET", "/editor/Nowhere")[0], 404)

    def test_the_oldest_go(self) -> None:
        known = self.server.site._known
        for name in ("Opava", "Template:Lang", "Opava"):
            with mock.patch("serving.known.MOST_KEPT", 1):
                known.begin(name)
                known.taken(name)
                end = time.monotonic() + SECONDS
                while list(known._known) != [name] and time.monotonic() < end:
                    time.sleep(0.01)  # others are forgotten directly behind the making
                self.assertEqual(list(known._known), [name])

    def test_what_is_too_much_isn_t_kept(self) -> None:
        for limit, value in (("MOST_BYTES", 10), ("MOST_KEPT", 0)):
            with mock.patch(f"serving.known.{limit}", value), self.subTest(limit=limit):
                self.assertEqual([self.runs()[2], self.runs()[2]], [1, 1])


class WithoutPlaces(ServingCase):
    def test_places_are_all_0(self) -> None:
        whole, tag = self.html("Opava")
        told, other = self.html("Opava", "?offsetType=none")
        self.assertEqual(tag, other)
        self.assertEqual(set(re.findall(r'"dsr":\[[0-9,]*\]', told)), {'"dsr":[0,0,0,0]'})
        self.assertEqual(re.sub(r'"dsr":\[[0-9,]*\]', '"dsr":[0,0,0,0]', whole), told)
        sources, _ = self.html("Opava", "?data_parsoid=sources")
        self.assertEqual(
            self.html("Opava", EDITORS)[0], re.sub(r'"dsr":\[[0-9,]*\]', '"dsr":[0,0,0,0]', sources)
        )

    def test_edits_of_it(self) -> None:
        wanted = self.page().replace("is a town in", "is an old town in")
        for query in ("?offsetType=none", EDITORS):
            html, tag = self.html("Opava", query)
            unmarked = html.replace("is a town in", "is an old town in").replace("<br/>", "<br>")
            for document, asked in ((edited(html), ""), (unmarked, "?offsetType=none")):
                with self.subTest(query=query, asked=asked):
                    status, told = self.save("Opava", document, tag, asked)
                    self.assertEqual((status, self.page()), (200, wanted), told)
                    (self.pages / "Opava.wiki").write_text(wanted.replace("is an old town in", "is a town in"))

    def test_other_units(self) -> None:
        status, _, body = self.ask("GET", "/localhost/v3/page/html/Opava?offsetType=lines")
        self.assertEqual(status, 400)
        self.assertIn(b"none", body)


if __name__ == "__main__":
    unittest.main()
