"""What a preview made is stored by its word; HTML with sources alone; what the disk doesn't confirm."""
import errno
import json
import os
import re
import time
import unittest
from typing import Dict, Tuple
from unittest import mock
from urllib.parse import quote

from serving_case import ServingCase, edited

from serving.pages import PageFolder, step_of  # (serving_case has put the tools on the path)
from serving.prepared import MOST_KEPT
from serving.program import Program


def revision_of(tag: str) -> int:
    """The revision that a tag begins with, as docs/serving.md says it."""
    found = re.match('W/"([0-9]+)/', tag)
    assert found is not None
    return int(found[1])


class Prepared(ServingCase):
    def preview(self, title: str = "Opava") -> Tuple[str, Dict]:
        html, tag = self.html(title)
        status, told = self.save(title, edited(html), tag, "?preview=1")
        self.assertEqual(status, 200, told)
        return tag, told

    def store(self, body: object, tag: str, query: str = "", title: str = "Opava") -> Tuple[int, Dict]:
        path = f"/save/{quote(title, safe='')}{query}"
        headers = {"Content_Type": "application/json", "If_Match": tag}
        status, _, answer = self.ask("POST", path, json.dumps(body).encode(), **headers)
        return status, json.loads(answer)

    def test_what_was_shown_is_stored(self) -> None:
        before = self.page()
        tag, shown = self.preview()
        self.assertEqual(self.page(), before)
        query = "?html=1&data_parsoid=sources"
        status, told = self.store({"prepared": shown["prepared"]}, tag, query)
        self.assertEqual((status, told["changed"]), (200, True))
        self.assertEqual(self.page(), before.replace("is a town in", "is an old town in"))
        for name in ("diff", "bytes_before", "bytes_after", "revision"):
            self.assertEqual(told[name], shown[name])
        self.assertEqual(self.html("Opava", "?data_parsoid=sources"), (told["html"], told["etag"]))
        self.assertEqual(revision_of(told["etag"]), told["revision"])
        self.assertNotEqual(revision_of(tag), told["revision"])

    def test_it_is_stored_once(self) -> None:
        tag, shown = self.preview()
        body = {"prepared": shown["prepared"]}
        status, told = self.store(body, tag)
        self.assertEqual(status, 200)
        stored = self.stored()
        self.assertEqual(self.store(body, told["etag"])[1]["error"], "Stale")
        for later in (tag, f"{tag}, {told['etag']}"):  # sent again: it is stored already
            status, again = self.store(body, later)
            self.assertEqual((status, again["stored_before"], again["changed"]), (200, True, False))
            self.assertEqual(again["etag"], told["etag"])
        (self.pages / "Opava.wiki").write_text(self.page() + "other")
        self.assertEqual(self.store(body, tag)[1]["error"], "Stale")
        self.assertEqual({**self.stored(), "Opava.wiki": stored["Opava.wiki"]}, stored)

    def settled(self) -> Tuple[str, Dict]:
        """A preview long enough after the last file was written that no clock's step hides the next one."""
        time.sleep(2 * step_of(os.stat(self.pages)) / 1e9)
        return self.preview()

    def test_it_is_stored_without_running_the_program(self) -> None:
        """The HTML was made while its changes were shown, and no file was written since."""
        tag, shown = self.settled()
        wanted = self.coming(shown)
        with mock.patch.object(Program, "_run", side_effect=AssertionError("the program was run")):
            status, told = self.store({"prepared": shown["prepared"]}, tag, "?html=1")
        self.assertEqual((status, told["html"], told["etag"]), (200, *wanted))
        self.assertEqual(self.html("Opava"), wanted)

    def coming(self, shown: Dict, query: str = "", title: str = "Opava") -> Tuple[str, str]:
        status, headers, body = self.ask("GET", f"/prepared/{title}/{shown['prepared']}{query}")
        self.assertEqual(status, 200, body)
        return body.decode(), headers["etag"]

    def test_the_page_that_will_be(self) -> None:
        stored = self.stored()
        tag, shown = self.preview()
        wanted = self.coming(shown, "?data_parsoid=sources")
        self.assertEqual(self.stored(), stored)
        status, told = self.store({"prepared": shown["prepared"]}, tag)
        self.assertEqual((status, told["etag"]), (200, wanted[1]))
        self.assertEqual(self.html("Opava", "?data_parsoid=sources"), wanted)
        for title, word in [("Opava", "0" * 32), ("Main%20Page", shown["prepared"])]:
            self.assertEqual(self.ask("GET", f"/prepared/{title}/{word}")[0], 410)
        self.assertEqual(self.ask("POST", f"/prepared/Opava/{shown['prepared']}", b"")[0], 405)

    def test_it_is_shown_again(self) -> None:
        """By its word, while the page is the one that was edited."""
        tag, shown = self.settled()
        body = {"prepared": shown["prepared"]}
        path = self.pages / "Template%3ALang.wiki"
        before = path.read_text()
        self.assertEqual(self.store(body, tag, "?preview=1"), (200, shown))
        self.assertEqual(self.store(body, 'W/"1/2"', "?preview=1")[0], 412)
        path.write_text(before + "!")
        self.assertEqual(self.store(body, tag, "?preview=1")[0], 412)
        path.write_text(before)  # the times of the files differ now
        self.assertEqual(self.store(body, tag, "?preview=1"), (200, shown))
        self.assertIn("is a town in", self.page())

    def test_an_edit_that_takes_the_place_of_another(self) -> None:
        html, tag = self.html("Opava")
        (self.pages / "Copy.wiki").write_text(self.page())
        other_tag, other = self.preview("Copy")
        _, shown = self.preview()
        for given in (shown["prepared"], other["prepared"], "0" * 32):
            body = {"html": edited(html), "instead": given}
            self.assertEqual(self.store(body, tag, "?preview=1")[0], 200)
        self.assertEqual(self.store({"prepared": shown["prepared"]}, tag, "?preview=1")[0], 410)
        self.assertEqual(self.store({"prepared": other["prepared"]}, other_tag, "", "Copy")[0], 200)
        self.assertEqual(self.store({"html": edited(html), "instead": 5}, tag, "?preview=1")[0], 400)

    def test_states_that_are_too_much_to_keep(self) -> None:
        with mock.patch("serving.prepared.MOST_BYTES", 10):
            tag, shown = self.settled()
            wanted = self.coming(shown)
            runs = mock.patch.object(Program, "_run", autospec=True, side_effect=Program._run)
            with runs as run:
                status, told = self.store({"prepared": shown["prepared"]}, tag)
            self.assertGreater(run.call_count, 0)
        self.assertEqual((status, told["etag"]), (200, wanted[1]))

    def test_a_template_whose_name_another_one_makes(self) -> None:
        """What changes what is shown makes the edit stale, though no call names it in letters."""
        (self.pages / "Template%3APick.wiki").write_text("Inner")
        (self.pages / "Template%3AInner.wiki").write_text("inner")
        (self.pages / "Opava.wiki").write_text(self.page() + "\n{{ {{pick}} }}\n")
        for text, status in [("inner<!-- c -->", 200), ("other", 412)]:
            tag, shown = self.settled()
            self.coming(shown)
            (self.pages / "Template%3AInner.wiki").write_text(text)
            stored = self.stored()
            with self.subTest(text=text):
                self.assertEqual(self.store({"prepared": shown["prepared"]}, tag)[0], status)
                self.assertEqual(self.stored() == stored, status == 412)
            (self.pages / "Opava.wiki").write_text(self.page().replace("is an old town in", "is a town in"))

    def test_files_that_were_written_unseen(self) -> None:
        """A page that is put back with the same size and times, and one of which only the bytes tell."""
        for name in ("Template%3ALang.wiki", "Opava.wiki"):
            tag, shown = self.settled()
            self.coming(shown)
            path = self.pages / name
            before, times = path.read_text(), os.stat(path)
            path.write_text(before.swapcase())
            os.utime(path, ns=(times.st_atime_ns, times.st_mtime_ns))
            fingerprint = self.server.site._prepared.find(shown["prepared"], "Opava").edit.fingerprint
            self.assertIsNotNone(fingerprint)
            self.assertNotEqual(PageFolder.fingerprint(self.server.site.folder), fingerprint)
            with mock.patch.object(PageFolder, "fingerprint", return_value=fingerprint):
                self.assertEqual(self.store({"prepared": shown["prepared"]}, tag)[0], 412)
            path.write_text(before)

    def test_it_is_stale_when_a_page_changed(self) -> None:
        for name, text in [("Template%3ALang.wiki", "<b>{{{2}}}</b>"), ("Opava.wiki", "other")]:
            tag, shown = self.settled()
            (self.pages / name).write_text(text)
            stored = self.stored()
            status, told = self.store({"prepared": shown["prepared"]}, tag)
            self.assertEqual((status, told["error"], self.stored()), (412, "Stale", stored))

    def test_words_that_name_nothing(self) -> None:
        (self.pages / "Copy.wiki").write_text(self.page())
        tag, shown = self.preview()
        stored = self.stored()
        _, other = self.html("Copy")
        for body, given, title, status in [
            ({"prepared": "0" * 32}, tag, "Opava", 410),
            ({"prepared": shown["prepared"]}, other, "Copy", 410),
            ({"prepared": 5}, tag, "Opava", 400),
            ({"prepared": shown["prepared"]}, "", "Opava", 428),
        ]:
            with self.subTest(body=body, status=status):
                self.assertEqual(self.store(body, given, title=title)[0], status)
        self.assertEqual(self.stored(), stored)

    def test_the_oldest_go(self) -> None:
        tag, first = self.preview()
        shown = [self.preview()[1] for _ in range(MOST_KEPT)]
        self.assertEqual(self.store({"prepared": first["prepared"]}, tag)[1]["error"], "NotPrepared")
        self.assertEqual(self.store({"prepared": shown[0]["prepared"]}, tag)[0], 200)

    def test_a_disk_that_confirms_nothing(self) -> None:
        for code, status, error in [(errno.EINVAL, 200, None), (errno.EIO, 500, "NotConfirmed")]:
            tag, shown = self.preview()
            fault = mock.patch("serving.pages.sync_directory", side_effect=OSError(code, "no"))
            with self.subTest(code=code), fault:
                found, told = self.store({"prepared": shown["prepared"]}, tag)
                self.assertEqual((found, told.get("error")), (status, error))
                self.assertEqual(revision_of(self.html("Opava")[1]), shown["revision"])
            (self.pages / "Opava.wiki").write_text(self.page().replace("is an old town in", "is a town in"))


class Sources(ServingCase):
    def test_data_parsoid_where_it_tells_a_source(self) -> None:
        whole, tag = self.html("Opava")
        told, other = self.html("Opava", "?data_parsoid=sources")
        self.assertEqual(tag, other)
        values = re.findall("data-parsoid='([^']*)'", whole)
        kept = re.findall("data-parsoid='([^']*)'", told)
        self.assertEqual(kept, [value for value in values if '"src":' in value])
        self.assertTrue(0 < len(kept) < len(values))
        bare = re.compile(" data-parsoid='[^']*'")
        self.assertEqual(bare.sub("", told), bare.sub("", whole))

    def test_edits_of_it(self) -> None:
        """With a mark, and as a client's own serialiser writes it, without one."""
        wanted = self.page().replace("is a town in", "is an old town in")
        html, tag = self.html("Opava", "?data_parsoid=sources")
        unmarked = html.replace("is a town in", "is an old town in").replace("<br/>", "<br>")
        quoted = re.sub(
            "data-parsoid='([^']*)'",
            lambda found: 'data-parsoid="' + found[1].replace('"', "&quot;") + '"',
            unmarked,
        )
        for document in (edited(html), unmarked, quoted):
            status, told = self.save("Opava", document, tag, "?preview=1")
            self.assertEqual(status, 200, told)
            self.assertEqual(self.store_shown(told, tag), wanted)
            (self.pages / "Opava.wiki").write_text(wanted.replace("is an old town in", "is a town in"))

    def store_shown(self, told: Dict, tag: str) -> str:
        body = json.dumps({"prepared": told["prepared"]}).encode()
        headers = {"Content_Type": "application/json", "If_Match": tag}
        self.assertEqual(self.ask("POST", "/save/Opava", body, **headers)[0], 200)
        return self.page()

    def test_other_values(self) -> None:
        for value, status in [("sources", 200), ("true", 200), ("0", 200), ("source", 400)]:
            path = f"/localhost/v3/page/html/Opava?data_parsoid={value}"
            self.assertEqual(self.ask("GET", path)[0], status)


if __name__ == "__main__":
    unittest.main()
