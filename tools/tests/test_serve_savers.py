"""Several savers at once, and savers that are killed: a page is whole, and stored only where 200 was
answered."""
import errno
import hashlib
import http.client
import json
import os
import random
import re
import signal
import socket
import subprocess
import sys
import threading
import time
import unittest
from pathlib import Path
from unittest import mock

from loading import REPOSITORY, TOOLS
from serving_case import PROGRAM, SECONDS, ServingCase

from serving.pages import PageFolder, note_of, put_note  # (serving_case has put the tools on the path)
from serving.site import Request, sent_in

SAVERS = 4
ROUNDS = 5
KILLS = 12


def with_word(html: str, word: str) -> str:
    """The example with one word more at the end of its first paragraph, marked."""
    html = html.replace(" data-wt-edit=\"content\"", "").replace(
        '<p id="mw3"', '<p data-wt-edit="content" id="mw3"'
    )
    return html.replace("live there today.", f"live there today. {word}", 1)


class SaversAtOnce(ServingCase):
    def race(self, ports: list) -> None:
        """Each saver adds its words, one after the other, taking the page anew where it was stale."""
        stored: list = []

        def add(saver: int) -> None:
            for k in range(ROUNDS):
                word = f"w{saver}x{k}"
                for _ in range(1000):
                    html, tag = self.html("Opava", port=ports[saver % len(ports)])
                    status, told = self.save(
                        "Opava", with_word(html, word), tag, port=ports[saver % len(ports)]
                    )
                    if status == 200:
                        stored.append(word)
                        break
                    self.assertEqual((status, told["error"]), (412, "Stale"))

        threads = [threading.Thread(target=add, args=(saver,)) for saver in range(SAVERS)]
        for thread in threads:
            thread.start()
        for thread in threads:
            thread.join()
        self.assertEqual(len(stored), SAVERS * ROUNDS)
        words = re.findall("w[0-9]x[0-9]", self.page())
        self.assertEqual(sorted(words), sorted(stored))
        self.assertEqual(
            re.sub(" w[0-9]x[0-9]", "", self.page()), (REPOSITORY / "examples/pages/Opava.wiki").read_text()
        )
        self.assertEqual([p.name for p in self.pages.iterdir() if not p.name.endswith(".wiki")], [])

    def test_over_one_server(self) -> None:
        self.race([self.port])

    def test_over_two_servers(self) -> None:
        self.race([self.port, self.start().server_address[1]])

    def test_one_of_two_saves_of_the_same_tag(self) -> None:
        html, tag = self.html("Opava")
        results = []
        threads = [
            threading.Thread(
                target=lambda k=k: results.append((k, self.save("Opava", with_word(html, f"k{k}"), tag)[0]))
            )
            for k in range(6)
        ]
        for thread in threads:
            thread.start()
        for thread in threads:
            thread.join()
        self.assertEqual(sorted(status for _, status in results), [200] + [412] * 5)
        winner = next(k for k, status in results if status == 200)
        self.assertEqual(re.findall("k[0-9]", self.page()), [f"k{winner}"])

    def test_a_template_that_changes_while_a_page_is_saved(self) -> None:
        """Each save is of the template's text that the tag was for, or is refused."""
        stop = threading.Event()
        path = self.pages / "Template%3ALang.wiki"
        texts = [path.read_text(), path.read_text() + "!"]

        def change() -> None:
            k = 0
            while not stop.is_set():
                k += 1
                (self.pages / "new").write_text(texts[k % 2])
                os.replace(self.pages / "new", path)
                time.sleep(0.002)

        changer = threading.Thread(target=change)
        changer.start()
        try:
            statuses = []
            for k in range(30):
                html, tag = self.html("Opava")
                before = self.page()
                status, _ = self.save("Opava", with_word(html, f"v{k}"), tag)
                statuses.append(status)
                self.assertIn(status, (200, 412, 422))
                self.assertEqual(self.page() != before, status == 200)
        finally:
            stop.set()
            changer.join()


# Runs the server, which kills itself directly before or after a page takes its new name, or once the disk has
# confirmed it.
SUICIDE = """
import os, runpy, signal, sys
when, tool, sys.argv[:] = sys.argv[1], sys.argv[2], sys.argv[2:]
sys.path.insert(0, os.path.dirname(tool))
sys.dont_write_bytecode = True
from serving.pages import PageFolder
replace = PageFolder.replace
def killed(*words):
    if when == "confirmed":
        replace(*words)
    os.kill(os.getpid(), signal.SIGKILL)
if when == "after":
    PageFolder._confirm_names = killed
else:
    PageFolder.replace = killed
runpy.run_path(tool, run_name="__main__")
"""


def keeps_notes(folder: Path) -> bool:
    """Whether the file system keeps the attribute by which a save is known again."""
    path = folder / "note"
    path.touch()
    with path.open() as file:
        put_note(file.fileno(), b"note")
    kept = note_of(str(path))
    path.unlink()
    return kept == b"note"


class Kills(ServingCase):
    def start_process(self, *before: str) -> "tuple[subprocess.Popen, int]":
        """`before`: words for Python before the server's own."""
        words = [str(TOOLS / "serve"), str(self.pages), "--port", "0", "--program", str(PROGRAM), "--quiet"]
        # A shell that runs these tests in the background lets them ignore SIGINT, and the server would, too.
        process = subprocess.Popen(
            [sys.executable, *before, *words],
            stdout=subprocess.PIPE,
            start_new_session=True,
            preexec_fn=lambda: signal.signal(signal.SIGINT, signal.SIG_DFL),
        )
        self.addCleanup(process.stdout.close)
        self.addCleanup(process.wait)
        self.addCleanup(process.kill)
        found = re.fullmatch(r"http://127\.0\.0\.1:([0-9]+)/\n", process.stdout.readline().decode())
        return process, int(found[1])

    def prepared(self, word: str, port: int) -> tuple:
        """An edit of the page, its tag, and what a preview tells of it."""
        html, tag = self.html("Opava", port=port)
        document = with_word(html, word)
        status, told = self.save("Opava", document, tag, "?preview=1", port=port)
        self.assertEqual(status, 200)
        return document, tag, told

    def assert_nothing_unfinished(self) -> None:
        self.assertEqual([p.name for p in self.pages.iterdir() if not p.name.endswith(".wiki")], [])

    def is_stored(self, told: dict) -> bool:
        """Whether an edit whose answer was lost was stored, as a client finds it out: the page's tag begins
        with the revision that the preview told."""
        process, port = self.start_process()
        tag = self.html("Opava", port=port)[1]
        self.assert_nothing_unfinished()
        process.kill()
        return tag.startswith(f'W/"{told["revision"]}/')

    def test_a_kill_during_a_save(self) -> None:
        """What stands there is the old page or the new one, whole; the new one wherever 200 was answered, and
        where nothing was answered the revision tells."""
        filler = "\n".join(f"Line {k} of a longer page, so that a save takes a while." for k in range(3000))
        (self.pages / "Opava.wiki").write_text(self.page() + "\n" + filler)
        random.seed(1)
        process, port = self.start_process()
        document, tag, told = self.prepared("w", port)
        began = time.monotonic()
        self.assertEqual(self.store(document, told, tag, port, False), 200)
        longest = 1.3 * (time.monotonic() - began)
        process.kill()
        answered = unanswered = 0
        for k in range(KILLS):
            process, port = self.start_process()
            before, word = self.page(), f"u{k}"
            after = before.replace("live there today.", f"live there today. {word}", 1)
            document, tag, told = self.prepared(word, port)
            timer = threading.Timer(random.uniform(0, longest), process.kill)
            timer.start()
            status = self.store(document, told, tag, port, k % 2 == 1)
            timer.join()
            process.wait()
            found = self.page()
            self.assertIn(found, (before, after))
            self.assertIn(status, (None, 200))
            self.assertEqual(self.is_stored(told), found == after)
            if status == 200:
                answered += 1
                self.assertEqual(found, after)
            elif found == after:
                unanswered += 1
        print(
            f"kills: {answered} of {KILLS} saves answered, {unanswered} stored and the answer cut off",
            file=sys.stderr,
        )

    def store(self, document: str, told: dict, tag: str, port: int, by_word: bool) -> "int | None":
        """The status of the answer, none where none came."""
        body = {"prepared": told["prepared"]} if by_word else {"html": document}
        headers = {"Content_Type": "application/json", "If_Match": tag}
        try:
            status, _, answer = self.ask("POST", "/save/Opava", json.dumps(body).encode(), port, **headers)
            json.loads(answer)
        except (OSError, http.client.HTTPException, json.JSONDecodeError):
            return None
        return status

    def test_a_kill_beside_the_storing(self) -> None:
        """Directly before a page takes its new name and directly after it nothing of an answer was sent."""
        for when in ("before", "after", "confirmed"):
            with self.subTest(when=when):
                before = self.page()
                _, _, told = self.killed_when_storing(when, by_word=True)
                self.assertEqual(self.page() != before, when != "before")
                self.assertEqual(self.is_stored(told), when != "before")

    def killed_when_storing(self, when: str, by_word: bool) -> tuple:
        """An edit that a server was to store which killed itself, its tag, and what its preview told."""
        process, port = self.start_process("-c", SUICIDE, when)
        document, tag, told = self.prepared(when, port)
        body = json.dumps({"prepared": told["prepared"]} if by_word else {"html": document}).encode()
        head = f"POST /save/Opava HTTP/1.1\r\nHost: localhost\r\nIf-Match: {tag}\r\n"
        about = f"Content-Type: application/json\r\nContent-Length: {len(body)}\r\n\r\n"
        self.assertEqual(self.raw((head + about).encode() + body, port=port), b"")
        self.assertEqual(process.wait(SECONDS), -signal.SIGKILL)
        return document, tag, told

    def test_a_save_that_is_sent_again_after_a_kill(self) -> None:
        """Whatever is stored is answered 200 as soon as it is asked; another edit of the same state isn't."""
        if not keeps_notes(self.root):
            self.skipTest("the file system here keeps no attributes of files")
        for by_word in (True, False):
            for when in ("before", "after", "confirmed"):
                with self.subTest(when=when, by_word=by_word):
                    self.send_again(when, by_word)

    def send_again(self, when: str, by_word: bool) -> None:
        before = self.page()
        document, tag, told = self.killed_when_storing(when, by_word)
        server = self.start()
        port, found = server.server_address[1], self.page()
        after = before.replace("live there today.", f"live there today. {when}", 1)
        self.assertEqual(found, before if when == "before" else after)
        body = json.dumps({"prepared": told["prepared"]}).encode()
        headers = {"Content_Type": "application/json", "If_Match": tag}
        self.assertEqual(self.ask("POST", "/save/Opava", body, port, **headers)[0], 410)
        if when != "before":
            for other, given in [
                (with_word(document, "else"), tag),
                (document + " ", tag),
                (document, 'W/"1/2"'),
                (document, tag[:-2] + '"'),
            ]:
                status, refused = self.save("Opava", other, given, port=port)
                self.assertEqual((status, refused["error"]), (412, "Stale"))
            status, refused = self.save("Opava", document, tag, "?preview=1", port=port)
            self.assertEqual((status, refused["error"], self.page()), (412, "Stale", after))
        for again in (when != "before", True):
            status, answer = self.save("Opava", document, tag, "?html=1", port=port)
            self.assertEqual((status, answer.get("stored_before", False)), (200, again), answer)
            self.assertEqual(answer["revision"], told["revision"])
            self.assertEqual((answer["html"], answer["etag"]), self.html("Opava", port=port))
            self.assertEqual(self.page(), after)
        (self.pages / "Opava.wiki").write_text(after + "by another")
        status, refused = self.save("Opava", document, tag, port=port)
        self.assertEqual((status, refused["error"], self.page()), (412, "Stale", after + "by another"))
        (self.pages / "Opava.wiki").write_text(before)

    def test_a_save_that_is_sent_again_where_no_note_is_kept(self) -> None:
        html, tag = self.html("Opava")
        fault = mock.patch("os.setxattr", side_effect=OSError(errno.ENOTSUP, "no"), create=True)
        with fault:
            self.assertEqual(self.save("Opava", with_word(html, "w"), tag)[0], 200)
        self.assertEqual(self.save("Opava", with_word(html, "w"), tag)[0], 412)

    def test_notes_of_others(self) -> None:
        """They are nobody's save."""
        html, tag = self.html("Opava")
        document = with_word(html, "w")
        made = hashlib.sha256((self.page() + "x").encode()).hexdigest()
        request = Request("POST", [], {}, {"if-match": tag}, lambda: b"")
        sent = sent_in(request, "Opava", {"html": document})
        (self.pages / "Opava.wiki").write_text(self.page() + "x")
        start = f"{sent} {made} ".encode()
        notes = [b"", b"\xff", b"x" * 9000, start, start + b"\xff", start + b"x", start + tag.encode() + b"x"]
        for note in [*notes, f"{made} {made} {tag}".encode(), f"{sent} {sent} {tag}".encode()]:
            with self.subTest(note=note[:60]), mock.patch.object(PageFolder, "note", return_value=note):
                self.assertEqual(self.save("Opava", document, tag)[0], 412)
        with mock.patch.object(PageFolder, "note", return_value=start + tag.encode()):
            self.assertEqual(self.save("Opava", document, tag)[0], 200)

    def test_an_end_by_signal(self) -> None:
        for number in (signal.SIGINT, signal.SIGTERM):
            process, port = self.start_process()
            self.html("Opava", port=port)
            process.send_signal(number)
            self.assertEqual(process.wait(SECONDS), 0)

    def test_an_end_by_signal_while_a_thread_begins(self) -> None:
        """The signal isn't lost where the thread has answered already, and so given its room back."""
        start = threading.Thread.start

        def start_and_interrupt(thread: threading.Thread) -> None:
            start(thread)
            thread.join()
            raise KeyboardInterrupt

        client, connection = socket.socketpair()
        client.close()
        with mock.patch.object(threading.Thread, "start", start_and_interrupt):
            with self.assertRaises(KeyboardInterrupt):
                self.server.process_request(connection, ("127.0.0.1", 1))


if __name__ == "__main__":
    unittest.main()
