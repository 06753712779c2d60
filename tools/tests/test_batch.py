"""wtround-batch over made wikis, with the program that the repository builds, and with a stand-in for it."""
import gzip
import json
import os
import resource
import shlex
import signal
import sqlite3
import subprocess
import sys
import tempfile
import time
import unittest
from itertools import product
from pathlib import Path
from unittest import mock
from urllib.parse import quote, unquote
from xml.sax.saxutils import escape

from loading import REPOSITORY, TOOLS
from terminal import HAS_TERMINALS, run_on_terminal
from timing import TimedCase

sys.dont_write_bytecode = True
sys.path.insert(0, str(TOOLS))
from wtround_batch import engine, examine, program, wiki  # noqa: E402

PROGRAM = REPOSITORY / "crates/wtround_cases/out/wtround_cases"
STAND_IN = Path(__file__).resolve().parent / "stand_in.py"
# Two thousand pages then take ten seconds at least with one worker: a run is met in its middle on any machine.
PAUSE = 0.005
PAGE_LIMIT = 2_097_152


def is_askable() -> bool:
    """Whether the program is built, and answers line by line."""
    if not os.access(PROGRAM, os.X_OK):
        return False
    process = subprocess.Popen([str(PROGRAM)], stdin=subprocess.PIPE, stdout=subprocess.PIPE)
    process.stdin.write(b"\t\t\tnames\n")
    process.stdin.flush()
    os.set_blocking(process.stdout.fileno(), False)
    answer = None
    for _ in range(100):
        answer = answer or process.stdout.read()
        time.sleep(0 if answer else 0.1)
    process.kill()
    process.communicate()
    return bool(answer) and answer.startswith(b"1\t")


IS_ASKABLE = is_askable()


def file_name(title: str) -> str:
    return quote(title.replace(" ", "_"), safe="").replace("~", "%7E") + ".wiki"


def hexed(text: "str | bytes") -> str:
    return (text if isinstance(text, bytes) else text.encode()).hex()


@unittest.skipUnless(IS_ASKABLE, "wtround_cases is not built here")
class BatchCase(unittest.TestCase):
    program = PROGRAM

    def setUp(self) -> None:
        folder = tempfile.TemporaryDirectory()
        self.addCleanup(folder.cleanup)
        self.root = Path(folder.name)
        self.pages = self.root / "pages"
        self.pages.mkdir()

    def write(self, title: str, text: "str | bytes") -> None:
        (self.pages / file_name(title)).write_bytes(text if isinstance(text, bytes) else text.encode())

    def command(self, *words: str) -> "list[str]":
        program = [] if words[0] == "gather" else ["--program", str(self.program)]
        return [sys.executable, str(TOOLS / "batch"), *words, *program]

    def environment(self) -> "dict[str, str]":
        return {**os.environ, "REAL_CASES": str(PROGRAM)}

    def start(self, *words: str, pause: float = 0) -> "subprocess.Popen[bytes]":
        """Begins a run. The stand-in rests for `pause` seconds before each answer."""
        streams = {"stdin": subprocess.DEVNULL, "stdout": subprocess.PIPE, "stderr": subprocess.PIPE}
        environment = {**self.environment(), "PAUSE": str(pause)}
        return subprocess.Popen(
            self.command(*words), cwd=self.root, env=environment, start_new_session=True, **streams
        )

    def run_tool(self, *words: str, status: int = 0, stdin: bytes = b"") -> "tuple[bytes, str]":
        """Standard output, and standard error."""
        command = self.command(*words)
        streams = {"input": stdin, "stdout": subprocess.PIPE, "stderr": subprocess.PIPE}
        done = subprocess.run(command, cwd=self.root, env=self.environment(), timeout=300, **streams)
        self.assertEqual(done.returncode, status, done.stderr.decode())
        return done.stdout, done.stderr.decode()

    def report(self, *words: str, status: int = 0) -> dict:
        """The JSON of the report of a run."""
        self.run_tool(*words, "--report", "report.html", status=status)
        return json.loads((self.root / "report.json").read_text())

    def lines(self, name: str = "lines") -> "list[dict]":
        return [json.loads(line) for line in (self.root / name).read_bytes().splitlines()]

    def wait_for(self, holds) -> None:
        end = time.monotonic() + 120
        while not holds():
            self.assertLess(time.monotonic(), end)
            time.sleep(0.01)

    def failures(self, report: dict) -> "list[tuple[str, str, str]]":
        return sorted((f["title"], f["command"], f["line"]) for f in report["failures"])


def answers_with_all(pages: "dict[str, bytes]", words: "list[list[str]]") -> "list[list[str]]":
    """What the program answers when each case has all pages of the wiki."""
    folder = ",".join(f"{hexed(title)}={hexed(text)}" for title, text in pages.items())
    lines = "".join(",".join(map(hexed, case)) + f"\t\t{folder}\n" for case in words)
    done = subprocess.run([str(PROGRAM)], input=lines.encode(), stdout=subprocess.PIPE, check=True)
    return [line.split("\t") for line in done.stdout.decode().splitlines()]


class TwoThousandPages(BatchCase):
    """A made wiki whose every count is known."""

    def make(self) -> None:
        self.write("Template:T", "'''t'''")
        self.write("Template:Outer", "{{Inner|{{{1}}}}} and {{T}}")
        self.write("Template:Inner", "''{{{1}}}''")
        self.write("Template:Bad", b"''x'' \xe9")
        for k in range(1000):
            self.write(f"Plain {k}", f"== Part {k} ==\nA word ''{k}'' and [[Page {k}]].\n\n* item\n")
        for k in range(960):
            self.write(f"Calls {k}", f"Begin {{{{Outer|{k}}}}}, {{{{absent {k}}}}}.\n\n{{{{T}}}}\n")
        for k in range(20):
            self.write(f"Latin {k}", b"M\xfcnze\n")
        for k in range(9):
            self.write(f"Uses {k}", "One.\nTwo {{Bad}}.")
        for k in range(7):
            self.write(f"Deep {k}", "{{a|" * 101 + "}}" * 101)

    def test_report_is_exact(self) -> None:
        self.make()
        report = self.report("wikitext,ranges")
        self.assertEqual(report["pages"], 2000)
        self.assertTrue(report["finished"])
        refused = 20 + 1 + 9 + 7  # the bad template is a page too
        counts = {"wikitext": {"came back": 2000 - refused, "refused": refused}}
        counts["ranges"] = {"answered": 2000 - refused, "refused": refused}
        self.assertEqual(report["outcomes"], counts)
        self.assertEqual(report["failed_pages"], refused)
        reasons = {"page not UTF-8": 42, "a template is not UTF-8": 18, "braces too deep": 14}
        self.assertEqual(report["reasons"], reasons)
        wanted = [(f"Latin {k}", "page not UTF-8 at 1") for k in range(20)] + [
            ("Template:Bad", "page not UTF-8 at 7")
        ]
        wanted += [(f"Uses {k}", "Template:Bad not UTF-8 at 7") for k in range(9)]
        wanted += [(f"Deep {k}", "braces too deep at 400") for k in range(7)]
        both = sorted(
            (title, command, line) for title, line in wanted for command in ("wikitext", "ranges")
        )
        self.assertEqual(self.failures(report), both)
        uses = next(f for f in report["failures"] if f["title"] == "Uses 3")
        explained = uses["explain"]
        self.assertEqual(
            (explained["page"], explained["line"], explained["column"]), ("Template:Bad", 1, 8)
        )
        self.assertIn("the template stops being UTF-8", explained["advice"])
        self.assertEqual(uses["link"], "pages/Uses_3.wiki")
        self.assertEqual(report["bytes"], sum(path.stat().st_size for path in self.pages.iterdir()))

    def test_html_of_the_report(self) -> None:
        self.make()
        report = self.report("wikitext")
        text = (self.root / "report.html").read_text()
        self.assertNotRegex(
            text, r"<script|<link|<img|<iframe|@import|url\(|https?://(?!www\.w3\.org/2000/svg)"
        )
        for failure in report["failures"]:
            self.assertIn(f'<a href="{failure["link"]}">{failure["title"]}</a>', text)
        for number in ("2,000", "1,963  (98.2 %)", "37  (1.9 %)"):
            self.assertIn(number, text)
        self.assertEqual(text.count("<svg"), text.count("</svg>"))
        self.assertGreaterEqual(text.count("<svg"), 4)

    def test_killed_in_the_middle_and_gone_on(self) -> None:
        self.make()
        self.program = STAND_IN
        running = self.start("wikitext", "--json", "lines", "-j", "1", pause=PAUSE)
        state = self.root / "wtround-batch.sqlite"
        self.wait_for(lambda: state.exists() and self.stored(state) >= 50)
        running.kill()
        running.communicate()
        self.assertLess(self.stored(state), 2000, "it was too fast to be killed")
        self.assert_nothing_runs()
        report = self.report("wikitext", "--json", "lines")
        self.assertGreaterEqual(report["kept"], 50)
        self.assertEqual(report["outcomes"], {"wikitext": {"came back": 1963, "refused": 37}})
        titles = [line["title"] for line in self.lines()]
        self.assertEqual((len(titles), len(set(titles))), (2000, 2000))
        again = self.report("wikitext", "--json", "lines")
        self.assertEqual((again["kept"], again["outcomes"]), (2000, report["outcomes"]))
        self.assertEqual(len(self.lines()), 2000)

    def stored(self, state: Path, chosen: str = "", what: str = "count(*)") -> int:
        try:
            connection = sqlite3.connect(f"file:{state}?mode=ro", uri=True)
            try:
                return connection.execute(f"SELECT {what} FROM result {chosen}").fetchone()[0]
            finally:
                connection.close()
        except sqlite3.Error:
            return 0

    def assert_nothing_runs(self) -> None:
        """No process that works in this test's folder is left."""
        self.wait_for(lambda: not processes_in(self.root))

    def interrupted(self, number: int) -> None:
        """A run is stopped as a terminal stops it, or the system: all processes of its group are told."""
        state = self.root / "wtround-batch.sqlite"
        earlier = self.stored(state, what="max(run)") or 0
        words = ["wikitext", "--again", "--report", "report.html", "-j", "1"]
        running = self.start(*words, pause=PAUSE)
        self.wait_for(lambda: self.stored(state, f"WHERE run > {earlier}") >= 50)
        os.killpg(running.pid, number)
        told = running.communicate()[1].decode()
        self.assertEqual(running.returncode, 130, told)
        self.assertIn("stopped; the same words go on from here", told)
        self.assertNotIn("Traceback", told)

    def test_interrupted_and_gone_on(self) -> None:
        self.make()
        self.program = STAND_IN
        for number in (signal.SIGTERM, signal.SIGINT):
            self.interrupted(number)
        report = json.loads((self.root / "report.json").read_text())
        self.assertFalse(report["finished"])
        self.assertIn("The run was stopped before its end", (self.root / "report.html").read_text())
        self.assert_nothing_runs()
        whole = self.report("wikitext")
        self.assertEqual((whole["kept"], whole["pages"], whole["finished"]), (report["pages"], 2000, True))

    def test_two_runs_at_once(self) -> None:
        self.make()
        self.program = STAND_IN
        first = self.start("wikitext", "-j", "1", pause=PAUSE)
        self.wait_for(lambda: self.stored(self.root / "wtround-batch.sqlite") >= 1)
        _, told = self.run_tool("wikitext", status=1)
        self.assertIn(f"another run (process {first.pid}) is at work with this file of results", told)
        told = first.communicate()[1].decode()
        self.assertEqual(first.returncode, 0)
        self.assertRegex(told, "2,000 pages: 1,963 came back, 37 refused")

    def test_memory_does_not_grow_with_the_pages(self) -> None:
        """2,000 pages take no more than 6 MB over what 100 take."""
        self.make()
        (self.root / "few").write_text("".join(f"Calls {k}\n" for k in range(100)))
        # (each process more takes some of it, too)
        peaks = [self.peak("wikitext", "-j", "4", *words) for words in (("--list", "few"), ("--again",))]
        self.assertLess(peaks[1] - peaks[0], 6 << 10)

    def peak(self, *words: str) -> int:
        """The peak memory in KB of the process that leads a run."""
        run = (
            "import resource, runpy, sys\nsys.argv = sys.argv[1:]\nrunpy.run_path(sys.argv[0])['main']()\n"
        )
        run += "print(resource.getrusage(resource.RUSAGE_SELF).ru_maxrss)"
        command = [sys.executable, "-c", run, *self.command(*words)[1:]]
        done = subprocess.run(
            command, cwd=self.root, stdout=subprocess.PIPE, stderr=subprocess.DEVNULL, check=True
        )
        return int(done.stdout)


class Templates(BatchCase):
    """Each case has only the templates that its page takes, and has all of them."""

    WIKI = {
        "Template:Name": "T",
        "Template:T": "'''t'''",
        "Template:Key": "1",
        "Template:Show": "<{{{1|nothing}}}>",
        "Template:Hide": "hidden",
        "Template:Chain": "{{ {{Name}} }}",
        "Template:Never": "never",
        "Template:Includes": "<noinclude>{{Never}}</noinclude>{{Show|a}}",
        "Template:Self": "a {{Self}}",
        "User:Box": "a box",
        "Article": "an article {{Never}}",
        "Made name": "{{ {{Name}} }}",
        "Key": "{{Show|{{Key}}=v}}",
        "Hidden": "{{Hide|{{T}}}} <nowiki>{{Never}}</nowiki> {{#expr:{{Never}}}}",
        "Chosen": "{{#if:{{T}}|{{#switch:{{Hide}}|hidden={{Show}}|{{Never}}}}|{{Never}}}}",
        "Made twice": "{{Chain}} {{:Article}} {{user:Box}}",
        "Self": "{{Self}} {{:Self}} {{Includes}} {{no such}}",
        "In a comment": "{{Sh<!-- Never -->ow|1}} {{\nT\n}}",
        "None": "no call",
    }
    TAKEN = {
        "Made name": ["Template:Name", "Template:T"],
        "Key": ["Template:Show", "Template:Key"],
        "Hidden": ["Template:Hide", "Template:T"],
        "Chosen": ["Template:T", "Template:Hide", "Template:Show"],
        "Made twice": [
            "Template:Chain",
            "Template:Name",
            "Template:T",
            "Article",
            "Template:Never",
            "User:Box",
        ],
        "Self": ["Template:Self", "Template:Includes", "Template:Show", "Template:No such"],
        "In a comment": ["Template:Show", "Template:T"],
        "None": [],
    }

    def test_answers_are_those_of_the_whole_wiki(self) -> None:
        pages = {title: text.encode() for title, text in self.WIKI.items()}
        for title, text in pages.items():
            self.write(title, text)
        self.run_tool("html,ranges,expand", "--json", "lines")
        lines = {line["title"]: line for line in self.lines()}
        self.assertEqual(sorted(lines), sorted(pages))
        words = [[command, title] for title in pages for command in ("html", "ranges", "expand")]
        for (command, title), (status, out, _) in zip(words, answers_with_all(pages, words)):
            with self.subTest(command=command, title=title):
                self.assertEqual(
                    (status, lines[title][command]["output"]), ("0", bytes.fromhex(out).decode())
                )
        for title, names in self.TAKEN.items():
            with self.subTest(title=title):
                self.assertEqual(sorted(lines[title]["templates"]), sorted(names))

    def test_only_changed_pages_are_done_anew(self) -> None:
        for title, text in self.WIKI.items():
            self.write(title, text)
        self.assertEqual(self.report("html", "--json", "lines")["kept"], 0)
        count = len(self.WIKI)
        self.assertEqual(self.report("html", "--json", "lines")["kept"], count)
        done = self.changed("None", "a change")
        self.assertEqual(done, {"None"})
        self.assertEqual(self.changed("Template:Key", "2"), {"Template:Key", "Key"})
        self.assertEqual(self.changed("Template:No such", "now it is"), {"Template:No such", "Self"})
        self.assertEqual(
            self.changed("Template:Name", "Hide"),
            {"Template:Name", "Template:Chain", "Made name", "Made twice"},
        )
        # The same bytes with another time are no change.
        os.utime(self.pages / "None.wiki", (1, 1))
        self.assertEqual(self.report("html", "--json", "lines")["kept"], count + 1)
        self.assertEqual(self.report("html", "--json", "lines", "--again")["kept"], 0)
        self.assertEqual(len(self.lines()), count + 1)

    def changed(self, title: str, text: str) -> "set[str]":
        """Which pages are done anew after this change."""
        before = len(self.lines())
        self.write(title, text)
        self.report("html", "--json", "lines")
        return {line["title"] for line in self.lines()[before:]}

    def test_a_file_that_is_gone_is_a_change(self) -> None:
        for title, text in self.WIKI.items():
            self.write(title, text)
        self.report("html", "--json", "lines")
        (self.pages / file_name("Template:Key")).unlink()
        before = len(self.lines())
        report = self.report("html", "--json", "lines")
        self.assertEqual({line["title"] for line in self.lines()[before:]}, {"Key"})
        self.assertEqual(report["pages"], len(self.WIKI) - 1)


class Outputs(BatchCase):
    def make(self) -> None:
        self.write("A/B", "a ''b'' é")
        self.write("Template:T", "t")
        self.write("Latin", b"\xfc")

    def test_files(self) -> None:
        self.make()
        self.run_tool("html,wikitext,expand", "-o", "out")
        names = {path.name for path in (self.root / "out").iterdir()}
        stems = ("A%2FB", "Template%3AT")
        self.assertEqual(names, {f"{stem}.{end}" for stem in stems for end in ("html", "wiki", "expanded")})
        self.assertEqual((self.root / "out/A%2FB.wiki").read_text(), "a ''b'' é")
        self.assertTrue((self.root / "out/A%2FB.html").read_text().startswith("<!DOCTYPE html>"))
        # A page that is refused from now on has no output any more.
        self.write("A/B", b"\xff")
        self.run_tool("html,wikitext,expand", "-o", "out")
        self.assertEqual(
            {path.name for path in (self.root / "out").iterdir()}, {n for n in names if n[0] == "T"}
        )

    def test_compressed_files(self) -> None:
        self.make()
        self.run_tool("wikitext", "-o", "out", "--compress")
        self.assertEqual(
            gzip.decompress((self.root / "out/A%2FB.wiki.gz").read_bytes()).decode(), "a ''b'' é"
        )

    def test_compressed_lines_and_a_cut_file(self) -> None:
        for k in range(100):
            self.write(f"P{k}", f"page {k}")
        self.run_tool("wikitext", "--json", "lines.gz", "-z")
        path = self.root / "lines.gz"
        lines = [json.loads(line) for line in gzip.decompress(path.read_bytes()).splitlines()]
        self.assertEqual(
            sorted(line["wikitext"]["output"] for line in lines), sorted(f"page {k}" for k in range(100))
        )
        # What was written behind the last stored result is cut off; where some is missing all is made anew.
        path.write_bytes(path.read_bytes() + b"rest of a line")
        self.assertEqual(self.report("wikitext", "--json", "lines.gz", "-z")["kept"], 100)
        self.assertEqual(len(gzip.decompress(path.read_bytes()).splitlines()), 100)
        path.write_bytes(path.read_bytes()[:-20])
        self.assertEqual(self.report("wikitext", "--json", "lines.gz", "-z")["kept"], 0)
        self.assertEqual(len(gzip.decompress(path.read_bytes()).splitlines()), 100)

    def test_a_file_of_others_is_left_alone(self) -> None:
        self.make()
        (self.root / "lines").write_text("mine\n")
        self.assertIn("holds no lines", self.run_tool("html", "--json", "lines", status=1)[1])
        self.assertEqual((self.root / "lines").read_text(), "mine\n")

    def test_list_and_namespaces(self) -> None:
        self.make()
        self.write("Talk:X", "x")
        (self.root / "list").write_text("a/B\n\nNowhere\nA[b\nTemplate:t\n")
        report = self.report("html", "--list", "list")
        self.assertEqual(report["outcomes"]["html"], {"answered": 2, "absent": 1})
        self.assertEqual(report["skipped"], [{"title": "A[b", "why": "the title has the character ["}])
        for words, count in (
            (["main"], 2),
            (["0"], 2),
            (["Template", "1"], 2),
            (["talk"], 1),
            (["Help"], 0),
        ):
            with self.subTest(words=words):
                chosen = [part for word in words for part in ("--namespace", word)]
                self.assertEqual(self.report("html", *chosen)["pages"], count)

    def test_files_that_are_no_pages(self) -> None:
        self.make()
        for name in ("small.wiki", "A%2fB.wiki", "%zz.wiki", "note.txt", ".import-7.wiki"):
            (self.pages / name).write_text("x")
        report = self.report("html")
        self.assertEqual(report["pages"], 3)
        self.assertEqual(
            sorted(entry["title"] for entry in report["skipped"]), ["%zz.wiki", "A%2fB.wiki", "small.wiki"]
        )

    @unittest.skipIf(os.geteuid() == 0, "root may read everything")
    def test_a_file_that_cannot_be_read(self) -> None:
        self.make()
        (self.pages / "Template%3AT.wiki").chmod(0)
        self.assertEqual(self.report("html")["outcomes"]["html"]["unreadable"], 1)

    def test_a_directory_and_a_pipe_among_the_pages(self) -> None:
        self.make()
        (self.pages / "Folder.wiki").mkdir()
        os.mkfifo(self.pages / "Pipe.wiki")  # to open it could be to wait for ever
        self.assertEqual(
            self.report("html")["outcomes"]["html"], {"answered": 2, "refused": 1, "unreadable": 2}
        )

    def test_the_longest_page(self) -> None:
        self.write("Most", "a" * PAGE_LIMIT)
        self.write("More", "a" * (PAGE_LIMIT + 1))
        report = self.report("wikitext")
        self.assertEqual(report["outcomes"]["wikitext"], {"came back": 1, "refused": 1})
        self.assertEqual(report["reasons"], {"page too long": 1})


class Exports(BatchCase):
    def page(self, title: str, text: str, number: int = 7) -> str:
        text = f"<id>{number}</id><text>{escape(text)}</text>"
        return f"<page><title>{title}</title><revision>{text}</revision></page>\n"

    def export(self, *pages: str, name: str = "export.xml") -> str:
        head = "<mediawiki>\n<siteinfo><base>https://wiki.example/wiki/Main_Page</base></siteinfo>\n"
        (self.root / name).write_text(head + "".join(pages) + "</mediawiki>\n")
        return name

    def test_straight_over_an_export(self) -> None:
        name = self.export(
            self.page("Main Page", "a {{t}}", 12), self.page("Template:T", "t"), self.page("A[b", "x")
        )
        report = self.report("wikitext", name, "--json", "lines")
        self.assertEqual(report["outcomes"]["wikitext"], {"came back": 2})
        self.assertEqual(report["skipped"], [{"title": "A[b", "why": "the title has the character ["}])
        self.assertEqual(report["largest"][0]["link"], "https://wiki.example/wiki/Main_Page")
        line = next(line for line in self.lines() if line["title"] == "Main Page")
        self.assertEqual((line["revision"], line["templates"]), ("12", ["Template:T"]))
        self.assertEqual(self.report("wikitext", name, "--json", "lines")["kept"], 2)

    def test_a_file_whose_name_is_not_utf8(self) -> None:
        self.write("One", b"1")
        try:
            (self.pages / os.fsdecode(b"M\xfcnze.wiki")).write_bytes(b"x")
        except OSError:
            self.skipTest("this file system has no such names")
        report = self.report("wikitext")
        self.assertEqual(report["outcomes"]["wikitext"], {"came back": 1})
        self.assertEqual(report["skipped"], [{"title": "M\\xfcnze.wiki", "why": "its file name is not UTF-8"}])

    def test_a_folder_whose_name_is_not_utf8(self) -> None:
        self.root /= os.fsdecode(b"M\xfcnze")
        try:
            self.root.mkdir()
        except OSError:
            self.skipTest("this file system has no such names")
        report = self.report("wikitext", self.export(self.page("One", "1"), self.page("Two", "2")))
        self.assertEqual(report["outcomes"]["wikitext"], {"came back": 2})
        self.pages = self.root / "pages"
        self.pages.mkdir()
        self.write("Latin", b"\xfc")
        (failure,) = self.report("wikitext", "--state", "other", "--pages", str(self.pages))["failures"]
        self.assertEqual(failure["link"], "pages/Latin.wiki")

    def test_a_later_export(self) -> None:
        one, two = self.page("One", "1 {{t}}"), self.page("Two", "2")
        self.report("html", self.export(one, two, self.page("Template:T", "t")))
        report = self.report(
            "html", self.export(one, self.page("Two", "changed", 8), self.page("Three", "3"))
        )
        self.assertEqual((report["pages"], report["kept"]), (3, 0))  # the template is gone
        report = self.report("html", self.export(self.page("Three", "3", 9), one))
        self.assertEqual((report["pages"], report["kept"]), (2, 2))

    def test_a_broken_page(self) -> None:
        good = [self.page(f"Good {k}", f"text {k}") for k in range(3000)]
        broken = "<page><title>Broken</title><revision><text>a</revision></page>\n"
        entity = "<page><title>Entity</title><revision><text>&nbsp;</text></revision></page>\n"
        name = self.export(*good[:1500], broken, *good[1500:2000], entity, *good[2000:])
        report = self.report("wikitext", name, status=1)
        self.assertEqual(report["outcomes"]["wikitext"], {"came back": 3000})
        self.assertFalse(report["export_whole"])
        self.assertEqual([entry["title"] for entry in report["skipped"]], ["Broken", "Entity"])
        # Two lines stand before the first page.
        self.assertRegex(report["skipped"][0]["why"], "^broken at line 1503, .*mismatched tag")
        self.assertRegex(report["skipped"][1]["why"], "^broken at line 2004, .*undefined entity")
        self.assertIn("The export is broken", (self.root / "report.html").read_text())

    def test_a_cut_export(self) -> None:
        name = self.export(self.page("One", "1"), self.page("Two", "2"))
        text = (self.root / name).read_text()
        (self.root / name).write_text(text[: text.index("Two") + 40])
        report = self.report("wikitext", name, status=1)
        self.assertEqual(report["outcomes"]["wikitext"], {"came back": 1})
        packed = gzip.compress(text.encode())
        (self.root / "cut.gz").write_bytes(packed[:-20])
        self.assertFalse(self.report("wikitext", "cut.gz", status=1)["export_whole"])

    def test_no_export(self) -> None:
        (self.root / "page.html").write_text("<html></html>")
        self.assertIn("the outermost element is html", self.run_tool("html", "page.html", status=1)[1])
        self.assertIn("No such file", self.run_tool("html", "absent.xml", status=1)[1])

    def test_titles_that_no_file_can_have(self) -> None:
        title = "ж" * 120  # 720 bytes as a file name
        name = self.export(
            self.page(title, "x"),
            self.page("Template:" + title, "y"),
            self.page("Calls", f"{{{{{title}}}}}"),
        )
        self.run_tool("expand", name, "-o", "out")
        files = sorted((self.root / "out").iterdir())
        self.assertEqual(len(files), 3)
        self.assertEqual((self.root / "out/Calls.expanded").read_text(), "y")


class Limits(BatchCase):
    """Pages at which the program dies, hangs or lacks memory."""

    program = STAND_IN

    def test_one_dies_and_one_hangs(self) -> None:
        for title in ("Dies", "Hangs", "Dies once", *(f"P{k}" for k in range(50))):
            self.write(title, "text")
        # Within these seconds the stand-in begins anew and answers, whatever else the machine does.
        limit = ("--time-limit", "20")
        report = self.report("wikitext", *limit, "--json", "lines")
        self.assertEqual(report["outcomes"]["wikitext"], {"came back": 51, "died": 1, "too slow": 1})
        failures = [
            ("Dies", "wikitext", "the program died: it was ended by SIGABRT"),
            ("Hangs", "wikitext", "no answer within 20 seconds"),
        ]
        self.assertEqual(self.failures(report), failures)
        # These results hold as long as the limits do.
        self.assertEqual(self.report("wikitext", *limit, "--json", "lines")["kept"], 53)
        self.assertEqual(self.report("wikitext", "--time-limit", "1", "--json", "lines")["kept"], 51)

    def test_found_while_templates_are_sought(self) -> None:
        self.write("Dies", "{{t}}")
        self.write("Good", "{{t}}")
        report = self.report("html,ranges")
        self.assertEqual(
            [line[:2] for line in self.failures(report)], [("Dies", "html"), ("Dies", "ranges")]
        )
        self.assertEqual(self.report("html,ranges")["kept"], 2)
        self.write("Template:T", "now there")
        self.assertEqual(self.report("html,ranges")["kept"], 0)

    def test_want_of_memory(self) -> None:
        self.program = PROGRAM
        self.write("Letters", "a\n\n" * 690_000)
        for k in range(50):
            self.write(f"P{k}", "text")
        report = self.report("html", "--memory-limit", "60")
        self.assertEqual(report["outcomes"]["html"], {"answered": 50, "no memory": 1})
        words = shlex.join(self.command("html", "--again", "--report", "limited.html"))
        limit = 600_000  # KB, enough for Python
        subprocess.run(
            ["bash", "-c", f"ulimit -v {limit}; exec {words}"],
            cwd=self.root,
            stderr=subprocess.DEVNULL,
            check=True,
        )
        limited = json.loads((self.root / "limited.json").read_text())
        self.assertEqual(limited["outcomes"]["html"]["answered"], 50)
        self.assertEqual([failure["title"] for failure in limited["failures"]], ["Letters"])

    def test_a_worker_that_is_ended(self) -> None:
        """All pages are answered, though workers are ended again and again."""
        for k in range(2000):
            self.write(f"P{k}", "some words\n")
        running = self.start("wikitext", "--report", "report.html", "-j", "2", pause=PAUSE)
        ended = 0
        while ended < 3 and running.poll() is None:
            workers = workers_of(running.pid)
            if len(workers) == 2:
                os.kill(workers[ended % 2], signal.SIGKILL)
                ended += 1
            time.sleep(0.05)
        told = running.communicate()[1].decode()
        self.assertEqual(running.returncode, 0, told)
        self.assertEqual(ended, 3, "it was too fast to be disturbed")
        outcomes = json.loads((self.root / "report.json").read_text())["outcomes"]["wikitext"]
        self.assertEqual(sum(outcomes.values()), 2000)
        self.assertGreaterEqual(outcomes["came back"], 1997)

    def test_workers_that_get_no_page(self) -> None:
        """They are forked before it is known how much there is to do, and end with the run."""
        self.program = PROGRAM
        self.write("One", "some words\n")
        self.assertEqual(self.report("wikitext", "-j", "8")["outcomes"]["wikitext"], {"came back": 1})
        self.wait_for(lambda: not processes_in(self.root))

    def test_the_nursery_is_ended(self) -> None:
        """Then no worker can be started any more: the run says so, ends, and can be gone on with."""
        for k in range(2000):
            self.write(f"P{k}", "some words\n")
        running = self.start("wikitext", "-j", "2", pause=PAUSE)
        self.wait_for(lambda: len(workers_of(running.pid)) == 2 or running.poll() is not None)
        self.assertIsNone(running.poll(), "it was too fast to be disturbed")
        os.kill(nursery_of(running.pid)[0], signal.SIGKILL)
        told = running.communicate()[1].decode()
        self.assertEqual(running.returncode, 1, told)
        self.assertIn("the process that starts the others was ended", told)
        self.assertNotIn("Traceback", told)
        self.assertEqual(self.report("wikitext")["outcomes"]["wikitext"], {"came back": 2000})


def children_of(process_id: int) -> "list[int]":
    children = []
    for path in Path("/proc").glob("[0-9]*/stat"):
        try:
            if int(path.read_text().rpartition(")")[2].split()[1]) == process_id:
                children.append(int(path.parent.name))
        except OSError:
            pass
    return children


def processes_in(folder: Path) -> "list[int]":
    """Those whose working folder this is."""
    found = []
    for path in Path("/proc").glob("[0-9]*/cwd"):
        try:
            if path.resolve() == folder.resolve():
                found.append(int(path.parent.name))
        except OSError:
            pass
    return found


def is_named(process_id: int, name: str) -> bool:
    try:
        return Path(f"/proc/{process_id}/comm").read_text().rstrip("\n") == name
    except OSError:
        return False


def nursery_of(leader: int) -> "list[int]":
    """The process that forks the workers, where it is there by now."""
    return [process_id for process_id in children_of(leader) if is_named(process_id, "batch-nursery")]


def workers_of(leader: int) -> "list[int]":
    children = [child for nursery in nursery_of(leader) for child in children_of(nursery)]
    return [process_id for process_id in children if is_named(process_id, "batch-worker")]


class Lint(BatchCase):
    program = STAND_IN

    def test_doubtful_places(self) -> None:
        self.write("One", "'''a\n== b =\n")
        self.write("Two", "'''a\n\n'''b\n")
        self.write("Good", "'''a'''")
        report = self.report("lint", "--json", "lines")
        findings = report["findings"]
        self.assertEqual(
            {k: (v["places"], v["pages"]) for k, v in findings.items()},
            {"OpenStyle": (3, 2), "UnequalHeading": (1, 1)},
        )
        example = {"title": "Two", "places": 2, "first": [1, 1, 0, 4], "link": "pages/Two.wiki"}
        self.assertEqual(findings["OpenStyle"]["examples"][0], example)
        text = (self.root / "report.html").read_text()
        self.assertIn("bold or italic text that nothing closes: 3", text)
        self.assertIn("3 on 2 pages", text)
        line = next(line for line in self.lines() if line["title"] == "One")
        self.assertEqual(
            line["lint"]["findings"]["first"], [["OpenStyle", 1, 1, 0, 4], ["UnequalHeading", 2, 1, 5, 11]]
        )

    def test_a_program_that_lacks_a_command(self) -> None:
        lacking = self.root / "lacking"
        lacking.write_text(
            "#!/bin/sh\nwhile read -r line; do printf '1\\t\\t7774726f756e643a2075736167653a200a\\n'; done\n"
        )
        lacking.chmod(0o755)
        self.program = lacking
        _, told = self.run_tool("lint", status=2)
        self.assertIn(f"{lacking} does not know the command lint", told)


class OtherBytes(BatchCase):
    def test_a_page_that_comes_back_otherwise(self) -> None:
        changing = self.root / "changing"
        changing.write_text(f"#!/bin/sh\nexec {shlex.quote(str(PROGRAM))} | sed -u 's/^0\\t6768/0\\t6778/'\n")
        changing.chmod(0o755)
        self.program = changing
        self.write("Good", "abc")
        self.write("Bad", "gh")
        report = self.report("wikitext", status=3)
        self.assertEqual(
            self.failures(report), [("Bad", "wikitext", "the page that came back differs from byte 1 on")]
        )


class CalledNames(TimedCase):
    """The names that a text's calls have written out."""

    def test_names(self) -> None:
        for text, names in {
            b"{{a}} {{ A | b }} {{a_b\n|x}}": ["Template:A", "Template:A b"],
            b"{{:a}} {{user:x}} {{{1}}} {{ }} {{a\tb}}": ["A", "User:X", "Template:1"],
        }.items():
            self.assertEqual(examine.called_names(text), names, text)

    def test_they_take_time_in_proportion(self) -> None:
        for front, piece, back in ((b"", b"{", b""), (b"{{", b" ", b"a"), (b"{{a", b"\n", b"[")):
            with self.subTest(front=front, piece=piece):
                self.assert_time_in_proportion(
                    lambda text: self.assertEqual(examine.called_names(text), []),
                    lambda count: front + piece * count + back,
                    125_000,
                )


class FileNames(unittest.TestCase):
    """Names of files that need no reading are taken for the title that reading them gives."""

    def title_by_reading(self, name: str) -> "str | None":
        try:
            title = wiki.full_name(unquote(name[: -len(".wiki")]))
        except wiki.importer.BadTitle:
            return None
        return title if wiki.importer.file_name(title) == name else None

    def title_of_file(self, name: str) -> "str | None":
        try:
            return wiki.title_of_file(name)
        except wiki.importer.BadTitle:
            return None

    def test_every_short_name(self) -> None:
        signs = ["A", "b", "7", "_", "-", ".", "~", ":", " ", "é", "%", "%3A", "%2F", "%C3%A9", "Talk", "\n"]
        stems = ["".join(stem) for length in range(5) for stem in product(signs, repeat=length)]
        stems += [letter * count for letter in ("A", "A_", "7-") for count in (127, 128, 254, 255, 256)]
        plain = 0
        for stem in stems:
            name = stem + ".wiki"
            self.assertEqual(self.title_of_file(name), self.title_by_reading(name), name)
            plain += wiki.PLAIN_FILE.fullmatch(name) is not None
        self.assertGreater(plain, 500)


class Asked:
    """Stands for the program: answers a case with its bytes, fails at `bad`, and keeps what is asked at once."""

    def __init__(self) -> None:
        self.groups: "list[list[bytes]]" = []

    def ask_all(self, questions: "list[program.Question]") -> "list[program.Answer | program.Failure]":
        self.groups.append([question.line for question in questions])
        return [
            program.Died("bad") if question.line == b"bad" else program.Answer(0, question.line, "", [], 0.0)
            for question in questions
        ]


class SideBySide(unittest.TestCase):
    """Pages that are asked about together."""

    def page(self, *lines: bytes) -> "examine.Asking[list[bytes]]":
        found = []
        for line in lines:
            try:
                answer = yield program.Question(line, 1.0)
                found.append(answer.out_hex)
            except program.Died as ending:
                found.append(str(ending).encode())
        return found

    def test_each_goes_on_with_its_own_answers(self) -> None:
        cases = Asked()
        pages = [self.page(b"a", b"b"), self.page(), self.page(b"bad", b"c", b"d"), self.page(b"e")]
        wanted = [[b"a", b"b"], [], [b"bad", b"c", b"d"], [b"e"]]
        self.assertEqual(examine.answered(cases, pages), wanted)
        self.assertEqual(cases.groups, [[b"a", b"bad", b"e"], [b"b", b"c"], [b"d"]])

    def test_a_long_one_is_asked_alone(self) -> None:
        cases = Asked()
        half, whole = b"h" * (examine.GROUP_BYTES // 2), b"w" * examine.GROUP_BYTES
        found = examine.answered(cases, [self.page(line) for line in (half, half, whole, b"a", half)])
        self.assertEqual(found, [[half], [half], [whole], [b"a"], [half]])
        self.assertEqual(cases.groups, [[half, half], [whole], [b"a", half]])


@unittest.skipUnless(IS_ASKABLE, "wtround_cases is not built here")
class Asking(unittest.TestCase):
    """The program itself, asked several cases at once."""

    def setUp(self) -> None:
        self.cases = program.Cases(str(PROGRAM))
        self.addCleanup(self.cases.close)

    def questions(self, texts: "list[bytes]") -> "list[program.Question]":
        return [program.Question(program.case(["html", "A"], b"", {"A": text}), 60.0) for text in texts]

    def test_answers_come_in_order_and_have_all_the_time(self) -> None:
        """Some of them are longer than a pipe holds, as are some of the cases."""
        texts = [b"one", b"two words\n" * 100_000, b"\xff", b"''three''", b"four\n\n" * 100_000]
        answers = self.cases.ask_all(self.questions(texts))
        self.assertEqual([answer.status for answer in answers], [0, 0, 2, 0, 0])
        alone = [self.cases.ask(question) for question in self.questions(texts)]
        self.assertEqual([answer.out_hex for answer in answers], [answer.out_hex for answer in alone])
        self.assertEqual(answers[2].line, "page not UTF-8 at 0")
        spent = program.processor_time(self.cases._process.pid)
        self.assertLessEqual(sum(answer.seconds for answer in answers + alone), spent)
        self.assertGreater(sum(answer.seconds for answer in answers + alone), spent / 2)

    def test_nothing_is_asked(self) -> None:
        self.assertEqual(self.cases.ask_all([]), [])


class Listed(program.Cases):
    """The program, with a list of the commands that it was asked for."""

    def __init__(self) -> None:
        super().__init__(str(PROGRAM))
        self.commands: "list[str]" = []

    def ask_all(self, questions: "list[program.Question]") -> "list[program.Answer | program.Failure]":
        for question in questions:
            word = question.line.split(b"\t")[0].split(b",")[0]
            self.commands.append(bytes.fromhex(word.decode()).decode())
        return super().ask_all(questions)


class Dictionary:
    """A wiki in memory."""

    def __init__(self, pages: "dict[str, bytes]") -> None:
        self.text = pages.get


@unittest.skipUnless(IS_ASKABLE, "wtround_cases is not built here")
class Questions(unittest.TestCase):
    """What the program is asked about a page: no more than is needed, and in the end with all templates."""

    WIKI = {
        "Template:T": b"'''t'''",
        "Template:Name": b"T",
        "Template:Chain": b"{{ {{Name}} }}",
        "None": b"no call",
        "Written": b"{{T}} {{no such}}",
        "Made": b"{{ {{Name}} }}",
        "Made by a template": b"{{Chain}}",
        "With a comment": b"{{<!-- -->T}}",
    }

    def asked(self, title: str, *commands: str) -> "tuple[list[str], examine.Examined]":
        cases = Listed()
        self.addCleanup(cases.close)
        examiner = examine.Examiner(Dictionary(self.WIKI), 60.0, wants_output=True)
        (examined,) = examine.answered(cases, [examiner.examine(title, "", list(commands))])
        return cases.commands, examined

    def test_there_and_back(self) -> None:
        for title, before, taken in (
            ("None", [], []),
            ("Written", [], ["Template:No such", "Template:T"]),
            ("With a comment", ["html"], ["Template:T"]),
            ("Made", ["expand"], ["Template:Name", "Template:T"]),
            ("Made by a template", ["expand"], ["Template:Chain", "Template:Name", "Template:T"]),
        ):
            with self.subTest(title=title):
                commands, examined = self.asked(title, "wikitext")
                self.assertEqual(sorted(set(commands[:-2])), before)
                self.assertEqual(commands[-2:], ["html", "wikitext"])
                self.assertEqual(sorted(examined.known.names), taken)
                self.assertEqual(examined.results["wikitext"].outcome, "came back")

    def test_one_html_serves_two_commands(self) -> None:
        commands, examined = self.asked("Written", "html", "wikitext", "ranges")
        self.assertEqual(commands, ["html", "wikitext", "ranges"])
        self.assertIn(b"<b", examined.results["html"].out)
        self.assertEqual(examined.results["wikitext"].out, self.WIKI["Written"])


class Settings(unittest.TestCase):
    """The settings of the environment with which the program is asked."""

    def program(self, text: str) -> str:
        folder = tempfile.TemporaryDirectory()
        self.addCleanup(folder.cleanup)
        path = Path(folder.name) / "program"
        path.write_text("#!/bin/sh\n" + text)
        path.chmod(0o755)
        return str(path)

    def settings(self, text: str, memory_limit: "int | None" = None) -> "dict[str, str]":
        return program.settings_for(self.program(text), ["html"], memory_limit)

    ANSWERS = "read case; printf '0\\t\\t\\t\\n'; read case\n"

    def setUp(self) -> None:
        """Whoever runs the tests has set nothing, and has all memory."""
        own = mock.patch.dict(os.environ)
        own.start()
        self.addCleanup(own.stop)
        os.environ.pop("LD_PRELOAD", None)
        limits = mock.patch("resource.getrlimit", return_value=(resource.RLIM_INFINITY, resource.RLIM_INFINITY))
        limits.start()
        self.addCleanup(limits.stop)

    def test_quick_ones_where_it_answers_with_them(self) -> None:
        self.assertEqual(self.settings(self.ANSWERS), program.QUICK)

    def test_plain_ones_where_it_ends_with_the_quick_ones(self) -> None:
        text = f'case "$LD_PRELOAD" in *mimalloc*) exit 1;; esac\n{self.ANSWERS}'
        self.assertEqual(self.settings(text), program.PLAIN)

    def test_plain_ones_where_memory_is_limited(self) -> None:
        self.assertEqual(self.settings(self.ANSWERS, 1 << 30), program.PLAIN)

    def test_what_the_user_sets_stays(self) -> None:
        text = f'[ -z "$LD_PRELOAD" ] || exit 1\n{self.ANSWERS}'
        with mock.patch.dict(os.environ, LD_PRELOAD=""):
            self.assertEqual(self.settings(text), program.QUICK)

    def test_one_that_never_answers(self) -> None:
        with self.assertRaises(program.ProgramError):
            self.settings("exit 1\n")


class LastPages(unittest.TestCase):
    """In what order pages are given out."""

    def sizes(self, sizes: "list[int]", jobs: int) -> "list[int]":
        tasks = (engine.Task(f"P{k}", "", "", size, None, None) for k, size in enumerate(sizes))
        ordered = engine.largest_first_at_the_end(tasks, lambda: len(sizes), jobs)
        return [task.size for task in ordered]

    def test_the_last_are_given_largest_first(self) -> None:
        count, last = 2000, engine.SORTED_PAGES * 2
        found = self.sizes(list(range(count)), 2)
        self.assertEqual(found, [*range(count - last), *range(count - 1, count - last - 1, -1)])

    def test_each_is_given_once(self) -> None:
        for count in range(200):
            found = self.sizes([k * 37 % 101 for k in range(count)], 1)
            self.assertEqual(sorted(found), sorted(k * 37 % 101 for k in range(count)))

    def test_no_page_is_counted_before_each_worker_has_its_first(self) -> None:
        ordered = engine.largest_first_at_the_end(
            (engine.Task("P", "", "", 1, None, None) for _ in range(100)), self.fail, 4
        )
        first = [next(ordered) for _ in range(engine.FIRST_BATCH_PAGES * engine.WAITING_BATCHES * 4)]
        self.assertEqual(len(first), 64)


class Words(BatchCase):
    def test_wrong_arguments(self) -> None:
        for words in (
            [],
            ["nothing"],
            ["html,"],
            ["html", "-z"],
            ["html", "-o", "a", "--json", "b"],
            ["html", "-j", "0"],
        ):
            with self.subTest(words=words):
                command = [sys.executable, str(TOOLS / "batch"), *words]
                done = subprocess.run(
                    command, cwd=self.root, stdout=subprocess.PIPE, stderr=subprocess.PIPE
                )
                self.assertEqual(done.returncode, 2)
        self.run_tool("wikitext", "-o", "pages", status=2)
        self.assertIn("No such file", self.run_tool("html", "--pages", "absent", status=1)[1])
        (self.root / "other.sqlite").write_text(
            "this is no database, but long enough for one to be looked for in it"
        )
        self.assertIn("not a database", self.run_tool("html", "--state", "other.sqlite", status=1)[1])
        self.program = self.root / "absent"
        self.assertIn("is no program", self.run_tool("html", status=2)[1])

    def test_an_empty_folder(self) -> None:
        report = self.report("wikitext")
        self.assertEqual((report["pages"], report["reasons"]), (0, {}))

    @unittest.skipUnless(HAS_TERMINALS, "this system has no pseudo-terminals")
    def test_a_bar_on_a_terminal_and_none_elsewhere(self) -> None:
        for k in range(300):
            self.write(f"P{k}", "text")
        self.assertNotIn("\r", self.run_tool("wikitext")[1])
        status, told = run_on_terminal(self.command("wikitext", "--again"), self.root)
        self.assertEqual(status, 0)
        self.assertRegex(told, r"^\r\x1b\[K\[#*-*\] \d+ % \d+ of 300 pages, [\d,]+ a second")
        self.assertRegex(told, r"\r\x1b\[K300 pages: 300 came back; ")


class SeveralMachines(BatchCase):
    def test_cases_answers_gather(self) -> None:
        self.write("Good", "a {{t|x}}")
        self.write("Template:T", "''{{{1}}}''")
        self.write("Latin", b"\xfc")
        cases, _ = self.run_tool("cases", "wikitext,expand")
        self.assertEqual(len(cases.splitlines()), 6)
        bare = b"".join(line.split(b"\t", 2)[2] + b"\n" for line in cases.splitlines())
        done = subprocess.run([str(PROGRAM)], input=bare, stdout=subprocess.PIPE, check=True)
        self.assertEqual(sorted(line[:1] for line in done.stdout.splitlines()), [b"0"] * 4 + [b"2"] * 2)
        # The lines may be divided, come in any order, and come twice.
        lines = cases.splitlines(keepends=True)
        answers = b""
        for part in (lines[3:], lines[:3], lines[2:4]):
            answers += self.run_tool("answers", "--no-output", stdin=b"".join(part))[0]
        answer_lines = sorted(answers.splitlines(keepends=True))
        (self.root / "one").write_bytes(b"".join(answer_lines[:4]))
        (self.root / "two").write_bytes(b"".join(answer_lines[4:]))
        self.assertIn(
            "3 pages: 2 answered, 2 came back, 2 refused",
            self.run_tool("gather", "one", "two", "-r", "g.html")[1],
        )
        report = json.loads((self.root / "g.json").read_text())
        self.assertEqual(report["outcomes"]["wikitext"], {"came back": 2, "refused": 1})
        self.assertEqual(report["failures"][0]["explain"]["line"], 1)
        whole = self.run_tool("answers", stdin=lines[0])[0]
        self.assertIn("output", json.loads(whole)["wikitext"])

    def test_lines_that_are_no_cases(self) -> None:
        out, told = self.run_tool("answers", stdin=b"\nwikitext\tzz\t\t\t\nhtml\t41\t\t\t41=61\n", status=1)
        self.assertEqual(len(out.splitlines()), 1)
        self.assertIn("line 1 is no case", told)
        self.assertIn("line 2 is no case", told)
        (self.root / "bad").write_text("{}\n")
        self.assertIn(
            "bad: line 1 is no answer", self.run_tool("gather", "bad", "-r", "g.html", status=1)[1]
        )


if __name__ == "__main__":
    unittest.main()
