"""Tests of the package: the stored cases of the repository, where they are, through what is here, and the calls."""
from __future__ import annotations

import itertools
import os
import pickle
import re
import sys
import threading
import unittest
from collections.abc import Mapping
from pathlib import Path
from unittest import mock
from urllib.parse import quote

sys.path.insert(0, str(Path(__file__).resolve().parent.parent))
import bughtiso  # noqa: E402

CASES = Path(__file__).resolve().parents[3] / "crates/wtround_cases"
VECTORS = Path(__file__).resolve().parents[4] / "shared/vectors"
PAGE = "'''Opava''' is a {{T|town}} in [[Silesia]].\n"
PAGES = {"Template:T": "''{{{1}}}''"}


def read_bytes(field):
    digits, _, count = field.partition("*")
    return bytes.fromhex(digits) * int(count or 1)


def read_cases(lines, answers):
    """Words, input, pages and answer of each case whose devices are those of every call."""
    for line, answer in zip(lines, answers):
        fields, wanted = line.rstrip("\n").split("\t"), answer.rstrip("\n").split("\t")
        if len(wanted) == 3 and not (len(fields) == 4 and fields[3]):
            words = [bytes.fromhex(word) for word in fields[0].split(",")] if fields[0] else []
            pairs = [entry.split("=") for entry in fields[2].split(",")] if len(fields) > 2 and fields[2] else []
            pages = {bytes.fromhex(name).decode(): read_bytes(page) for name, page in pairs}
            yield words, read_bytes(fields[1]), pages, (int(wanted[0]), bytes.fromhex(wanted[1]), bytes.fromhex(wanted[2]))


def stored_cases():
    with open(CASES / "stdin") as lines, open(CASES / "stdout") as answers:
        yield from read_cases(lines, answers)


def outside_cases(name):
    """The cases of a file of others', where it is here. One of the folder `sections` takes the place of that of its name in
    `functions`, and that the place of the one above."""
    for file in (VECTORS / "sections" / name, VECTORS / "functions" / name, VECTORS / name):
        if file.exists():
            rows = [row.split("\t") for row in file.read_text(encoding="utf-8").split("\n") if row]
            return list(read_cases(("\t".join(row[:3]) for row in rows), ("\t".join(row[3:]) for row in rows)))
    return []


def has_files(case):
    """Whether each name of a case can be that of a file, as the program needs it."""
    words, _, pages, _ = case
    return all(len(quote(name, safe="")) <= 250 for name in [*words, *pages])


def available(kind):
    try:
        return bughtiso.engine(kind)
    except bughtiso.Unavailable:
        return None


class StoredCases(unittest.TestCase):
    def try_cases(self, engine, cases):
        tried = 0
        for words, data, pages, wanted in cases:
            answer = bughtiso.run([word.decode() for word in words], data, pages, by=engine)
            self.assertEqual((answer.status, answer.out, answer.line.encode()), wanted, words)
            tried += 1
        self.assertGreater(tried, 0)

    def test_by_the_library(self):
        engine = available("library")
        if engine is None or not CASES.exists():
            self.skipTest("no library, or no stored cases")
        self.try_cases(engine, stored_cases())

    def test_by_the_program(self):
        engine = available("program")
        if engine is None or not CASES.exists():
            self.skipTest("no program, or no stored cases")
        # Each is a process and a folder of its own, so that of each eight one is enough where the library answers all.
        step = 8 if available("library") else 1
        self.try_cases(engine, itertools.islice(filter(has_files, stored_cases()), 0, None, step))

    def test_outside_cases(self):
        engine = available("library")
        names = ["plain-html.tsv", "groups-html.tsv", "expand.tsv", "edit-content.tsv"]
        # The library's own tests try them all.
        found = {name: cases[::8] for name in names for cases in [outside_cases(name)] if cases}
        if engine is None or not found:
            self.skipTest("no library, or no outside cases")
        for name, cases in found.items():
            with self.subTest(name):
                self.try_cases(engine, cases)


class Calls(unittest.TestCase):
    def setUp(self):
        self.html = bughtiso.html(PAGE, PAGES)

    def test_there_and_back(self):
        self.assertTrue(self.html.startswith("<!DOCTYPE html><html>"))
        self.assertEqual(bughtiso.wikitext(self.html), PAGE)
        self.assertEqual(bughtiso.edit(PAGE, self.html, PAGES), PAGE)
        self.assertEqual(bughtiso.html(PAGE.encode(), PAGES), self.html)

    def test_an_edit(self):
        edited = self.html.replace(" in <a", " in Czech <a")
        marked = edited.replace('<p id="mw1"', '<p data-wt-edit="content" id="mw1"')
        self.assertEqual(bughtiso.edit(PAGE, marked, PAGES), PAGE.replace("in [[", "in Czech [["))
        with self.assertRaises(bughtiso.Refusal) as raised:
            bughtiso.edit(PAGE, edited, PAGES)
        refusal = raised.exception
        self.assertEqual((refusal.name, refusal.place, refusal.place_in, refusal.status), ("UnmarkedChange", 1, "node", 4))
        self.assertIn("not marked", refusal.sentence)
        self.assertEqual(str(refusal), refusal.sentence)
        again = pickle.loads(pickle.dumps(refusal))
        self.assertEqual((again.name, again.line), (refusal.name, refusal.line))

    def test_refusals(self):
        wanted = [
            (lambda: bughtiso.html(b"a\xff"), ("PageNotUtf8", None, 1, "byte of the page", None)),
            (lambda: bughtiso.html("{{A}}", {"Template:A": b"\xff"}), ("TemplateNotUtf8", None, 0, "byte of the template", "Template:A")),
            (lambda: bughtiso.html("x" * 2097153), ("PageTooLong", None, None, None, None)),
            (lambda: bughtiso.html("x", title="A#b"), ("Usage", None, None, None, None)),
            (lambda: bughtiso.wikitext("<p"), ("HtmlRefused", "End", 2, "byte of the HTML", None)),
            (lambda: bughtiso.wikitext("<p></p>"), ("ElementDoesNotFit", "Root", 1, "element", None)),
            (lambda: bughtiso.wikitext("<html><body><p></p></body></html>"), ("ElementHasNoSource", None, 3, "element", None)),
        ]
        for call, expected in wanted:
            with self.subTest(expected), self.assertRaises(bughtiso.Refusal) as raised:
                call()
            it = raised.exception
            self.assertEqual((it.name, it.reason, it.place, it.place_in, it.template), expected)

    def test_other_calls(self):
        self.assertEqual(bughtiso.expand(PAGE, PAGES), "'''Opava''' is a ''town'' in [[Silesia]].\n")
        self.assertEqual(bughtiso.ranges("'''a'''")[:2], [bughtiso.Range(1, "p", 0, 7, 0, 0), bughtiso.Range(2, "b", 0, 7, 3, 3)])
        self.assertEqual(bughtiso.run(["gen", "1"]).status, 0)
        found = bughtiso.lint("a\n'''b [[c")
        self.assertEqual([tuple(it) for it in found], [("OpenStyle", 2, 1, 2, 10), ("OpenLink", 2, 6, 7, 9)])
        self.assertIn("apostrophes", found[0].sentence)

    def test_a_page_that_calls_itself(self):
        # The page isn't counted as being expanded, so it is read once as a template too.
        self.assertEqual(bughtiso.expand("a{{:Self}}b", title="Self"), "aaTemplate loop: Selfbb")


class OwnPages(unittest.TestCase):
    def test_the_page_of_the_call_is_its_text(self):
        """Whatever the mapping has under its title, in words or as a file is named."""
        for kind in ("library", "program"):
            engine = available(kind)
            if engine is None:
                continue
            for title, name in (("Main Page", "Main_Page"), ("Main_Page", "Main Page"), ("main page", "Main Page"), ("2024", "2024")):
                with self.subTest(kind=kind, title=title, name=name), mock.patch("bughtiso._commands._engine", engine):
                    pages = {name: "old", "Template:T": "t"}
                    self.assertEqual(bughtiso.expand("new {{T}}", pages, title=title), "new t")


class Versions(unittest.TestCase):
    def test_one_version(self):
        packages = Path(__file__).resolve().parents[2]
        if not (packages / "php/composer.json").exists():
            self.skipTest("this is not the repository")
        files = ["python/pyproject.toml", "php/composer.json", "node/package.json", "../dist/VERSION"]
        versions = {it: re.search(r"\d+\.\d+\.\d+", (packages / it).read_text())[0] for it in files}
        self.assertEqual(set(versions.values()), {bughtiso.__version__}, versions)


class Folders(unittest.TestCase):
    def setUp(self):
        if available("library") is None:
            self.skipTest("no library")

    def test_a_mapping_that_looks_up(self):
        asked = []

        class Wiki(Mapping):
            def __getitem__(self, name):
                asked.append(name)
                if name == "Template:A":
                    return "{{B}}{{B}}"
                raise KeyError(name)

            def __iter__(self):
                raise AssertionError("it is not walked")

            def __len__(self):
                raise AssertionError("it is not counted")

        self.assertEqual(bughtiso.expand("{{A}}", Wiki()), "[[:Template:B]][[:Template:B]]")
        self.assertEqual(asked, ["Template:A", "Template:B"])

    def test_what_a_look_up_raises(self):
        class Broken(dict):
            def __getitem__(self, name):
                raise ConnectionError("no database")

        with self.assertRaises(ConnectionError):
            bughtiso.html("{{A}}", Broken())

    def test_threads(self):
        failures = []

        def work(number):
            page = f"'''{number}''' {{{{T|x}}}}\n" * 200
            for _ in range(5):
                if bughtiso.wikitext(bughtiso.html(page, PAGES)) != page:
                    failures.append(number)

        threads = [threading.Thread(target=work, args=(number,)) for number in range(8)]
        for it in threads:
            it.start()
        for it in threads:
            it.join()
        self.assertEqual(failures, [])


if __name__ == "__main__":
    unittest.main()
