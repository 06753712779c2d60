"""import-export-xml over the small exports in exports/."""
import bz2
import gzip
import lzma
import os
import subprocess
import sys
import tempfile
import unittest
from pathlib import Path
from urllib.parse import unquote
from xml.sax.saxutils import escape

from loading import REPOSITORY, TOOLS
from terminal import HAS_TERMINALS, run_on_terminal

EXPORTS = Path(__file__).resolve().parent / "exports"
PAGE_LIMIT = 2_097_152


def export_of(title: str, text: str) -> bytes:
    page = f"<page><title>{title}</title><revision><text>{text}</text></revision></page>"
    return f"<mediawiki>{page}</mediawiki>".encode()


class ImportCase(unittest.TestCase):
    def setUp(self) -> None:
        folder = tempfile.TemporaryDirectory()
        self.addCleanup(folder.cleanup)
        self.root = Path(folder.name)
        self.pages = self.root / "pages"

    def run_tool(self, *words: str, stdin: bytes = b"", status: int = 0) -> "tuple[list, str]":
        """The lines of standard output, and standard error."""
        command = [sys.executable, str(TOOLS / "import-export-xml"), *words]
        done = subprocess.run(command, cwd=self.root, input=stdin, stdout=subprocess.PIPE, stderr=subprocess.PIPE)
        self.assertEqual(done.returncode, status, done.stderr.decode())
        return done.stdout.decode().splitlines(), done.stderr.decode()

    def run_export(self, name: str, *words: str, status: int = 0) -> "tuple[list, str]":
        return self.run_tool(*words, str(EXPORTS / name), status=status)

    def written(self) -> "dict[str, str]":
        return {path.name: path.read_bytes().decode() for path in self.pages.iterdir()}


class WhatIsWritten(ImportCase):
    def test_titles(self) -> None:
        skipped, told = self.run_export("titles.xml")
        self.assertEqual(
            sorted(self.written()),
            sorted(
                ["Main_Page.wiki", "A%2FB.wiki", "100%25.wiki", "%D0%B6" * 40 + ".wiki", "Template%3AInfobox.wiki"]
                + [".htaccess.wiki", "CON.wiki"]
            ),
        )
        self.assertEqual(
            skipped,
            [
                "skipped ..: a part of the title between slashes is . or ..",
                "skipped A/../B: a part of the title between slashes is . or ..",
                "skipped ../../etc/passwd: a part of the title between slashes is . or ..",
                "skipped %41: the title has a percent sign with two hexadecimal digits",
                "skipped A[b: the title has the character [",
                f"skipped {'x' * 300}: the title has more than 255 bytes",
                f"skipped {'ж' * 127}: its file name would have more than 255 bytes",
                "skipped A#b: the title has a fragment",
                "skipped : the title is empty",
            ],
        )
        self.assertEqual(told, "7 pages written, 9 skipped\n")
        self.assertEqual([path.name for path in self.root.iterdir()], ["pages"])

    def test_text_is_kept_to_the_byte(self) -> None:
        self.run_export("bytes.xml")
        self.assertEqual(
            self.written(), {"Bytes.wiki": "\n a\tb <ref>&amp;</ref> <b> é ✓ 😀\r\n\n"}
        )

    def test_the_examples(self) -> None:
        for path in (REPOSITORY / "examples/pages").iterdir():
            with self.subTest(page=path.name):
                text = path.read_bytes().decode()
                self.run_tool("--force", "-", stdin=export_of(unquote(path.stem), escape(text)))
                self.assertEqual(self.written()[path.name], text)

    def test_last_revision_counts(self) -> None:
        self.run_export("revisions.xml")
        self.assertEqual(self.written(), {"History.wiki": "three", "Emptied.wiki": ""})

    def test_redirects_stay_as_they_are(self) -> None:
        _, told = self.run_export("redirects.xml")
        self.assertEqual(self.written(), {"Opava.wiki": "A town.", "Troppau.wiki": "#REDIRECT [[Opava]]"})
        self.assertEqual(told, "2 pages written (1 of them redirects), 0 skipped\n")

    def test_namespaces(self) -> None:
        skipped, _ = self.run_export("namespaces.xml")
        self.assertEqual(
            self.written(),
            {
                "Template%3AInfobox.wiki": "box",
                "Wikipedia%3A%C3%9Cber.wiki": "about",
                "Portal%3AFluss.wiki": "portal",
                "Category%3ARivers.wiki": "rivers",
            },
        )
        self.assertEqual(skipped, ["skipped Modul:Strings: it is Scribunto, not wikitext"])

    def test_old_schema(self) -> None:
        self.run_export("schema-0.3.xml")
        self.assertEqual(self.written(), {"Template%3ALang.wiki": "old", "Opava.wiki": "town"})

    def test_main_slot_alone(self) -> None:
        self.run_export("slots.xml")
        self.assertEqual(self.written(), {"File%3AMap.png.wiki": "main"})

    def test_no_text(self) -> None:
        skipped, _ = self.run_export("no-text.xml")
        self.assertEqual(self.written(), {"Empty.wiki": ""})
        self.assertEqual(
            skipped,
            [
                "skipped Deleted: its text was deleted",
                "skipped Stub: the export has no text of it",
                "skipped None: the export has no text of it",
            ],
        )

    def test_limit_of_a_page(self) -> None:
        text = "é" * (PAGE_LIMIT // 2)
        self.run_tool("-", stdin=export_of("Full", text))
        self.assertEqual(self.written(), {"Full.wiki": text})
        skipped, _ = self.run_tool("-", stdin=export_of("Over", text + "a"))
        self.assertEqual(skipped, ["skipped Over: it has 2,097,153 bytes; the limit is 2,097,152"])
        self.assertEqual(sorted(self.written()), ["Full.wiki"])

    def test_packed_files(self) -> None:
        for pack in (gzip.compress, bz2.compress, lzma.compress):
            with self.subTest(pack=pack.__module__):
                (self.root / "export").write_bytes(pack((EXPORTS / "redirects.xml").read_bytes()))
                self.run_tool("--force", "export")
                self.assertEqual(len(self.written()), 2)
        (self.root / "export").write_bytes(gzip.compress((EXPORTS / "redirects.xml").read_bytes())[:-12])
        self.run_tool("--force", "export", status=1)
        (self.root / "export").write_bytes(b"7z\xbc\xaf\x27\x1c....")
        self.assertIn("unpack it first", self.run_tool("export", status=1)[1])

    def test_other_encoding(self) -> None:
        declared = '<?xml version="1.0" encoding="UTF-16"?>' + export_of("Opava", "Slezská").decode()
        self.run_tool("-", stdin=declared.encode("utf-16"))
        self.assertEqual(self.written(), {"Opava.wiki": "Slezská"})


class WhatIsKept(ImportCase):
    def test_two_titles_of_one_name(self) -> None:
        for words in ([], ["--force"]):
            with self.subTest(words=words):
                skipped, _ = self.run_export("one-name.xml", "-o", "".join(["p", *words]), *words)
                self.assertEqual(
                    skipped,
                    [
                        "skipped iPod: an earlier page of this import has the same file",
                        "skipped Foo_bar: an earlier page of this import has the same file",
                    ],
                )
                self.pages = self.root / "".join(["p", *words])
                self.assertEqual(self.written(), {"IPod.wiki": "first", "Foo_bar.wiki": "third"})

    def test_no_overwriting_without_force(self) -> None:
        self.pages.mkdir()
        (self.pages / "Opava.wiki").write_text("mine")
        skipped, _ = self.run_export("redirects.xml")
        self.assertEqual(skipped, ["skipped Opava: pages/Opava.wiki is there already (--force replaces it)"])
        self.assertEqual(self.written()["Opava.wiki"], "mine")
        skipped, _ = self.run_export("redirects.xml", "--force")
        self.assertEqual(skipped, [])
        self.assertEqual(self.written()["Opava.wiki"], "A town.")

    def test_links_are_not_followed(self) -> None:
        self.pages.mkdir()
        (self.root / "elsewhere").write_text("mine")
        (self.pages / "Opava.wiki").symlink_to("../elsewhere")
        self.run_export("redirects.xml")
        self.run_export("redirects.xml", "--force")
        self.assertEqual((self.root / "elsewhere").read_text(), "mine")
        self.assertFalse((self.pages / "Opava.wiki").is_symlink())


class WhatIsRefused(ImportCase):
    def test_broken(self) -> None:
        _, told = self.run_export("broken.xml", status=1)
        self.assertIn("broken.xml: broken at line 13, column 24: mismatched tag\n1 pages written, 0 skipped\n", told)
        self.assertEqual(self.written(), {"Before.wiki": "whole"})

    def test_truncated(self) -> None:
        _, told = self.run_export("truncated.xml", status=1)
        self.assertIn("no element found", told)
        self.assertEqual(self.written(), {"Before.wiki": "whole"})

    def test_document_type(self) -> None:
        for name in ("dtd.xml", "outer-dtd.xml"):
            with self.subTest(name=name):
                _, told = self.run_export(name, status=1)
                self.assertIn("refused at line 2: a document type declaration", told)
                self.assertEqual(self.written(), {})

    def test_entity(self) -> None:
        _, told = self.run_export("entity.xml", status=1)
        self.assertIn("undefined entity", told)
        self.assertEqual(self.written(), {"Before.wiki": "whole"})

    def test_no_export(self) -> None:
        self.assertIn("the outermost element is html", self.run_export("no-export.xml", status=1)[1])
        self.assertIn("no element found", self.run_tool("-", stdin=b"", status=1)[1])
        self.assertIn("No such file", self.run_tool("absent.xml", status=1)[1])
        self.run_tool(status=2)

    def test_depth_and_long_tags(self) -> None:
        self.assertIn("one inside another", self.run_tool("-", stdin=b"<mediawiki>" + b"<a>" * 100, status=1)[1])
        tag = b'<mediawiki a="' + b"x" * (3 << 20)
        self.assertIn("does not end", self.run_tool("-", stdin=tag, status=1)[1])

    def test_others_are_read_after_a_broken_one(self) -> None:
        self.run_tool(str(EXPORTS / "broken.xml"), str(EXPORTS / "redirects.xml"), status=1)
        self.assertEqual(sorted(self.written()), ["Before.wiki", "Opava.wiki", "Troppau.wiki"])

    @unittest.skipIf(os.geteuid() == 0, "root may write everywhere")
    def test_directory_that_cannot_be_written(self) -> None:
        self.pages.mkdir(mode=0o555)
        self.assertIn("Permission denied", self.run_export("redirects.xml", status=1)[1])

    def test_pages_is_a_file(self) -> None:
        self.pages.write_text("")
        self.assertIn("File exists", self.run_export("redirects.xml", status=1)[1])


class Progress(ImportCase):
    def test_no_progress_without_a_terminal(self) -> None:
        _, told = self.run_export("redirects.xml")
        self.assertNotIn("\r", told)

    @unittest.skipUnless(HAS_TERMINALS, "this system has no pseudo-terminals")
    def test_progress_on_a_terminal(self) -> None:
        command = [sys.executable, str(TOOLS / "import-export-xml"), str(EXPORTS / "redirects.xml")]
        status, told = run_on_terminal(command, self.root)
        self.assertEqual(status, 0)
        # (a slow machine has time to tell of the second page, too)
        parts = (r"1 pages written, 0 skipped", r"(\r\x1b\[K100 %, 2 pages written, 0 skipped)?", r"\r\x1b\[K2 pages written")
        self.assertRegex(told, r"^\r\x1b\[K100 %, " + "".join(parts))

    def test_control_characters_of_a_title_are_escaped(self) -> None:
        skipped, _ = self.run_tool("-", stdin=export_of("a\u009b31m|", "x"))
        self.assertEqual(skipped, ["skipped a\\x9b31m|: the title has the character |"])


class Memory(ImportCase):
    def test_memory_does_not_grow_with_the_export(self) -> None:
        """10 MB of pages in no more than 4 MB over what an empty export takes."""
        self.assertLess(self.peak(10_000) - self.peak(0), 4 << 10)

    def peak(self, count: int) -> int:
        """The peak memory in KB of an import of so many pages of 1 KB that are all skipped."""
        path = self.root / "export.xml"
        with open(path, "wb") as file:
            file.write(b"<mediawiki>")
            for _ in range(count):
                file.write(b"<page><title>..</title><revision><text>" + b"x" * 1000 + b"</text></revision></page>")
            file.write(b"</mediawiki>")
        run = "import resource, runpy, sys\nsys.argv[1:] = [sys.argv[2]]\ntry: runpy.run_path(TOOL, run_name='__main__')\n"
        run += "finally: sys.stderr.write('\\npeak %d' % resource.getrusage(resource.RUSAGE_SELF).ru_maxrss)"
        command = [sys.executable, "-c", run.replace("TOOL", repr(str(TOOLS / "import-export-xml"))), "-", str(path)]
        done = subprocess.run(command, cwd=self.root, stdout=subprocess.DEVNULL, stderr=subprocess.PIPE)
        return int(done.stderr.decode().rpartition("peak ")[2])


if __name__ == "__main__":
    unittest.main()
