"""explain over lines of wtround: those of the stored cases, and one of each kind."""
import json
import subprocess
import sys
import tempfile
import unittest
from pathlib import Path

from loading import REPOSITORY, TOOLS, load

tool = load("explain")
CASES = REPOSITORY / "crates/wtround_cases"

HTML = b"""<!DOCTYPE html><html><head><meta charset="utf-8"/></head><body data-wt-edit='children'>
<meta typeof="mw:Comment" id="mw1" data-parsoid='{"src":"> id=\\"mw3\\" <p>"}'/>
<h2 id="mw2">A</h2><p id='mw3' data-wt-edit="content">b <b>c</b></p>
<p id="mw3">d</p><p data-wt-edit="content">e</p></body></html>"""


def place_of(line: str, data: bytes) -> int:
    refusal = tool.read_refusal(line)
    return refusal.locate(data, refusal.number)


class Places(unittest.TestCase):
    def test_elements_are_counted_in_document_order(self) -> None:
        names = [HTML[place_of(f"element {k} has no source", HTML) :][:5] for k in range(1, 10)]
        self.assertEqual(names, [b"<html", b"<head", b"<meta", b"<body", b"<meta", b"<h2 i", b"<p id", b"<b>c<", b"<p id"])
        self.assertIsNone(place_of("element 11 has no source", HTML))

    def test_nodes_are_found_by_their_ids(self) -> None:
        for line, start in {
            "edit refused: UnmarkedChange 3": b"<p id='mw3'",
            "edit refused: RepeatedId 3": b'<p id="mw3">d',
            "edit refused: UnmarkedChange 0": b"<body",
            "edit refused: NotEditable 0": b"<p data-wt-edit",
            "edit refused: Unspelled 1": b"<h2",
            "edit refused: Unspelled 3": b'<p id="mw3">d',
            "edit refused: BadContent 2 Href": b"<h2",
        }.items():
            with self.subTest(line=line):
                self.assertEqual(HTML[place_of(line, HTML) :][: len(start)], start)

    def test_blocks_in_sections_are_counted(self) -> None:
        html = (
            b'<html><body><section data-mw-section-id="0"><p>one</p><meta typeof="mw:Comment"/></section>'
            b'<section data-mw-section-id="1"><h2>two</h2><p>three <b>x</b></p>'
            b'<section data-mw-section-id="2"><h3>four</h3></section></section>'
            b'<section data-mw-section-id="3"><h2>five</h2></section><p>six</p></body></html>'
        )
        found = [html[place_of(f"edit refused: Unspelled {k}", html) :].split(b">")[1][:4] for k in range(1, 7)]
        self.assertEqual(found, [b"one<", b"two<", b"thre", b"four", b"five", b"six<"])
        self.assertIsNone(place_of("edit refused: Unspelled 7", html))

    def test_calls_that_give_nothing_are_no_blocks(self) -> None:
        html = (
            b'<html><body><span about="#mwt1" typeof="mw:Transclusion" id="mw1" data-mw=\'{"a":">"}\'></span>'
            b'<ul id="mw2"><li id="mw3">a</li></ul></body></html>'
        )
        self.assertEqual(html[place_of("edit refused: Unspelled 1", html) :][:3], b"<ul")

    def test_lines_and_columns(self) -> None:
        data = "ab\n日本 é\tx\n\n".encode()
        for place, wanted in {0: (1, 1), 2: (1, 3), 3: (2, 1), 9: (2, 3), 12: (2, 5), 14: (2, 7), 15: (3, 1), 16: (4, 1)}.items():
            with self.subTest(place=place):
                found = tool.spot(data, place)
                self.assertEqual((found.line, found.column), wanted)

    def test_caret(self) -> None:
        for before, after, wanted in [
            ("", "abc", ["    abc", "    ^"]),
            ("日本 ", "[[x]]", ["    日本 [[x]]", "         ^"]),
            ("e\u0301\t\udcff\x1b", "x", ["    e\u0301 \\xff\\x1bx", "              ^"]),
            ("", "", ["    ", "    ^"]),
        ]:
            with self.subTest(before=before):
                self.assertEqual(tool.line_with_caret(before, after).split("\n"), wanted)

    def test_long_lines_are_cut(self) -> None:
        text, caret = tool.line_with_caret("a" * 500, "b" * 500).split("\n")
        self.assertLess(len(text), 85)
        self.assertEqual(text[caret.index("^")], "b")
        self.assertEqual(text[caret.index("^") - 1], "a")


def bytes_of(field: str) -> bytes:
    """The bytes of a field of a case: hex digits, or `DIGITS*COUNT` for so many times the same."""
    digits, _, count = field.partition("*")
    return bytes.fromhex(digits) * int(count or 1)


class Lines(unittest.TestCase):
    def test_each_kind_of_refusal(self) -> None:
        lines = [
            "usage: wtround html TITLE | wikitext | edit TITLE | ranges TITLE | expand TITLE | gen N | lint TITLE | selser TITLE",
            "no such page", "page too long", "page not UTF-8 at 7", "html too long", "input too long",
            "braces too deep at 300", "braces too deep at 3 in Template:A b", "expansion too large", "element 3 has no source",
            "Template:X not UTF-8 at 0", "Template:X too long", "Über not UTF-8 at 1", "read fault", "folder fault",
            "write fault", "no memory",
        ]  # fmt: skip
        lines += [f"html refused at 5: {why}" for why in "NotUtf8 End TooDeep EndTag Escape Repeated Syntax".split()]
        lines += [f"element 5 does not fit: {why}" for why in "Root Element Place Data Text".split()]
        lines += [f"edit refused: BadContent 5 {why}" for why in "Element Href LineBreak Nested EmptyList".split()]
        names = "UnknownId RepeatedId Moved InTemplate NotEditable UnmarkedChange Tangled Unspelled".split()
        lines += [f"edit refused: {name} 5" for name in names]
        lines += ["edit refused: NewPageTooLong", "edit refused: NewExpansion"]
        for line in lines:
            with self.subTest(line=line):
                self.assertEqual(tool.read_refusal(f"wtround: {line}\n"), tool.read_refusal(line))
                self.assertTrue(tool.read_refusal(line).advice.endswith("."))

    def test_no_block_at_fault(self) -> None:
        refusal = tool.read_refusal("wtround: edit refused: Unspelled 0")
        self.assertIsNone(refusal.locate)
        self.assertIn("No block is at fault", refusal.advice)

    def test_other_lines_are_refused(self) -> None:
        for line in ["", "bash: wtround: command not found", "wtround: no such", "html refused at 5: Other"]:
            with self.subTest(line=line), self.assertRaises(tool.ExplainError):
                tool.read_refusal(line)

    def test_stored_cases(self) -> None:
        """Each refusal of the program's stored cases has its place in the page or the input."""
        count = 0
        cases = zip((CASES / "stdin").read_text().splitlines(), (CASES / "stdout").read_text().splitlines())
        for case, answer in cases:
            if answer == "malformed" or not answer.split("\t")[2]:
                continue
            count += 1
            _, given, pages, *devices = case.split("\t")
            if devices:
                continue
            line = bytes.fromhex(answer.split("\t")[2]).decode()
            refusal = tool.read_refusal(line)
            if refusal.locate is None or line.startswith("wtround: edit refused") or "," in pages:
                continue
            is_about_input = line.startswith(("wtround: html refused", "wtround: element", "wtround: input"))
            data = bytes_of(given if is_about_input else pages.rpartition("=")[2])
            with self.subTest(line=line):
                place = refusal.locate(data, refusal.number)
                self.assertIsNotNone(place)
                found = tool.spot(data, place)
                self.assertIn("^", tool.line_with_caret(found.before, found.after))
                if line.startswith("wtround: element"):
                    self.assertEqual(data[place : place + 1], b"<")
        self.assertGreater(count, 100)


class Commands(unittest.TestCase):
    def setUp(self) -> None:
        folder = tempfile.TemporaryDirectory()
        self.addCleanup(folder.cleanup)
        self.root = Path(folder.name)

    def run_tool(self, *words: str, stdin: str = "", status: int = 0) -> "tuple[str, str]":
        command = [sys.executable, str(TOOLS / "explain"), *words]
        done = subprocess.run(command, cwd=self.root, input=stdin.encode(), stdout=subprocess.PIPE, stderr=subprocess.PIPE)
        self.assertEqual(done.returncode, status, done.stderr)
        return done.stdout.decode(), done.stderr.decode()

    def test_a_page(self) -> None:
        (self.root / "Opava.wiki").write_bytes(b"The town\nlies on the \xd6pava.\n")
        shown, _ = self.run_tool("Opava.wiki", stdin="wtround: proving ..\nwtround: page not UTF-8 at 22\n")
        self.assertEqual(
            shown,
            "Opava.wiki:2:14: page not UTF-8 at 22\n"
            "    lies on the \\xd6pava.\n"
            "                    ^\n"
            "Here the page stops being UTF-8: convert it (for example with `iconv -f ISO-8859-1 -t UTF-8`), "
            "or remove these bytes.\n",
        )

    def test_a_template_is_shown_in_its_own_file(self) -> None:
        (self.root / "Main.wiki").write_text("{{a b}}")
        (self.root / "Template%3AA_b.wiki").write_bytes(b"x\nyz\xff")
        shown, _ = self.run_tool("Main.wiki", "wtround: Template:A b not UTF-8 at 4")
        self.assertTrue(shown.startswith("Template%3AA_b.wiki:2:3: "), shown)
        self.assertIn("    yz\\xff\n      ^\n", shown)

    def test_no_file_is_needed_without_a_place(self) -> None:
        self.assertIn("check its spelling", self.run_tool(stdin="wtround: no such page\n")[0])
        self.assertIn("UTF-8", self.run_tool(stdin="wtround: page not UTF-8 at 4\n")[0])

    def test_doubtful_places(self) -> None:
        (self.root / "Opava.wiki").write_text("The ď }}\n'''town\n", encoding="utf-8")
        lines = "StrayBraces 1 8 7 9\nOpenStyle 2 1 10 17\n"
        shown, _ = self.run_tool("Opava.wiki", stdin=lines)
        self.assertEqual(
            shown,
            "Opava.wiki:1:7: StrayBraces\n"
            "    The ď }}\n"
            "          ^\n"
            "These braces close no call: remove them, or write the braces that they belong to.\n"
            "Opava.wiki:2:1: OpenStyle\n"
            "    '''town\n"
            "    ^\n"
            "Bold or italic text begins here and no apostrophes close it, or it holds nothing: "
            "close it with as many apostrophes, or remove these.\n",
        )
        self.assertIn("is not in this file", self.run_tool("Opava.wiki", "OpenTag 1 1 0 99", status=1)[1])
        self.assertTrue(self.run_tool(stdin=lines)[0].startswith("1:8: StrayBraces\n"))

    def test_json(self) -> None:
        (self.root / "Opava.wiki").write_bytes(b"x\n\xc4\x8f\xff")
        shown, _ = self.run_tool("--json", "Opava.wiki", stdin="StrayBraces 1 8 7 9\n")
        (found,) = json.loads(shown)
        self.assertIn("close no call", found.pop("advice"))
        self.assertEqual({"kind": "StrayBraces", "line": 1, "column": 8, "start": 7, "end": 9}, found)
        (refusal,) = json.loads(self.run_tool("--json", "Opava.wiki", "wtround: page not UTF-8 at 4")[0])
        self.assertEqual(("Opava.wiki", 2, 3, 4), tuple(refusal[k] for k in ("file", "line", "column", "start")))
        self.assertEqual("page not UTF-8 at 4", refusal["refusal"])
        self.assertEqual([], json.loads(self.run_tool("--json", stdin="")[0]))

    def test_each_kind_of_doubtful_place(self) -> None:
        for kind, advice in tool.FINDING_REASONS.items():
            (found,) = tool.read_findings(f"{kind} 1 2 3 4\n")
            self.assertEqual((kind, 1, 2, 3, 4), (found.kind, found.line, found.column, found.start, found.end))
            self.assertEqual(advice, found.advice)
            self.assertTrue(advice.endswith("."))
        self.assertEqual([], tool.read_findings("Other 1 2 3 4\nOpenTag 1 2 3\nOpenTag 1 2 3 4 5\n"))

    def test_statuses(self) -> None:
        (self.root / "short").write_text("abc")
        self.assertIn("is not in this file", self.run_tool("short", "wtround: braces too deep at 9", status=1)[1])
        self.assertIn("No such file", self.run_tool("absent", "wtround: braces too deep at 9", status=1)[1])
        self.assertIn("no line of wtround", self.run_tool("short", status=1)[1])
        self.run_tool("a", "b", "c", status=2)


if __name__ == "__main__":
    unittest.main()
