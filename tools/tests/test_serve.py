"""The routes of serve, over the example pages."""
import json
import os
import socket
import subprocess
import sys
import unittest
from html.parser import HTMLParser
from urllib.parse import unquote, urlencode
from urllib.request import ProxyHandler, build_opener

from loading import REPOSITORY, TOOLS
from serving_case import PROGRAM, ServingCase, edited, run_program

HTML = 'text/html; charset=utf-8; profile="https://www.mediawiki.org/wiki/Specs/HTML/2.8.0"'
WIKITEXT = 'text/plain; charset=utf-8; profile="https://www.mediawiki.org/wiki/Specs/wikitext/1.0.0"'
TRANSFORM = "/localhost/v3/transform/"
EXAMPLES = sorted(path.name for path in (REPOSITORY / "examples/pages").iterdir())


class Pages(ServingCase):
    def test_html_is_what_the_program_writes(self) -> None:
        status, headers, body = self.ask("GET", "/localhost/v3/page/html/Opava")
        self.assertEqual((status, headers["content-type"]), (200, HTML))
        self.assertEqual(body, run_program(["html", "Opava"], b"", self.root))
        self.assertRegex(headers["etag"], r'^W/"[0-9]+/[0-9a-f]{32}"$')
        self.assertEqual(headers["x-content-type-options"], "nosniff")

    def test_shapes(self) -> None:
        whole, tag = self.html("Opava")
        bare, bare_tag = self.html("Opava", "?data_parsoid=false")
        self.assertEqual(tag, bare_tag)
        self.assertNotIn("data-parsoid", bare)
        self.assertLess(len(bare), 0.7 * len(whole))
        inside, _ = self.html("Opava", "?body_only=true")
        start = whole.index(">", whole.index("<body")) + 1
        self.assertEqual(inside, whole[start : whole.index("</body>")])
        characters = f'"dsr":[0,{len(self.page())},0,0]'
        self.assertIn(characters, self.html("Opava", "?offsetType=char")[0])
        self.assertNotIn(characters, whole)

    def test_wikitext(self) -> None:
        status, headers, body = self.ask("GET", "/localhost/v3/page/wikitext/Opava")
        self.assertEqual((status, headers["content-type"], body.decode()), (200, WIKITEXT, self.page()))

    def test_titles_are_read_as_links_are(self) -> None:
        for path in ("Template%3ALang", "template:lang", "Template:Lang", "_Template_:_Lang_"):
            with self.subTest(path=path):
                self.assertEqual(self.ask("GET", f"/x/v3/page/wikitext/{path}")[0], 200)
        (self.pages / "A%2FB.wiki").write_text("below")
        self.assertEqual(self.ask("GET", "/x/v3/page/wikitext/A%2FB")[2], b"below")
        self.assertEqual(self.ask("GET", "/x/v3/page/wikitext/A/B")[0], 404)

    def test_revisions(self) -> None:
        number = self.html("Opava")[1].split('"')[1].partition("/")[0]
        for kind in ("html", "wikitext"):
            self.assertEqual(self.ask("GET", f"/x/v3/page/{kind}/Opava/{number}")[0], 200)
            status, _, body = self.ask("GET", f"/x/v3/page/{kind}/Opava/1")
            self.assertEqual((status, json.loads(body)["error"]), (404, "NoSuchRevision"))

    def test_not_modified(self) -> None:
        tag = self.html("Opava")[1]
        self.assertEqual(
            self.ask("GET", "/x/v3/page/html/Opava", If_None_Match=f'"other", {tag}')[::2], (304, b"")
        )
        self.assertEqual(self.ask("GET", "/x/v3/page/html/Opava", If_None_Match='"other"')[0], 200)

    def test_head(self) -> None:
        length = self.ask("GET", "/x/v3/page/html/Opava")[1]["content-length"]
        status, headers, body = self.ask("HEAD", "/x/v3/page/html/Opava")
        self.assertEqual((status, headers["content-length"], body), (200, length, b""))

    def test_versions_of_the_html(self) -> None:
        profile = 'text/html; charset=utf-8; profile="https://www.mediawiki.org/wiki/Specs/HTML/{}"'
        for accept, wanted in {
            profile.format("2.8.0"): 200,
            profile.format("2.1.0"): 200,
            profile.format("999.0.0"): 406,
            profile.format("1.6.0") + ", */*": 200,
            "text/html": 200,
            "image/png": 200,
        }.items():
            with self.subTest(accept=accept):
                self.assertEqual(self.ask("GET", "/x/v3/page/html/Opava", Accept=accept)[0], wanted)

    def test_refused_pages(self) -> None:
        (self.pages / "Latin.wiki").write_bytes(b"caf\xe9")
        (self.pages / "Long.wiki").write_bytes(b"a" * 2_097_153)
        (self.pages / "Deep.wiki").write_text("{{" * 200 + "}}" * 200)
        (self.pages / "Bad.wiki").write_text("{{Broken}}")
        (self.pages / "Template%3ABroken.wiki").write_bytes(b"\xff")
        for kind, title, status, error in [
            ("html", "Latin", 422, "PageNotUtf8"), ("wikitext", "Latin", 422, "PageNotUtf8"),
            ("html", "Long", 422, "PageTooLong"), ("wikitext", "Long", 422, "PageTooLong"),
            ("html", "Deep", 422, "BracesTooDeep"), ("html", "Bad", 422, "TemplateNotUtf8"),
            ("html", "Nowhere", 404, "NoSuchPage"), ("wikitext", "Nowhere", 404, "NoSuchPage"),
            ("html", "%D0%B6" * 60, 404, "NoSuchPage"), ("html", "a%5Bb", 404, "BadTitle"),
            ("html", "Opava%23History", 404, "BadTitle"),
        ]:  # fmt: skip
            with self.subTest(kind=kind, title=title):
                came, headers, body = self.ask("GET", f"/x/v3/page/{kind}/{title}")
                told = json.loads(body)
                self.assertEqual((came, told["status"], told["error"]), (status, status, error))
                self.assertTrue(headers["content-type"].startswith("application/json"))
                self.assertTrue(told["sentence"].endswith("."))

    def test_a_link_out_of_the_folder_is_no_page(self) -> None:
        (self.root / "secret").write_text("secret")
        os.symlink(self.root / "secret", self.pages / "Secret.wiki")
        os.mkfifo(self.pages / "Pipe.wiki")
        self.assertEqual(self.ask("GET", "/x/v3/page/wikitext/Secret")[0], 404)
        self.assertEqual(self.ask("GET", "/x/v3/page/html/Secret")[0], 404)
        self.assertEqual(self.ask("GET", "/x/v3/page/wikitext/Pipe")[0], 500)


class Transforms(ServingCase):
    def test_bodies_as_parsoid_takes_them(self) -> None:
        html = self.html("Opava")[0]
        head = '--x\r\nContent-Disposition: form-data; name="html"\r\n\r\n'
        parts = f"{head}{html}\n--x--\n".replace("\r\n", "\n").replace("\n", "\r\n").encode()
        for kind, body in [
            ("application/json", json.dumps({"html": html}).encode()),
            ("application/json; charset=utf-8", json.dumps({"html": {"body": html, "headers": {}}}).encode()),
            (
                "application/x-www-form-urlencoded",
                urlencode({"html": html, "scrub_wikitext": "true"}).encode(),
            ),
            ("multipart/form-data; boundary=x", parts),
        ]:
            for title in ("", "/Opava", "/Opava/"):
                with self.subTest(kind=kind, title=title):
                    status, headers, answer = self.ask(
                        "POST", f"{TRANSFORM}html/to/wikitext{title}", body, Content_Type=kind
                    )
                    self.assertEqual(
                        (status, headers["content-type"], answer.decode()), (200, WIKITEXT, self.page())
                    )

    def test_an_edit_is_answered_and_not_stored(self) -> None:
        html, tag = self.html("Opava", "?data_parsoid=false")
        for document in (edited(html), html.replace("is a town in", "is an old town in")):
            body = json.dumps({"html": document}).encode()
            path = f"{TRANSFORM}html/to/wikitext/Opava"
            status, _, answer = self.ask("POST", path, body, Content_Type="application/json", If_Match=tag)
            self.assertEqual(
                (status, answer.decode()), (200, self.page().replace("is a town in", "is an old town in"))
            )
        self.assertEqual(self.page(), (REPOSITORY / "examples/pages/Opava.wiki").read_text())

    def test_an_edit_of_each_shape(self) -> None:
        """Whatever parameters the page was taken with, its edit comes back."""
        (self.pages / "Opava.wiki").write_text(self.page().replace("The lead", "\U0001f600 The lead"))
        for query in (
            "", "?body_only=1", "?data_parsoid=0", "?offsetType=ucs2", "?offsetType=char&body_only=1"
        ):
            html, tag = self.html("Opava", query)
            document = html.replace("is a town in", "is an old town in").replace("<h2", "<!-- x --><h2")
            unit = query.partition("offsetType=")[2].partition("&")[0]
            for fields, also in [({"offsetType": unit} if unit else {}, ""), ({}, query)]:
                with self.subTest(query=query, fields=fields):
                    body = json.dumps({"html": document, **fields}).encode()
                    path = f"{TRANSFORM}html/to/wikitext/Opava{also}"
                    status, _, answer = self.ask(
                        "POST", path, body, Content_Type="application/json", If_Match=tag
                    )
                    self.assertEqual(
                        (status, answer.decode()), (200, self.page().replace("is a town", "is an old town"))
                    )

    def test_a_stale_edit(self) -> None:
        html, tag = self.html("Opava")
        (self.pages / "Opava.wiki").write_text(self.page() + "more")
        body = json.dumps({"html": edited(html)}).encode()
        reply = self.ask(
            "POST", f"{TRANSFORM}html/to/wikitext/Opava", body, Content_Type="application/json", If_Match=tag
        )
        self.assertEqual((reply[0], json.loads(reply[2])["error"]), (412, "Stale"))

    def test_html_without_sources_is_refused(self) -> None:
        body = json.dumps({"html": "<p>new</p>"}).encode()
        status, _, answer = self.ask(
            "POST", f"{TRANSFORM}html/to/wikitext", body, Content_Type="application/json"
        )
        self.assertEqual((status, json.loads(answer)["error"]), (422, "ElementHasNoSource"))

    def test_wikitext_to_html(self) -> None:
        (self.root / "one/pages").mkdir(parents=True)
        text = "{{lang|de|Troppau}} é\n"
        for path in (REPOSITORY / "examples/pages").iterdir():
            (self.root / "one/pages" / path.name).write_bytes(path.read_bytes())
        (self.root / "one/pages/Text.wiki").write_text(text)
        wanted = run_program(["html", "Text"], b"", self.root / "one")
        for fields, title in [
            ({}, ""), ({}, "/Opava"), ({"body_only": True}, ""), ({"offsetType": "ucs2"}, "")
        ]:
            body = json.dumps({"wikitext": text, **fields}).encode()
            status, headers, answer = self.ask(
                "POST", f"{TRANSFORM}wikitext/to/html{title}", body, Content_Type="application/json"
            )
            self.assertEqual((status, headers["content-type"]), (200, HTML))
            if not fields:
                self.assertEqual(answer, wanted)
        self.assertEqual(
            sorted(p.name for p in self.pages.iterdir()),
            EXAMPLES,
        )

    def test_a_new_template_is_seen(self) -> None:
        body = json.dumps({"wikitext": "{{New}}"}).encode()
        for wanted in (b"Template:New", b"now here", b"Template:New"):
            path = self.pages / "Template%3ANew.wiki"
            path.write_text("now here") if wanted == b"now here" else path.unlink() if path.exists() else None
            reply = self.ask("POST", f"{TRANSFORM}wikitext/to/html", body, Content_Type="application/json")
            self.assertIn(b">" + (wanted if wanted == b"now here" else b"Template:New<"), reply[2])


class Saving(ServingCase):
    def test_a_page_is_saved(self) -> None:
        before = self.page()
        html, tag = self.html("Opava", "?data_parsoid=false")
        os.chmod(self.pages / "Opava.wiki", 0o640)
        status, told = self.save("Opava", edited(html), tag)
        after = before.replace("is a town in", "is an old town in")
        self.assertEqual((status, self.page()), (200, after))
        self.assertEqual(os.stat(self.pages / "Opava.wiki").st_mode & 0o777, 0o640)
        self.assertEqual(
            (told["changed"], told["bytes_before"], told["bytes_after"]),
            (True, len(before.encode()), len(after.encode())),
        )
        lines = [
            line for line in told["diff"].splitlines() if line[:1] in "+-" and line[:3] not in ("+++", "---")
        ]
        self.assertEqual([line[0] for line in lines], ["-", "+"])
        self.assertEqual(self.html("Opava")[1], told["etag"])
        status, told = self.save("Opava", self.html("Opava")[0], told["etag"])
        self.assertEqual((status, told["changed"], told["diff"]), (200, False, ""))

    def test_a_preview_stores_nothing(self) -> None:
        before = self.stored()
        html, tag = self.html("Opava")
        status, told = self.save("Opava", edited(html), tag, "?preview=1")
        self.assertEqual((status, told["changed"], told["etag"], self.stored()), (200, True, tag, before))

    def test_tags_are_asked_for(self) -> None:
        html, tag = self.html("Opava")
        before = self.stored()
        for given, status in [
            (None, 428), ("*", 412), ('"1"', 412), (tag.strip('W/"'), 412), (f'"a", {tag}', 200)
        ]:
            with self.subTest(given=given):
                self.assertEqual(self.save("Opava", html, given)[0], status)
        self.assertEqual(self.stored(), before)

    def test_a_page_is_stale_when_a_template_is(self) -> None:
        """Also a template within a template, one whose change shows nothing, one that is absent, one whose
        name is made."""
        lang = self.pages / "Template%3ALang.wiki"
        for name, text in {
            "Main": "{{outer|x}} {{absent}} {{{{{1|made}}}}}", "Template%3AOuter": "{{Inner}}",
            "Template%3AInner": "one",
            "Template%3AMade": "m", "Other": "page",
        }.items():  # fmt: skip
            (self.pages / f"{name}.wiki").write_text(text)
        html, tag = self.html("Main")
        for name, text in [
            ("Template%3AOuter", "{{Inner}}<noinclude>about</noinclude>"), ("Template%3AInner", "two"),
            ("Template%3AAbsent", "here"), ("Template%3AMade", "n"), ("Main", "{{outer|x}}"),
        ]:  # fmt: skip
            with self.subTest(name=name):
                (self.pages / f"{name}.wiki").write_text(text)
                self.assertEqual(self.save("Main", html, tag)[0], 412)
                fresh, new = self.html("Main")
                self.assertNotEqual(new, tag)
                self.assertEqual(self.save("Main", fresh, new)[0], 200)
                html, tag = fresh, new
        (self.pages / "Other.wiki").write_text("changed")
        lang.write_text("changed")
        self.assertEqual(self.html("Main")[1], tag)

    def test_refusals_name_the_node(self) -> None:
        html, tag = self.html("Opava")
        before = self.stored()
        cases = [
            (
                html.replace("is a town", "is a big town").replace("<body ", '<body data-wt-edit="other" '),
                "NotEditable",
                None,
                None,
            ),
            (edited(html).replace("Troppau</i>", "Trop</i>"), "InTemplate", "mw5", None),
            (
                edited(html).replace("the river", '<a href="./x">the river</a>', 1),
                "ElementDoesNotFit",
                None,
                "Element",
            ),
            (edited(html).replace("</b>", "</i>", 1), "HtmlRefused", "mw4", "EndTag"),
            (edited(html).replace('href="./Czech_Silesia"', 'href="./a[b"'), "BadContent", "mw3", "Href"),
            (
                edited(html).replace("It was the seat", "<u>It</u> was the seat"),
                "BadContent",
                "mw3",
                "Element",
            ),
        ]
        for document, error, node, why in cases:
            with self.subTest(error=error):
                status, told = self.save("Opava", document, tag)
                self.assertEqual((status, told["error"], told["why"]), (422, error, why), told)
                self.assertTrue(told["line"] and told["sentence"])
                if node is not None:
                    self.assertEqual(told["node"], node)
                self.assertEqual(
                    element_at(document, told["element"]).get("id", told["path"]),
                    told["node"] if node else told["path"],
                )
        self.assertEqual(self.stored(), before)

    def test_json_alone_is_saved(self) -> None:
        html, tag = self.html("Opava")
        for kind in (
            "application/x-www-form-urlencoded", "text/plain", "multipart/form-data; boundary=x", ""
        ):
            status = self.ask(
                "POST", "/save/Opava", urlencode({"html": html}).encode(), Content_Type=kind, If_Match=tag
            )[0]
            self.assertEqual(status, 415)

    def test_origins(self) -> None:
        html, tag = self.html("Opava")
        body = json.dumps({"html": html}).encode()
        for origin, fetch, status in [
            (f"http://127.0.0.1:{self.port}", "same-origin", 200), ("http://evil.example", "cross-site", 403),
            ("null", "none", 403),
            (f"http://127.0.0.1:{self.port}.evil.example", "same-origin", 403),
            (f"http://localhost:{self.port}", "same-site", 403),
        ]:  # fmt: skip
            with self.subTest(origin=origin):
                about = {"Origin": origin, "Sec_Fetch_Site": fetch, "If_Match": tag}
                reply = self.ask("POST", "/save/Opava", body, Content_Type="application/json", **about)
                self.assertEqual(reply[0], status)


class Elements(HTMLParser):
    def __init__(self) -> None:
        super().__init__()
        self.found: list = []

    def handle_starttag(self, tag: str, attributes: list) -> None:
        self.found.append(dict(attributes))

    handle_startendtag = handle_starttag


def element_at(document: str, number: int) -> dict:
    """The attributes of an element, counted from 1."""
    parser = Elements()
    parser.feed(document)
    return parser.found[number - 1]


class Editor(ServingCase):
    def test_titles(self) -> None:
        (self.pages / "A%2FB.wiki").touch()
        (self.pages / "no page.wiki").touch()
        (self.pages / "other.txt").touch()
        _, headers, body = self.ask("GET", "/titles")
        self.assertEqual(
            json.loads(body),
            {"titles": sorted(["A/B", *(unquote(name[:-5]).replace("_", " ") for name in EXAMPLES)])},
        )
        self.assertEqual(headers["content-type"], "application/json; charset=utf-8")

    def test_lists(self) -> None:
        for path in ("/", "/editor/", "/editor"):
            status, headers, body = self.ask("GET", path)
            self.assertEqual((status, headers["content-type"]), (200, "text/html; charset=utf-8"))
            self.assertIn("default-src 'self'", headers["content-security-policy"])

    def test_client_files(self) -> None:
        client = REPOSITORY / "client"
        for path in (
            "tests/x.js",
            "package.json",
            "..%2Ftools%2Fserve",
            "../tools/serve",
            "README.md",
            ".hidden.js",
            "editor/index.html",
        ):
            with self.subTest(path=path):
                self.assertEqual(self.ask("GET", f"/client/{path}")[0], 404)
        if not (client / "bughtiso.js").is_file():
            self.skipTest("there is no client here")
        status, headers, body = self.ask("GET", "/client/bughtiso.js")
        self.assertEqual((status, headers["content-type"]), (200, "text/javascript; charset=utf-8"))
        self.assertEqual(body, (client / "bughtiso.js").read_bytes())
        self.assertEqual(self.ask("GET", "/editor/Opava")[0], 200)
        self.assertEqual(self.ask("GET", "/editor/a%5Bb")[0], 404)

    def test_methods(self) -> None:
        for method, path, allowed in [
            ("POST", "/titles", "GET"), ("GET", "/save/Opava", "POST"), ("PUT", "/save/Opava", "POST")
        ]:
            status, headers, _ = self.ask(method, path, b"" if method != "GET" else None)
            self.assertEqual((status, headers["allow"]), (405, allowed))


@unittest.skipIf(PROGRAM is None, "wtround is not built here (WTROUND=FILE names another)")
class Command(unittest.TestCase):
    def test_an_address_of_ipv6(self) -> None:
        if not socket.has_ipv6:
            self.skipTest("there is no IPv6")
        command = [
            sys.executable, str(TOOLS / "serve"), str(REPOSITORY / "examples/pages"), "--address", "::1"
        ]
        with subprocess.Popen(
            [*command, "--port", "0", "--program", PROGRAM, "-q"], stdout=subprocess.PIPE
        ) as process:
            address = process.stdout.readline().decode().strip()
            try:
                if not address:
                    self.skipTest("this machine has no address of IPv6")
                with build_opener(ProxyHandler({})).open(address + "titles", timeout=120) as answer:
                    self.assertEqual(len(json.load(answer)["titles"]), len(EXAMPLES))
            finally:
                process.terminate()

    def run_tool(self, *words: str) -> subprocess.CompletedProcess:
        command = [sys.executable, str(TOOLS / "serve"), *words]
        return subprocess.run(command, stdout=subprocess.PIPE, stderr=subprocess.PIPE, timeout=120)

    def test_what_cannot_start(self) -> None:
        pages = str(REPOSITORY / "examples/pages")
        for words, status in [
            (["nowhere", "--program", PROGRAM], 1), ([pages, "--program", "/nowhere"], 1),
            ([pages, "--program", "true"], 1),
            ([pages, "--program", PROGRAM, "--port", "99999"], 1),
            ([pages, "--program", PROGRAM, "--address", "x y"], 1), (["--port", "x"], 2),
        ]:  # fmt: skip
            with self.subTest(words=words):
                done = self.run_tool(*words)
                self.assertEqual(done.returncode, status, done.stderr)
                self.assertTrue(
                    done.stderr.startswith(b"serve: " if status == 1 else b"usage: "), done.stderr
                )
                self.assertNotIn(b"Traceback", done.stderr)


if __name__ == "__main__":
    unittest.main()
