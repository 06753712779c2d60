"""Requests that are broken, or meant to break something: each is refused by name, and nothing is stored."""
import json
import re
import unittest
from typing import Iterator, List, Tuple

from serving_case import ServingCase

BODY_LIMIT = 67_108_864
TITLES = [  # percent-encoded or raw, as they stand in the request line; none is the title of a page
    b"..", b".", b"..%2F..%2Fetc%2Fpasswd", b"%2Fetc%2Fpasswd", b"%2e%2e%2f%2e%2e%2fetc%2fpasswd", b"a%00b",
    b"%00", b"%FF", b"\xff\xfe",
    b"%C0%AE%C0%AE%2F", b"%zz", b"%", b"a%0Ab", b"a%0D%0AX-Injected:%201", b"%5Bx%5D", b"%7B%7Bx%7D%7D",
    b"%3Cscript%3E", b"a%23b", b"~~~",
    b":x", b"Opava.wiki", b"..%5C..%5CWindows", b"pages%2FOpava", b"%2541", b"a" * 300, b"%C3%A9" * 200,
    b"x" * 9000, b"Opava%2F..",
]  # fmt: skip
ROUTES = [
    b"GET /editor/%s", b"GET /x/v3/page/html/%s", b"GET /x/v3/page/wikitext/%s", b"POST /save/%s",
    b"POST /x/v3/transform/html/to/wikitext/%s",
]  # fmt: skip
PATHS = [
    b"GET /../../etc/passwd", b"GET /client/../tools/serve", b"GET /client/%2e%2e/tools/serve",
    b"GET /client/..%2Ftools%2Fserve",
    b"GET /client/tests/x.js", b"GET /client/%00.js", b"GET /client/editor/..%2F..%2Fx.js",
    b"GET //evil.example/", b"GET /x/v3/page/html",
    b"GET /x/v3/page/pagebundle/Opava", b"GET /x/v3/page/html/Opava/1/2", b"GET /x/v3/page/html/Opava/../1",
    b"GET /x/v3/page/html/",
    b"GET /pages/Opava.wiki", b"GET /titles/", b"GET /titles?x=%FF", b"GET http://evil.example/titles",
    b"GET titles", b"GET *",
    b"GET /titles?" + b"&".join([b"a=b"] * 50), b"PUT /save/Opava", b"DELETE /save/Opava", b"PATCH /titles",
    b"OPTIONS /save/Opava",
    b"POST /x/v3/transform/html/to/html/Opava", b"POST /x/v3/transform/wikitext/to/html/a%5Bb",
    b"POST /editor/Opava", b"POST /",
]  # fmt: skip
JSON = b"Content-Type: application/json\r\n"
FORM = b"Content-Type: application/x-www-form-urlencoded\r\n"
PARTS = b"Content-Type: multipart/form-data; boundary=x\r\n"
HEADS = [  # of a request that would else be good; without a length
    b"", b"Host: \r\n", b"Host: evil.example\r\n", b"Host: 127.0.0.1.evil.example\r\n",
    b"Host: localhost.evil.example\r\n", b"Host: evil@localhost\r\n",
    b"Host: 192.0.2.1\r\n", b"Host: [2001:db8::1]\r\n", b"Host: 0x7f.1\r\n", b"Host: 2130706433\r\n",
    b"Host: localhost\r\nHost: localhost\r\n",
    b"Host: localhost\r\nHost: evil.example\r\n", b"Host: localhost/\r\n",
    b"Host: localhost\r\n" + b"X: y\r\n" * 200,
    b"Host: localhost\r\nX: " + b"y" * 70_000 + b"\r\n",
]  # fmt: skip
LENGTHS = [
    b"Content-Length: -1\r\n", b"Content-Length: +2\r\n", b"Content-Length: 2, 2\r\n",
    b"Content-Length: 1e3\r\n", b"Content-Length: 0x10\r\n",
    b"Content-Length: 99999999999999999999\r\n", b"Content-Length: 2\r\nContent-Length: 3\r\n",
    b"Content-Length: \r\n", b"",
    "Content-Length: ²\r\n".encode(), b"Transfer-Encoding: chunked\r\n",
    b"Transfer-Encoding: chunked\r\nContent-Length: 2\r\n",
    b"Transfer-Encoding: identity\r\nContent-Length: 2\r\n", b"Content-Length: 67108865\r\n",
    b"Content-Length: 68157440\r\nExpect: 100-continue\r\n",
]  # fmt: skip
ORIGINS = [
    b"Origin: null\r\n", b"Origin: http://evil.example\r\n", b"Origin: file://\r\n", b"Origin: \r\n",
    b"Origin: http://localhost:1\r\n",
    b"Origin: http://localhost\r\nOrigin: http://evil.example\r\n", b"Sec-Fetch-Site: cross-site\r\n",
    b"Sec-Fetch-Site: same-site\r\n",
    b"Origin: http://localhost.evil.example\r\n", b"Origin: chrome-extension://abcdef\r\n",
]  # fmt: skip
TAGS = [
    b"",
    b"If-Match: *\r\n",
    b'If-Match: "x"\r\n',
    b"If-Match: x\r\n",
    b'If-Match: W/"\r\n',
    b"If-Match: ,\r\n",
    b'If-Match: "\xff"\r\n',
    b"If-Match: " + b'"a", ' * 5000 + b"\r\n",
]
BODIES = [  # with the head that names their kind
    (JSON, b""), (JSON, b"{"), (JSON, b"[]"), (JSON, b"null"), (JSON, b'"html"'), (JSON, b"{}"),
    (JSON, b'{"html": null}'), (JSON, b'{"html": 1}'),
    (JSON, b'{"html": {"body": []}}'), (JSON, b'{"html": "\\ud800"}'), (JSON, b'{"html": "\xff"}'),
    (JSON, b"[" * 100_000),
    (JSON, '{"html": ""}'.encode("utf-16")), (JSON, b"\xef\xbb\xbf{}"),
    (JSON, b'{"html": ' + b"1" * 10_000 + b"}"), (JSON, b'{"html": "x"} {}'),
    (b"Content-Type: application/json; charset=latin-1\r\n", b"{}"), (b"", b"{}"),
    (b"Content-Type: text/html\r\n", b"<p>x</p>"),
    (b"Content-Type: application/json\r\nContent-Encoding: gzip\r\n", b"\x1f\x8b"),
    (b"Content-Type: " + b"; a=b" * 5000 + b"\r\n", b""),
    (FORM, b""), (FORM, b"html=%FF"), (FORM, b"a=b&" * 1000), (FORM, b"html"), (FORM, b"&" * 1000),
    (PARTS, b""), (PARTS, b"--x--"), (PARTS, b"--x\r\n\r\n"),
    (PARTS, b"--x\r\n\r\nv\r\n--x--"),
    (PARTS, b'--x\r\nContent-Disposition: form-data; name="html"\r\n\r\n<p>'), (PARTS, b"--x\r\n" * 1000),
    (PARTS, b'--x\r\nContent-Disposition: form-data; name="html"\r\n\r\n\xff\r\n--x--'),
    (b"Content-Type: multipart/form-data\r\n", b"--\r\n"),
    (b"Content-Type: multipart/form-data; boundary=" + b"x" * 100 + b"\r\n", b""),
]  # fmt: skip
DOCUMENTS = [  # HTML that no edit is
    "", "<", "<!--", "<p", '<p a="', "<![CDATA[", "<script>", "</p>", "<p>\0</p>", "<" * 100_000,
    "<b>" * 100_000, '<a "' * 50_000, "<a b='" * 50_000,
    "&" * 100_000, "&#" + "9" * 100_000 + ";", "<p id=mw1>x", "<template>" * 200,
    "<html><body><p id='mw999'>x</p></body></html>", "\ufeff<p>x</p>",
    '<!DOCTYPE html><html><head></head><body data-wt-edit="content">x</body></html>',
    "<p " + "a=b " * 50_000 + ">", "</b>" * 100_000,
]  # fmt: skip
LINES = [
    b"", b"\r\n\r\n", b"GET\r\n\r\n", b"GET /titles\r\n\r\n", b"GET /titles HTTP/9.9\r\n\r\n",
    b"GET /titles HTTP/x\r\n\r\n", b"BREW /titles HTTP/1.1\r\n\r\n",
    b"get /titles HTTP/1.1\r\n\r\n", b"GET  /titles HTTP/1.1 x\r\n\r\n",
    b"GET /" + b"a" * 70_000 + b" HTTP/1.1\r\n\r\n", b"\x16\x03\x01\x02\x00\x01",
    b"GET /titles HTTP/1.1\r\nHost localhost\r\n\r\n", b"GET /titles HTTP/1.1\r\n: x\r\n\r\n",
    b"CONNECT localhost:80 HTTP/1.1\r\n\r\n", b"TRACE / HTTP/1.1\r\n\r\n",
    b"POST /save/Opava HTTP/1.1\r\nHost: localhost\r\n", b"\0" * 1000,
    b"GET /titles\0 HTTP/1.1\r\nHost: localhost\r\n\r\n",
]  # fmt: skip

HOST = b"Host: localhost\r\n"
TAG = b'If-Match: W/"1/x"\r\n'


def request(line: bytes, head: bytes, body: bytes = b"", length: bool = True) -> bytes:
    size = b"Content-Length: %d\r\n" % len(body) if length else b""
    return line + b" HTTP/1.1\r\n" + head + size + b"Connection: close\r\n\r\n" + body


def requests(tag: bytes) -> Iterator[Tuple[str, bytes]]:
    """What each is about, and its bytes. `tag` is the good one of the page."""
    good = b"If-Match: " + tag + b"\r\n"
    for route in ROUTES:
        for title in TITLES:
            yield "title", request(
                route % title,
                HOST + TAG + JSON,
                b'{"html": "<p>x</p>"}' if route.startswith(b"POST") else b"",
            )
    for path in PATHS:
        yield "path", request(path, HOST + TAG + JSON, b"{}")
    for head in HEADS:
        yield "head", request(b"POST /save/Opava", head + good + JSON, b'{"html": "<p>x</p>"}')
    for head in LENGTHS:
        yield "length", request(b"POST /save/Opava", HOST + good + JSON + head, b"{}", length=False)
    for head in ORIGINS:
        yield "origin", request(b"POST /save/Opava", HOST + good + JSON + head, b'{"html": "<p>x</p>"}')
    for head in TAGS:
        yield "tag", request(b"POST /save/Opava", HOST + head + JSON, b'{"html": "<p>x</p>"}')
    for head, body in BODIES:
        yield "body", request(b"POST /save/Opava", HOST + good + head, body)
        yield "body", request(b"POST /x/v3/transform/html/to/wikitext/Opava", HOST + good + head, body)
    for document in DOCUMENTS:
        yield "document", request(
            b"POST /save/Opava", HOST + good + JSON, json.dumps({"html": document}).encode()
        )
    for kind, body in [(JSON, b'{"html": "<p>x</p>"}'), (FORM, b"html=x"), (PARTS, b"--x\r\n")]:
        head = HOST + good + kind + b"Content-Length: %d\r\n" % (len(body) + 10)
        yield "cut off", request(b"POST /x/v3/transform/html/to/wikitext/Opava", head, body, length=False)
    for line in LINES:
        yield "line", line


def answers(data: bytes) -> List[Tuple[int, bytes]]:
    """The statuses and bodies in what a server sent."""
    found = []
    while data:
        head, _, data = data.partition(b"\r\n\r\n")
        status = re.match(rb"HTTP/1\.[01] ([0-9]{3}) ", head)
        length = re.search(rb"\r\nContent-Length: ([0-9]+)", head)
        size = int(length[1]) if length else 0
        found.append((int(status[1]) if status else 0, data[:size]))
        data = data[size:]
    return found


class Hostile(ServingCase):
    def test_each_is_refused_by_name(self) -> None:
        before, outside = self.stored(), sorted(self.root.iterdir())
        tag = self.html("Opava")[1].encode()
        count, silent = 0, 0
        for about, data in requests(tag):
            count += 1
            with self.subTest(about=about, request=data[:300], length=len(data)):
                came = answers(self.raw(data, ends=True))
                if about == "line" and not came:
                    silent += 1
                    continue
                self.assertEqual(len(came), 1)
                status, body = came[0]
                self.assertIn(status, {400, 403, 404, 405, 411, 412, 413, 414, 415, 422, 428, 431, 501, 505})
                told = json.loads(body)
                self.assertEqual(told["status"], status)
                self.assertTrue(told["error"] and told["sentence"].endswith("."))
                self.assertNotIn(b"Traceback", body)
            self.assertEqual(self.stored(), before)
        self.assertGreater(count, 200)
        self.assertLess(silent, 6)
        self.assertEqual(sorted(self.root.iterdir()), outside)
        self.assertEqual(self.html("Opava")[1].encode(), tag)

    def test_a_body_of_65_mib(self) -> None:
        body = b'{"html": "' + b"x" * (65 * 1024 * 1024) + b'"}'
        for path in (b"POST /save/Opava", b"POST /x/v3/transform/html/to/wikitext"):
            came = answers(self.raw(request(path, HOST + TAG + JSON, body)))
            self.assertEqual([status for status, _ in came], [413])
            self.assertEqual(json.loads(came[0][1])["error"], "BodyTooLong")

    def test_html_that_is_too_long_to_mend(self) -> None:
        tag = self.html("Opava")[1].encode()
        body = b'{"html": "' + b"<b>x</b>" * 2_200_000 + b'"}'
        came = answers(
            self.raw(request(b"POST /save/Opava", HOST + b"If-Match: " + tag + b"\r\n" + JSON, body))
        )
        self.assertEqual((came[0][0], json.loads(came[0][1])["error"]), (413, "TooLongToMend"))

    def test_a_body_is_asked_for_once_the_head_is_let_in(self) -> None:
        head = HOST + JSON + b"Expect: 100-continue\r\n"
        came = answers(self.raw(request(b"POST /save/Opava", head, b'{"html": "<p>x</p>"}')))
        self.assertEqual([status for status, _ in came], [428])
        came = answers(
            self.raw(request(b"POST /x/v3/transform/html/to/wikitext", head, b'{"html": "<p>x</p>"}'))
        )
        self.assertEqual([status for status, _ in came], [100, 422])

    def test_one_connection_takes_many_requests(self) -> None:
        one = b"GET /titles HTTP/1.1\r\nHost: localhost\r\n\r\n"
        last = b"GET /titles HTTP/1.1\r\nHost: localhost\r\nConnection: close\r\n\r\n"
        self.assertEqual([status for status, _ in answers(self.raw(one * 5 + last))], [200] * 6)

    def test_no_second_request_hides_in_a_body(self) -> None:
        hidden = b"GET /titles HTTP/1.1\r\nHost: localhost\r\n\r\n"
        for head in (
            b"Transfer-Encoding: chunked\r\nContent-Length: 4\r\n",
            b"Content-Length: 0\r\nContent-Length: 44\r\n",
            b"Host: evil.example\r\n",
        ):
            data = b"POST /save/Opava HTTP/1.1\r\nHost: localhost\r\n" + head + JSON + b"\r\n" + hidden
            self.assertEqual(len(answers(self.raw(data, ends=True))), 1)


if __name__ == "__main__":
    unittest.main()
