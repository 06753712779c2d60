"""A server over a copy of the example pages, for tests; they are skipped where wtround isn't built."""
import http.client
import json
import os
import shutil
import socket
import subprocess
import sys
import tempfile
import threading
import unittest
from pathlib import Path
from typing import Dict, Optional, Tuple
from urllib.parse import quote

from loading import REPOSITORY, TOOLS

sys.path.insert(0, str(TOOLS))
sys.dont_write_bytecode = True

from serving.handler import Server  # noqa: E402
from serving.pages import PageFolder  # noqa: E402
from serving.program import Program  # noqa: E402
from serving.site import Site  # noqa: E402

BUILT = os.environ.get("WTROUND") or str(REPOSITORY / "crates/wtround/out/wtround")
PROGRAM = BUILT if os.access(BUILT, os.X_OK) else None
SECONDS = 120  # that a test waits for an answer, on a machine that does other work too
Reply = Tuple[int, Dict[str, str], bytes]


@unittest.skipIf(PROGRAM is None, "wtround is not built here (WTROUND=FILE names another)")
class ServingCase(unittest.TestCase):
    def setUp(self) -> None:
        folder = tempfile.TemporaryDirectory()
        self.addCleanup(folder.cleanup)
        self.root = Path(folder.name)
        self.pages = self.root / "pages"
        shutil.copytree(REPOSITORY / "examples/pages", self.pages)
        self.server = self.start()
        self.port = self.server.server_address[1]

    def start(self) -> Server:
        assert PROGRAM is not None
        pages = PageFolder(str(self.pages))
        site = Site(pages, Program(PROGRAM, pages.path))
        server = Server(("127.0.0.1", 0), site, set(), is_quiet=True)
        thread = threading.Thread(target=server.serve_forever, args=(0.02,))
        thread.start()
        self.addCleanup(thread.join)
        self.addCleanup(site.close)
        self.addCleanup(server.server_close)
        self.addCleanup(server.shutdown)
        return server

    def ask(
        self, method: str, path: str, body: Optional[bytes] = None, port: Optional[int] = None, **headers: str
    ) -> Reply:
        """Names of headers are written with `_` for `-`."""
        connection = http.client.HTTPConnection("127.0.0.1", port or self.port, timeout=SECONDS)
        try:
            connection.request(
                method, path, body, {name.replace("_", "-"): value for name, value in headers.items()}
            )
            answer = connection.getresponse()
            return answer.status, {name.lower(): value for name, value in answer.getheaders()}, answer.read()
        finally:
            connection.close()

    def raw(self, data: bytes, ends: bool = False, port: Optional[int] = None) -> bytes:
        """What is answered to these bytes; `ends`: nothing comes behind them."""
        address = ("127.0.0.1", port or self.port)
        with socket.create_connection(address, timeout=SECONDS) as connection:
            try:
                connection.sendall(data)
                if ends:
                    connection.shutdown(socket.SHUT_WR)
            except OSError:  # it was refused meanwhile
                pass
            parts = []
            while True:
                try:
                    part = connection.recv(1 << 16)
                except ConnectionResetError:
                    break
                if not part:
                    break
                parts.append(part)
            return b"".join(parts)

    def html(self, title: str, query: str = "", port: Optional[int] = None) -> Tuple[str, str]:
        """The HTML of a page and its tag."""
        status, headers, body = self.ask(
            "GET", f"/localhost/v3/page/html/{quote(title, safe='')}{query}", port=port
        )
        self.assertEqual(status, 200, body[:500])
        return body.decode(), headers["etag"]

    def save(
        self, title: str, html: str, tag: Optional[str], query: str = "", port: Optional[int] = None
    ) -> Tuple[int, dict]:
        headers = {"Content_Type": "application/json", **({"If_Match": tag} if tag is not None else {})}
        body = json.dumps({"html": html}).encode()
        status, _, answer = self.ask("POST", f"/save/{quote(title, safe='')}{query}", body, port, **headers)
        return status, json.loads(answer)

    def page(self, title: str = "Opava") -> str:
        return (self.pages / f"{title}.wiki").read_bytes().decode()

    def stored(self) -> Dict[str, bytes]:
        return {path.name: path.read_bytes() for path in self.pages.iterdir()}


def edited(html: str) -> str:
    """The example with one word more, marked."""
    return html.replace('<p id="mw3"', '<p data-wt-edit="content" id="mw3"').replace(
        "is a town in", "is an old town in"
    )


def run_program(words: list, given: bytes, folder: Path) -> bytes:
    assert PROGRAM is not None
    return subprocess.run(
        [PROGRAM, *words], cwd=folder, input=given, stdout=subprocess.PIPE, check=True
    ).stdout
