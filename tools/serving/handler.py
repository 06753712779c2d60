"""HTTP: what is let in, how a body is read, how an answer is written."""
from __future__ import annotations

import socket
import sys
import threading
from contextlib import contextmanager
from email.utils import formatdate
from http.server import BaseHTTPRequestHandler, ThreadingHTTPServer
from ipaddress import ip_address
from socketserver import TCPServer
from typing import Any, Dict, Iterator, Optional, Set
from urllib.parse import parse_qsl, unquote

from .refusals import Refusal
from .site import JSON_TYPE, Answer, Request, Site

BODY_BYTES = 67_108_864  # of a request
SECONDS = 30  # that a client may keep silent
CONNECTIONS = 64
DRAINED_BYTES = 2 * BODY_BYTES  # of a refused body that are thrown away, so that its client sees the answer

SAFE = {
    "Cache-Control": "no-cache",
    "X-Content-Type-Options": "nosniff",
    "Referrer-Policy": "no-referrer",
    "Cross-Origin-Resource-Policy": "same-origin",
    "Content-Security-Policy": "default-src 'self'; img-src 'self' data:; style-src 'self' 'unsafe-inline'; "
    "script-src 'self'; object-src 'none'; base-uri 'none'; frame-ancestors 'none'",
}
LOOPBACK_NAMES = {"localhost", "localhost."}


class Server(ThreadingHTTPServer):
    """Answers `CONNECTIONS` clients at once; further ones wait."""

    daemon_threads = True
    request_queue_size = 64

    def __init__(self, address: tuple, site: Site, names: Set[str], is_quiet: bool = False) -> None:
        self.address_family = socket.AF_INET6 if ":" in address[0] else socket.AF_INET
        self.site = site
        self.names = names  # that a Host field may have, besides addresses and localhost
        self.is_quiet = is_quiet
        self._room = threading.BoundedSemaphore(CONNECTIONS)
        self._answering = threading.Condition()
        self._answers = 0  # that are being made or sent
        super().__init__(address, Handler)
        self.is_loopback = ip_address(self.server_address[0]).is_loopback

    def process_request(self, request: Any, client_address: Any) -> None:
        self._room.acquire()
        try:
            super().process_request(request, client_address)
        except Exception:
            # No thread was begun. (At an end by a signal it may have been, and then it gives the room back.)
            self._room.release()
            raise

    def process_request_thread(self, request: Any, client_address: Any) -> None:
        try:
            super().process_request_thread(request, client_address)
        finally:
            self._room.release()

    def server_bind(self) -> None:
        """Without asking for the name of the address, which may take long where there is no network."""
        TCPServer.server_bind(self)
        self.server_name, self.server_port = self.server_address[:2]

    @contextmanager
    def answering(self) -> Iterator[None]:
        with self._answering:
            self._answers += 1
        try:
            yield
        finally:
            with self._answering:
                self._answers -= 1
                self._answering.notify_all()

    def finish_answers(self, seconds: float) -> None:
        """Waits until the requests that came are answered, so that no page is stored without an answer."""
        with self._answering:
            self._answering.wait_for(lambda: self._answers == 0, seconds)

    def handle_error(self, request: object, client_address: object) -> None:
        if not isinstance(sys.exc_info()[1], OSError):  # a client that went away is no fault
            super().handle_error(request, client_address)


class Handler(BaseHTTPRequestHandler):
    server: Server
    protocol_version = "HTTP/1.1"
    server_version = "wtround-serve"
    sys_version = ""
    timeout = SECONDS
    disable_nagle_algorithm = True

    def do_GET(self) -> None:
        self._handle()

    do_HEAD = do_POST = do_PUT = do_PATCH = do_DELETE = do_OPTIONS = do_GET

    def handle_expect_100(self) -> bool:
        return True  # the body is asked for once the head was let in

    def send_error(self, code: int, message: Optional[str] = None, explain: Optional[str] = None) -> None:
        """What BaseHTTPRequestHandler refuses: a malformed request line or head."""
        self.close_connection = True
        self.request_version = "HTTP/1.0"  # with a status line, whatever was asked for
        sentence = f"The request is malformed or not understood: {message or code}."
        refusal = Refusal(code, "BadRequest", sentence)
        self._send(Answer(refusal.body(), JSON_TYPE, code))
        self._drain()

    def _handle(self) -> None:
        with self.server.answering():
            self._handle_one()
        if self._left:
            self._drain()

    def _handle_one(self) -> None:
        self._left = 0  # bytes of the body that weren't read
        try:
            answer = self._answer()
        except Refusal as refusal:
            answer = Answer(refusal.body(), JSON_TYPE, refusal.status, refusal.headers)
        except OSError:
            raise
        except Exception:
            self.server.handle_error(self.request, self.client_address)
            sentence = "The server failed, and stored nothing: its log says more."
            refusal = Refusal(500, "ServerFailed", sentence)
            answer = Answer(refusal.body(), JSON_TYPE, 500)
        if self._left:
            self.close_connection = True
        self._send(answer)

    def _answer(self) -> Answer:
        if self.request_version == "HTTP/0.9":
            self.request_version = "HTTP/1.0"
            raise Refusal(400, "BadRequest", "The request has no version of HTTP.")
        length = self._length()
        self._left = length
        self._check_host()
        if self.command not in ("GET", "HEAD"):
            self._check_origin()
        if length > BODY_BYTES:
            sentence = f"The body has more than {BODY_BYTES:,} bytes: send one page alone."
            raise Refusal(413, "BodyTooLong", sentence)
        path, _, query = self.path.partition("?")
        headers = {name.lower(): value for name, value in self.headers.items()}
        method = "GET" if self.command == "HEAD" else self.command
        request = Request(method, segments(path), parameters(query), headers, self._read)
        return self.server.site.answer(request)

    def _length(self) -> int:
        """The length of the body. Refuses a body in pieces, and lengths that contradict one another."""
        if self.headers.get("Transfer-Encoding") is not None:
            self.close_connection = True
            raise Refusal(411, "NoLength", "Send the body whole, with a Content-Length.")
        lengths = set(self.headers.get_all("Content-Length", []))
        if not lengths:
            if self.command not in ("GET", "HEAD", "OPTIONS", "DELETE"):
                self.close_connection = True
                raise Refusal(411, "NoLength", "Send a Content-Length.")
            return 0
        length = lengths.pop().strip()
        if lengths or not (length.isascii() and length.isdigit() and len(length) < 20):
            self.close_connection = True
            raise Refusal(400, "BadLength", "The Content-Length is no number.")
        return int(length)

    def _check_host(self) -> None:
        hosts = self.headers.get_all("Host", [])
        if len(hosts) != 1 or not self._is_own_host(hosts[0]):
            sentence = "use the address that the server printed, or start it with --host"
            raise Refusal(403, "BadHost", f"The request names another host: {sentence}.")

    def _is_own_host(self, host: str) -> bool:
        name = host.strip().lower()
        if not name.endswith("]"):
            name = name.rpartition(":")[0] or name
        if name in LOOPBACK_NAMES or name in self.server.names:
            return True
        try:
            address = ip_address(name.strip("[]"))
        except ValueError:
            return False
        return address.is_loopback or not self.server.is_loopback

    def _check_origin(self) -> None:
        """Refuses a request that another site's page sends from a browser."""
        origins = self.headers.get_all("Origin", [])
        host = self.headers.get("Host", "").strip().lower()
        is_own = all(origin.strip().lower() in (f"http://{host}", f"https://{host}") for origin in origins)
        if not is_own or self.headers.get("Sec-Fetch-Site", "same-origin") not in ("same-origin", "none"):
            sentence = "send it from a page of this server, or without Origin"
            raise Refusal(403, "BadOrigin", f"The request comes from another site's page: {sentence}.")

    def _read(self) -> bytes:
        if self.headers.get("Expect", "").lower() == "100-continue":
            self.send_response_only(100)
            self.end_headers()
        try:
            body = self.rfile.read(self._left)
        except OSError:  # it took too long
            body = b""
        if len(body) < self._left:
            self._left, self.close_connection = 0, True
            raise Refusal(400, "BodyCutOff", "The body ended before its Content-Length: send it again.")
        self._left = 0
        return body

    def _send(self, answer: Answer) -> None:
        self.send_response(answer.status)
        for name, value in {**SAFE, **answer.headers}.items():
            self.send_header(name, value)
        if answer.status != 304:
            self.send_header("Content-Type", answer.content_type)
            self.send_header("Content-Length", str(len(answer.body)))
        if self.close_connection:
            self.send_header("Connection", "close")
        self.end_headers()
        if self.command != "HEAD" and answer.status != 304:
            self.wfile.write(answer.body)

    def _drain(self) -> None:
        """Reads on for a while what a refused client still sends, since else it might never see the
        answer."""
        try:
            self.wfile.flush()
            self.connection.shutdown(socket.SHUT_WR)
            self.connection.settimeout(2)
            left = DRAINED_BYTES
            while left > 0:
                piece = self.connection.recv(1 << 16)
                if not piece:
                    return
                left -= len(piece)
        except OSError:
            pass

    def version_string(self) -> str:
        return self.server_version

    def date_time_string(self, timestamp: Optional[float] = None) -> str:
        return formatdate(timestamp, usegmt=True)

    def log_message(self, format: str, *words: object) -> None:
        if not self.server.is_quiet:
            text = (format % words).encode("unicode_escape").decode()
            print(f"{self.address_string()} {text}", file=sys.stderr, flush=True)


def segments(path: str) -> list:
    """The parts of a path between slashes, with their escapes read."""
    if not path.startswith("/"):
        raise Refusal(400, "BadPath", "The path must begin with a slash.")
    try:
        return [unquote(part, errors="strict") for part in path.encode("latin-1").decode().split("/")[1:]]
    except UnicodeError:
        raise Refusal(400, "BadPath", "The path is not UTF-8.") from None


def parameters(query: str) -> Dict[str, str]:
    try:
        pairs = parse_qsl(query, keep_blank_values=True, errors="strict", max_num_fields=20)
    except (UnicodeError, ValueError):
        sentence = "What stands behind the question mark is not UTF-8, or is too much."
        raise Refusal(400, "BadQuery", sentence) from None
    return dict(pairs)
