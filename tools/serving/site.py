"""What each route answers, without HTTP: a request becomes an answer or a refusal."""
from __future__ import annotations

import json
import os
import re
import secrets
import shutil
import tempfile
import threading
from concurrent.futures import ThreadPoolExecutor
from contextlib import contextmanager
from dataclasses import dataclass, field
from html import escape
from pathlib import Path
from typing import Callable, Dict, Iterator, List, Optional
from urllib.parse import quote

from . import bodies, documents
from .fingerprints import etag, hash_of, names_reached, names_tag, tags_of
from .foreseen import foreseen
from .known import LONG_PAGE, KnownStates
from .mending import marked, mended
from .other_tools import titles
from .pages import PAGE_BYTES, PageFolder, full_name, remove_if_there, revision
from .prepared import Edit, Foreseen, Kept, PreparedEdits, State
from .program import Program
from .refusals import Refusal
from .tags import bears_mark, numbers

CLIENT = Path(__file__).resolve().parent.parent.parent / "client"
# Of one kind in an `Accept`: the version of Parsoid's HTML that it asks for, any profile, and what takes each version.
WANTED_VERSION = re.compile(r'\s*text/html[^,]*?profile="[^"]*/Specs/HTML/([0-9]+)', re.IGNORECASE)
WITH_PROFILE = re.compile(r'\s*text/html[^,]*profile="[^"]*"', re.IGNORECASE)
ANY_HTML = re.compile(r"text/html|text/\*|\*/\*")
STATIC = re.compile(r"(?!tests/)(?:[A-Za-z0-9_-]+/)*[A-Za-z0-9_-][A-Za-z0-9_.-]*\.(?:js|css|svg)")
TYPES = {"js": "text/javascript", "css": "text/css", "svg": "image/svg+xml"}

SPECIFICATION = "https://www.mediawiki.org/wiki/Specs"
HTML_VERSION = "2.8.0"
HTML_TYPE = f'text/html; charset=utf-8; profile="{SPECIFICATION}/HTML/{HTML_VERSION}"'
WIKITEXT_TYPE = f'text/plain; charset=utf-8; profile="{SPECIFICATION}/wikitext/1.0.0"'
JSON_TYPE = "application/json; charset=utf-8"
PAGE_TYPE = "text/html; charset=utf-8"

MENDED_BYTES = 16_777_216  # of HTML that is mended, which takes much more time and memory than wtround
STALE = "The page, or a template that it takes, was changed since you opened it: open it again, and edit that."


@dataclass
class Request:
    """`body` reads the body when it is first asked for. Names of headers are in small letters."""

    method: str
    segments: List[str]
    query: Dict[str, str]
    headers: Dict[str, str]
    body: Callable[[], bytes]

    def fields(self, json_alone: bool = False) -> Dict[str, object]:
        if self.headers.get("content-encoding", "identity").lower() != "identity":
            raise Refusal(415, "BadContentEncoding", "Send the body uncompressed.")
        return bodies.fields_of(self.headers.get("content-type", ""), self.body(), json_alone)


@dataclass
class Answer:
    body: bytes
    content_type: str
    status: int = 200
    headers: Dict[str, str] = field(default_factory=dict)


class Site:
    """The routes over one folder of pages."""

    def __init__(self, folder: PageFolder, program: Program) -> None:
        self.folder = folder
        self.program = program
        self._texts = TextRoom(folder)
        self._prepared = PreparedEdits(self._state_of)
        self._known = KnownStates(folder, self._made_state, self._tag)

    def close(self) -> None:
        self._prepared.close()
        self._known.close()
        self._texts.close()
        self.program.close()

    def answer(self, request: Request) -> Answer:
        """Raises Refusal."""
        is_known = False
        for method, pattern, view in ROUTES:
            found = match(pattern, request.segments)
            if found is None:
                continue
            is_known = True
            if request.method == method:
                return view(self, request, *found)
        if is_known:
            allowed = ", ".join(sorted({m for m, p, _ in ROUTES if match(p, request.segments) is not None}))
            sentence = f"This address takes {allowed} alone."
            raise Refusal(405, "BadMethod", sentence, headers={"Allow": allowed})
        raise Refusal(404, "NoSuchRoute", "Nothing is at this address: docs/serving.md lists what is.")

    # ------------------------------------------------------------ pages

    def page_html(self, request: Request, title: str, wanted: Optional[str] = None) -> Answer:
        check_accepted(request.headers.get("accept", ""))
        name = full_name(title)
        page, state = self._known.taken(name)
        self._check_revision(page, wanted)
        headers = {"ETag": state.tag, "Vary": "Accept"}
        if names_tag(request.headers.get("if-none-match", ""), state.tag):
            return Answer(b"", HTML_TYPE, 304, headers)
        return Answer(in_form(state, page, request.query), HTML_TYPE, 200, headers)

    def _made_state(self, name: str, page: bytes) -> State:
        """The state of a page as it stands, which was read before."""
        return self._state(name, page, self.program.html(name))

    def _state(self, name: str, page: bytes, document: bytes) -> State:
        html_hash = hash_of(document)
        return State(document, html_hash, self._tag(name, page, html_hash))

    def _tag(self, name: str, page: bytes, html_hash: bytes) -> str:
        return etag(self.folder, name, page, html_hash)

    def page_wikitext(self, request: Request, title: str, wanted: Optional[str] = None) -> Answer:
        page = self.folder.read(full_name(title))
        self._check_revision(page, wanted)
        check_text(page)
        return Answer(page, WIKITEXT_TYPE, 200, {"ETag": f'W/"{revision(page)}"'})

    def _check_revision(self, page: bytes, wanted: Optional[str]) -> None:
        if wanted and wanted != str(revision(page)):
            sentence = "The folder keeps no older revisions: leave the number out to have the page as it is."
            raise Refusal(404, "NoSuchRevision", sentence)

    # ------------------------------------------------------------ transforms

    def to_wikitext(self, request: Request, title: str = "", wanted: Optional[str] = None) -> Answer:
        """Of a page's title: the page as the HTML changes it. Without one: the page that the HTML is."""
        if not title:
            document = bodies.encoded(bodies.text_field(request.fields(), "html"))
            return Answer(self._page_of(document), WIKITEXT_TYPE)
        name = full_name(title)
        fields = request.fields()
        if "if-match" not in request.headers:  # which says more than the number
            self._check_revision(self.folder.read(name), wanted)
        return Answer(self._edited(request, name, fields).edit.new, WIKITEXT_TYPE)

    def _page_of(self, document: bytes) -> bytes:
        """The page that an HTML is, as it is written, or else as it is when it is mended."""
        try:
            return self.program.wikitext(document)
        except Refusal as refusal:
            if refusal.error not in ("HtmlRefused", "ElementDoesNotFit"):
                raise
        check_length(document)
        return self.program.wikitext(mended(document.decode()).encode())

    def to_html(self, request: Request, title: str = "", wanted: Optional[str] = None) -> Answer:
        check_accepted(request.headers.get("accept", ""))
        if title:
            full_name(title)
        fields = request.fields()
        page = bodies.encoded(bodies.text_field(fields, "wikitext"))
        with self._texts.page(page) as (room, name):
            document = self.program.html(name, room)
        options = {**{key: str(value) for key, value in fields.items() if key in SHAPES}, **request.query}
        return Answer(shaped(document, page, options), HTML_TYPE)

    # ------------------------------------------------------------ saving

    def save(self, request: Request, title: str) -> Answer:
        """Writes the page that an edit gives, if the page and its templates are those that were taken."""
        name = full_name(title)
        if not request.headers.get("if-match"):
            sentence = "Send the ETag that came with the HTML as If-Match, so that no other change is lost."
            raise Refusal(428, "NoIfMatch", sentence)
        fields = request.fields(json_alone=True)
        kept = None
        if "prepared" in fields:
            kept = self._prepared.find(bodies.text_field(fields, "prepared"), name)
        try:
            if bodies.flag(request.query.get("preview")):
                return self._shown(request, name, fields, kept)
            return self._stored(request, kept or self._edited(request, name, fields))
        except Refusal as refusal:
            if refusal.error != "Stale":
                raise
            sent = kept.edit.sent if kept else sent_in(request, name, fields)
            answer = self._stored_before(request, name, sent)
            if answer is None:
                raise
            return answer

    def _shown(self, request: Request, name: str, fields: Dict[str, object], kept: Optional[Kept]) -> Answer:
        """Keeps an edit, and tells what it would change. Of one that is kept already it tells that again, if
        nothing has changed since."""
        if kept is not None:
            edit, word = kept.edit, bodies.text_field(fields, "prepared")
            self._check_tag(request, edit.tag)
            if not self._is_still(edit) and self._known.taken(name)[1].tag != edit.tag:
                raise Refusal(412, "Stale", STALE)
        else:
            made = self._edited(request, name, fields, is_foreseen=True)
            if "instead" in fields:
                self._prepared.forget(bodies.text_field(fields, "instead"), name)
            edit, word = made.edit, self._prepared.keep(made)
        return saved({**changes_of(edit), "etag": edit.tag, "prepared": word})

    def _stored(self, request: Request, kept: Kept) -> Answer:
        """Stores an edit."""
        edit, made = kept.edit, kept.state()
        with self.folder.locked():
            state = self._state_then(request, edit, made)
            found = {**changes_of(edit), "etag": state.tag}
            if bodies.flag(request.query.get("html")):
                found["html"] = in_form(state, edit.new, request.query).decode()
            answer = saved(found)
            if edit.is_changed:
                self.folder.replace(edit.name, edit.new, note_of_save(edit.tag, edit.sent, edit.new))
        return answer  # behind its storing nothing is left but to send it

    def _stored_before(self, request: Request, name: str, sent: str) -> Optional[Answer]:
        """The answer to a save that was stored already, and its answer lost, as where the server was killed;
        nothing where the page as it stands isn't what this save made of the state that it names."""
        if bodies.flag(request.query.get("preview")):
            return None
        with self.folder.locked():
            page = self.folder.read(name)
            tag = tag_before(self.folder.note(name), sent, page)
            if tag is None or not names_tag(request.headers["if-match"], tag):
                return None
            self.folder.confirm(name)
            state = self._made_state(name, page)
        same = Edit(name, state.tag, page, page, sent, None, state.html_hash)
        found = {**changes_of(same), "etag": state.tag, "stored_before": True}
        if bodies.flag(request.query.get("html")):
            found["html"] = in_form(state, page, request.query).decode()
        return saved(found)

    def _edited(
        self, request: Request, name: str, fields: Dict[str, object], is_foreseen: bool = False
    ) -> Kept:
        """The new page of an edit; `is_foreseen`: with the state that it leads to, where that was begun
        meanwhile. HTML that bears a mark was made for `edit`, and HTML that is told to be mended for
        `selser`: both are given on as they are while the page's tag is looked at. Other HTML is mended
        first."""
        document = bodies.encoded(bodies.text_field(fields, "html"))
        fingerprint = self.folder.fingerprint()
        with ThreadPoolExecutor(1) as pool:
            command = self._command_as_it_is(document, fields)
            early = pool.submit(command, name, document) if command is not None else None
            can_foresee = is_foreseen and unit_of(request, fields) == documents.NO_UNIT
            given = self._prepared.led_to(name, request.headers.get("if-match", "")) if can_foresee else None
            likely = self._foreseen(name, *given, document) if given is not None else None
            sent = sent_in(request, name, fields)
            page, state = self._known.taken(name)
            self._check_tag(request, state.tag)
            if early is None:
                check_length(document)
            if not bears_mark(document):
                check_kept(document, state.document)
            if can_foresee and likely is None:
                likely = self._foreseen(name, page, state, document)
            if early is not None:
                new = early.result()
            else:
                original = documents.in_form_of(document, state.document, page, unit_of(request, fields))
                new = self._mended_edit(name, document.decode(), original.decode())
        edit = Edit(name, state.tag, page, new, sent, fingerprint, state.html_hash)
        return Kept(edit, likely.of(new) if likely is not None and edit.is_changed else None)

    def _foreseen(self, name: str, page: bytes, state: State, document: bytes) -> Optional[Foreseen]:
        """The page that an edit of HTML in the editor's form will probably make, whose state is begun. That
        of a short page comes at once."""
        if len(page) < LONG_PAGE:
            return None
        new = foreseen(page, state.document, state.for_editor, document)
        return self._prepared.foresee(name, new) if new is not None else None

    def _command_as_it_is(self, document: bytes, fields: Dict[str, object]) -> Optional[Callable]:
        """The command that takes an edit as it is, if one does."""
        if bears_mark(document):
            return self.program.edit
        is_mended = bodies.flag(fields.get("mended")) and self.program.takes_unmarked
        return self.program.selser if is_mended else None

    def _mended_edit(self, name: str, document: str, original: str) -> bytes:
        """The new page of HTML without marks. A program without `selser` gets the marks."""
        if self.program.takes_unmarked:
            return self.program.selser(name, mended(document, original).encode())
        return self.program.edit(name, marked(document, original).encode())

    def _state_then(self, request: Request, edit: Edit, made: Optional[State]) -> State:
        """The state that the page has once its text is the new one; `made`: as it was made before. Refuses
        where anything has changed since the edit."""
        if made is not None and self._is_untouched(edit, made):
            self._check_tag(request, edit.tag)
            return made
        with ThreadPoolExecutor(1) as pool:
            after = pool.submit(self._state_of, edit.name, edit.new) if edit.is_changed else None
            _, now = self._known.taken(edit.name)
            self._check_tag(request, now.tag)
            if now.tag != edit.tag:
                raise Refusal(412, "Stale", STALE, headers={"ETag": now.tag})
            return after.result() if after is not None else now

    def _is_untouched(self, edit: Edit, state: State) -> bool:
        """Whether the HTML from which an edit was made, and that of the state that it leads to, are what they
        would be if they were made now."""
        is_still = self._is_still(edit)
        return is_still and self._tag(edit.name, edit.new, state.html_hash) == state.tag

    def _is_still(self, edit: Edit) -> bool:
        """Whether the page has the state from which an edit was made: no file of the folder was written
        since, and what is named in letters is read again besides."""
        if edit.fingerprint is None or self.folder.fingerprint() != edit.fingerprint:
            return False
        return self._tag(edit.name, self.folder.read(edit.name), edit.html_hash) == edit.tag

    def _state_of(self, name: str, page: bytes) -> State:
        """The state that a page will have once its text is this one. One that takes itself as a template
        takes its new text."""
        if name in names_reached(self.folder, page):
            with self._texts.with_page(name, page) as room:
                document = self.program.html(name, room)
        else:
            with self._texts.page(page) as (room, text_name):
                document = self.program.html(text_name, room)
        return self._state(name, page, document)

    def prepared_html(self, request: Request, title: str, word: str) -> Answer:
        """The HTML that a page will have once an edit that was shown is stored, and the tag of that state."""
        kept = self._prepared.find(word, full_name(title))
        state = kept.state() or self._state_of(kept.edit.name, kept.edit.new)
        return Answer(in_form(state, kept.edit.new, request.query), HTML_TYPE, 200, {"ETag": state.tag})

    def _check_tag(self, request: Request, tag: str) -> None:
        wanted = request.headers.get("if-match")
        if wanted and not names_tag(wanted, tag):
            raise Refusal(412, "Stale", STALE, headers={"ETag": tag})

    # ------------------------------------------------------------ the editor

    def title_list(self, _: Request) -> Answer:
        return Answer(json.dumps({"titles": self.folder.titles()}).encode() + b"\n", JSON_TYPE)

    def page_list(self, _: Request) -> Answer:
        if (CLIENT / "editor/pages.html").is_file():
            return self._client_file("editor/pages.html", PAGE_TYPE)
        links = ((f"/editor/{quote(title, safe='')}", title) for title in self.folder.titles())
        items = (f'<li><a href="{address}">{escape(title)}</a></li>' for address, title in links)
        return Answer(LIST.format(items="\n".join(items)).encode(), PAGE_TYPE)

    def editor(self, _: Request, title: str) -> Answer:
        self._known.begin(full_name(title))  # refuses what is no page
        return self._client_file("editor/index.html", PAGE_TYPE)

    def static(self, _: Request, *names: str) -> Answer:
        name = "/".join(names)
        if not STATIC.fullmatch(name):
            raise Refusal(404, "NoSuchRoute", "The client has no such file.")
        return self._client_file(name, f"{TYPES[name.rpartition('.')[2]]}; charset=utf-8")

    def _client_file(self, name: str, content_type: str) -> Answer:
        try:
            data = (CLIENT / name).read_bytes()
        except OSError:
            raise Refusal(404, "NoSuchRoute", "The client has no such file.") from None
        return Answer(data, content_type)


LIST = """<!DOCTYPE html>
<html lang="en">
<head>
<meta charset="utf-8">
<meta name="viewport" content="width=device-width, initial-scale=1">
<title>Pages</title>
<style>body {{ font-family: sans-serif; line-height: 1.6; max-width: 40em; margin: 2em auto }}</style>
</head>
<body>
<h1>Pages</h1>
<ul>
{items}
</ul>
</body>
</html>
"""


class TextRoom:
    """A directory in which a text that is no page stands beside the folder's pages, for its templates."""

    def __init__(self, folder: PageFolder) -> None:
        self._folder = folder
        self._lock = threading.Lock()
        self._room: Optional[tempfile.TemporaryDirectory] = None
        self._linked: tuple = (None, set())  # the folder's state, and the names of its files then

    def close(self) -> None:
        if self._room is None:
            return
        try:
            self._room.cleanup()
        except OSError:  # an answer that is still being made has put its text there
            shutil.rmtree(self._room.name, ignore_errors=True)

    def page(self, text: bytes) -> "TextPage":
        """A page of this text, with a title of its own that no call names."""
        with self._lock:
            if self._room is None:
                self._room = tempfile.TemporaryDirectory(prefix="wtround-serve-")
                os.mkdir(os.path.join(self._room.name, "pages"))
            self._link()
        return TextPage(self._room.name, f"Text {secrets.token_hex(16)}", text)

    @contextmanager
    def with_page(self, name: str, text: bytes) -> Iterator[str]:
        """A directory of its own, in which a page has this text, and each other one that of the folder."""
        with tempfile.TemporaryDirectory(prefix="wtround-serve-") as room:
            pages = os.path.join(room, "pages")
            os.mkdir(pages)
            own = titles.file_name(name)
            for file in os.listdir(self._folder.path):
                if file.endswith(".wiki") and file != own:
                    os.symlink(os.path.join(self._folder.path, file), os.path.join(pages, file))
            with open(os.path.join(pages, own), "xb") as page:
                page.write(text[: PAGE_BYTES + 1])
            yield room

    def _link(self) -> None:
        """Makes the links to the folder's files those that they are now."""
        state = self._folder.state()
        if state is not None and self._linked[0] == state:
            return
        assert self._room is not None
        names = {name for name in os.listdir(self._folder.path) if name.endswith(".wiki")}
        for name in names - self._linked[1]:
            os.symlink(os.path.join(self._folder.path, name), os.path.join(self._room.name, "pages", name))
        for name in self._linked[1] - names:
            remove_if_there(os.path.join(self._room.name, "pages", name))
        self._linked = (state, names)


class TextPage:
    """Is there inside a `with`, as the directory and the title."""

    def __init__(self, room: str, name: str, text: bytes) -> None:
        self._room, self._name, self._text = room, name, text
        self._path = os.path.join(room, "pages", titles.file_name(name))

    def __enter__(self) -> tuple:
        with open(self._path, "xb") as file:
            file.write(self._text[: PAGE_BYTES + 1])
        return self._room, self._name

    def __exit__(self, *_: object) -> None:
        remove_if_there(self._path)


SHAPES = ("body_only", "offsetType", "data_parsoid")
EDITORS_SHAPES = [None, "none", "sources"]  # as the editor page asks for them


def shaped(document: bytes, page: bytes, options: Dict[str, str]) -> bytes:
    """The document in the form that a request asks for."""
    document = documents.with_offsets(document, page, options.get("offsetType") or "byte")
    wanted = options.get("data_parsoid")
    if wanted == "sources":
        document = documents.with_sources_alone(document)
    elif not bodies.flag(wanted, otherwise=True):
        document = documents.without_data_parsoid(document)
    return documents.body_of(document) if bodies.flag(options.get("body_only")) else document


def in_form(state: State, page: bytes, options: Dict[str, str]) -> bytes:
    """The HTML of a state in the form that a request asks for."""
    is_editors = [options.get(name) for name in SHAPES] == EDITORS_SHAPES
    return state.for_editor if is_editors else shaped(state.document, page, options)


def unit_of(request: Request, fields: Dict[str, object]) -> str:
    return str(request.query.get("offsetType") or fields.get("offsetType") or "byte")


def sent_in(request: Request, name: str, fields: Dict[str, object]) -> str:
    """A hash of the edit that a request sends: the same one for the same edit of the same page."""
    about = json.dumps([name, unit_of(request, fields), bodies.flag(fields.get("mended"))]).encode()
    return hash_of(hash_of(about) + bodies.encoded(bodies.text_field(fields, "html"))).hex()


def note_of_save(tag: str, sent: str, new: bytes) -> bytes:
    """What is kept of a save: which state it was made of, what was sent, which page it made."""
    return f"{sent} {hash_of(new).hex()} {tag}".encode()


def tag_before(note: bytes, sent: str, page: bytes) -> Optional[str]:
    """The tag of the state of which a save made this page, where the note is of one that sent this."""
    start = note_of_save("", sent, page)
    tag = note[len(start) :].decode("ascii", "replace")
    return tag if note.startswith(start) and tags_of(tag) else None


def changes_of(edit: Edit) -> Dict[str, object]:
    return {
        "changed": edit.is_changed,
        "diff": edit.diff,
        "bytes_before": len(edit.page),
        "bytes_after": len(edit.new),
        "revision": revision(edit.new),
    }


def saved(found: Dict[str, object]) -> Answer:
    body = json.dumps(found, ensure_ascii=False).encode() + b"\n"
    return Answer(body, JSON_TYPE, 200, {"ETag": str(found["etag"])})


def check_accepted(field: str) -> None:
    """Refuses with 406 a request for another major version of the HTML alone."""
    wanted, takes_any = [], False
    for kind in field.split(","):
        version = WANTED_VERSION.match(kind)
        if version:
            wanted.append(version[1])
        elif not WITH_PROFILE.match(kind):
            takes_any = takes_any or ANY_HTML.search(kind) is not None
    if wanted and not takes_any and HTML_VERSION.split(".")[0] not in wanted:
        sentence = f"The HTML is of version {HTML_VERSION}: ask for that, or for none."
        raise Refusal(406, "NotAcceptable", sentence)


def check_kept(document: bytes, original: bytes) -> None:
    """Refuses HTML without a mark in which no element of the page is left, as a fragment that a client sent
    for the whole: it would take out all that the page has."""
    first, other = next(numbers(original), None), next(numbers(document), None)
    if first is not None and first == other:
        return  # as mostly: the others needn't be looked at
    kept = set(numbers(original))
    if kept and kept.isdisjoint(numbers(document)):
        sentence = "Nothing of the page is left in this HTML: send the whole document, or mark what is to go."
        raise Refusal(422, "NothingKept", sentence)


def check_length(document: bytes) -> None:
    if len(document) > MENDED_BYTES:
        sentence = f"HTML without marks may have {MENDED_BYTES:,} bytes: leave data-parsoid out, or mark what changed."
        raise Refusal(413, "TooLongToMend", sentence)


def check_text(page: bytes) -> None:
    if len(page) > PAGE_BYTES:
        sentence = "The page is longer than a page may be: divide it."
        raise Refusal(422, "PageTooLong", sentence, "page too long")
    try:
        page.decode("utf-8")
    except UnicodeDecodeError as error:
        place = error.start if error.reason == "invalid start byte" else error.end  # as `wtround` counts
        line = f"page not UTF-8 at {place}"
        raise Refusal(422, "PageNotUtf8", "The page stops being UTF-8 there: convert it.", line) from None


def match(pattern: List[str], segments: List[str]) -> Optional[List[str]]:
    """What stands for the names of a pattern, or nothing where it doesn't fit. A name with `?` may be
    missing."""
    values = []
    for k, part in enumerate(pattern):
        if k >= len(segments):
            if not part.endswith("?}"):
                return None
        elif part.startswith("{"):
            if part != "{domain}":
                values.append(segments[k])
        elif part != segments[k]:
            return None
    return values if len(segments) <= len(pattern) else None


ROUTES = [
    (method, path.split("/")[1:], view)
    for method, path, view in [
        ("GET", "/", Site.page_list),
        ("GET", "/editor/", Site.page_list),
        ("GET", "/editor", Site.page_list),
        ("GET", "/editor/{title}", Site.editor),
        ("GET", "/titles", Site.title_list),
        ("GET", "/client/{file}", Site.static),
        ("GET", "/client/{part}/{file}", Site.static),
        ("GET", "/client/{part}/{part}/{file}", Site.static),
        ("POST", "/save/{title}", Site.save),
        ("GET", "/prepared/{title}/{word}", Site.prepared_html),
        ("GET", "/{domain}/v3/page/html/{title}/{revision?}", Site.page_html),
        ("GET", "/{domain}/v3/page/wikitext/{title}/{revision?}", Site.page_wikitext),
        ("POST", "/{domain}/v3/transform/html/to/wikitext/{title?}/{revision?}", Site.to_wikitext),
        ("POST", "/{domain}/v3/transform/wikitext/to/html/{title?}/{revision?}", Site.to_html),
    ]
]
