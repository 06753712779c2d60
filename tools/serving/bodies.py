"""The fields of a request's body: JSON, a form, or a form in parts."""
from __future__ import annotations

import binascii
import json
import re
from typing import Dict, Optional

from .refusals import Refusal

PARAMETER = re.compile(r';\s*([A-Za-z0-9_*-]+)\s*=\s*(?:"((?:[^"\\]|\\.)*)"|([^\s;"]*))')
MOST_FIELDS = 100


def media_type(field: str) -> tuple:
    """The type of a Content-Type field, in small letters, and its parameters."""
    kind, _, _ = field.partition(";")
    parameters = {}
    for name, quoted, bare in PARAMETER.findall(field):
        parameters.setdefault(name.lower(), re.sub(r"\\(.)", r"\1", quoted) or bare)
    return kind.strip().lower(), parameters


def fields_of(content_type: str, body: bytes, json_alone: bool = False) -> Dict[str, object]:
    """The fields of a body. Refuses with 415 another type or charset, and with 400 what is malformed."""
    kind, parameters = media_type(content_type)
    if parameters.get("charset", "utf-8").lower() not in ("utf-8", "utf8"):
        raise Refusal(415, "BadCharset", "Send the body in UTF-8.")
    if kind == "application/json":
        return json_fields(body)
    if json_alone:
        raise Refusal(415, "BadContentType", "Send the body as application/json.")
    if kind == "application/x-www-form-urlencoded":
        return form_fields(body)
    if kind == "multipart/form-data":
        return part_fields(body, parameters.get("boundary", ""))
    sentence = "Send the body as application/json, application/x-www-form-urlencoded or multipart/form-data."
    raise Refusal(415, "BadContentType", sentence)


def malformed(what: str) -> Refusal:
    return Refusal(400, "BadBody", f"The body is malformed: {what}.")


def decoded(data: bytes) -> str:
    try:
        return data.decode("utf-8")
    except UnicodeDecodeError as error:
        raise malformed(f"it is not UTF-8 at byte {error.start}") from None


def json_fields(body: bytes) -> Dict[str, object]:
    try:
        value = json.loads(decoded(body))
    except json.JSONDecodeError as error:
        raise malformed(f"it is no JSON at character {error.pos}") from None
    except (RecursionError, ValueError):
        raise malformed("its JSON is nested too deep, or has too long a number") from None
    if not isinstance(value, dict):
        raise malformed("its JSON is no object")
    return value


def form_fields(body: bytes) -> Dict[str, object]:
    parts = body.split(b"&", MOST_FIELDS)
    if len(parts) > MOST_FIELDS:
        raise malformed(f"it has more than {MOST_FIELDS} fields")
    fields: Dict[str, object] = {}
    for part in filter(None, parts):
        name, _, value = part.partition(b"=")
        fields.setdefault(decoded(unescaped(name)), line_breaks(decoded(unescaped(value))))
    return fields


def line_breaks(text: str) -> str:
    """The value of a form's field with its own line breaks: a browser sends each as two characters."""
    return text.replace("\r\n", "\n")


def unescaped(text: bytes) -> bytes:
    """A name or value of a form. Its escapes are those of quoted-printable with `%` for `=`, which is read
    much faster and in less memory than by urllib's functions."""
    return binascii.a2b_qp(text.replace(b"+", b" ").replace(b"=", b"%3D").replace(b"%", b"="))


def part_fields(body: bytes, boundary: str) -> Dict[str, object]:
    if not 1 <= len(boundary) <= 70 or not boundary.isascii():
        raise malformed("its Content-Type has no good boundary")
    line = b"\r\n--" + boundary.encode()
    parts = (b"\r\n" + body).split(line, MOST_FIELDS + 2)
    if len(parts) > MOST_FIELDS + 2:
        raise malformed(f"it has more than {MOST_FIELDS} parts")
    if len(parts) < 2 or not parts[-1].startswith(b"--"):
        raise malformed("its last part doesn't end")
    fields: Dict[str, object] = {}
    for part in parts[1:-1]:
        head, mark, value = part.lstrip(b" \t").partition(b"\r\n\r\n")
        if not head.startswith(b"\r\n") or not mark:
            raise malformed("a part has no head")
        name = name_of_part(decoded(head))
        if name is None:
            raise malformed("a part has no name")
        fields.setdefault(name, line_breaks(decoded(value)))
    return fields


def name_of_part(head: str) -> Optional[str]:
    lines = (line for line in head.split("\r\n") if line.lower().startswith("content-disposition:"))
    return media_type(next(lines, ""))[1].get("name")


# ---------------------------------------------------------------- single fields


def text_field(fields: Dict[str, object], name: str) -> str:
    """The text of a field, which Parsoid also takes as an object with a `body`. Refuses with 400 where there
    is none."""
    value = fields.get(name)
    if isinstance(value, dict):
        value = value.get("body")
    if not isinstance(value, str):
        raise Refusal(400, "NoField", f"The body has no field {name} with a text.")
    return value


def encoded(text: str) -> bytes:
    """A text as UTF-8. Refuses half a pair of UTF-16, which JSON can write, with 400."""
    try:
        return text.encode("utf-8")
    except UnicodeEncodeError as error:
        raise malformed(f"a text has half a surrogate pair at character {error.start}") from None


def flag(value: object, otherwise: bool = False) -> bool:
    """Whether a parameter is set: `true` or `1`, `false` or `0`."""
    if value is None:
        return otherwise
    text = str(value).lower()
    if text in ("true", "1", "yes", "on"):
        return True
    if text in ("false", "0", "no", "off", "", "none"):
        return False
    raise Refusal(400, "BadParameter", f"A parameter must be true or false, and is {text[:40]!r}.")
