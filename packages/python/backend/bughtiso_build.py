"""Builds the wheel and the source archive with nothing but the standard library, so that it needs no network.

The wheel holds the library where BUGHTISO_WHEEL_LIBRARY is the path of one; it is then for Linux on x86-64, and else
for any system. All times in it are SOURCE_DATE_EPOCH, by default those of 1980, so the same files give the same bytes.
"""
from __future__ import annotations

import base64
import hashlib
import io
import os
import re
import tarfile
import time
import zipfile
from pathlib import Path

HERE = Path(__file__).resolve().parent.parent
PLATFORM = "manylinux_2_17_x86_64"
LIBRARY = "bughtiso/libwtround.so.0"


def _project(key: str) -> str:
    found = re.search(rf'^{key} = "(.*)"$', (HERE / "pyproject.toml").read_text(encoding="utf-8"), re.MULTILINE)
    assert found, key
    return found[1]


def _metadata() -> str:
    classifiers = re.findall(r'^    "(.* :: .*)",$', (HERE / "pyproject.toml").read_text(encoding="utf-8"), re.MULTILINE)
    lines = [
        "Metadata-Version: 2.1",
        "Name: bughtiso",
        f"Version: {_project('version')}",
        f"Summary: {_project('description')}",
        f"Requires-Python: {_project('requires-python')}",
        *(f"Classifier: {it}" for it in classifiers),
        "Description-Content-Type: text/markdown",
    ]
    return "\n".join(lines) + "\n\n" + (HERE / "README.md").read_text(encoding="utf-8")


def _sources() -> dict[str, bytes]:
    """The files of the package by their names in the archive."""
    package = HERE / "bughtiso"
    names = sorted([*package.glob("*.py"), *package.glob("*.json"), package / "py.typed"])
    return {str(path.relative_to(HERE)): path.read_bytes() for path in names}


def _time() -> int:
    return max(int(os.environ.get("SOURCE_DATE_EPOCH", "0")), 315532800)  # ZIP knows no time before 1980


def _record(files: dict[str, bytes], folder: str) -> bytes:
    lines = []
    for name, data in files.items():
        digest = base64.urlsafe_b64encode(hashlib.sha256(data).digest()).rstrip(b"=").decode()
        lines.append(f"{name},sha256={digest},{len(data)}")
    return ("\n".join([*lines, f"{folder}/RECORD,,"]) + "\n").encode()


def _write_zip(path: Path, files: dict[str, bytes]) -> None:
    with zipfile.ZipFile(path, "w", zipfile.ZIP_DEFLATED) as archive:
        for name, data in files.items():
            entry = zipfile.ZipInfo(name, time.gmtime(_time())[:6])
            entry.external_attr = (0o755 if name == LIBRARY else 0o644) << 16
            entry.create_system = 3
            archive.writestr(entry, data, zipfile.ZIP_DEFLATED)


def build_wheel(wheel_directory, config_settings=None, metadata_directory=None) -> str:
    library = os.environ.get("BUGHTISO_WHEEL_LIBRARY")
    tag = f"py3-none-{PLATFORM if library else 'any'}"
    folder = f"bughtiso-{_project('version')}.dist-info"
    files = _sources()
    if library:
        files[LIBRARY] = Path(library).read_bytes()
        notices = os.environ.get("BUGHTISO_WHEEL_NOTICES")
        if notices:
            files[f"{folder}/NOTICES"] = Path(notices).read_bytes()
    files[f"{folder}/METADATA"] = _metadata().encode()
    wheel = f"Wheel-Version: 1.0\nGenerator: bughtiso_build\nRoot-Is-Purelib: {str(not library).lower()}\nTag: {tag}\n"
    files[f"{folder}/WHEEL"] = wheel.encode()
    files[f"{folder}/RECORD"] = _record(files, folder)
    name = f"bughtiso-{_project('version')}-{tag}.whl"
    _write_zip(Path(wheel_directory) / name, files)
    return name


def build_sdist(sdist_directory, config_settings=None) -> str:
    base = f"bughtiso-{_project('version')}"
    others = ["pyproject.toml", "README.md", "backend/bughtiso_build.py", "tests/test_bughtiso.py"]
    files = {**_sources(), **{it: (HERE / it).read_bytes() for it in others}, "PKG-INFO": _metadata().encode()}
    with tarfile.open(Path(sdist_directory) / f"{base}.tar.gz", "w:gz", format=tarfile.PAX_FORMAT) as archive:
        for name, data in sorted(files.items()):
            entry = tarfile.TarInfo(f"{base}/{name}")
            entry.size, entry.mtime, entry.mode = len(data), _time(), 0o644
            archive.addfile(entry, io.BytesIO(data))
    return f"{base}.tar.gz"


def get_requires_for_build_wheel(config_settings=None) -> list[str]:
    return []


def get_requires_for_build_sdist(config_settings=None) -> list[str]:
    return []
