"""Builds the wheel and the source archive of the module oer, as PEP 517 has it.

It needs nothing but Python, so that `pip install .` works offline, where setuptools without the package
wheel doesn't. What it writes of the module stands in pyproject.toml. In a wheel the module is a package of
one file, since only a package can say that it has type hints (py.typed).
"""

import base64
import hashlib
import io
import os
import re
import tarfile
import zipfile
from typing import Any, Dict, List, Optional

_HERE = os.path.dirname(os.path.abspath(__file__))
_SOURCES = ["pyproject.toml", "backend.py", "oer.py"]
_PLATFORM = "manylinux_2_34_x86_64"  # what the library needs: docs/INSTALL.md
_NOTICES = ["LICENSE", "NOTICE", "THIRD-PARTY.md", "proved"]


def _read(name: str) -> bytes:
    with open(os.path.join(_HERE, name), "rb") as file:
        return file.read()


def _project(key: str) -> str:
    """What pyproject.toml says of the project."""
    found = re.search(rf'^{key} = "(.*)"$', _read("pyproject.toml").decode("utf-8").split("[project]")[1], re.MULTILINE)
    if found is None:
        raise ValueError(f"pyproject.toml has no {key}")
    return found.group(1)


def _stem() -> str:
    return f"{_project('name')}-{_project('version')}"


def _metadata() -> bytes:
    return (
        "Metadata-Version: 2.1\n"
        f"Name: {_project('name')}\n"
        f"Version: {_project('version')}\n"
        f"Summary: {_project('description')}\n"
        f"License: {_project('license')}\n"
        f"Requires-Python: {_project('requires-python')}\n"
    ).encode("utf-8")


def _library(prefix: str, info: str) -> Dict[str, bytes]:
    """The library that is installed under the prefix, and the notices on it, as the wheel has them."""
    files = {"oer/liboer.so": os.path.join(prefix, "lib", f"liboer.so.{_project('version')}")}
    for name in _NOTICES:
        files[f"{info}/{name}"] = os.path.join(prefix, "share", "doc", "oer", name)
    return {name: _read(os.path.abspath(path)) for name, path in files.items()}


def _tags(pure: bool, platform: str) -> bytes:
    """The file WHEEL."""
    return (
        f"Wheel-Version: 1.0\nGenerator: oer\nRoot-Is-Purelib: {str(pure).lower()}\nTag: py3-none-{platform}\n"
    ).encode("utf-8")


def _record(files: Dict[str, bytes], itself: str) -> bytes:
    """The list of files with their hashes."""
    lines = [
        f"{name},sha256={base64.urlsafe_b64encode(hashlib.sha256(data).digest()).rstrip(b'=').decode()},{len(data)}\n"
        for name, data in files.items()
    ]
    return "".join(lines + [f"{itself},,\n"]).encode("utf-8")


def get_requires_for_build_wheel(config_settings: Optional[Dict[str, Any]] = None) -> List[str]:
    """Nothing is needed."""
    return []


def build_wheel(wheel_directory: str, config_settings: Optional[Dict[str, Any]] = None,
                metadata_directory: Optional[str] = None) -> str:
    """Writes the wheel into the folder. Returns the name of its file.

    Where the settings have a `prefix`, the wheel is for this platform alone: it has the library that is
    installed under that folder, and needs no other.
    """
    info = f"{_stem()}.dist-info"
    prefix = (config_settings or {}).get("prefix")
    platform = _PLATFORM if prefix else "any"
    files = {
        "oer/__init__.py": _read("oer.py"),
        "oer/py.typed": b"",
        f"{info}/METADATA": _metadata(),
        f"{info}/WHEEL": _tags(not prefix, platform),
    }
    if prefix:
        files.update(_library(prefix, info))
    files[f"{info}/RECORD"] = _record(files, f"{info}/RECORD")
    name = f"{_stem()}-py3-none-{platform}.whl"
    with zipfile.ZipFile(os.path.join(wheel_directory, name), "w", zipfile.ZIP_DEFLATED) as wheel:
        for path, data in files.items():
            entry = zipfile.ZipInfo(path)
            entry.compress_type = zipfile.ZIP_DEFLATED
            entry.external_attr = 0o644 << 16
            wheel.writestr(entry, data)
    return name


def build_sdist(sdist_directory: str, config_settings: Optional[Dict[str, Any]] = None) -> str:
    """Writes the source archive into the folder. Returns the name of its file."""
    name = f"{_stem()}.tar.gz"
    files = {source: _read(source) for source in _SOURCES}
    files["PKG-INFO"] = _metadata()
    with tarfile.open(os.path.join(sdist_directory, name), "w:gz", format=tarfile.PAX_FORMAT) as archive:
        for path, data in files.items():
            entry = tarfile.TarInfo(f"{_stem()}/{path}")
            entry.size, entry.mode = len(data), 0o644
            archive.addfile(entry, io.BytesIO(data))
    return name
