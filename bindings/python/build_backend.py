"""Builds the wheel without a network or other packages: the backend that pyproject.toml names.

The wheel contains the shared library that ARCHCARAWAY_LIBRARY names, or the one that the checkout
has built: out/libarchcaraway.so, else out/quick/libarchcaraway.so. If there is none, the package
loads the installed library.
"""

from __future__ import annotations

import base64
import hashlib
import io
import os
import re
import tarfile
import zipfile
from pathlib import Path

HERE = Path(__file__).resolve().parent
TOP = HERE.parent.parent
PROJECT = (HERE / "pyproject.toml").read_text()
VERSION = re.findall(r'^version = "(.*)"$', PROJECT, re.M)[0]
INFO = f"archcaraway-{VERSION}.dist-info"
METADATA = f"""Metadata-Version: 2.1
Name: archcaraway
Version: {VERSION}
Summary: A conflict set and a transaction resolver, after FoundationDB 7.1
License: Apache-2.0
Requires-Python: >=3.9
"""


def _library() -> Path | None:
    named = os.environ.get("ARCHCARAWAY_LIBRARY")
    if named:
        return Path(named)
    built = (TOP / folder / "libarchcaraway.so" for folder in ("out", "out/quick"))
    return next((path for path in built if path.exists()), None)


def _sources() -> list[Path]:
    files = (HERE / "archcaraway").iterdir()
    return sorted(path for path in files if path.suffix in (".py", ".typed"))


def build_wheel(
    wheel_directory: str, config_settings: object = None, metadata_directory: object = None
) -> str:
    library = _library()
    tag = "py3-none-linux_x86_64" if library else "py3-none-any"
    files = {f"archcaraway/{path.name}": path.read_bytes() for path in _sources()}
    if library:
        files["archcaraway/libarchcaraway.so.1"] = library.read_bytes()
    licence = TOP / "LICENSE"
    if licence.exists():
        files[f"{INFO}/LICENSE"] = licence.read_bytes()
    files[f"{INFO}/METADATA"] = METADATA.encode()
    wheel = {"Wheel-Version": "1.0", "Generator": "archcaraway", "Tag": tag}
    wheel["Root-Is-Purelib"] = str(not library).lower()
    files[f"{INFO}/WHEEL"] = "".join(f"{name}: {value}\n" for name, value in wheel.items()).encode()
    record = "".join(f"{name},sha256={_digest(data)},{len(data)}\n" for name, data in files.items())
    files[f"{INFO}/RECORD"] = f"{record}{INFO}/RECORD,,\n".encode()
    name = f"archcaraway-{VERSION}-{tag}.whl"
    with zipfile.ZipFile(Path(wheel_directory) / name, "w", zipfile.ZIP_DEFLATED) as archive:
        for file, data in files.items():
            archive.writestr(file, data)
    return name


def build_sdist(sdist_directory: str, config_settings: object = None) -> str:
    name = f"archcaraway-{VERSION}"
    with tarfile.open(Path(sdist_directory) / f"{name}.tar.gz", "w:gz") as archive:
        others = (HERE / file for file in ("pyproject.toml", "README.md", "build_backend.py"))
        for path in (*others, *_sources()):
            archive.add(path, f"{name}/{path.relative_to(HERE)}")
        info = tarfile.TarInfo(f"{name}/PKG-INFO")
        info.size = len(METADATA)
        archive.addfile(info, io.BytesIO(METADATA.encode()))
    return f"{name}.tar.gz"


def _digest(data: bytes) -> str:
    return base64.urlsafe_b64encode(hashlib.sha256(data).digest()).rstrip(b"=").decode()
