"""The wheel of the Python client, as PEP 427 says: a zip of the package and of what is said of it."""

from __future__ import annotations

import base64
import hashlib
import os
import pathlib
import time
import zipfile
from typing import Dict

from package_parts import LICENSE, Project, date

TAG = "py3-none-any"
MODE = 0o100644


def sum_of(content: bytes) -> str:
    return base64.urlsafe_b64encode(hashlib.sha256(content).digest()).rstrip(b"=").decode()


def contents_of(project: Project) -> Dict[str, bytes]:
    """The files of the wheel, the list of their sums last."""
    about = f"{project.file_name}.dist-info"
    files = project.files()
    files[f"{about}/LICENSE"] = LICENSE.read_bytes()
    files[f"{about}/METADATA"] = project.metadata().encode()
    files[f"{about}/WHEEL"] = f"Wheel-Version: 1.0\nGenerator: tools/package\nRoot-Is-Purelib: true\nTag: {TAG}\n".encode()
    files[f"{about}/top_level.txt"] = b"silo\n"
    rows = [f"{name},sha256={sum_of(content)},{len(content)}\n" for name, content in files.items()]
    files[f"{about}/RECORD"] = "".join([*rows, f"{about}/RECORD,,\n"]).encode()
    return files


def make_wheel(out: pathlib.Path) -> pathlib.Path:
    """Writes it into a folder, in place of an older one, and gives its path."""
    project = Project()
    path = out / f"{project.file_name}-{TAG}.whl"
    beside = out / f".{path.name}.{os.getpid()}"
    moment = time.gmtime(date())[:6]
    try:
        with zipfile.ZipFile(beside, "w", zipfile.ZIP_DEFLATED) as wheel:
            for name, content in contents_of(project).items():
                entry = zipfile.ZipInfo(name, moment)
                entry.compress_type, entry.external_attr, entry.create_system = zipfile.ZIP_DEFLATED, MODE << 16, 3
                wheel.writestr(entry, content)
        os.replace(beside, path)
    finally:
        beside.unlink(missing_ok=True)
    return path
