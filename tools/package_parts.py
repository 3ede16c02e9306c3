"""What both packages are made of: the files of the Python client, what its pyproject says, and the date of all files."""

from __future__ import annotations

import os
import pathlib
import re
import subprocess
from typing import Dict, List

ROOT = pathlib.Path(__file__).resolve().parent.parent
CLIENT = ROOT / "clients" / "python"
LICENSE = ROOT / "LICENSE"
# a file in a wheel can't be older
FIRST_DATE = 315_532_800


class Fault(Exception):
    """Why nothing is packaged."""


class Project:
    """What pyproject.toml says of the client. Python 3.9 has no reader of it, so only its plain lines are read."""

    def __init__(self) -> None:
        text = (CLIENT / "pyproject.toml").read_text(encoding="utf-8")
        said = dict(re.findall(r'^([\w-]+) = "(.*)"$', text, re.MULTILINE))
        packages = re.search(r"^packages = \[(.*)\]$", text, re.MULTILINE)
        try:
            self.name, self.version, self.about, self.python = (said[key] for key in ("name", "version", "description", "requires-python"))
        except KeyError as why:
            raise Fault(f"pyproject.toml doesn't say its {why.args[0]}") from None
        self.packages: List[str] = re.findall(r'"([\w.]+)"', packages[1]) if packages else []
        # the name as it stands in names of files
        self.file_name = f"{self.name.replace('-', '_')}-{self.version}"

    def metadata(self) -> str:
        heads = {"Metadata-Version": "2.1", "Name": self.name, "Version": self.version, "Summary": self.about, "License": "MIT",
                 "Requires-Python": self.python, "Description-Content-Type": "text/markdown"}
        page = (CLIENT / "README.md").read_text(encoding="utf-8")
        return "".join(f"{name}: {said}\n" for name, said in heads.items()) + f"\n{page}"

    def files(self) -> Dict[str, bytes]:
        """The files of its packages, by their places below the folder that Python looks in."""
        folders = [CLIENT / package.replace(".", "/") for package in self.packages]
        paths = sorted(path for folder in folders for path in folder.iterdir() if path.suffix == ".py" or path.name == "py.typed")
        if not paths:
            raise Fault("pyproject.toml names no package that is there")
        return {path.relative_to(CLIENT).as_posix(): path.read_bytes() for path in paths}


def date() -> int:
    """The date of all files, in seconds since 1970: of the last commit, or of the newest source where there is no git."""
    told = os.environ.get("SOURCE_DATE_EPOCH", "")
    if told.isdecimal():
        return max(int(told), FIRST_DATE)
    try:
        asked = ["git", "-C", os.fspath(ROOT), "log", "-1", "--format=%ct"]
        found = subprocess.run(asked, capture_output=True, text=True, check=True).stdout.strip()
        return max(int(found), FIRST_DATE)
    except (OSError, ValueError, subprocess.CalledProcessError):
        return max(FIRST_DATE, *(int(path.stat().st_mtime) for path in CLIENT.rglob("*.py")))
