"""What is counted of the packages, and what is tried of the wheel."""

from __future__ import annotations

import base64
import csv
import hashlib
import importlib.util
import io
import os
import pathlib
import subprocess
import sys
import zipfile
from typing import List

from places import TOOLS

SECONDS = 60.0
# uses the client of a folder or a wheel, and nothing else that may be installed
USE = """
import sys
sys.path.insert(0, sys.argv[1])
import silo, silo.aio, silo.gateway.service
assert silo.__file__.startswith(sys.argv[1]), silo.__file__
with silo.Silo("red:1:1", program=sys.argv[2]) as it:
    print(silo.Counter(it.client("red/web"), "a").add(by=3))
"""


class Checks:
    """What was tried, and what came of it."""

    def __init__(self) -> None:
        self._passed = self._failed = 0

    def add(self, what: str, is_well: bool, told: object = "") -> None:
        if is_well:
            self._passed += 1
        else:
            self._failed += 1
            print(f"FAILED {what}", *([told] if told else []), flush=True)

    def skip(self, what: str, why: str) -> None:
        print(f"{what} is skipped: {why}", flush=True)

    def told(self) -> int:
        print(f"{self._passed} passed, {self._failed} failed")
        return 1 if self._failed else 0


def make(program: str, out: pathlib.Path, mask: int = 0o022) -> List[pathlib.Path]:
    """The packages, made by `tools/package` with that mask."""
    words = [str(TOOLS / "package"), program, os.fspath(out)]
    before = os.umask(mask)
    try:
        ran = subprocess.run(words, capture_output=True, text=True, stdin=subprocess.DEVNULL, check=False, timeout=SECONDS)
    finally:
        os.umask(before)
    if ran.returncode != 0:
        raise AssertionError(ran.stderr)
    return [pathlib.Path(line) for line in ran.stdout.splitlines()]


def refused(program: str, out: pathlib.Path) -> str:
    """The one line that says why nothing can be made."""
    ran = subprocess.run([str(TOOLS / "package"), program, os.fspath(out)], capture_output=True, text=True, stdin=subprocess.DEVNULL, check=False)
    return ran.stderr if (ran.returncode, ran.stdout, ran.stderr.count("\n")) == (1, "", 1) else ""


def used(folder: str, program: str) -> str:
    """What a counter of the program answers by the client of that folder; or what went wrong."""
    words = [sys.executable, "-I", "-B", "-W", "error", "-c", USE, folder, program]
    ran = subprocess.run(words, capture_output=True, text=True, stdin=subprocess.DEVNULL, check=False, timeout=SECONDS)
    return ran.stdout + ran.stderr


def wheel_is_well(checks: Checks, wheel: pathlib.Path, folder: pathlib.Path, program: str) -> None:
    with zipfile.ZipFile(wheel) as it:
        contents = {name: it.read(name) for name in it.namelist()}
    record = next(name for name in contents if name.endswith(".dist-info/RECORD"))
    wanted = {name: (f"sha256={base64.urlsafe_b64encode(hashlib.sha256(content).digest()).rstrip(b'=').decode()}", str(len(content)))
              for name, content in contents.items()}
    wanted[record] = ("", "")
    rows = {name: (said, size) for name, said, size in csv.reader(io.StringIO(contents[record].decode()))}
    checks.add("the wheel's list has each file and its sum", rows == wanted)
    checks.add("the wheel has its types", "silo/py.typed" in contents and "silo/gateway/__main__.py" in contents)
    checks.add("the wheel is used as it is", used(os.fspath(wheel), program) == "3\n")
    if importlib.util.find_spec("pip") is None:
        checks.skip("the wheel by pip", "this Python has no pip")
        return
    target = folder / "by-pip"
    words = [sys.executable, "-m", "pip", "install", "--quiet", "--no-index", "--no-cache-dir", "--no-compile", "--no-deps"]
    environment = {**os.environ, "PIP_DISABLE_PIP_VERSION_CHECK": "1", "PIP_ROOT_USER_ACTION": "ignore"}
    ran = subprocess.run([*words, "--target", os.fspath(target), os.fspath(wheel)], env=environment, capture_output=True, text=True,
                         stdin=subprocess.DEVNULL, check=False, timeout=SECONDS)  # fmt: skip
    checks.add("pip installs the wheel", ran.returncode == 0 and not ran.stderr, ran.stderr)
    checks.add("what pip installed is used", used(os.fspath(target), program) == "3\n")
