"""The package, as pip installs it."""

from __future__ import annotations

import importlib.util
import os
import pathlib
import shutil
import subprocess
import sys
import tempfile
import unittest
from typing import Set

from . import beside
from .beside import CLIENT

USE = """
import sys, threading
import silo, silo.aio
assert threading.active_count() == 1, threading.enumerate()
assert silo.__file__.startswith(sys.argv[1]), silo.__file__
with silo.Silo("red:1:1", program=sys.argv[2]) as it:
    print(silo.Counter(it.client("red/web"), "a").add(by=3))
"""


def files_of(folder: pathlib.Path) -> Set[str]:
    """The files of the package in a folder."""
    paths = (path for path in folder.glob("silo/**/*") if path.is_file() and "__pycache__" not in path.parts)
    return {path.relative_to(folder).as_posix() for path in paths}


class Package(unittest.TestCase):
    def setUp(self) -> None:
        for name in ("pip", "setuptools", "wheel"):
            if importlib.util.find_spec(name) is None:
                self.skipTest(f"this Python has no {name}")
        if beside.program.endswith("slow-silo"):
            self.skipTest("pip takes seconds, and is tried beside the program")

    def test_is_installed_and_used_without_a_network(self) -> None:
        with tempfile.TemporaryDirectory() as folder, tempfile.TemporaryDirectory() as room:
            # setuptools writes beside what it builds
            source = shutil.copytree(CLIENT, pathlib.Path(room, "client"))
            words = [sys.executable, "-m", "pip", "install", "--quiet", "--no-index", "--no-build-isolation", "--no-cache-dir", "--no-compile"]
            words += ["--no-deps", "--target", folder, os.fspath(source)]
            environment = {**os.environ, "PIP_DISABLE_PIP_VERSION_CHECK": "1", "PIP_ROOT_USER_ACTION": "ignore"}
            ran = subprocess.run(words, env=environment, capture_output=True, check=False)
            self.assertEqual(ran.returncode, 0, ran.stderr.decode())
            self.assertEqual(files_of(pathlib.Path(folder)), files_of(CLIENT))
            self.assertIn("silo/py.typed", files_of(CLIENT))
            words = [sys.executable, "-W", "error", "-c", USE, folder, beside.program]
            used = subprocess.run(words, env={**os.environ, "PYTHONPATH": folder}, cwd=folder, capture_output=True, check=False)
            self.assertEqual((used.stdout, used.stderr), (b"3\n", b""))
