"""The client for Node, by its own tests, where there is a Node."""

from __future__ import annotations

import os
import re
import shutil
import subprocess
import sys
import unittest

from . import beside
from .beside import ROOT

NODE = ROOT / "clients" / "node"
LEAST_VERSION = 20
MOST_SECONDS = 300


class Node(unittest.TestCase):
    def setUp(self) -> None:
        node = shutil.which("node")
        if node is None:
            self.skipTest("there is no node")
        self.node = node
        told = subprocess.run([node, "--version"], capture_output=True, check=False).stdout.decode()
        found = re.match(r"v(\d+)\.", told)
        if found is None or int(found[1]) < LEAST_VERSION:
            self.skipTest(f"this node is older than {LEAST_VERSION}")

    def test_by_its_own_tests(self) -> None:
        environment = {**os.environ, "SILO_PROGRAM": beside.program, "PYTHON": sys.executable}
        ran = subprocess.run([self.node, "--test"], cwd=NODE, env=environment, capture_output=True, check=False, timeout=MOST_SECONDS)
        told = ran.stdout.decode() + ran.stderr.decode()
        self.assertEqual(ran.returncode, 0, told)
        self.assertRegex(told, r"(?m)^. pass [1-9]", told)
