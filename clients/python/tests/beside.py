"""What the client is tried beside: the program of `gate/check-client`, or one that does what no silo does."""

from __future__ import annotations

import os
import pathlib
import signal
import sys
import tempfile
import time
import unittest
from typing import Any, Callable, List, Tuple

from silo import Silo

CLIENT = pathlib.Path(__file__).resolve().parent.parent
ROOT = CLIENT.parent.parent
WEB = "red/web"
COUNTER = "counter/red:a"
# how long a test waits for what has to come: only one that fails waits so long, and a machine may be busy
SECONDS = 60.0
# the path of the program, which `gate/check-client` sets
program = ""


def nested(depth: int) -> Any:
    value: Any = []
    for _ in range(depth - 1):
        value = [value]
    return value


class Case(unittest.TestCase):
    """A test that may run programs of its own."""

    def started(self, *tenants: str, **options: Any) -> Silo:
        """A silo of the program; it is ended behind the test."""
        silo = Silo(*(tenants or ("red:4:4",)), **{"program": program, "timeout": SECONDS, **options})
        self.addCleanup(silo.close)
        return silo

    def stub(self, code: str) -> str:
        """The path of a program that runs this code of Python, with `read`, which gives the next line, and `write`."""
        folder = tempfile.TemporaryDirectory()
        self.addCleanup(folder.cleanup)
        path = pathlib.Path(folder.name) / "stub"
        head = "import os, sys, time\nread = sys.stdin.buffer.readline\ndef write(data): os.write(1, data)\n"
        path.write_text(f"#!{sys.executable} -IS\n{head}{code}\n", encoding="utf-8")
        path.chmod(0o755)
        return os.fspath(path)


class Red(Case):
    """A test of a silo of two tenants."""

    def setUp(self) -> None:
        self.told: List[Tuple[str, Any]] = []
        self.silo = self.started("red:4:4", "blue:1:1", on_told=lambda grain, outcome: self.told.append((grain, outcome)))
        self.web = self.silo.client(WEB)


def stop(number: int) -> None:
    """Stops a process by a signal, and waits until it does nothing more."""
    os.kill(number, signal.SIGSTOP)
    # its state is told behind its name, which may have any sign in it
    while pathlib.Path(f"/proc/{number}/stat").read_text().rpartition(")")[2].split()[0] != "T":
        time.sleep(0.001)


def settled(it: Callable[[], object]) -> object:
    """What it gives, or the exception that it raises."""
    try:
        return it()
    except BaseException as fault:
        return fault
