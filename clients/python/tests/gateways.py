"""A gateway beside the program, and connections to it that are made by hand."""

from __future__ import annotations

import json
import os
import pathlib
import re
import shutil
import signal
import socket
import subprocess
import sys
import tempfile
import time
from typing import Any, Callable, Dict, List, Optional

from . import beside
from .beside import CLIENT, SECONDS, Case

TENANTS = ("red:100:4", "blue:100:4")
TOLD_LINE = re.compile(r"\d{4}-\d\d-\d\dT\d\d:\d\d:\d\dZ (info|warning|error): ")


def call(number: int, caller: str = "red/web", grain: str = "counter/red:a", method: str = "add", args: Any = None) -> bytes:
    said = {"op": "call", "from": caller, "id": number, "grain": grain, "method": method}
    return json.dumps({**said, "args": {"by": 1} if args is None and method == "add" else args}, separators=(",", ":")).encode() + b"\n"


def echo(number: int, word: str, caller: str = "red/web") -> bytes:
    """A call that is answered by a text with this word in it, whatever was asked before: there is no such kind."""
    return call(number, caller, f"{word}/{caller.partition('/')[0]}:a", "get")


def echoed(number: int, word: str, caller: str = "red/web") -> Dict[str, Any]:
    return {"error": 22, "from": caller, "id": number, "text": f"kind {word} is unknown"}


def soon(is_so: Callable[[], object]) -> None:
    """Waits until it is so."""
    until = time.monotonic() + SECONDS
    while not is_so():
        if time.monotonic() > until:
            raise AssertionError("what has to come hasn't come")
        time.sleep(0.01)


class Room(tempfile.TemporaryDirectory[str]):
    """A folder that goes at the end, also if what was killed, or what that had run, still writes there for a moment."""

    def cleanup(self) -> None:
        soon(self._is_gone)
        super().cleanup()

    def _is_gone(self) -> bool:
        shutil.rmtree(self.name, ignore_errors=True)
        return not os.path.exists(self.name)


class Gateway:
    """A gateway that runs as a process. It listens in `folder` once it was made."""

    def __init__(self, *words: str, program: Optional[str] = None, tenants: Any = TENANTS, further: Any = (), folder: Any = None) -> None:
        self._room = Room()
        self.folder = folder or pathlib.Path(self._room.name, "sockets")
        self._told = open(pathlib.Path(self._room.name, "told"), "wb")
        command = [sys.executable, "-W", "error", "-m", "silo.gateway", "--program", program or beside.program, "--grace", f"{SECONDS:g}", *words]
        command += [os.fspath(self.folder), *tenants, *(["--", *further] if further else [])]
        environment = {**os.environ, "PYTHONPATH": os.fspath(CLIENT)}
        self.process = subprocess.Popen(command, env=environment, stdin=subprocess.DEVNULL, stderr=self._told, cwd=self._room.name)

    def told(self) -> str:
        return pathlib.Path(self._room.name, "told").read_text(encoding="utf-8")

    def wait_for(self, text: str, count: int = 1) -> None:
        """Waits until it has told that, so often."""
        soon(lambda: self.told().count(text) >= count or self.process.poll() is not None)
        if self.told().count(text) < count:
            raise AssertionError(f"the gateway didn't tell {text!r}, but {self.told()!r}")

    def program(self) -> int:
        """The number of the program's process."""
        return int(self.told().rpartition("the program runs: process ")[2].split()[0])

    def kill_program(self) -> None:
        """Kills it, and waits until it runs again."""
        starts = self.told().count("the program runs")
        os.kill(self.program(), signal.SIGKILL)
        self.wait_for("the program runs", starts + 1)

    def connect(self, name: str = "red") -> Wire:
        return Wire(os.fspath(self.folder / f"{name}.sock"))

    def address(self, name: str = "red") -> str:
        return f"unix:{self.folder / name}.sock"

    def page(self, path: str) -> str:
        """A page of those who watch, with its head."""
        with self.connect("_monitor") as wire:
            wire.say(f"GET {path} HTTP/1.1\r\nHost: x\r\n\r\n".encode())
            return wire.rest().decode()

    def figure(self, sample: str) -> float:
        lines = dict(line.rsplit(" ", 1) for line in self.page("/metrics").splitlines() if " " in line)
        return float(lines[sample])

    def end(self, number: int = signal.SIGTERM) -> int:
        """Has it end, and gives its status."""
        if self.process.poll() is None:
            self.process.send_signal(number)
        return self.process.wait(2 * SECONDS)

    def close(self) -> None:
        if self._told.closed:
            return
        if self.process.poll() is None:
            self.process.kill()
        self.process.wait()
        told = self.told()
        self._told.close()
        self._room.cleanup()
        # whatever it tells is a line with a time and a level
        odd = [line for line in told.splitlines() if not TOLD_LINE.match(line)]
        if odd:
            raise AssertionError("\n".join(odd))


class Wire:
    """A connection, by lines."""

    def __init__(self, path: str) -> None:
        self.socket = socket.socket(socket.AF_UNIX)
        self.socket.settimeout(SECONDS)
        self.socket.connect(path)
        self._lines = self.socket.makefile("rb")

    def __enter__(self) -> Wire:
        return self

    def __exit__(self, *fault: Any) -> None:
        self.close()

    def say(self, data: bytes) -> None:
        self.socket.sendall(data)

    def hear(self) -> Any:
        """The next line; none at the end."""
        line = self._lines.readline()
        return json.loads(line) if line else None

    def ask(self, line: bytes) -> Any:
        self.say(line)
        return self.hear()

    def end(self) -> None:
        """Nothing more is said."""
        self.socket.shutdown(socket.SHUT_WR)

    def rest(self) -> bytes:
        return self._lines.read()

    def heard(self) -> List[Any]:
        """All lines up to the end."""
        return [json.loads(line) for line in self.rest().splitlines()]

    def close(self) -> None:
        self._lines.close()
        self.socket.close()


class Gateways(Case):
    """A test with gateways."""

    @classmethod
    def shares(cls, *words: str, **options: Any) -> Gateway:
        """A gateway that the tests of a class share."""
        gateway = Gateway(*words, **options)
        cls.addClassCleanup(gateway.close)
        gateway.wait_for("the gateway listens")
        gateway.wait_for("the program runs")
        return gateway

    def gateway(self, *words: str, **options: Any) -> Gateway:
        gateway = Gateway(*words, **options)
        self.addCleanup(gateway.close)
        gateway.wait_for("the gateway listens")
        gateway.wait_for("the program runs")
        return gateway

    def wire(self, gateway: Gateway, name: str = "red") -> Wire:
        wire = gateway.connect(name)
        self.addCleanup(wire.close)
        return wire
