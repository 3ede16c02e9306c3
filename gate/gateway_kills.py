"""Clients under load, and kills of them, of their gateway and of its program: what each was told is held against what is there at the end."""

from __future__ import annotations

import collections
import os
import pathlib
import random
import re
import signal
import subprocess
import sys
import time
from typing import Dict, List, NamedTuple, Optional, Tuple

from gateway_asking import patience
from silo import Silo, SiloEnded, SiloError
from tests import beside
from tests.beside import CLIENT
from tests.gateways import Gateway

HERE = pathlib.Path(__file__).resolve().parent
CLIENTS = 4
# how long it may take until somebody is answered again, on a quiet machine: a program that ends at once is started again after 5 s
MOST_SECONDS = 30.0
VICTIMS = ("program", "gateway", "client")
TENANTS = ("red:10000:4", "blue:100:4")


class Faults(NamedTuple):
    told: int
    unknown: int
    strange: List[str]
    lost: List[str]


class Asking:
    """A process that asks: its log has a line for each thing that it asked and was told."""

    def __init__(self, address: str, log: pathlib.Path) -> None:
        self.log = log
        environment = {**os.environ, "PYTHONPATH": os.fspath(CLIENT)}
        self.process = subprocess.Popen([sys.executable, os.fspath(HERE / "gateway_asking.py"), address, os.fspath(log)], env=environment,
                                        stdin=subprocess.DEVNULL)  # fmt: skip

    def told(self) -> int:
        """How long its log is."""
        return self.log.stat().st_size if self.log.exists() else 0


class Arena:
    """A gateway that is started again whenever it is killed, and its clients, which are too."""

    def __init__(self, room: pathlib.Path, chance: random.Random) -> None:
        self._room, self._chance = room, chance
        tried = [beside.program, "answer", "--data", os.fspath(room / "tried"), "--", "red:1:1"]
        self.keeps = subprocess.run(tried, capture_output=True, stdin=subprocess.DEVNULL, check=False).returncode == 0
        self.counts: Dict[str, int] = collections.Counter()
        self.hung: List[str] = []
        self._lives = 0
        self._gateways: List[Gateway] = []
        self._logs: List[pathlib.Path] = []
        self._start()
        self._clients = [self._asking() for _ in range(CLIENTS)]

    def run(self, count: int) -> None:
        self._wait_for_answers("the begin")
        for number in range(count):
            victim = self._chance.choice(VICTIMS)
            time.sleep(self._chance.random() ** 2 * 0.1)
            self._kill(victim)
            self.counts[victim] += 1
            if not self._wait_for_answers(f"kill {number + 1}, of the {victim}"):
                return

    def faults(self) -> Faults:
        """Ends all that ask, and holds what they were told against what is there."""
        for client in self._clients:
            client.process.terminate()
        for client in self._clients:
            try:
                client.process.wait(patience(MOST_SECONDS))
            except subprocess.TimeoutExpired:
                self.hung.append(f"a client doesn't end: {client.log.name}")
        found = [read_log(log) for log in self._logs if log.exists()]
        strange = [line for one in found for line in one.strange]
        self.hung += [line for line in strange if "no answer" in line]
        lost = [fault for one in found for fault in self._lost(one)] if self.keeps and not self.hung else []
        return Faults(sum(one.told for one in found), sum(one.unknown for one in found), strange, lost)

    def close(self) -> None:
        for client in self._clients:
            client.process.kill()
            client.process.wait()
        for gateway in self._gateways:
            gateway.close()

    def _start(self) -> None:
        words = ["--data", os.fspath(self._room / "data")] if self.keeps else []
        # a sweep drops what nobody saved and nobody called for the age: a thousand kills take longer than the usual one
        further = ["--age", "86400000"]
        self._gateways.append(Gateway("--sweep", "0.5", *words, tenants=TENANTS, further=further, folder=self._room / "sockets"))

    def _asking(self) -> Asking:
        self._lives += 1
        self._logs.append(self._room / f"life{self._lives}.log")
        return Asking(self._gateways[-1].address(), self._logs[-1])

    def _kill(self, victim: str) -> None:
        gateway = self._gateways[-1]
        if victim == "program":
            number = program_of(gateway)
            if number is not None:
                os.kill(number, signal.SIGKILL)
        elif victim == "gateway":
            gateway.process.kill()
            gateway.process.wait()
            gateway.close()
            self._gateways.pop()
            self._start()
        else:
            place = self._chance.randrange(CLIENTS)
            self._clients[place].process.kill()
            self._clients[place].process.wait()
            self._clients[place] = self._asking()

    def _wait_for_answers(self, what: str) -> bool:
        """Waits until each client is told something more."""
        before = [client.told() for client in self._clients]
        begun = time.monotonic()
        while any(client.told() <= length for client, length in zip(self._clients, before)):
            seconds = time.monotonic() - begun
            if seconds > patience(MOST_SECONDS):
                still = [client.log.name for client, length in zip(self._clients, before) if client.told() <= length]
                self.hung.append(f"behind {what} {still} were told nothing for {seconds:.0f} s: {self._state()}")
                return False
            time.sleep(0.005)
        return True

    def _state(self) -> str:
        """What the gateway has told, and what it says is under way."""
        gateway = self._gateways[-1]
        try:
            lines = [line for line in gateway.page("/metrics").splitlines() if line.startswith(("silo_held", "silo_under_way", "silo_conn", "silo_up"))]
        except OSError as fault:
            lines = [f"no page: {fault}"]
        return f"{gateway.told()[-400:]} {lines}"

    def _lost(self, life: Life) -> List[str]:
        """Counters that have fewer than was told, or more than was asked."""
        found = []
        with Silo.connect(self._gateways[-1].address(), timeout=patience(MOST_SECONDS)) as silo:
            for grain, (told, unknown) in life.counters.items():
                for _ in range(100):
                    try:
                        count = silo.call("red/look", grain, "get")
                        break
                    except (SiloError, SiloEnded) as fault:
                        count = -1
                        if not isinstance(fault, SiloError) or fault.code != 90:
                            found.append(f"{grain}: {fault}")
                            break
                if not told <= count <= told + unknown:
                    found.append(f"{grain} has {count}; told were {told}, and {unknown} aren't known")
        return found


class Life(NamedTuple):
    """What a client's log says."""

    told: int
    unknown: int
    strange: List[str]
    # of each counter how many were told, and how many were asked of which it isn't known
    counters: Dict[str, Tuple[int, int]]


def program_of(gateway: Gateway) -> Optional[int]:
    """The process of its program, if there is one: not what has ended, whose number may be another's by now."""
    numbers = re.findall(r"the program runs: process (\d+)", gateway.told())
    try:
        parent = pathlib.Path(f"/proc/{numbers[-1]}/stat").read_text().rpartition(")")[2].split()[1]
        return int(numbers[-1]) if int(parent) == gateway.process.pid else None
    except (OSError, IndexError, ValueError):
        return None


def read_log(log: pathlib.Path) -> Life:
    """Its lines are `asked GRAIN`, `told GRAIN`, `unknown GRAIN`, `undone GRAIN` and `strange WORDS`; of a killed client the last may be torn."""
    asked: Dict[str, int] = collections.Counter()
    told: Dict[str, int] = collections.Counter()
    undone: Dict[str, int] = collections.Counter()
    strange, unknown = [], 0
    for line in log.read_text().split("\n")[:-1]:
        word, _, rest = line.partition(" ")
        if word == "strange":
            strange.append(rest)
        unknown += word == "unknown"
        {"asked": asked, "told": told, "undone": undone}.get(word, collections.Counter())[rest] += 1
    counters = {grain: (told[grain], asked[grain] - told[grain] - undone[grain]) for grain in asked}
    return Life(sum(told.values()), unknown, strange, counters)
