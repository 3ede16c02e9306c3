"""What a tenant waits for while another one floods, in the ways in which a tenant once took the program from the others."""

from __future__ import annotations

import contextlib
import os
import pathlib
import statistics
import subprocess
import sys
import time
from typing import Iterator, List, NamedTuple

from tests.beside import CLIENT
from tests.gateways import Gateway, call, soon

HERE = pathlib.Path(__file__).resolve().parent
# how long the flood runs before it is measured, and how many of its lines are answered then: the first 64 are under way at once, whatever they cost
SECONDS_BEFORE, LINES_BEFORE = 0.5, 100
# answers of which the 99th of 100 says something
LEAST = 200


class Way(NamedTuple):
    """What one tenant does: connections, lines of each that are under way, and the name of what it asks."""

    name: str
    connections: int
    under_way: int
    what: str


WAYS = (
    Way("nothing", 0, 0, "add"),
    Way("1,000 adds under way", 1, 1_000, "add"),
    Way("4 times 1,000 adds under way", 4, 1_000, "add"),
    Way("relays that send to one another, a line under way", 1, 1, "relays"),
    Way("the same, 100 lines under way", 1, 100, "relays"),
    Way("adds, and bursts of such relays in turn", 1, 100, "bursts"),
    Way("gets of 60 kB, 100 under way", 1, 100, "gets"),
    Way("puts of 60 kB, 100 under way", 1, 100, "puts"),
    Way("connections that come and go", 4, 1, "connections"),
)


class Flooded(NamedTuple):
    """What the other waited, in milliseconds: the middle, the 99th of 100 and the most by the clock, and the 99th of what program and gateway
    worked meanwhile, which doesn't count what other programs of this machine do. Then the flood's lines a second, and the peaks of memory in bytes."""

    name: str
    middle: float
    late: float
    worst: float
    work: float
    rate: float
    program: int
    gateway: int

    def row(self) -> str:
        return (f"| {self.name} | {self.middle:.2f} | {self.late:.2f} | {self.worst:.1f} | {self.work:.2f} | {self.rate:,.0f} | "
                f"{self.program >> 20:,} | {self.gateway >> 20:,} |")  # fmt: skip


HEAD = ("| one tenant | the other: p50 ms | p99 ms | worst | p99 of the work | flood's lines a second | program MiB | gateway MiB |\n"
        "|---|---|---|---|---|---|---|---|")  # fmt: skip


def peak(number: int) -> int:
    """The most bytes that a process has had in memory."""
    lines = pathlib.Path(f"/proc/{number}/status").read_text().splitlines()
    return next(int(line.split()[1]) << 10 for line in lines if line.startswith("VmHWM:"))


def worked(number: int) -> float:
    """How many seconds a process has had a processor, by Linux's clock of it."""
    return time.clock_gettime(~number << 3 | 2)


@contextlib.contextmanager
def first_in_turn() -> Iterator[None]:
    """This process has a processor as soon as it wants one, if the system allows it: else work that the flood causes behind the answer counts."""
    try:
        os.sched_setscheduler(0, os.SCHED_FIFO, os.sched_param(1))
    except (OSError, AttributeError):
        yield
        return
    try:
        yield
    finally:
        os.sched_setscheduler(0, os.SCHED_OTHER, os.sched_param(0))


def late(values: List[float]) -> float:
    """The 99th of 100 of them, which are seconds, in milliseconds."""
    return 1000 * sorted(values)[len(values) * 99 // 100]


def flooded(way: Way, seconds: float) -> Flooded:
    """Blue asks one thing after the other for so long, while red does that."""
    gateway = Gateway(tenants=["red:1000:4", "blue:1000:4"])
    environment = {**os.environ, "PYTHONPATH": os.fspath(CLIENT)}
    command = [sys.executable, os.fspath(HERE / "gateway_flooding.py"), os.fspath(gateway.folder / "red.sock"), way.what, str(way.under_way)]
    flooding: List[subprocess.Popen[bytes]] = []
    try:
        gateway.wait_for("the program runs")
        gateway.wait_for("the gateway listens")
        flooding += [subprocess.Popen(command, env=environment, stdin=subprocess.DEVNULL) for _ in range(way.connections)]
        time.sleep(SECONDS_BEFORE)
        soon(lambda: not flooding or gateway.figure('silo_latency_seconds_count{tenant="red"}') >= LINES_BEFORE)
        before = gateway.figure('silo_requests_total{tenant="red"}')
        times: List[float] = []
        works: List[float] = []
        numbers = (gateway.program(), gateway.process.pid)
        with gateway.connect("blue") as wire, first_in_turn():
            begun = time.monotonic()
            while time.monotonic() < begun + seconds or len(times) < LEAST:
                had_worked, asked = sum(map(worked, numbers)), time.perf_counter()
                said = wire.ask(call(1, "blue/web", "counter/blue:a"))
                times.append(time.perf_counter() - asked)
                works.append(sum(map(worked, numbers)) - had_worked)
                if "ok" not in said:
                    raise AssertionError(said)
            took = time.monotonic() - begun
        rate = (gateway.figure('silo_requests_total{tenant="red"}') - before) / took
        kept = [peak(number) for number in numbers]
    finally:
        for process in flooding:
            process.kill()
            process.wait()
        gateway.close()
    return Flooded(way.name, 1000 * statistics.median(times), late(times), 1000 * max(times), late(works), rate, *kept)
