"""What the gateway asks by itself: it sets the clock, has the silo sweep, and asks what each tenant has."""

from __future__ import annotations

import asyncio
import json
import time

from silo.gateway.asked import request, step
from silo.gateway.desk import Desk
from silo.gateway.lane import Lane
from silo.gateway.log import tell
from silo.gateway.told import NOT_NOW
from silo.lines import SWEEP, tick_line

# the client as whom it asks what a tenant has
CLIENT = b"gateway"


class OwnAsker:
    """Who waits for a step: whether one is under way, and when the last was answered."""

    def __init__(self, name: str) -> None:
        self.name = name
        self.is_waiting = False
        self.count = 0
        self.answered_at = time.monotonic()
        self._was_refused = False

    def tell(self, replies: bytes) -> None:
        if replies == NOT_NOW and not self._was_refused:
            self._was_refused = True
            tell("warning", f"the silo takes no {self.name} now: the clock of this machine may have gone back")

    def flush(self) -> None:
        pass

    def let_go(self, count: int, length: int) -> None:
        self.is_waiting = False
        self.count += 1
        self.answered_at = time.monotonic()


class StatusAsker:
    """Who waits for what a tenant has."""

    def __init__(self, lane: Lane) -> None:
        self._lane = lane

    def tell(self, replies: bytes) -> None:
        said = json.loads(replies)
        if isinstance(said.get("ok"), dict):
            self._lane.status = said["ok"]

    def flush(self) -> None:
        pass

    def let_go(self, count: int, length: int) -> None:
        pass


class Clock:
    """Ticks and sweeps in periods, in seconds; none where the period is 0."""

    def __init__(self, desk: Desk, tick_seconds: float, sweep_seconds: float) -> None:
        self._desk = desk
        self._tick_seconds, self._sweep_seconds = tick_seconds, sweep_seconds
        self.ticks, self.sweeps = OwnAsker("tick"), OwnAsker("sweep")
        self._asked_of = {lane.tenant: -1 for lane in desk.lanes.values()}

    async def run(self) -> None:
        """Until it is cancelled."""
        loop = asyncio.get_running_loop()
        due = loop.time() + self._sweep_seconds
        while True:
            waits = [seconds for seconds in (self._tick_seconds, due - loop.time() if self._sweep_seconds else 0.0) if seconds > 0]
            if not (self._tick_seconds or self._sweep_seconds):
                return
            await asyncio.sleep(min(waits, default=0.0))
            if self._tick_seconds:
                self.tick()
            if self._sweep_seconds and loop.time() >= due:
                due = loop.time() + self._sweep_seconds
                self.sweep()

    def tick(self) -> None:
        if not self.ticks.is_waiting:
            self._step(self.ticks, tick_line(int(time.time() * 1000)))

    def sweep(self) -> None:
        """Lets idle activations go, and asks what those tenants have that asked something since."""
        if not self.sweeps.is_waiting:
            self._step(self.sweeps, SWEEP)
        for lane in self._desk.lanes.values():
            if lane.tenant and self._asked_of[lane.tenant] != lane.requests:
                self._asked_of[lane.tenant] = lane.requests
                caller = b"%b/%b" % (lane.tenant.encode(), CLIENT)
                self._desk.ask(StatusAsker(lane), request(b'{"op":"status","from":"', caller, b"0", b"}"))

    def _step(self, asker: OwnAsker, line: bytes) -> None:
        asker.is_waiting = self._desk.ask(asker, step(line))
