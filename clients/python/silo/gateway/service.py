"""The gateway as a whole, from its begin to its orderly end."""

from __future__ import annotations

import asyncio
import contextlib
import resource
import signal
from typing import Sequence

from silo.gateway.clock import Clock
from silo.gateway.desk import OPERATOR, Desk
from silo.gateway.doors import MONITOR_NAME, OPERATOR_NAME, Doors, locked
from silo.gateway.keeper import Keeper
from silo.gateway.lane import Lane
from silo.gateway.log import tell
from silo.gateway.monitor import Visits
from silo.gateway.options import Options
from silo.gateway.tokens import Tokens
from silo.gateway.watched import Watched

# bytes that a tenant may have under way
MOST_BYTES_OF_TENANT = 4_194_304
# how long connections are read on when the end begins, so that what was written before is read; and in how many turns of the loop at least
SECONDS_OF_LAST_CALL, TURNS_OF_LAST_CALL = 0.1, 10
# a process that a signal ended has a status below 0, which no process can end with
MOST_STATUS = 255


class Service:
    """Everything that belongs together, and what is told of it."""

    def __init__(self, options: Options) -> None:
        self._options = options
        self._grace = options.grace
        lanes = [Lane(name, name, options.most_of_tenant, MOST_BYTES_OF_TENANT) for name in options.names]
        lanes.append(Lane(OPERATOR_NAME, OPERATOR, options.most_of_tenant, MOST_BYTES_OF_TENANT))
        self.desk = Desk(lanes, Lane("_gateway", OPERATOR, options.most_of_tenant, MOST_BYTES_OF_TENANT), asyncio.get_running_loop().call_soon)
        self.clock = Clock(self.desk, options.tick, options.sweep)
        self.keeper = Keeper(options.command, self.desk, self.clock.tick if options.tick else lambda: None)
        self.doors = Doors(self.desk, options.folder, options.groups, options.most_of_connection, options.most_connections)
        self.watched = Watched(self.desk, self.keeper, self.clock, self.doors, options.data)
        self._is_asked_to_end = asyncio.Event()

    async def run(self) -> int:
        """Runs until a signal asks for the end, or the program can't be started; gives the status of the process."""
        lock = locked(self._options.folder)
        _, most = resource.getrlimit(resource.RLIMIT_NOFILE)
        resource.setrlimit(resource.RLIMIT_NOFILE, (most, most))
        keeping = asyncio.ensure_future(self.keeper.run())
        aside = [asyncio.ensure_future(it) for it in (self.clock.run(), self.keeper.watch(), self.watched.run())]
        asked = asyncio.ensure_future(self._is_asked_to_end.wait())
        try:
            await self._open()
            await asyncio.wait([keeping, asked], return_when=asyncio.FIRST_COMPLETED)
            return await self._end(keeping, aside)
        finally:
            self.keeper.kill()
            for task in (keeping, asked, *aside):
                task.cancel()
            self.doors.close()
            lock.close()

    async def _open(self) -> None:
        options = self._options
        visit = Visits({"/metrics": self.watched.metrics, "/health": self.watched.health}).begin
        await self.doors.open()
        await self.doors.open_at(MONITOR_NAME, visit)
        if options.monitor_tcp is not None:
            await self.doors.open_tcp(options.monitor_tcp, visit, "/metrics and /health are")
        if options.tcp is not None and options.tokens is not None:
            await self.doors.open_tcp_of_tenants(options.tcp, Tokens(options.tokens))
        for number in (signal.SIGTERM, signal.SIGINT):
            asyncio.get_running_loop().add_signal_handler(number, self._ask_to_end, number)
        tell("info", f"the gateway listens in {options.folder} for {', '.join(options.names)}")

    def _ask_to_end(self, number: int) -> None:
        if self._is_asked_to_end.is_set():
            tell("warning", "the gateway is asked to end once more: it waits for nothing now")
            self._grace = 0.0
            self.keeper.end()
            self.keeper.kill()
            return
        tell("info", f"the gateway is asked to end, by {signal.Signals(number).name}")
        self._is_asked_to_end.set()

    async def _end(self, keeping: asyncio.Future[int], aside: Sequence[asyncio.Future[None]]) -> int:
        """What was asked is answered, if that doesn't take too long; then all is closed."""
        loop = asyncio.get_running_loop()
        begun = loop.time()
        self.watched.is_ending = True
        for _ in range(TURNS_OF_LAST_CALL):
            await asyncio.sleep(SECONDS_OF_LAST_CALL / TURNS_OF_LAST_CALL)
        self.doors.close()
        for guest in self.doors.guests:
            guest.stop()
        while not (self.desk.is_idle or keeping.done()) and loop.time() < begun + self._grace:
            await asyncio.sleep(0.01)
        for task in aside:
            task.cancel()
        left = sum(lane.held for lane in self.desk.lanes.values())
        if left:
            tell("error", f"lines were read and are not answered: {left}")
        self.keeper.end()
        with contextlib.suppress(asyncio.TimeoutError):
            await asyncio.wait_for(asyncio.shield(keeping), max(1.0, begun + self._grace - loop.time()))
        await self._let_go(begun + self._grace)
        status = keeping.result() if keeping.done() else 1
        tell("info", f"the gateway ends, and the program ended with status {status}")
        return status if 0 <= status <= MOST_STATUS and not left else 1

    async def _let_go(self, until: float) -> None:
        """Closes connections behind what they were told. Who doesn't read that in time is cut off."""
        loop = asyncio.get_running_loop()
        for guest in self.doors.guests:
            guest.close()
        while self.doors.guests and loop.time() < until:
            await asyncio.sleep(0.01)
        for guest in self.doors.guests:
            guest.abort()
        await asyncio.sleep(0)
