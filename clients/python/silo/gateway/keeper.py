"""Runs the program, and starts it again if it ends."""

from __future__ import annotations

import asyncio
import time
from typing import Callable, List, Optional, Tuple

from silo.errors import reason_of
from silo.gateway.desk import Desk
from silo.gateway.log import tell
from silo.process import Process, read_less

# how long a program may owe an answer before it is killed
MOST_SECONDS_DEAF = 60.0
# the same of the first answer of one with data: it answers all of its log again before
MOST_SECONDS_TO_BEGIN = 3_600.0
# a program that lived for less is started again only after a while, which grows
SECONDS_OF_A_LIFE = 1.0
FIRST_PAUSE, MOST_PAUSE = 0.05, 5.0
# the statuses of a program that refuses its words, and the log of its data
REFUSES_WORDS, REFUSES_LOG = 2, 4


class Life(asyncio.Protocol):
    """A program from its start to its end."""

    def __init__(self, words: List[str], desk: Desk) -> None:
        self._desk = desk
        self._loop = asyncio.get_running_loop()
        self.has_data = "--data" in words
        self.has_answered = False
        self._process = Process(words, is_wide=self.has_data)
        self._writing: Optional[asyncio.WriteTransport] = None
        self._reading: Optional[asyncio.BaseTransport] = None
        self.over: asyncio.Future[Tuple[int, str]] = self._loop.create_future()
        self.number = self._process.number
        # Linux's name for the clock of that process's work
        self._clock_of_work = ~self.number << 3 | 2
        self._worked = 0.0

    async def begin(self) -> None:
        self._reading, _ = await self._loop.connect_read_pipe(lambda: self, self._process.reading)
        read_less(self._reading)
        self._writing, _ = await self._loop.connect_write_pipe(asyncio.BaseProtocol, self._process.writing)

    def write(self, lines: bytes) -> None:
        if self._writing is not None and not self._writing.is_closing():
            self._writing.write(lines)

    def worked(self) -> float:
        """For how many seconds the program has had a processor; once it has ended, for how many it was last said to."""
        try:
            self._worked = time.clock_gettime(self._clock_of_work)
        except (OSError, AttributeError):
            # it has ended, or this system doesn't tell: then no line is taken to be dear
            pass
        return self._worked

    def end(self) -> None:
        """Ends the program's input, so that it ends in order."""
        if self._writing is not None:
            self._writing.close()

    def kill(self) -> None:
        if not self.over.done():
            self._process.kill()

    @property
    def most_seconds_deaf(self) -> float:
        return MOST_SECONDS_TO_BEGIN if self.has_data and not self.has_answered else MOST_SECONDS_DEAF

    def data_received(self, data: bytes) -> None:
        self.has_answered = True
        try:
            self._desk.feed(data)
        except Exception as strange:
            tell("error", f"what the program writes can't be read, so it is killed: {strange!r}")
            self.kill()
            if self._reading is not None:
                self._reading.close()

    def connection_lost(self, fault: Optional[Exception]) -> None:
        self._desk.lose()
        self._loop.run_in_executor(None, self._process.finish, True).add_done_callback(self._finish)

    def _finish(self, ending: asyncio.Future[Tuple[int, str]]) -> None:
        self.end()
        fault = ending.exception()
        self.over.set_result((1, f"its end can't be waited for: {fault}") if fault is not None else ending.result())


class Keeper:
    """Keeps a program running until it is told to end."""

    def __init__(self, words: List[str], desk: Desk, on_begin: Callable[[], None]) -> None:
        self._words, self._desk, self._on_begin = words, desk, on_begin
        self._life: Optional[Life] = None
        self._is_ending = False
        self.starts = 0
        # the number of its process; none while it doesn't run
        self.number: Optional[int] = None

    async def run(self) -> int:
        """Gives the status of the last program. A first one that can't be started, or refuses its words or its log, is not started again."""
        pause = FIRST_PAUSE
        while True:
            begun = time.monotonic()
            status, told = await self._live()
            if self._is_ending:
                return status
            tell("error", f"the program has ended with status {status}: {' '.join(reason_of(status, told).split())}")
            if status in (REFUSES_WORDS, REFUSES_LOG) and self.starts <= 1:
                return status
            if time.monotonic() - begun >= SECONDS_OF_A_LIFE:
                pause = FIRST_PAUSE
            await asyncio.sleep(pause)
            pause = min(2 * pause, MOST_PAUSE)

    def end(self) -> None:
        """Has the program end in order, once nothing is under way."""
        self._is_ending = True
        if self._life is not None:
            self._life.end()

    def kill(self) -> None:
        if self._life is not None:
            self._life.kill()

    async def watch(self) -> None:
        """Kills a program that owes an answer for too long. Until it is cancelled."""
        while True:
            await asyncio.sleep(MOST_SECONDS_DEAF / 20)
            most = self._life.most_seconds_deaf if self._life is not None else MOST_SECONDS_DEAF
            if self._desk.is_waiting and time.monotonic() - self._desk.moved_at > most:
                tell("error", f"the program owes an answer for {most:g} s, so it is killed")
                self.kill()

    async def _live(self) -> Tuple[int, str]:
        try:
            life = Life(self._words, self._desk)
        except OSError as fault:
            return (REFUSES_WORDS if self.starts == 0 else 1), f"it can't be started: {fault}"
        self._life = life
        self.starts += 1
        await life.begin()
        self.number = life.number
        tell("info", f"the program runs: process {life.number}")
        self._desk.open(life.write, life.worked)
        self._on_begin()
        self._desk.fill()
        status = await life.over
        self.number = self._life = None
        return status
