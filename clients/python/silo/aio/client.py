"""A silo as the tasks of an event loop use it."""

from __future__ import annotations

import asyncio
import functools
import math
from typing import Any, Awaitable, Callable, Generator, List, Mapping, Optional

from silo.again import REFUSED
from silo.aio.stream import Answer, Carried, Stream
from silo.client import DEFAULT_SECONDS
from silo.errors import SiloEnded
from silo.forks import LEFT
from silo.grain import Caller, Grain
from silo.lines import FENCE, SWEEP, call_members, members_of, poke_members, tick_line
from silo.process import Path, Process, answer_words
from silo.sockets import SocketEnd, connected
from silo.values import Value


async def started(words: List[str], is_wide: bool) -> Process:
    return Process(words, is_wide)


async def reached(address: str, tenant: Optional[str], token: Optional[str], seconds: Optional[float]) -> SocketEnd:
    """A gateway may be slow to let in, so a thread waits for it."""
    return SocketEnd(await asyncio.get_running_loop().run_in_executor(None, connected, address, tenant, token, seconds))


class Silo:
    """A silo that runs `silo answer` over these tenants; its words are those of `silo.Silo`.

    It begins with `async with`, or where it is awaited, and then belongs to that event loop: only its tasks may use it.
    `on_told` is called by the loop. A timeout comes up to a twentieth of a second late.
    """

    _again: Optional[List[str]]

    def __init__(
        self,
        *tenants: str,
        age: Optional[int] = None,
        ages: Optional[Mapping[str, int]] = None,
        sends: Optional[int] = None,
        journal: Optional[Path] = None,
        data: Optional[Path] = None,
        sync: bool = True,
        program: Path = "silo",
        on_told: Optional[Callable[[str, Any], object]] = None,
        timeout: Optional[float] = DEFAULT_SECONDS,
    ) -> None:
        words = answer_words(program, tenants, age, ages, sends, journal, data, sync)
        self._begin(functools.partial(started, words, data is not None), on_told, timeout)
        # the command line by which the silo goes on if its process ended
        self._again = None if data is None else words

    @classmethod
    def connect(
        cls,
        address: str,
        *,
        tenant: Optional[str] = None,
        token: Optional[str] = None,
        on_told: Optional[Callable[[str, Any], object]] = None,
        timeout: Optional[float] = DEFAULT_SECONDS,
    ) -> Silo:
        """A silo that runs behind a gateway, as `silo.Silo.connect` has it; it is connected to when it begins."""
        silo = cls.__new__(cls)
        silo._begin(functools.partial(reached, address, tenant, token, timeout), on_told, timeout)
        return silo

    def _begin(self, carry: Callable[[], Awaitable[Carried]], on_told: Optional[Callable[[str, Any], object]], timeout: Optional[float]) -> None:
        self._carry = carry
        self._on_told = on_told
        self._seconds = math.inf if timeout is None else timeout
        self._is_started = False
        self._stream: Optional[Stream] = None
        self._again = None
        # until what was started again is open
        self._opening: Optional[asyncio.Task[None]] = None

    async def start(self) -> Silo:
        """Starts the program, or connects to the gateway."""
        if self._is_started:
            raise RuntimeError("the silo was started before")
        self._is_started = True
        self._stream = Stream(await self._carry(), self._on_told)
        await self._stream.open()
        return self

    def __await__(self) -> Generator[Any, None, Silo]:
        return self.start().__await__()

    async def __aenter__(self) -> Silo:
        return await self.start()

    async def __aexit__(self, kind: Any, fault: Any, trace: Any) -> None:
        if await self.close() != 0 and kind is None:
            self._started.exchange.check()

    def ask(self, caller: str, op: str, *, timeout: Optional[float] = None, **members: Any) -> Answer:
        """Asks as `call`, `poke` and `status` do, and gives at once a future of asyncio. It never waits, however full the pipe is."""
        said = members_of(op, members)
        return self._live.ask(op, caller, said, self._time(timeout))

    async def call(self, caller: str, grain: str, method: str, args: Value = None, *, timeout: Optional[float] = None) -> Any:
        """Calls a method of a grain, and waits for its value."""
        return await self._answered("call", caller, call_members(grain, method, args), timeout)

    async def poke(self, caller: str, grain: str, state: Value, *, timeout: Optional[float] = None) -> Any:
        """Writes a grain's row past the grain; gives the row's version."""
        return await self._answered("poke", caller, poke_members(grain, state), timeout)

    async def status(self, caller: str, *, timeout: Optional[float] = None) -> Any:
        """What the caller's tenant has: its activations, waiting requests and so on."""
        return await self._answered("status", caller, "", timeout)

    async def tick(self, now: int, *, timeout: Optional[float] = None) -> bool:
        """Sets the clock, in milliseconds; false if it is later already."""
        step = tick_line(now) + FENCE
        return await self._live.ask_in_order(step, self._time(timeout)) is True

    async def sweep(self, *, timeout: Optional[float] = None) -> None:
        """Lets activations go that are idle for the age of their kind."""
        await self._live.ask_in_order(SWEEP + FENCE, self._time(timeout))

    def client(self, caller: str, *, timeout: Optional[float] = None) -> Client:
        """Who asks, such as `red/web`, and how many seconds its calls wait if that is another number than the silo's."""
        return Client(self, caller, timeout)

    async def close(self) -> int:
        """Ends the input, waits until all is answered and the journal is written, and gives the status of the process."""
        stream, self._again = self._started, None
        if self._opening is not None:
            await self._opening
        return await stream.close()

    @property
    def _live(self) -> Stream:
        """The stream to ask by: a new one if the process of a silo with data has ended and wasn't closed. It starts one program at most."""
        stream = self._started
        ended = stream.exchange.ended
        if self._again is None or ended is None or ended is LEFT or ended[0] in REFUSED:
            return stream
        try:
            self._stream = stream = Stream(Process(self._again, is_wide=True), self._on_told)
        except OSError as fault:
            raise SiloEnded(1, f"it can't be started again: {fault}") from fault
        self._opening = asyncio.ensure_future(stream.open())
        return stream

    @property
    def _started(self) -> Stream:
        if self._stream is None:
            raise RuntimeError("the silo isn't started: use `async with`, or `await silo.start()`")
        return self._stream

    async def _answered(self, op: str, caller: str, members: str, timeout: Optional[float]) -> Any:
        stream, seconds = self._live, self._time(timeout)
        if stream.is_full:
            await stream.room(seconds)
        return await stream.ask(op, caller, members, seconds)

    def _time(self, timeout: Optional[float]) -> float:
        return self._seconds if timeout is None else timeout


class Client(Caller):
    """A caller of a silo."""

    def __init__(self, silo: Silo, caller: str, timeout: Optional[float] = None) -> None:
        super().__init__(caller, timeout)
        self.silo = silo

    def grain(self, grain: str) -> Grain:
        """A grain, such as `counter/red:a`, whose methods give what is awaited for their values."""
        return Grain(self, grain)

    async def call(self, grain: str, method: str, args: Value = None, *, timeout: Optional[float] = None) -> Any:
        return await self.silo.call(self.caller, grain, method, args, timeout=self.seconds(timeout))

    async def poke(self, grain: str, state: Value, *, timeout: Optional[float] = None) -> Any:
        return await self.silo.poke(self.caller, grain, state, timeout=self.seconds(timeout))

    async def status(self, *, timeout: Optional[float] = None) -> Any:
        return await self.silo.status(self.caller, timeout=self.seconds(timeout))
