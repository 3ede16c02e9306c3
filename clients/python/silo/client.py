"""A silo as threads use it: each call waits for its answer."""

from __future__ import annotations

import functools
import math
import queue
from typing import Any, Callable, Mapping, Optional

from silo.again import Again
from silo.answer import Answer
from silo.connection import Carrier, Connection
from silo.errors import SiloTimeout
from silo.grain import Caller, Grain
from silo.latch import bounded
from silo.lines import FENCE, SWEEP, call_members, members_of, poke_members, tick_line
from silo.process import Path, Process, answer_words
from silo.sockets import Socket, connected
from silo.values import Value

DEFAULT_SECONDS = 60.0


class Silo:
    """A silo that runs `silo answer` over these tenants, each as `TENANT:ACT:MAIL`; `Silo.connect` is one behind a gateway.

    `age` is in milliseconds, `ages` are those of kinds that have their own, such as `{"counter": 1000}`, `sends` how many
    deliveries follow a line at most; `journal` is where the journal goes. What the silo tells grains, which is that what they sent
    was refused, is handed to `on_told(grain, SiloError)`, in a thread of its own. `timeout` is how many seconds each call
    waits if it isn't told another number; None and `math.inf` are for ever. A word that the program would refuse is a ValueError.

    `data` is a folder in which all that was answered is kept: a silo of the same words goes on from it. If the process ends by
    itself, what is under way gets a SiloEnded, and the next request starts the process again, once. Without `sync` nothing is
    waited for on the disk: then a power cut may lose what was answered, and the end of the process loses nothing.
    """

    _again: Optional[Again]
    _only: Connection

    def __init__(
        self,
        *tenants: str,
        age: Optional[int] = None,
        ages: Optional[Mapping[str, int]] = None,
        sends: Optional[int] = None,
        journal: Optional[Path] = None,
        data: Optional[Path] = None,
        sync: bool = True,
        program: Path = "silo",
        on_told: Optional[Callable[[str, Any], None]] = None,
        timeout: Optional[float] = DEFAULT_SECONDS,
    ) -> None:
        words = answer_words(program, tenants, age, ages, sends, journal, data, sync)
        if data is None:
            self._begin(Process(words), on_told, timeout)
            return
        self._seconds = math.inf if timeout is None else timeout
        self._again = Again(lambda: Connection(Process(words, is_wide=True), on_told))

    @classmethod
    def connect(
        cls,
        address: str,
        *,
        tenant: Optional[str] = None,
        token: Optional[str] = None,
        on_told: Optional[Callable[[str, Any], None]] = None,
        timeout: Optional[float] = DEFAULT_SECONDS,
    ) -> Silo:
        """A silo that runs behind a gateway, in place of one of one's own: `unix:PATH`, or `tcp:HOST:PORT` with a tenant and its token.

        An OSError if nobody listens there, a SiloEnded if the token is refused.
        """
        silo = cls.__new__(cls)
        silo._begin(Socket(connected(address, tenant, token, timeout)), on_told, timeout)
        return silo

    def _begin(self, carrier: Carrier, on_told: Optional[Callable[[str, Any], None]], timeout: Optional[float]) -> None:
        self._seconds = math.inf if timeout is None else timeout
        self._again = None
        self._only = Connection(carrier, on_told)

    @property
    def _connection(self) -> Connection:
        return self._only if self._again is None else self._again.current

    @property
    def _live(self) -> Connection:
        """The connection to ask by."""
        return self._only if self._again is None else self._again.live()

    def __enter__(self) -> Silo:
        return self

    def __exit__(self, kind: Any, fault: Any, trace: Any) -> None:
        if self.close() != 0 and kind is None:
            self._connection.exchange.check()

    def ask(self, caller: str, op: str, **members: Any) -> Answer:
        """Asks as `call`, `poke` and `status` do, and gives at once what will have the value, a SiloError or a SiloEnded.

        It waits only while 10,000 lines are unwritten; a SiloTimeout if that takes longer than a call may.
        """
        said = members_of(op, members)
        connection = self._live
        answer = Answer(self._seconds, connection.later)
        connection.ask(op, caller, said, answer, self._seconds)
        return answer

    def call(self, caller: str, grain: str, method: str, args: Value = None, *, timeout: Optional[float] = None) -> Any:
        """Calls a method of a grain, and waits for its value."""
        return self._answered("call", caller, call_members(grain, method, args), timeout)

    def poke(self, caller: str, grain: str, state: Value, *, timeout: Optional[float] = None) -> Any:
        """Writes a grain's row past the grain; gives the row's version."""
        return self._answered("poke", caller, poke_members(grain, state), timeout)

    def status(self, caller: str, *, timeout: Optional[float] = None) -> Any:
        """What the caller's tenant has: its activations, waiting requests and so on."""
        return self._answered("status", caller, "", timeout)

    def tick(self, now: int, *, timeout: Optional[float] = None) -> bool:
        """Sets the clock, in milliseconds; false if it is later already."""
        return self._in_order(tick_line(now), timeout)

    def sweep(self, *, timeout: Optional[float] = None) -> None:
        """Lets activations go that are idle for the age of their kind."""
        self._in_order(SWEEP, timeout)

    def client(self, caller: str, *, timeout: Optional[float] = None) -> Client:
        """Who asks, such as `red/web`, and how many seconds its calls wait if that is another number than the silo's."""
        return Client(self, caller, timeout)

    def close(self) -> int:
        """Ends the input, waits until all is answered and the journal is written, and gives the status of the process.

        Behind a gateway the silo runs on, and the status is 0 if all was answered.
        """
        if self._again is not None:
            self._again.end()
        return self._connection.close()

    def _answered(self, op: str, caller: str, members: str, timeout: Optional[float]) -> Any:
        seconds = self._time(timeout)
        return self._come(functools.partial(self._live.ask, op, caller, members, seconds=seconds, at_once=True), seconds)

    def _in_order(self, step: bytes, timeout: Optional[float]) -> bool:
        return self._come(functools.partial(self._live.ask_in_order, step + FENCE), self._time(timeout)) is True

    def _time(self, timeout: Optional[float]) -> float:
        return self._seconds if timeout is None else timeout

    def _come(self, ask: Callable[[queue.SimpleQueue[Any]], None], seconds: float) -> Any:
        """Asks, and waits for what comes into the slot: by one call of C, which an interrupt can't tear."""
        slot: queue.SimpleQueue[Any] = queue.SimpleQueue()
        limit = bounded(seconds)
        ask(slot)
        try:
            outcome = slot.get(timeout=limit)
        except queue.Empty:
            raise SiloTimeout(seconds) from None
        if isinstance(outcome, Exception):
            raise outcome
        return outcome


class Client(Caller):
    """A caller of a silo."""

    def __init__(self, silo: Silo, caller: str, timeout: Optional[float] = None) -> None:
        super().__init__(caller, timeout)
        self.silo = silo

    def grain(self, grain: str) -> Grain:
        """A grain, such as `counter/red:a`, as this caller calls it."""
        return Grain(self, grain)

    def call(self, grain: str, method: str, args: Value = None, *, timeout: Optional[float] = None) -> Any:
        return self.silo.call(self.caller, grain, method, args, timeout=self.seconds(timeout))

    def poke(self, grain: str, state: Value, *, timeout: Optional[float] = None) -> Any:
        return self.silo.poke(self.caller, grain, state, timeout=self.seconds(timeout))

    def status(self, *, timeout: Optional[float] = None) -> Any:
        return self.silo.status(self.caller, timeout=self.seconds(timeout))
