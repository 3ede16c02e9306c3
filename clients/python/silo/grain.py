"""Grains, for threads and for asyncio: what a method gives is what the client's `call` gives, a value or what is awaited for it."""

from __future__ import annotations

from typing import Any, Callable, ClassVar, Optional, Protocol

from silo.names import checked_caller, checked_grain
from silo.values import Value


class Calling(Protocol):
    """Who calls grains: a `Client`, or one of `silo.aio`."""

    @property
    def tenant(self) -> str: ...

    def call(self, grain: str, method: str, args: Value = None) -> Any: ...

    def poke(self, grain: str, state: Value) -> Any: ...


class BoundGrain:
    """A grain, as a caller calls it."""

    def __init__(self, client: Calling, grain: str) -> None:
        self._client = client
        self._grain = checked_grain(grain)

    def __repr__(self) -> str:
        return f"<{type(self).__name__} {self._grain}>"

    def poke(self, state: Value) -> Any:
        """Writes the grain's row past the grain; gives the row's version."""
        return self._client.poke(self._grain, state)

    def _call(self, method: str, args: Value = None) -> Any:
        return self._client.call(self._grain, method, args)


class Grain(BoundGrain):
    """A grain whose methods are called by their names: `grain.add(by=3)`. Without arguments the method is given null."""

    def __getattr__(self, method: str) -> Callable[..., Any]:
        if method.startswith("_"):
            raise AttributeError(method)

        def call(*unnamed: Value, **args: Value) -> Any:
            if unnamed:
                raise TypeError(f"{method} has arguments by name alone, such as add(by=3)")
            return self._call(method, args or None)

        return call


class KindGrain(BoundGrain):
    """A grain of one kind, of its caller's tenant, by its name: a class for each kind, and below it classes of one's own.

    `class Unread(Counter): prefix = "unread/"` has `Unread(client, "ann")`, which is `counter/red:unread/ann` for `red/web`.
    """

    kind: ClassVar[str]
    prefix: ClassVar[str] = ""

    def __init__(self, client: Calling, name: str) -> None:
        super().__init__(client, f"{self.kind}/{client.tenant}:{self.prefix}{name}")


class Caller:
    """Who calls, such as `red/web`, and for how many seconds it waits if not for as many as its silo says."""

    def __init__(self, caller: str, timeout: Optional[float]) -> None:
        self.caller = checked_caller(caller)
        self.timeout = timeout

    @property
    def tenant(self) -> str:
        return self.caller.partition("/")[0]

    def seconds(self, timeout: Optional[float]) -> Optional[float]:
        """How long a call waits that is told this timeout, or none."""
        return self.timeout if timeout is None else timeout
