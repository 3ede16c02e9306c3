"""The kinds of grain that the program has, for asyncio: as in `silo`, and each method is awaited."""

from __future__ import annotations

from typing import Any, List, Optional, cast

from silo.grain import KindGrain
from silo.values import Value


class StoredGrain(KindGrain):
    """The methods of every kind. What isn't saved goes with the grain's activation."""

    async def save(self) -> Optional[str]:
        return cast(Optional[str], await self._call("save"))

    async def reload(self) -> Optional[str]:
        return cast(Optional[str], await self._call("reload"))

    async def clear(self) -> Optional[str]:
        return cast(Optional[str], await self._call("clear"))

    async def rest(self) -> None:
        await self._call("rest")

    async def stay(self, milliseconds: int) -> None:
        await self._call("stay", {"for": milliseconds})


class Counter(StoredGrain):
    """A whole number, 0 at first."""

    kind = "counter"

    async def add(self, by: int) -> int:
        return cast(int, await self._call("add", {"by": by}))

    async def get(self) -> int:
        return cast(int, await self._call("get"))


class Sheet(StoredGrain):
    """A map from names to values, empty at first."""

    kind = "sheet"

    async def put(self, name: str, value: Value) -> None:
        await self._call("put", {"name": name, "value": value})

    async def get(self, name: str) -> Any:
        return await self._call("get", {"name": name})

    async def drop(self, name: str) -> bool:
        return cast(bool, await self._call("drop", {"name": name}))

    async def list(self) -> List[str]:
        return cast("List[str]", await self._call("list"))


class Relay(StoredGrain):
    """At most 4 grains, to which it sends."""

    kind = "relay"

    async def join(self, grain: str) -> bool:
        return cast(bool, await self._call("join", {"grain": grain}))

    async def leave(self, grain: str) -> bool:
        return cast(bool, await self._call("leave", {"grain": grain}))

    async def send(self, method: str, args: Value = None) -> int:
        return cast(int, await self._call("send", {"method": method, "args": args}))
