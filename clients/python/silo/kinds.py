"""The kinds of grain that the program has (docs/formats.md, 'Kinds of grain'), for threads."""

from __future__ import annotations

from typing import Any, List, Optional, cast

from silo.grain import KindGrain
from silo.values import Value


class StoredGrain(KindGrain):
    """The methods of every kind. What isn't saved goes with the grain's activation."""

    def save(self) -> Optional[str]:
        """Writes the state to the grain's row; gives the row's version."""
        return cast(Optional[str], self._call("save"))

    def reload(self) -> Optional[str]:
        """The state is the row's again."""
        return cast(Optional[str], self._call("reload"))

    def clear(self) -> Optional[str]:
        """Empties the state and the row."""
        return cast(Optional[str], self._call("clear"))

    def rest(self) -> None:
        """Lets the activation go as soon as it is idle."""
        self._call("rest")

    def stay(self, milliseconds: int) -> None:
        """Keeps the activation for so long, 1 to 86,400,000."""
        self._call("stay", {"for": milliseconds})


class Counter(StoredGrain):
    """A whole number, 0 at first."""

    kind = "counter"

    def add(self, by: int) -> int:
        """Gives the sum; a SiloError with 62 if it leaves 64 bits."""
        return cast(int, self._call("add", {"by": by}))

    def get(self) -> int:
        return cast(int, self._call("get"))


class Sheet(StoredGrain):
    """A map from names to values, empty at first."""

    kind = "sheet"

    def put(self, name: str, value: Value) -> None:
        """A SiloError with 63 if the state would be above 262,144 bytes."""
        self._call("put", {"name": name, "value": value})

    def get(self, name: str) -> Any:
        """The value, or None if there is none."""
        return self._call("get", {"name": name})

    def drop(self, name: str) -> bool:
        """Gives whether the name was there."""
        return cast(bool, self._call("drop", {"name": name}))

    def list(self) -> List[str]:
        """The names, ascending."""
        return cast("List[str]", self._call("list"))


class Relay(StoredGrain):
    """At most 4 grains, to which it sends."""

    kind = "relay"

    def join(self, grain: str) -> bool:
        """Adds a member, such as `counter/red:a`; false if it is one. A SiloError with 62 if 4 others are there."""
        return cast(bool, self._call("join", {"grain": grain}))

    def leave(self, grain: str) -> bool:
        """Gives whether it was a member."""
        return cast(bool, self._call("leave", {"grain": grain}))

    def send(self, method: str, args: Value = None) -> int:
        """Sends each member that method and those arguments, in order; gives how many members there are."""
        return cast(int, self._call("send", {"method": method, "args": args}))
