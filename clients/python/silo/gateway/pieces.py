"""Bytes that come in pieces of any length, as lines."""

from __future__ import annotations

from silo.lines import MOST_BYTES


class Pieces:
    """Keeps what isn't a whole line yet. Of a line that is too long one byte more is kept than a line may have."""

    def __init__(self) -> None:
        self._torn = bytearray()

    def feed(self, data: bytes) -> bytes:
        """The lines that are whole now, each with its LF."""
        if not self._torn and data.endswith(b"\n"):
            return data
        first, end = data.find(b"\n"), data.rfind(b"\n") + 1
        if not end:
            self._keep(data)
            return b""
        self._keep(data[:first])
        whole = bytes(self._torn) + data[first:end]
        self._torn.clear()
        self._keep(data[end:])
        return whole

    def last(self) -> bytes:
        """The line that was begun, if it has bytes, as if it were whole."""
        torn = bytes(self._torn)
        self._torn.clear()
        return torn + b"\n" if torn else b""

    def _keep(self, data: bytes) -> None:
        self._torn += data[: MOST_BYTES + 1 - len(self._torn)]
