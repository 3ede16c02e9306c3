"""Stored rows, each under a version, and storage calls that fail."""

from __future__ import annotations

from typing import Iterable, NamedTuple, Optional

from .names import Grain

LAST_VERSION = 2**64 - 1


class Cleared:
    """What a row holds that was cleared: no content. (None is a content: the value null.)"""

    def __repr__(self) -> str:
        return "CLEARED"


CLEARED = Cleared()


class Row(NamedTuple):
    version: int
    content: object


class Failed(Exception):
    """The storage failed in this call."""


class Stale(Exception):
    """The row hasn't the version that the call expected."""


class Spent(Exception):
    """The row has the last version that there is."""


class Fuse:
    """Which storage calls fail, by their numbers from 1: one count for all tenants. Each call that is made counts."""

    def __init__(self, failing: Iterable[int] = ()):
        self.failing = frozenset(failing)
        self.calls = 0
        self.failures = 0

    def call(self) -> None:
        self.calls += 1
        if self.calls in self.failing:
            self.failures += 1
            raise Failed


class Storage:
    """A map from grain to row."""

    def __init__(self, rows: Iterable[tuple[Grain, Row]], fuse: Fuse):
        self.rows = dict(rows)
        self.fuse = fuse

    def version(self, grain: Grain) -> Optional[int]:
        row = self.rows.get(grain)
        return None if row is None else row.version

    def next_version(self, grain: Grain, expected: Optional[int]) -> int:
        """The version that a change leaves, where the version that it expects is there."""
        found = self.version(grain)
        if expected != found:
            raise Stale
        if found == LAST_VERSION:
            raise Spent
        return 1 if found is None else found + 1

    def read(self, grain: Grain) -> Optional[Row]:
        self.fuse.call()
        return self.rows.get(grain)

    def write(self, grain: Grain, expected: Optional[int], content: object) -> int:
        """The row's new version."""
        self.fuse.call()
        version = self.next_version(grain, expected)
        self.rows[grain] = Row(version, content)
        return version

    def clear(self, grain: Grain, expected: Optional[int]) -> Optional[int]:
        """The row's new version: it stays, without content. If there is no row and none is expected, none is made."""
        self.fuse.call()
        version = self.next_version(grain, expected)
        if grain not in self.rows:
            return None
        self.rows[grain] = Row(version, CLEARED)
        return version

    def poke(self, grain: Grain, content: object) -> int:
        """A write that expects whatever is there."""
        self.fuse.call()
        version = self.next_version(grain, self.version(grain))
        self.rows[grain] = Row(version, content)
        return version
