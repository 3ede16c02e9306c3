"""A long journal in which nothing is wrong: tenants with many counters and sheets, one call after the other.

It is written as text, and not by a silo, so that one of some 100,000 lines takes a second.
"""

from __future__ import annotations

import places  # noqa: F401
from slow_silo.values import spelled, spelled_message

TENANTS = ["acme", "globex", "initech"]
GRAINS = 2_000
CLIENTS = 50
# of so many calls of a tenant one is a save, and behind so many calls of all stands a tick and a sweep
SAVES = 40
SWEEPS = 5_000
PROFILE = {"name": "profile", "value": {"city": "Berlin", "mail": "someone@example.org", "words": "likes long walks " * 8}}


class LongTenant:
    """A tenant, and what its grains came to."""

    def __init__(self, name: str, steps: list[str], replies: list[str]):
        self.name = name
        self.steps, self.replies = steps, replies
        self.requests = 0
        self.states: dict[str, object] = {}
        self.rows: dict[str, tuple[int, object]] = {}

    def call(self) -> None:
        """The next call, its turn, and its reply."""
        self.requests += 1
        number, place = self.requests, self.requests * 7919 % GRAINS
        kind = "counter" if place % 2 else "sheet"
        grain = f"{kind}/{self.name}:user{place:05}@example.org"
        is_save = number % SAVES == 0
        asked = ("save", None) if is_save else ("add", {"by": 3}) if kind == "counter" else ("put", PROFILE)
        asker = f"{self.name}/c{number % CLIENTS} {number}"
        self.steps.append(f"call {asker} {grain} {spelled_message(*asked).hex()}")
        if grain not in self.states:
            self.states[grain] = 0 if kind == "counter" else {}
            self.steps += [f"activate {grain}", f"load {grain} ok"]
        closed = f"store {grain} {number} ok" if is_save else f"end {grain} {number}"
        self.steps += [f"begin {grain}", closed]
        self.replies.append(f"reply {asker} ok {spelled(self.answer(grain, kind, is_save)).hex()}")

    def answer(self, grain: str, kind: str, is_save: bool) -> object:
        if is_save:
            version = self.rows.get(grain, (0, None))[0] + 1
            self.rows[grain] = version, self.states[grain]
            return str(version)
        if kind == "counter":
            self.states[grain] += 3
            return self.states[grain]
        self.states[grain] = {PROFILE["name"]: PROFILE["value"]}
        return None


def long_journal(lines: int) -> bytes:
    """The text of a journal of some so many lines."""
    steps: list[str] = []
    replies: list[str] = []
    tenants = [LongTenant(name, steps, replies) for name in TENANTS]
    calls = 0
    while len(steps) + len(replies) < lines:
        tenants[calls % len(tenants)].call()
        calls += 1
        if calls % SWEEPS == 0:
            steps += [f"tick {calls}", "sweep"]
    # a grain's row stands behind those of lesser kinds, tenants and names
    rows = sorted((grain, *row) for tenant in tenants for grain, row in tenant.rows.items())
    head = ["silo-journal 3", "kinds 2", "age 900000", *(f"tenant {name} 10000 100" for name in TENANTS)]
    text = [f"row {grain} {version} {spelled(content).hex()}" for grain, version, content in rows]
    return "\n".join([*head, *steps, *replies, *text, f"close {len(steps)}", ""]).encode()
