"""Compares a journal with the one-tenant machine of each tenant."""

from __future__ import annotations

from itertools import zip_longest
from typing import NamedTuple, Optional

from .journal import Journal
from .kinds import Logic
from .machine import Machine
from .names import Grain
from .steps import Reply, concerns, owner
from .storage import CLEARED, Fuse, Row, Storage
from .values import same


class Report(NamedTuple):
    """How much of a journal is a tenant's, and the first difference."""

    tenant: str
    steps: int
    replies: int
    rows: int
    difference: Optional[str]

    def text(self) -> str:
        if self.difference is not None:
            return f"tenant {self.tenant}: {self.difference} differs"
        return f"tenant {self.tenant}: {self.steps} steps, {self.replies} replies, {self.rows} rows"


def same_reply(one: Optional[Reply], other: Optional[Reply]) -> bool:
    if one is None or other is None:
        return False
    if (one.to, one.code, one.text) != (other.to, other.code, other.text):
        return False
    return one.code is not None or same(one.value, other.value)


def same_row(one: Optional[Row], other: Optional[Row]) -> bool:
    if one is None or other is None or one.version != other.version:
        return False
    if one.content is CLEARED or other.content is CLEARED:
        return one.content is other.content
    return same(one.content, other.content)


def tenants_of(journal: Journal) -> list[str]:
    """Those of the table in its order, then the others that own a step, a reply or a row."""
    listed = [tenant for tenant, _limits in journal.tenants]
    owners = set(map(owner, journal.steps)) - {None}
    others = owners | {reply.tenant() for reply in journal.replies} | {grain.tenant for grain, _row in journal.rows}
    return listed + sorted(others - set(listed))


def machine_of(journal: Journal, tenant: str) -> Machine:
    """The tenant's machine at the start, under the logic that the journal names."""
    limits, logic = dict(journal.tenants).get(tenant), Logic(journal.kinds)
    return Machine(tenant, limits, journal.age, dict(journal.ages), logic, Storage([], Fuse()))


def report(journal: Journal, tenant: str) -> Report:
    steps = [step for step in journal.steps if concerns(step, tenant)]
    replies = [reply for reply in journal.replies if reply.tenant() == tenant]
    rows = {grain: row for grain, row in journal.rows if grain.tenant == tenant}
    difference = first_difference(machine_of(journal, tenant), steps, replies, rows)
    return Report(tenant, len(steps), len(replies), len(rows), difference)


def first_difference(machine: Machine, steps: list, replies: list[Reply], rows: dict[Grain, Row]) -> Optional[str]:
    made: list[Reply] = []
    for place, step in enumerate(steps, 1):
        added = machine.step(step)
        if added is None:
            return f"step {place}"
        made += added
    return difference_of(replies, made, rows, machine.storage.rows)


def difference_of(replies: list[Reply], made: list[Reply], rows: dict[Grain, Row], own_rows: dict[Grain, Row]) -> Optional[str]:
    """The first reply that was recorded otherwise than it was made, or else the first such row."""
    for place, (recorded, own) in enumerate(zip_longest(replies, made), 1):
        if not same_reply(recorded, own):
            return f"reply {place}"
    for grain in sorted(set(rows) | set(own_rows)):
        if not same_row(rows.get(grain), own_rows.get(grain)):
            return f"row {grain.text()}"
    return None


def audit(journal: Journal) -> list[Report]:
    return [report(journal, tenant) for tenant in tenants_of(journal)]
