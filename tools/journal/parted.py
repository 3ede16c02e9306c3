"""A journal parted by tenants, in one walk over it."""

from __future__ import annotations

from operator import itemgetter
from typing import Optional

from slow_silo.audit import Report, difference_of
from slow_silo.journal import Journal
from slow_silo.names import Grain
from slow_silo.steps import Reply, Step, owner
from slow_silo.storage import Row
from .redone import Redone


class Recorded:
    """What a journal has of each tenant: its replies and its rows."""

    def __init__(self, journal: Journal):
        self.replies: dict[str, list[Reply]] = {}
        self.rows: dict[str, dict[Grain, Row]] = {}
        for reply in journal.replies:
            self.replies.setdefault(reply.tenant(), []).append(reply)
        for grain, row in journal.rows:
            self.rows.setdefault(grain.tenant, {})[grain] = row

    def report(self, part: Redone) -> Report:
        """What an audit says of the tenant, of which all steps were taken."""
        tenant = part.machine.tenant
        replies, rows = self.replies.get(tenant, []), self.rows.get(tenant, {})
        difference = f"step {part.steps}" if part.stopped else \
            difference_of(replies, part.replies, rows, part.machine.storage.rows)
        return Report(tenant, part.steps, len(replies), len(rows), difference)


class Parted:
    """A journal with the steps of each tenant, and what it has of each."""

    def __init__(self, journal: Journal):
        self.journal = journal
        self.recorded = Recorded(journal)
        self.steps: dict[Optional[str], list[tuple[int, Step]]] = {}
        for number, step in enumerate(journal.steps, 1):
            self.steps.setdefault(owner(step), []).append((number, step))

    def steps_of(self, tenant: str) -> list[tuple[int, Step]]:
        """The tenant's steps and those of nobody, each with its place in the journal."""
        return sorted(self.steps.get(tenant, []) + self.steps.get(None, []), key=itemgetter(0))
