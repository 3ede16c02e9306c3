"""One tenant's part of a journal, as the lines of its text that stay."""

from __future__ import annotations

from itertools import compress
from typing import Iterator, Optional

from slow_silo.journal import Journal
from slow_silo.steps import owner


def owners(journal: Journal) -> Iterator[Optional[str]]:
    """Whose each line is, from the first tenant's to the last row's."""
    yield from (name for name, _limits in journal.tenants)
    yield from map(owner, journal.steps)
    yield from (reply.tenant() for reply in journal.replies)
    yield from (grain.tenant for grain, _row in journal.rows)


def struck(text: bytes, journal: Journal, tenant: str) -> bytes:
    """The text of the tenant's part: its limits, its steps and those of nobody, its replies and its rows."""
    *lines, _close, _end = text.split(b"\n")
    whose = list(owners(journal))
    head = len(lines) - len(whose)
    stays = [name is None or name == tenant for name in whose]
    kept = compress(lines[head:], stays)
    steps = sum(stays[len(journal.tenants) : len(journal.tenants) + len(journal.steps)])
    return b"\n".join([*lines[:head], *kept, f"close {steps}\n".encode()])
