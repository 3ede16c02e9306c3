"""The rows and the active grains of a checkpoint, each as a line of JSON.

    {"row":GRAIN,"version":N,"state":V}
    {"active":GRAIN,"version":N,"last":MOMENT,"until":MOMENT,"state":V}

Rows come first, then active grains, each ascending by grain. A row that was cleared has no `state`. The version of an activation whose
grain has no row is null. States are written as replies have values.
"""

from __future__ import annotations

from typing import Optional

from .checkpoint import Checkpoint, KeptGrain, own_setup
from .names import Grain
from .replies import compact
from .storage import CLEARED, Row


def in_order(**members: object) -> str:
    """An object with these members, in this order."""
    return "{" + ",".join(f"{compact(name)}:{compact(value)}" for name, value in members.items()) + "}"


def row_line(at: Grain, row: Row) -> str:
    held = {} if row.content is CLEARED else {"state": row.content}
    return in_order(row=at.text(), version=row.version, **held)


def active_line(it: KeptGrain) -> str:
    return in_order(active=it.grain.text(), version=it.version, last=it.last, until=it.until, state=it.state)


def listed_rows(checkpoint: Checkpoint, tenant: Optional[str] = None) -> bytes:
    """The lines of all tenants, or of one."""
    found = [(at, row_line(at, row)) for at, row in own_setup(checkpoint).rows]
    found += [(it.grain, active_line(it)) for it in checkpoint.grains]
    return "".join(line + "\n" for at, line in found if tenant in (None, at.tenant)).encode()
