"""Tenants that come and go while a silo runs, by lines of its operator.

    {"op":"tenant","tenant":T,"activations":A,"mailbox":M}      adds T behind the others, or gives it these limits in its place
    {"op":"drop","tenant":T}                                    closes T

Each is one line with one answer, which has no `from`: the limits that T had before, null if T wasn't known, or why nothing is done.

    {"ok":{"activations":A,"mailbox":M},"tenant":T}             {"ok":null,"tenant":T}
    {"error":C,"tenant":T,"text":TEXT}

Of a tenant that is closed nothing may be kept, be it only that a request was counted: else 47 says how much is. So a tenant that comes
again is as one that never was, and no number acts twice. A table that would have no tenant, or more than 1,000, is 46; closing a tenant
that isn't known is 21. A tenant that has more than its new limits allow keeps it; what comes then is refused as ever.

The silo is reopened under the other table, as at a start under other words: what is kept of it stays, and nothing else changes. Who may
write such lines is for what stands in front of the silo to decide.
"""

from __future__ import annotations

from typing import NamedTuple, Optional

from . import codes
from .checkpoint import checkpoint_of, reopened
from .journal import MAX_TENANTS
from .machine import Limits
from .replies import compact
from .silo import Silo


class SetTenant(NamedTuple):
    tenant: str
    limits: Limits


class DropTenant(NamedTuple):
    tenant: str


def done(tenant: str, before: Optional[Limits]) -> str:
    return compact({"tenant": tenant, "ok": None if before is None else before._asdict()})


def refused(tenant: str, code: int, *names: object) -> str:
    return compact({"tenant": tenant, "error": code, "text": codes.text_of(code, *names)})


def put_under(silo: Silo, table: dict[str, Limits]) -> None:
    """The silo is from now on what it is reopened as under this table."""
    setup = silo.setup._replace(tenants=tuple(table.items()))
    silo.__dict__ = reopened(checkpoint_of(silo, "", 0), setup).__dict__


def set_tenant(silo: Silo, said: SetTenant) -> str:
    before = silo.limits.get(said.tenant)
    if before is None and len(silo.limits) == MAX_TENANTS:
        return refused(said.tenant, codes.TABLE_SIZE)
    put_under(silo, {**silo.limits, said.tenant: said.limits})
    return done(said.tenant, before)


def drop_tenant(silo: Silo, said: DropTenant) -> str:
    before = silo.limits.get(said.tenant)
    if before is None:
        return refused(said.tenant, codes.UNKNOWN_TENANT, said.tenant)
    if any(silo.has(said.tenant)):
        return refused(said.tenant, codes.HAS_SOMETHING, said.tenant, *silo.has(said.tenant))
    if len(silo.limits) == 1:
        return refused(said.tenant, codes.TABLE_SIZE)
    put_under(silo, {tenant: limits for tenant, limits in silo.limits.items() if tenant != said.tenant})
    return done(said.tenant, before)
