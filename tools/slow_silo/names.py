"""Names: what a kind, a tenant, a client, a grain and a caller may be called."""

from __future__ import annotations

import re
from typing import NamedTuple, Optional

MAX_WORD = 32
MAX_NAME = 128
WORD = re.compile("[a-z][a-z0-9-]{0,%d}" % (MAX_WORD - 1))
# visible ASCII
NAME = re.compile("[!-~]{1,%d}" % MAX_NAME)


class Grain(NamedTuple):
    """A grain. Two grains are in the order of their kinds, then their tenants, then their names."""

    kind: str
    tenant: str
    name: str

    def text(self) -> str:
        return f"{self.kind}/{self.tenant}:{self.name}"


class Caller(NamedTuple):
    """A client of a tenant."""

    tenant: str
    client: str

    def text(self) -> str:
        return f"{self.tenant}/{self.client}"


def is_word(text: str) -> bool:
    """A kind, a tenant or a client."""
    return WORD.fullmatch(text) is not None


def is_name(text: str) -> bool:
    """The name of a grain within its kind and its tenant."""
    return NAME.fullmatch(text) is not None


def read_grain(text: str) -> Optional[Grain]:
    """The first `/` ends the kind, and the first `:` after it the tenant."""
    kind, slash, rest = text.partition("/")
    tenant, colon, name = rest.partition(":")
    fits = slash and colon and is_word(kind) and is_word(tenant) and is_name(name)
    return Grain(kind, tenant, name) if fits else None


def read_caller(text: str) -> Optional[Caller]:
    tenant, slash, client = text.partition("/")
    return Caller(tenant, client) if slash and is_word(tenant) and is_word(client) else None
