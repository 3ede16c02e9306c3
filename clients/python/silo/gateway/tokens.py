"""Tokens of tenants: who comes by TCP says one before anything else."""

from __future__ import annotations

import hashlib
import hmac
import json
import pathlib
import secrets
from typing import Optional

# a token's bytes; a shorter one could be guessed
LEAST_BYTES, MOST_BYTES = 16, 4_096


class Tokens:
    """The tokens in the files `TENANT.token` of a folder. A file is read for each connection, so a token that was changed counts at once."""

    def __init__(self, folder: pathlib.Path) -> None:
        self._folder = folder
        # what is compared with where there is no file, so that this takes as long
        self._nobodys = secrets.token_bytes(32)

    def allows(self, tenant: str, token: str) -> bool:
        """Whether it is the tenant's. How long that takes doesn't tell how much of it is right."""
        kept = self._read(tenant)
        wanted = hashlib.sha256(self._nobodys if kept is None else kept).digest()
        given = hashlib.sha256(token.encode(errors="replace")).digest()
        return hmac.compare_digest(wanted, given) and kept is not None

    def _read(self, tenant: str) -> Optional[bytes]:
        """What the tenant's file holds, without spaces and line ends around it; none if it is no token."""
        try:
            with open(self._folder / f"{tenant}.token", "rb") as file:
                token = file.read(MOST_BYTES + 1).strip()
        except OSError:
            return None
        return token if LEAST_BYTES <= len(token) <= MOST_BYTES else None


def read_entry(line: Optional[bytes]) -> Optional[tuple[str, str]]:
    """The tenant and the token of a line `{"op":"enter","tenant":T,"token":S}`; none if it isn't one."""
    try:
        said = json.loads(line or b"")
    except (ValueError, RecursionError):
        return None
    if not isinstance(said, dict) or said.keys() != {"op", "tenant", "token"} or said["op"] != "enter":
        return None
    tenant, token = said["tenant"], said["token"]
    return (tenant, token) if isinstance(tenant, str) and isinstance(token, str) else None
