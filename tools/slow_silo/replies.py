"""The line of a reply."""

from __future__ import annotations

import json

from .steps import Client, Reply

# the only member of an object that stands for bytes
HEX = "$hex"


def object_of(data: bytes) -> dict:
    """The object that stands for bytes."""
    return {HEX: data.hex()}


def compact(members: dict) -> str:
    return json.dumps(members, ensure_ascii=False, separators=(",", ":"), sort_keys=True, default=object_of)


def reply_text(reply: Reply) -> str:
    if isinstance(reply.to, Client):
        to = {"from": reply.to.caller.text(), "id": reply.to.id}
    else:
        to = {"from": reply.to.text()}
    if reply.code is None:
        return compact({**to, "ok": reply.value})
    return compact({**to, "error": reply.code, "text": reply.text})
