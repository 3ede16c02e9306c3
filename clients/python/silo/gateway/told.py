"""What the gateway tells by itself (docs/gateway.md, 'Codes'), in the forms of docs/formats.md, 'Replies'."""

from __future__ import annotations

import json
from typing import Any, Dict, Optional

NOT_A_REQUEST, TOO_LONG, OTHER_TENANT = 10, 11, 40
LOST, NO_TOKEN, NO_ROOM = 90, 91, 92

TEXTS = {
    NOT_A_REQUEST: "line is not a request",
    TOO_LONG: "line is too long",
    LOST: "program has ended, and whether this was done is not known",
    NO_TOKEN: "token is refused",
    NO_ROOM: "gateway has no free connection",
}


def written(members: Dict[str, Any]) -> bytes:
    return json.dumps(members, ensure_ascii=False, separators=(",", ":"), sort_keys=True).encode() + b"\n"


def fault(code: int) -> bytes:
    """To a line that says nothing that can be answered by its number."""
    return written({"error": code, "text": TEXTS[code]})


def fault_to(code: int, caller: bytes, number: bytes, text: Optional[str] = None) -> bytes:
    """To a caller, under the number that it gave."""
    return written({"error": code, "from": caller.decode(), "id": int(number), "text": TEXTS[code] if text is None else text})


def other_tenant(caller: bytes, number: bytes, own: str) -> bytes:
    """To a line whose caller is of another tenant than the socket by which it came."""
    named = caller.decode().partition("/")[0]
    return fault_to(OTHER_TENANT, caller, number, f"tenant {own} may not call a grain of tenant {named}")


REFUSED = fault(NOT_A_REQUEST)
LONG = fault(TOO_LONG)
NOT_NOW = written({"text": "not now"})
