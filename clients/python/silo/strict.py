"""Whether a line says a step that a silo takes: JSON as the program reads it, which is stricter than Python does."""

from __future__ import annotations

import json
import math
import re
from typing import Any, Dict, Set

from silo.lines import MOST_BYTES
from silo.names import CALLER, checked_number
from silo.values import MOST_NUMBER

# nesting past which the program's reader gives up
MOST_NESTING = 127
# the members of each line that `silo serve` takes, beside `op`; those of a call also `args`
MEMBERS: Dict[str, Set[str]] = {
    "call": {"from", "id", "grain", "method"},
    "poke": {"from", "id", "grain", "state"},
    "status": {"from", "id"},
    "tick": {"now"},
    "sweep": set(),
}
TEXT_OR_BRACKET = re.compile(r'"(?:[^"\\]|\\.)*"|[\[\]{}]')


def read_float(text: str) -> float:
    number = float(text)
    if math.isinf(number):
        raise ValueError(f"the number {text[:40]} is out of range")
    return number


def read_int(text: str) -> Any:
    """A whole number, or a float where the program takes it for none: below 0, and past 64 bits."""
    return int(text) if len(text) < 20 and text != "-0" else read_float(text)


def read_constant(text: str) -> Any:
    raise ValueError(f"{text} is no number")


READER = json.JSONDecoder(parse_float=read_float, parse_int=read_int, parse_constant=read_constant)


def check_nesting(text: str) -> None:
    """A ValueError if more brackets of a text of JSON are open at once than the program reads."""
    if text.count("[") + text.count("{") <= MOST_NESTING:
        return
    depth = 0
    for found in TEXT_OR_BRACKET.finditer(text):
        if found[0] in ("[", "{"):
            depth += 1
            if depth > MOST_NESTING:
                raise ValueError(f"it is nested deeper than {MOST_NESTING}")
        elif found[0] in ("]", "}"):
            depth -= 1


def check_step(line: bytes) -> None:
    """Raises a ValueError that says why `silo serve` would answer a line by no client's number."""
    # a half of a pair of surrogates can't be written again
    json.dumps(read_step(line), ensure_ascii=False).encode()


def read_step(line: bytes) -> Dict[str, Any]:
    """What a line says; the same ValueError, but for a half of a pair of surrogates."""
    if len(line) > MOST_BYTES:
        raise ValueError(f"it has {len(line)} bytes, and may have {MOST_BYTES}")
    text = line.decode()
    check_nesting(text)
    said: Dict[str, Any] = READER.decode(text)
    wanted = MEMBERS.get(said["op"]) if isinstance(said, dict) and isinstance(said.get("op"), str) else None
    if wanted is None or set(said) - {"op"} - ({"args"} if said["op"] == "call" else set()) != wanted:
        raise ValueError("its members are those of no step")
    for name in wanted & {"id", "now"}:
        checked_number(name, said[name], 0, MOST_NUMBER)
    for name in wanted & {"from", "grain", "method"}:
        if not isinstance(said[name], str) or name == "from" and not CALLER.fullmatch(said[name]):
            raise ValueError(f"{name} is {said[name]!r}")
    return said
