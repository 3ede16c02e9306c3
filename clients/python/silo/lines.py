"""The lines of a silo: what is asked, and what is replied (docs/formats.md, 'Lines', 'Replies')."""

from __future__ import annotations

import functools
from typing import Any, Callable, Dict, Iterable, Iterator, List, Tuple, cast

from silo.errors import SiloError
from silo.names import checked_grain, checked_number
from silo.values import HEX_IN_JSON, MOST_NUMBER, READ_PLAIN, READ_WITH_BYTES, Value, json_of, quoted

# a line's bytes without its LF
MOST_BYTES = 65_536
SWEEP = b'{"op":"sweep"}\n'
# a line that says no step: it is answered with 10 once all before it is answered, and leaves nothing
FENCE = b"fence\n"
NOT_A_REQUEST = 10
# codes from this one on are a gateway's (docs/gateway.md, 'Codes')
FIRST_OF_GATEWAY = 90
# the members beside `op`, `from` and `id` that other requests than calls have
NEEDED = {"poke": frozenset(("grain", "state")), "status": frozenset()}


class StrangeReply(Exception):
    """The silo told what no silo tells."""


@functools.lru_cache(maxsize=4_096)
def grain_json(grain: str) -> str:
    return quoted(checked_grain(grain))


@functools.lru_cache(maxsize=256)
def method_json(method: str) -> str:
    if not isinstance(method, str):
        raise ValueError(f"{method!r} is no method: it has to be a text")
    return quoted(method)


def bytes_of(line: str) -> bytes:
    """A line with its LF; a ValueError if it is too long, or no UTF-8 spells it."""
    told = line.encode()
    if len(told) > MOST_BYTES:
        raise ValueError(f"the line has {len(told)} bytes, and may have {MOST_BYTES}")
    return told + b"\n"


def call_members(grain: str, method: str, args: Value) -> str:
    said = "" if args is None else f',"args":{json_of(args)}'
    return f',"grain":{grain_json(grain)},"method":{method_json(method)}{said}'


def poke_members(grain: str, state: Value) -> str:
    return f',"grain":{grain_json(grain)},"state":{json_of(state)}'


def members_of(op: str, members: Dict[str, Any]) -> str:
    """The members of a call, a poke or a status by their names; a ValueError if they aren't those that it has."""
    if op == "call" and "grain" in members and "method" in members and len(members) == 2 + ("args" in members):
        return call_members(members["grain"], members["method"], members.get("args"))
    if op not in NEEDED or NEEDED[op] != members.keys():
        raise ValueError(f"{op!r} with {sorted(members)} is no request")
    return poke_members(**members) if op == "poke" else ""


def request_line(op: str, caller: str, number: int, members: str) -> bytes:
    """A line that is answered under the caller's number."""
    line = f'{{"op":"{op}","from":"{caller}","id":{number}{members}}}\n'.encode()
    return line if len(line) <= MOST_BYTES + 1 else bytes_of(line[:-1].decode())


def tick_line(now: int) -> bytes:
    return bytes_of(f'{{"op":"tick","now":{checked_number("now", now, 0, MOST_NUMBER)}}}')


def read_replies(lines: bytes) -> Iterable[Dict[str, Any]]:
    """What the silo told by these lines, of which the last has no LF; StrangeReply where no silo tells that."""
    read = READ_WITH_BYTES if HEX_IN_JSON in lines else READ_PLAIN
    try:
        # read as one list, which is quicker than one by one
        replies, _ = read(f"[{lines.decode()}]".replace("\n", ","))
        if len(replies) == lines.count(b"\n") + 1 and set(map(type, replies)) == {dict}:
            return cast(List[Dict[str, Any]], replies)
    except (ValueError, RecursionError):
        pass
    return read_one_by_one(lines, read)


def read_one_by_one(lines: bytes, read: Callable[[str], Tuple[Any, int]]) -> Iterator[Dict[str, Any]]:
    """The same, up to the first line that is strange."""
    for line in lines.split(b"\n"):
        try:
            text = line.decode()
            reply, end = read(text)
        except (ValueError, RecursionError) as fault:
            raise StrangeReply(f"{line[:80]!r}: {fault}") from None
        if end != len(text) or type(reply) is not dict:
            raise StrangeReply(f"{line[:80]!r} is no reply")
        yield reply


def outcome_of(reply: Dict[str, Any]) -> Any:
    """What a reply says: a value, or a SiloError; StrangeReply if it says neither."""
    if "ok" in reply:
        return reply["ok"]
    code, text = reply.get("error"), reply.get("text")
    if type(code) is not int or not isinstance(text, str):
        raise StrangeReply(f"{reply!r} has neither a value nor a fault")
    return SiloError(code, text)
