"""The lines of an input, and the lines that are written."""

from __future__ import annotations

import re
from typing import Callable, Iterable, Optional, Union

from . import codes, plain_json
from .names import read_caller, read_grain
from .replies import HEX, compact, reply_text
from .silo import NOT_NOW, Silo
from .steps import Abandon, Activate, Begin, Call, Deliver, End, Load, Poke, Refuse, Status, Step, Store, Sweep, Tick
from .values import (MAX_DEPTH, MAX_MESSAGE, MAX_STATE, depth, is_whole, leaves, message_length, spelled_length)

MAX_LINE = 65_536
MAX_LINES = 1_000_000


class NotARequest(Exception):
    """The line is refused with code 10."""


class NotBytes:
    """What an object that stands for bytes stands for if it has no digits of them."""


# ---- what a line says

# The members of each form beside `op`, and those that may be left out with what they then are.
FORMS = {
    "call": (["from", "id", "grain", "method"], {"args": None}),
    "poke": (["from", "id", "grain", "state"], {}),
    "status": (["from", "id"], {}),
    "deliver": (["grain"], {}),
    "activate": (["grain"], {}),
    "load": (["grain"], {"failed": False}),
    "begin": (["grain"], {}),
    "store": (["grain", "turn"], {"failed": False}),
    "end": (["grain", "turn"], {}),
    "abandon": (["grain", "turn"], {}),
    "tick": (["now"], {}),
    "sweep": ([], {}),
}
ON_A_GRAIN = {"deliver": Deliver, "activate": Activate, "begin": Begin}
ON_A_TURN = {"end": End, "abandon": Abandon}


def read_with(read: Callable, value: object) -> object:
    """What a text reads as."""
    found = read(value) if isinstance(value, str) else None
    if found is None:
        raise NotARequest
    return found


def natural(value: object) -> int:
    if not is_whole(value) or value < 0:
        raise NotARequest
    return value


def of_type(kind: type, value: object) -> object:
    if not isinstance(value, kind):
        raise NotARequest
    return value


def members_of(line: bytes, forms: dict) -> dict:
    """The members that the line's form has, which is one of these."""
    try:
        said = plain_json.read(line)
    except plain_json.NotJson as error:
        raise NotARequest from error
    if not isinstance(said, dict) or not isinstance(said.get("op"), str) or said["op"] not in forms:
        raise NotARequest
    needed, left_out = forms[said["op"]]
    names = set(said) - {"op"}
    if not set(needed) <= names <= set(needed) | set(left_out):
        raise NotARequest
    return {**left_out, **said}


def step_said(said: dict) -> Step:
    op = said["op"]
    if op in ("call", "poke"):
        return asked_step(said)
    if op == "status":
        return Status(read_with(read_caller, said["from"]), natural(said["id"]))
    if op == "tick":
        return Tick(natural(said["now"]))
    if op == "sweep":
        return Sweep()
    grain = read_with(read_grain, said["grain"])
    if op in ON_A_GRAIN:
        return ON_A_GRAIN[op](grain)
    if op == "load":
        return Load(grain, of_type(bool, said["failed"]))
    turn = natural(said["turn"])
    if op in ON_A_TURN:
        return ON_A_TURN[op](grain, turn)
    return Store(grain, turn, of_type(bool, said["failed"]))


def asked_step(said: dict) -> Step:
    """A call or a poke; one whose value or grain is refused is the step that says so."""
    caller, number = read_with(read_caller, said["from"]), natural(said["id"])
    text = of_type(str, said["grain"])
    if said["op"] == "call":
        of_type(str, said["method"])
    value = with_bytes(said["args"] if said["op"] == "call" else said["state"])
    code = refusal(said, value)
    if code is not None:
        return Refuse(caller, number, code)
    grain = read_grain(text)
    if said["op"] == "call":
        return Call(caller, number, grain, said["method"], value)
    return Poke(caller, number, grain, value)


def with_bytes(value: object) -> object:
    """The value, with bytes where an object stands for them; nothing in such an object is looked at but its digits."""
    if isinstance(value, list):
        return [with_bytes(member) for member in value]
    if not isinstance(value, dict):
        return value
    if set(value) == {HEX}:
        return bytes_of(value[HEX])
    return {name: with_bytes(member) for name, member in value.items()}


def bytes_of(digits: object) -> Union[bytes, NotBytes]:
    """Bytes, of two lower case digits each."""
    if not isinstance(digits, str) or not re.fullmatch("([0-9a-f]{2})*", digits, re.ASCII):
        return NotBytes()
    return bytes.fromhex(digits)


def is_number_not_whole(leaf: object) -> bool:
    """The leaf is a Float, or a number that doesn't fit."""
    return isinstance(leaf, plain_json.Float) or type(leaf) is int and not is_whole(leaf)


def refusal(said: dict, value: object) -> Optional[int]:
    """The first of these that fits."""
    if depth(value) > MAX_DEPTH:
        return codes.TOO_DEEP
    if any(is_number_not_whole(leaf) for leaf in leaves(value)):
        return codes.NOT_WHOLE
    if any(isinstance(leaf, NotBytes) for leaf in leaves(value)):
        return codes.NOT_BYTES
    if said["op"] == "call" and message_length(said["method"], value) > MAX_MESSAGE:
        return codes.TOO_LONG
    if said["op"] == "poke" and spelled_length(value) > MAX_STATE:
        return codes.STATE_TOO_LARGE
    return codes.BAD_GRAIN if read_grain(said["grain"]) is None else None


def read_line(line: bytes, forms: dict = FORMS, meaning: Callable = step_said) -> Union[Step, int, None]:
    """A step, the code of a refusal that is no step, or nothing. With other forms, what their members mean is in the place of a step."""
    if line == b"":
        return None
    if len(line) > MAX_LINE:
        return codes.TOO_LONG
    try:
        return meaning(members_of(line, forms))
    except NotARequest:
        return codes.NOT_A_REQUEST


# ---- what is written

def refusal_text(code: int) -> str:
    """What is written for a line that is no step."""
    return compact({"error": code, "text": codes.text_of(code)})


NOT_NOW_TEXT = compact({"text": NOT_NOW})


# ---- the lines of an input, one after the other

class TooMuchInput(Exception):
    """The input has more lines than there may be."""


class ReaderFailed(Exception):
    """The reader failed."""


class WriterFailed(Exception):
    """The writer failed."""


def lines_of(pieces: Iterable[bytes], most: int = MAX_LINES) -> Iterable[bytes]:
    """The lines of an input that comes in pieces, of which there may be so many. A last one without LF is a line if it has bytes."""
    count, rest = 0, b""
    for piece in pieces:
        *whole, rest = (rest + piece).split(b"\n")
        for line in whole:
            count += 1
            if count > most:
                raise TooMuchInput
            yield line
    if rest:
        if count == most:
            raise TooMuchInput
        yield rest


def answer(silo: Silo, line: bytes) -> list[str]:
    """The lines that are written for a line."""
    said = read_line(line)
    if said is None:
        return []
    if isinstance(said, int):
        return [refusal_text(said)]
    before = len(silo.replies)
    if silo.apply(said) == NOT_NOW:
        return [NOT_NOW_TEXT]
    return [reply_text(reply) for reply in silo.replies[before:]]


def run_lines(silo: Silo, pieces: Iterable[bytes], write: Callable[[bytes], None]) -> int:
    """Answers each line as it comes. Gives the number of lines."""
    count = 0
    for line in lines_of(pieces):
        for text in answer(silo, line):
            write(text.encode() + b"\n")
        count += 1
    return count
