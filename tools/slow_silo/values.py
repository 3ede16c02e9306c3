"""Values, and the bytes that spell them.

A value is None, a bool, a whole number of 64 bits (int), a text (str), bytes, a list, or a map from text (dict).
"""

from __future__ import annotations

MAX_DEPTH = 32
MAX_MESSAGE = 65_536
MAX_STATE = 262_144

NULL, FALSE, TRUE, WHOLE, TEXT, LIST, MAP, BYTES = range(8)
# the first byte of a message; messages of the first form had another, and bytes stood in none of them
MESSAGE_FORM = b"\x02"
OLD_MESSAGE_FORM = b"\x01"


class NotSpelled(Exception):
    """Nothing spells these bytes."""


# ---- limits

def is_whole(value: object) -> bool:
    return type(value) is int and -(2**63) <= value < 2**63


def members(value: object) -> list:
    """The values that stand in a list or in a map."""
    if isinstance(value, dict):
        return list(value.values())
    return value if isinstance(value, list) else []


def leaves(value: object) -> list:
    """What stands in it and is neither a list nor a map."""
    if isinstance(value, (list, dict)):
        return [leaf for member in members(value) for leaf in leaves(member)]
    return [value]


def holds_bytes(value: object) -> bool:
    return any(isinstance(leaf, bytes) for leaf in leaves(value))


def depth(value: object) -> int:
    return 1 + max((depth(member) for member in members(value)), default=0)


def spelled_length(value: object) -> int:
    """How many bytes spell it."""
    if isinstance(value, str):
        return 5 + text_length(value)
    if isinstance(value, bytes):
        return 5 + len(value)
    if isinstance(value, list):
        return 5 + sum(map(spelled_length, value))
    if isinstance(value, dict):
        return 5 + 4 * len(value) + sum(map(text_length, value)) + sum(map(spelled_length, value.values()))
    return 9 if is_whole(value) else 1


def text_length(text: str) -> int:
    return len(text) if text.isascii() else len(text.encode())


def message_length(method: str, args: object) -> int:
    return len(MESSAGE_FORM) + 4 + len(method.encode()) + spelled_length(args)


# ---- from a value to its bytes

def spelled_number(number: int) -> bytes:
    return number.to_bytes(4, "big")


def spelled_text(text: str) -> bytes:
    return spelled_number(len(text.encode())) + text.encode()


def spelled(value: object) -> bytes:
    if value is None or isinstance(value, bool):
        return bytes([NULL if value is None else TRUE if value else FALSE])
    if isinstance(value, int):
        return bytes([WHOLE]) + value.to_bytes(8, "big", signed=True)
    if isinstance(value, str):
        return bytes([TEXT]) + spelled_text(value)
    if isinstance(value, bytes):
        return bytes([BYTES]) + spelled_number(len(value)) + value
    if isinstance(value, list):
        return bytes([LIST]) + spelled_number(len(value)) + b"".join(spelled(member) for member in value)
    pairs = (spelled_text(name) + spelled(value[name]) for name in sorted(value))
    return bytes([MAP]) + spelled_number(len(value)) + b"".join(pairs)


def spelled_message(method: str, args: object, form: bytes = MESSAGE_FORM) -> bytes:
    return form + spelled_text(method) + spelled(args)


# ---- from bytes to their value

def taken(data: bytes, place: int, length: int) -> tuple[bytes, int]:
    """So many bytes at the place, and the place behind them."""
    if place + length > len(data):
        raise NotSpelled
    return data[place : place + length], place + length


def number_at(data: bytes, place: int) -> tuple[int, int]:
    found, place = taken(data, place, 4)
    return int.from_bytes(found, "big"), place


def bytes_at(data: bytes, place: int) -> tuple[bytes, int]:
    length, place = number_at(data, place)
    return taken(data, place, length)


def text_at(data: bytes, place: int) -> tuple[str, int]:
    found, place = bytes_at(data, place)
    try:
        return found.decode("utf-8", "strict"), place
    except UnicodeDecodeError as error:
        raise NotSpelled from error


def list_at(data: bytes, place: int, levels: int) -> tuple[list, int]:
    count, place = number_at(data, place)
    found: list = []
    while len(found) < count:
        member, place = value_at(data, place, levels)
        found.append(member)
    return found, place


def map_at(data: bytes, place: int, levels: int) -> tuple[dict, int]:
    """The names of a map ascend strictly."""
    count, place = number_at(data, place)
    found: dict = {}
    for _ in range(count):
        name, place = text_at(data, place)
        if found and name <= next(reversed(found)):
            raise NotSpelled
        found[name], place = value_at(data, place, levels)
    return found, place


def value_at(data: bytes, place: int, levels: int) -> tuple[object, int]:
    """The value that begins at the place, where so many levels are left, and the place behind it."""
    if levels == 0:
        raise NotSpelled
    first, place = taken(data, place, 1)
    kind = first[0]
    if kind in (NULL, FALSE, TRUE):
        return (None if kind == NULL else kind == TRUE), place
    if kind == WHOLE:
        found, place = taken(data, place, 8)
        return int.from_bytes(found, "big", signed=True), place
    if kind == TEXT:
        return text_at(data, place)
    if kind == BYTES:
        return bytes_at(data, place)
    if kind == LIST:
        return list_at(data, place, levels - 1)
    if kind == MAP:
        return map_at(data, place, levels - 1)
    raise NotSpelled


def whole_value(data: bytes, place: int) -> object:
    """The one value from the place to the end."""
    value, end = value_at(data, place, MAX_DEPTH)
    if end != len(data):
        raise NotSpelled
    return value


def read_state(data: bytes) -> object:
    if len(data) > MAX_STATE:
        raise NotSpelled
    return whole_value(data, 0)


def read_message(data: bytes, form: bytes = MESSAGE_FORM) -> tuple[str, object]:
    """The method and its argument."""
    if len(data) > MAX_MESSAGE or data[:1] != form:
        raise NotSpelled
    method, place = text_at(data, 1)
    return method, whole_value(data, place)


# ---- the forms of before bytes were values

def without_bytes(value: object) -> object:
    if holds_bytes(value):
        raise NotSpelled
    return value


def read_old_state(data: bytes) -> object:
    return without_bytes(read_state(data))


def read_old_message(data: bytes) -> tuple[str, object]:
    """The method and the argument of a message of the first form."""
    method, args = read_message(data, OLD_MESSAGE_FORM)
    return method, without_bytes(args)


def migrate_message(data: bytes) -> bytes:
    """The message with the method and the argument of one of the first form."""
    return spelled_message(*read_old_message(data))


def same(one: object, other: object) -> bool:
    """The two are one value. (In Python True equals 1.)"""
    if type(one) is int and type(other) is int:
        return one == other
    return one is other or spelled(one) == spelled(other)
