"""Values: what may be asked with and answered, from Python to JSON and back.

A value is None, a bool, a whole number of 64 bits, a text, bytes, a list (or a tuple), or a dict whose keys are texts. Bytes
are `{"$hex":"00ff"}` in JSON. What the silo would refuse with 12, 13 or 14 is a ValueError before anything is written.
"""

from __future__ import annotations

import functools
import json
import re
from typing import Any, Callable, Dict, Mapping, Sequence, Tuple, Type, Union

# what may be handed in. What comes back is typed as Any, since only the grain knows what it answers.
Value = Union[None, bool, int, str, bytes, bytearray, Sequence["Value"], Mapping[str, "Value"]]

MOST_LEVELS = 32
LEAST_NUMBER, MOST_NUMBER = -(2**63), 2**63 - 1
# the only member of an object that is bytes
HEX = "$hex"
HEX_IN_JSON = b'"$hex"'
DIGITS = re.compile("(?:[0-9a-f]{2})*")
# as which of these a value of a type of one's own is written, such as an IntEnum or an OrderedDict
PLAIN_TYPES: Tuple[Type[Any], ...] = (int, str, bytes, bytearray, dict, list, tuple)

# a text as JSON; the names of members, which are few, are kept
quoted: Callable[[str], str] = json.JSONEncoder(ensure_ascii=False).encode
quoted_name = functools.lru_cache(maxsize=256)(quoted)


def json_of(value: Any, levels: int = MOST_LEVELS) -> str:
    """The JSON of a value that is at most so many levels deep; a ValueError if it can't be asked with, a TypeError if it is no value."""
    kind = type(value)
    if levels <= 0:
        raise ValueError(f"a value has more than {MOST_LEVELS} levels")
    if kind is int:
        return number_json(value)
    if kind is str:
        return quoted(value)
    if kind is dict:
        return map_json(value, levels - 1)
    if value is None:
        return "null"
    if kind is bool:
        return "true" if value else "false"
    if kind is list or kind is tuple:
        return f"[{','.join([json_of(inner, levels - 1) for inner in value])}]"
    if kind is bytes or kind is bytearray:
        return f'{{"{HEX}":"{value.hex()}"}}'
    return json_of(plain(value), levels)


def number_json(number: int) -> str:
    if LEAST_NUMBER <= number <= MOST_NUMBER:
        return str(number)
    raise ValueError(f"a number of {number.bit_length()} bits is not a whole number of 64 bits")


def map_json(members: Dict[Any, Any], levels: int) -> str:
    """The JSON of a dict whose members are at most so many levels deep, or of the bytes that it is."""
    if HEX in members and len(members) == 1:
        digits = members[HEX]
        if isinstance(digits, str) and DIGITS.fullmatch(digits):
            return f'{{"{HEX}":"{digits}"}}'
        raise ValueError(f"bytes are not well formed: {digits!r} is no text of two lower case digits for each")
    parts = []
    for name, inner in members.items():
        if not isinstance(name, str):
            raise TypeError(f"{name!r} is no name of a member: it has to be a text")
        # most are numbers, which need no call
        is_number = type(inner) is int and levels > 0 and LEAST_NUMBER <= inner <= MOST_NUMBER
        parts.append(f"{quoted_name(name)}:{inner if is_number else json_of(inner, levels)}")
    return f"{{{','.join(parts)}}}"


def plain(value: object) -> Any:
    """A value of a type that is derived from one of JSON's, as a value of that type."""
    if isinstance(value, float):
        raise ValueError(f"{value!r} is not a whole number of 64 bits")
    for kind in PLAIN_TYPES:
        if isinstance(value, kind):
            return kind(value)
    raise TypeError(f"{value!r} is no value")


def with_bytes(members: Dict[str, Any]) -> Any:
    """An object that was read, or the bytes that it is."""
    return bytes.fromhex(members[HEX]) if len(members) == 1 and HEX in members else members


# what reads a value at the begin of a text, and gives it with the place behind it; the first if no bytes are in the text
READ_PLAIN = json.JSONDecoder().raw_decode
READ_WITH_BYTES = json.JSONDecoder(object_hook=with_bytes).raw_decode


def object_of(value: object) -> Dict[str, str]:
    """The object that bytes are written as, for `json.dumps(.., default=object_of)`."""
    if isinstance(value, (bytes, bytearray)):
        return {HEX: value.hex()}
    raise TypeError(f"{value!r} is no value")
