"""What lines of a connection ask, and what the program is given in their place."""

from __future__ import annotations

import json
import re
from typing import Any, Dict, List, NamedTuple, Sequence, Tuple

from silo.gateway.told import LONG, NOT_NOW, REFUSED, other_tenant
from silo.lines import FENCE, MOST_BYTES
from silo.names import WORD
from silo.strict import read_step

WORD_BYTES = WORD.encode()
# what stands between the caller and the number, and behind that, in a request as clients write it and in its reply
MIDST, END = b'","id":', b","
# what might say one of these once more: then the line is read as a whole, since the last counts
ONCE = (b'"from"', b'"id"', b'"op"')
BACKSLASH, ESCAPE = b"\\", b"\\u"
STEPS = ("tick", "sweep")


class Block(NamedTuple):
    """Lines as the program is given them: requests, each of which it answers by one reply with that request's key, and in their order.

    Any other line of a connection is a block by itself, without keys. The program is given one fence for it, and the answer is `instead`.
    """

    given: bytes
    # the caller and the number of each request, with what stands between them and behind
    keys: Sequence[bytes]
    instead: bytes = b""
    # a tick or a sweep, which may be answered by 'not now' before its fence is
    is_step: bool = False

    def parted(self, count: int) -> Tuple[Block, Block]:
        """The first so many of its requests, and the others."""
        rest = self.given.split(b"\n", count)[count]
        return Block(self.given[: len(self.given) - len(rest)], self.keys[:count]), Block(rest, self.keys[count:])


def request(head: bytes, caller: bytes, number: bytes, rest: bytes) -> Block:
    """One request; `head` is what stands before its caller, and `rest` what stands behind its number."""
    key = caller + MIDST + number
    return Block(b"%b%b%b\n" % (head, key, rest), (key + END,))


def asked_by(key: bytes) -> Tuple[bytes, bytes]:
    """The caller and the number of a key."""
    caller, _, number = key.partition(MIDST)
    return caller, number[: -len(END)]


def answered(instead: bytes) -> Block:
    """A line that the program doesn't see."""
    return Block(FENCE, (), instead)


def step(line: bytes) -> Block:
    return Block(line + FENCE, (), b"", True)


class Reader:
    """Reads what comes by a tenant's socket, or by the operator's, whose tenant is ''."""

    def __init__(self, tenant: str) -> None:
        self._tenant = tenant
        # a request as clients write it, with its caller and its number first; what is behind may be anything
        head = rb'^\{"op":"(?:call|poke|status)","from":"(%b/%b","id":(?:0|[1-9][0-9]{0,17}),).*\n'
        self._plain = re.compile(head % (tenant.encode() or WORD_BYTES, WORD_BYTES), re.MULTILINE)

    def keys_of(self, lines: bytes) -> Sequence[bytes]:
        """The keys of whole lines, if each is a request as clients write it; else none."""
        keys = self._plain.findall(lines)
        return keys if len(lines) <= MOST_BYTES and lines.count(b"\n") == len(keys) and is_said_once(lines, len(keys)) else ()

    def read_line(self, line: bytes) -> Block:
        """A line without its LF."""
        if len(line) > MOST_BYTES:
            return answered(LONG)
        given = line + b"\n"
        found = self._plain.match(given)
        return Block(given, (found[1],)) if found is not None and is_said_once(given, 1) else self._read_odd_line(line)

    def _read_odd_line(self, line: bytes) -> Block:
        """The same of a line in any other form. It is written anew, so that the program reads in it what was read here."""
        try:
            said = read_step(line)
            if said["op"] in STEPS:
                return answered(NOT_NOW) if self._tenant else step(json_of(said) + b"\n")
            head, caller, number, rest = written_anew(said)
        except (ValueError, RecursionError):
            return answered(REFUSED)
        if len(head) + len(caller) + len(MIDST) + len(number) + len(rest) > MOST_BYTES:
            return answered(LONG)
        if self._tenant and caller.partition(b"/")[0].decode() != self._tenant:
            return answered(other_tenant(caller, number, self._tenant))
        return request(head, caller, number, rest)


def is_said_once(given: bytes, count: int) -> bool:
    """Whether so many lines, each of which has these members in its head, have none of them once more."""
    # one byte is looked for more quickly than two
    return (BACKSLASH not in given or ESCAPE not in given) and all([given.count(word) == count for word in ONCE])


def written_anew(said: Dict[str, Any]) -> Tuple[bytes, bytes, bytes, bytes]:
    caller, number = said.pop("from").encode(), b"%d" % said.pop("id")
    head = b'{"op":"%b","from":"' % said.pop("op").encode()
    rest = json_of(said)
    return head, caller, number, b"," + rest[1:] if said else b"}"


def json_of(said: Dict[str, Any]) -> bytes:
    return json.dumps(said, ensure_ascii=False, separators=(",", ":")).encode()
