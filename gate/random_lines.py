"""Parts of lines, made at random: values, arguments that fit no method, members in any order, and broken lines."""

from __future__ import annotations

import json
from random import Random
from typing import Iterable, Optional

import places  # noqa: F401
from slow_silo.lines import MAX_LINE
from slow_silo.replies import object_of
from slow_silo.values import MAX_MESSAGE, message_length

BAD_GRAINS = [
    "", "counter", "counter/red", "counter:red/a", "/red:a", "counter/:a", "counter/red:", "Counter/red:a",
    "counter/red:a b", "counter/red:é", "counter/red:" + "n" * 129, "c" * 33 + "/red:a", "9c/red:a", "-/red:a",
]
OTHER_CALLERS = ["blue/c1", "reddish/c1", "r/c", "r" * 32 + "/" + "c" * 32]
BAD_CALLERS = ["", "red", "red/", "/c1", "red/C1", "red/c1/", "red /c1", "red/" + "c" * 33, "rot/ç"]
NUMBERS = [
    "0", "1", "-1", "3", "-7", "9223372036854775807", "-9223372036854775808", "9223372036854775806",
    "-0", "1.0", "1e2", "-1.5E-3", "9223372036854775808", "-9223372036854775809", "18446744073709551615",
    "18446744073709551616", "1e308", "1e999", "-1e400", "0e999", "1e-999", "1.7976931348623158e308",
    "1.7976931348623159e308", "9" * 400, "0." + "0" * 400 + "1", "01", "-01", "+1", ".5", "1.", "1e", "1e+",
    "-", "--1", "0x10", "NaN", "Infinity", "-Infinity", "1_000",
]
TEXTS = [
    '""', '"x"', '"\\u0000"', '"\\ud83d\\ude00"', '"\\ud83d"', '"\\ude00"', '"\\ud83dx"', '"\\ud83d\\ud83d"',
    '"\\u00E9é😀"', '"\\/\\b\\f\\n\\r\\t\\"\\\\"', '"\\x41"', '"\\u12"', '"a\tb"', '"\x7f"', '"open', "'x'",
]
SPACES = ["", "", " ", "\t", "\r", " \r\t ", "\v", "\f", "\u00a0", "\ufeff"]
VALUES = [
    "null", "true", "false", "nul", "True", "nulll", "[]", "{}", "[1,]", "[,1]", "[1 2]", '{"a":1,}', '{"a"}',
    "{1:2}", '{"a":1,"a":2}',
]
ODD_ARGUMENTS = [
    '{"by":1,"by":2}', '{"by":1.5,"by":2}', '{"by":2,"by":1.5}', '{"by":3,"to":4}', '{"By":3}', '{"":3}',
    '{"b\\u0079":3}', '{"by":[3]}', '{"by":{}}', '{"by":"3"}', '{"by":null}', '{"by":true}', "{}", "3", "[3]",
    '{"name":1}', '{"name":"k","value":1,"more":2}', '{"value":1}', '{"grain":1}', '{"grain":"x"}', '{"method":"get"}',
    '{"args":null,"method":1}', '{"name":""}',
]
# objects that stand for bytes, or are near to it
HEXED = [
    '{"$hex":""}', '{"$hex":"00ff"}', '{"$hex":"6b"}', '{"$hex":"0F"}', '{"$hex":"0"}', '{"$hex":"000"}', '{"$hex":"0g"}',
    '{"$hex":"00 "}', '{"$hex":"\\n00"}', '{"$hex":"é"}', '{"$hex":1.5}', '{"$hex":10}', '{"$hex":null}', '{"$hex":[]}',
    '{"$hex":[1.5]}', '{"$hex":{}}', '{"$hex":{"$hex":"00"}}', '{"\\u0024hex":"\\u0030f"}', '{"$he\\u0078":"0"}',
    '{"$hex":"00","$hex":"01"}', '{"$hex":"00","$hex":"0"}', '{"$hex":1.5,"$hex":"01"}', '{"$hex":"","x":1}',
    '{"x":1.5,"$hex":"0"}', '{"a":{"$hex":"0"},"$hex":"00"}', '{"$HEX":"00"}', '{"$hex ":"00"}', '{"$he":"00"}', '{"hex":"00"}',
    '{"$hex":1e999}', '{"$hex":"\\ud800"}', '{"$hex":"00"', '{"$hex"}', '[{"$hex":"0"},1.5]', '[1.5,{"$hex":"0"}]',
    '[{"$hex":"00"},{"$hex":"0"}]', '{"name":{"$hex":"6b"}}', '{"name":"k","value":{"$hex":"00FF"}}', '{"by":{"$hex":"00"}}',
    '{"name":"$hex","value":{"$hex":"00ff"}}', '{"args":{"$hex":"0"},"method":"get"}', '{"grain":{"$hex":"00"}}',
]
EXTRA_MEMBERS = [
    '"failed":true', '"failed":false', '"failed":null', '"failed":0', '"from":"red/c1"', '"id":1', '"turn":1', '"x":[]',
    '"op":"begin"', '"grain":"counter/red:b"', '"method":"get"', '"args":null', '"state":1', '"now":1', '"$hex":"00"',
]
LETTERS = b'{}[]":,0123456789eE+-.\\utrfalsn \t\r\x00\x7f\x80\xc3\xa9\xed\xa0\x80\xf0\xff'
RAW_LINES = [
    b"hello", b"\r", b" ", b"\xef\xbb\xbf{}", b"{", b'"', b"\xff\xfe", b"null", b"[]", b"0", b'"op"', b"{}",
]


def dumped(value: object) -> str:
    return json.dumps(value, separators=(",", ":"), ensure_ascii=False, default=object_of)


# ---- values

def nested(random: Random) -> str:
    """Lists, objects, or what stands for bytes, in one another, around the depths at which something changes."""
    levels = random.choice([1, 2, 31, 32, 33, 64, 125, 126, 127, 128, 300])
    inner = random.choice(["", "", "1", '"x"', "1.5", "1e999", '{"$hex":"0a"}', '{"$hex":"0"}', '{"$hex":[1.5]}'])
    if random.random() < 0.5:
        return "[" * levels + inner + "]" * levels
    opening = random.choice(['{"a":', '{"a":', '{"$hex":'])
    return opening * levels + (inner or "null") + "}" * levels


def wide(random: Random) -> str:
    """A list whose message, with the method `get`, is at the limit of its length or one byte beside it."""
    zeros = 7_270
    length = random.choice([MAX_MESSAGE - 1, MAX_MESSAGE, MAX_MESSAGE + 1])
    filler = length - message_length("get", [0] * zeros + [""])
    return "[" + "0," * zeros + dumped(random.choice(["x", b"x"]) * filler) + "]"


def odd_argument(random: Random) -> str:
    """An argument that fits no method, as a rule."""
    kind = random.random()
    if kind < 0.25:
        return '{"by":%s}' % random.choice(NUMBERS)
    if kind < 0.40:
        return random.choice(NUMBERS)
    if kind < 0.55:
        return random.choice(TEXTS)
    if kind < 0.75:
        return random.choice(VALUES + ODD_ARGUMENTS + HEXED)
    return nested(random) if kind < 0.97 else wide(random)


def some_value(random: Random, levels: int = 3) -> object:
    """A value that may stand in a sheet."""
    kind = random.randrange(9 if levels else 6)
    if kind == 0:
        return None
    if kind == 1:
        return random.random() < 0.5
    if kind == 2:
        return random.choice([0, 1, -1, 2**63 - 1, -(2**63)])
    if kind in (3, 4):
        return random.choice(["", "x", "é😀", "\u0000\n\"\\", "\x7f\u0080", "k" * 40])
    if kind == 5:
        return random.choice([b"", b"\x00\xff", b"k", bytes(range(40))])
    if kind in (6, 7):
        return [some_value(random, levels - 1) for _ in range(random.randrange(3))]
    names = [random.choice(["", "a", "b", "é", "aa", "\u0001", "$hex"]) for _ in range(random.randrange(4))]
    return {name: some_value(random, levels - 1) for name in names}


# ---- lines

def object_line(random: Random, members: Iterable[tuple[str, str]]) -> str:
    """The members in some order, sometimes with spaces between."""
    members = list(members)
    if random.random() < 0.5:
        random.shuffle(members)
    if random.random() < 0.8:
        return "{" + ",".join(f"{dumped(name)}:{value}" for name, value in members) + "}"

    def space() -> str:
        return random.choice(SPACES[:6])
    inner = ",".join(f"{space()}{dumped(name)}{space()}:{space()}{value}{space()}" for name, value in members)
    return space() + "{" + inner + "}" + space()


def asked_line(random: Random, op: str, caller: str, number: Optional[int] = None, **members: str) -> str:
    """A line of a client; the values of the members are JSON. `args` that are null may be left out."""
    if members.get("args") == "null" and random.random() < 0.3:
        del members["args"]
    number = random.choice([0, 1, 7, 2**63 - 1]) if number is None else number
    return object_line(random, [("from", dumped(caller)), ("id", str(number)), ("op", dumped(op)), *members.items()])


def grain_line(random: Random, op: str, grain: str, **members: str) -> str:
    return object_line(random, [("op", dumped(op)), ("grain", dumped(grain)), *members.items()])


def with_extra(random: Random, line: str) -> str:
    """The line, now and then with a member more."""
    if random.random() < 0.85:
        return line
    return line.rstrip(" \t\r").removesuffix("}") + "," + random.choice(EXTRA_MEMBERS) + "}"


def long_line(random: Random, line: bytes) -> bytes:
    """The line near the limit of its length: filled with spaces, or with a letter."""
    length = random.choice([MAX_LINE - 2, MAX_LINE - 1, MAX_LINE, MAX_LINE + 1, MAX_LINE + 2, 70_000, 140_000])
    if random.random() < 0.5:
        return line[:-1] + b" " * (length - len(line)) + b"}"
    return line + random.choice([b" ", b"x", b"\r"]) * (length - len(line))


def raw_line(random: Random) -> bytes:
    """Bytes without any form."""
    some = bytes(random.choice(LETTERS) for _ in range(random.randrange(1, 60)))
    return random.choice([some, some, random.choice(RAW_LINES)])


def damaged(random: Random, line: bytes) -> bytes:
    """A line with a few bytes changed, cut out, doubled or added."""
    damaged_line = bytearray(line)
    for _ in range(random.choice([1, 1, 1, 2, 4])):
        if not damaged_line:
            break
        place = random.randrange(len(damaged_line))
        kind = random.randrange(5)
        if kind == 0:
            damaged_line[place] = random.randrange(256)
        elif kind == 1:
            del damaged_line[place : place + random.choice([1, 1, 3, 20])]
        elif kind == 2:
            damaged_line[place:place] = damaged_line[place : place + random.choice([1, 2, 8])]
        elif kind == 3:
            damaged_line[place:place] = bytes([random.choice(b'{}[]":,0e-.\\ \t\r\x00\xc3')])
        else:
            del damaged_line[place:]
    return bytes(damaged_line)
