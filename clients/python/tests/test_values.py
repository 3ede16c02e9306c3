"""What is looked at before it is written."""

from __future__ import annotations

import enum
import math
import pathlib
import unittest
from collections import OrderedDict
from typing import Any

from silo import Silo
from silo.lines import MOST_BYTES, StrangeReply, grain_json, read_replies
from silo.names import ages_text, check_tenants, checked_caller
from silo.process import answer_words
from silo.values import json_of

from .beside import COUNTER, WEB, Red, nested

MOST_NAME = "counter/red:" + "~" * 128


class Level(enum.IntEnum):
    LOW = 3


class Values(unittest.TestCase):
    def test_that_can_be_asked_with(self) -> None:
        for value, text in (
            (None, "null"), (True, "true"), (False, "false"), (0, "0"), (-(2**63), "-9223372036854775808"), (2**63 - 1, "9223372036854775807"),
            ("a\"\n\x00ü", '"a\\"\\n\\u0000ü"'), (b"\x00\xff", '{"$hex":"00ff"}'), (bytearray(b"a"), '{"$hex":"61"}'), ((1, [2]), "[1,[2]]"),
            ({"a": {"b": []}}, '{"a":{"b":[]}}'), ({"$hex": "0a"}, '{"$hex":"0a"}'), ({"$hex": 1, "x": 1}, '{"$hex":1,"x":1}'),
            (Level.LOW, "3"), (OrderedDict(k=1), '{"k":1}'), (nested(32), "[" * 32 + "]" * 32), ({"a": nested(31)}, '{"a":' + "[" * 31 + "]" * 31 + "}"),
        ):  # fmt: skip
            self.assertEqual(json_of(value), text)

    def test_that_cannot(self) -> None:
        unfit: Any
        for unfit in (2**63, -(2**63) - 1, 10**400, 1.0, math.nan, math.inf, nested(33), {"a": nested(32)}, [{"$hex": "0A"}], {"$hex": "0"}, {"$hex": 1}):
            with self.assertRaises(ValueError):
                json_of(unfit)
        for unfit in (memoryview(b"a"), object(), {1}, {1: 2}, {None: 2}):
            with self.assertRaises(TypeError):
                json_of(unfit)
        around: Any = []
        around.append(around)
        with self.assertRaises(ValueError):
            json_of(around)

    def test_that_are_read(self) -> None:
        lines = b'{"ok":[{"$hex":"00ff"},{"$hex":"00","x":1},"\\"$hex\\""]}\n{"ok":1}'
        self.assertEqual([*read_replies(lines)], [{"ok": [b"\x00\xff", {"$hex": "00", "x": 1}, '"$hex"']}, {"ok": 1}])
        for line in (b"", b"{", b"1", b'{"a":1}}', b'{"a":1} {"b":1}', b"\xff", b'{"$hex":"0"}', b'{"$hex":"00"}', b"[" * 30_000):
            with self.assertRaises(StrangeReply):
                [*read_replies(line)]


class Names(unittest.TestCase):
    def test_of_callers_and_grains(self) -> None:
        self.assertEqual((checked_caller("red/web"), grain_json("counter/red:a:b/c")), ("red/web", '"counter/red:a:b/c"'))
        self.assertEqual(grain_json(MOST_NAME), f'"{MOST_NAME}"')
        for caller in ("red", "Red/web", "red/", "/web", "red/web/a", "red/web\n", "r" * 33 + "/a", "1/a", "acme_inc/a", None, 7, b"red/web"):
            with self.assertRaises(ValueError):
                checked_caller(caller)
        ill_formed = ("counter", "counter/red", "counter/red:", "counter/red:jürgen", "counter/red:a b", "Counter/red:a", "counter/:a")
        for grain in (*ill_formed, MOST_NAME + "~", "counter/red:a\n", None, 7):
            with self.assertRaises(ValueError):
                grain_json(grain)

    def test_of_tenants(self) -> None:
        check_tenants(["red:1:1", "blue:10000:1000"])
        for tenants in ([], ["red"], ["red:0:1"], ["red:1:0"], ["red:10001:1"], ["red:1:1001"], ["red:01:1"], ["Red:1:1"], ["red:1:1", "red:2:2"],
                        ["--help"], ["--journal=/any/path", "red:1:1"], ["red:1:1\n"], [None], [f"t{n}:1:1" for n in range(1_001)]):  # fmt: skip
            with self.assertRaises(ValueError):
                check_tenants(tenants)  # type: ignore[arg-type]

    def test_of_the_command_line(self) -> None:
        self.assertEqual(answer_words("silo", ["red:1:1"], None, None, None, None), ["silo", "answer", "--", "red:1:1"])
        lasting = answer_words("silo", ["red:1:1"], None, None, None, None, pathlib.Path("d"), False)
        self.assertEqual(lasting, ["silo", "answer", "--data", "d", "--no-sync", "--", "red:1:1"])
        words = answer_words("silo", ["red:1:1"], 5, {"counter": 7, "sheet": 8}, 0, "j")
        self.assertEqual(words, ["silo", "answer", "--age", "5", "--ages", "counter=7,sheet=8", "--sends", "0", "--journal", "j", "--", "red:1:1"])
        self.assertEqual((ages_text(None), ages_text({})), (None, None))
        for options in ({"age": 0}, {"age": 86_400_001}, {"age": True}, {"age": "5"}, {"sends": -1}, {"ages": {"counter": 0}}, {"ages": {"Counter": 1}},
                        {"ages": {f"k{n}": 1 for n in range(65)}}):  # fmt: skip
            with self.assertRaises(ValueError):
                Silo("red:1:1", program="/nowhere/silo", **options)  # type: ignore[arg-type]
        with self.assertRaises(FileNotFoundError):
            Silo("red:1:1", program="/nowhere/silo")


class Requests(Red):
    def test_that_are_not_written(self) -> None:
        call, ask = self.silo.call, self.silo.ask
        for unfit in (
            lambda: call("red", COUNTER, "get"), lambda: call(WEB, "counter", "get"), lambda: call(WEB, COUNTER, None),  # type: ignore[arg-type]
            lambda: call(None, COUNTER, "get"), lambda: call(WEB, None, "get"), lambda: call(WEB, COUNTER, "get", nested(33)),  # type: ignore[arg-type]
            lambda: call(WEB, COUNTER, "get", 2**63), lambda: call(WEB, COUNTER, "get", "x" * 70_000), lambda: call(WEB, COUNTER, "get", "\ud800"),
            lambda: call(WEB, COUNTER, "\ud800"), lambda: self.silo.tick(-1), lambda: self.silo.tick(2**63), lambda: self.silo.tick(True),
            lambda: self.silo.tick(1.5), lambda: self.silo.tick("1"), lambda: self.silo.tick(None), lambda: ask(WEB, "stop"),  # type: ignore[arg-type]
            lambda: ask(WEB, "call", grain=COUNTER), lambda: ask(WEB, "status", grain=COUNTER), lambda: ask(WEB, "poke", grain=COUNTER),
            lambda: ask(WEB, "call", grain=COUNTER, method="get", id=7), lambda: ask(WEB, "tick", now=1), lambda: self.silo.client("red"),
            lambda: self.web.grain("counter"), lambda: self.silo.poke(WEB, COUNTER, 1.5),
        ):  # fmt: skip
            with self.assertRaises(ValueError):
                unfit()
        self.assertEqual(self.silo.call(WEB, COUNTER, "get"), 0)

    def test_that_are_as_long_as_may_be(self) -> None:
        def put(length: int) -> Any:
            return self.silo.call("red/long", "sheet/red:s", "put", {"name": "k", "value": "x" * length})

        least = len('{"op":"call","from":"red/long","id":1,"grain":"sheet/red:s","method":"put","args":{"name":"k","value":""}}')
        with self.assertRaisesRegex(ValueError, "65537 bytes"):
            put(MOST_BYTES - least + 1)
        self.assertIsNone(put(MOST_BYTES - least))
