"""Files that `silo serve` answers."""

from __future__ import annotations

import re
import subprocess
import tempfile
import unittest
from typing import Any, Dict, List, Set

from silo import serve_file
from silo.strict import check_step

from . import beside
from .beside import nested

CALL = b'{"op":"call","from":"red/a","id":1,"grain":"counter/red:a","method":"get"'
ARGS = CALL + b',"args":'


def deep(depth: int) -> bytes:
    return str(nested(depth)).encode() + b"}"


STEPS = [
    CALL + b"}",
    ARGS + b"1.5}",
    ARGS + b"9" * 30 + b"}",
    ARGS + b'"' + b"x" * 60_000 + b'"}',
    ARGS + b'"\\u00e9[[["}',
    ARGS + deep(126),
    CALL + b',"id":2}',
    CALL.replace(b"counter/red:a", b"none") + b"}",
    b'{"op":"tick","now":9223372036854775807}',
    b' {"op":"sweep"}\r',
    b'{"op":"status","from":"red/a","id":0}',
]
NO_STEPS = [
    *(b" ", b"fence", b"[]", b"1", b'{"op":1}', b'{"op":"deliver","grain":"counter/red:a"}', b'{"op":"sweep","now":1}', b'{"op":"sweep"} x'),
    *(ARGS + args + b"}" for args in (b"NaN", b"-Infinity", b"1e999", b"9" * 400, b"01", b'"\x01"', b'"\\ud800"', b'"' + b"x" * 70_000 + b'"')),
    *(CALL.replace(b'"id":1', b'"id":' + number) + b"}" for number in (b"-1", b'"1"', b"9223372036854775808", b"true", b"-0", b"1.0", b"null")),
    CALL.replace(b'"counter/red:a"', b"null") + b"}",
    CALL.replace(b'"get"', b"7") + b"}",
    CALL.replace(b"red/a", b"red") + b"}",
    *(b'{"op":"tick","now":1.5}', b'{"op":"tick","now":1.0}', b'{"op":"tick","now":-1}'),
    *(ARGS + deep(127), b"[" * 5_000, b"[" * 5_000 + b"]" * 5_000),
    *(b'\xef\xbb\xbf{"op":"sweep"}', b'{"op":"sweep"}\xff'),
]


class Files(unittest.TestCase):
    def served(self, lines: str) -> Dict[Any, Any]:
        with tempfile.NamedTemporaryFile("w", suffix=".lines") as file:
            file.write(lines)
            file.flush()
            return serve_file(file.name, "red:2:4", program=beside.program)

    def test_are_served(self) -> None:
        one = '{"op":"call","from":"red/a","id":1,"grain":"counter/red:a","method":"add","args":{"by":3}}\n'
        other = '{"op":"call","from":"red/a","id":2,"grain":"counter/blue:a","method":"get"}\n'
        found = self.served(one + other)
        self.assertEqual(found["red/a", 1], 3)
        self.assertEqual(found["red/a", 2].code, 40)

    def test_with_a_line_of_no_step_are_refused_by_its_number(self) -> None:
        with self.assertRaisesRegex(ValueError, "^line 2 of "):
            self.served('{"op":"sweep"}\n{"op":"status","from":"red","id":1}\n')

    def test_whose_words_are_refused(self) -> None:
        for words in ({"workers": 0}, {"workers": 65}, {"age": 0}):
            with self.assertRaises(ValueError):
                serve_file("/dev/null", "red:2:4", program=beside.program, **words)  # type: ignore[arg-type]
        with self.assertRaises(ValueError):
            serve_file("/dev/null", "--help", program=beside.program)


class Lines(unittest.TestCase):
    def refused(self, lines: List[bytes]) -> Set[int]:
        """Which of the lines the program says to be no step."""
        words = [beside.program, "serve", "--explain-lines", "red:2:4"]
        ran = subprocess.run(words, input=b"\n".join(lines), capture_output=True, check=False)
        return {int(number) - 1 for number in re.findall(rb"^silo: line (\d+):", ran.stderr, re.M)}

    def test_that_say_a_step(self) -> None:
        for line in STEPS:
            check_step(line)
        self.assertEqual(self.refused(STEPS), set())

    def test_that_do_not(self) -> None:
        for line in NO_STEPS:
            with self.subTest(line[:120]), self.assertRaises(ValueError):
                check_step(line)
        self.assertEqual(self.refused(NO_STEPS), {*range(len(NO_STEPS))})
