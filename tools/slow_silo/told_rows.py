"""Worked rows of what `serve` tells on standard error of the lines."""

from __future__ import annotations

from .kinds import NEWEST
from .row import Row
from .short_lines import A, B, LINE_TOO_LONG, NOT_A_REQUEST, begin, call, no, ok, seen, status, tick

SERVE = ["serve", "--workers", "1"]
LONG = "x" * 65_537
# a call, an empty line, a line that is no request, a call of an unknown method, and a step that serving takes none of
MIXED = call(1, A, "add", {"by": 3}) + ["", "hello"] + call(2, A, "fly") + begin(A)
ANSWERS = NOT_A_REQUEST * 2 + ok(1, 3) + no(2, 60, "method is unknown")
REASONS = ["silo: line 3: line is not a request", "silo: line 5: step is not one of silo serve"]
COUNTS = ["silo: lines: 5", "silo: answers: 1", "silo: refusals 10: 2", "silo: refusals 60: 1", "silo: steps: 8"]

TOLD = [
    Row("nothing is told unless that is asked for", [*SERVE, "red:2:4"], MIXED, ANSWERS),
    Row("lines that made no step are told", [*SERVE, "--explain-lines", "red:2:4"], MIXED, ANSWERS, errors="\n".join(REASONS)),
    Row("what came of the lines is counted", [*SERVE, "--summary", "red:2:4"], MIXED, ANSWERS, errors="\n".join(COUNTS)),
    Row("counts come behind reasons, however they are asked for", [*SERVE, "--summary", "red:2:4", "--explain-lines"],
        MIXED, ANSWERS, errors="\n".join(REASONS + COUNTS)),
    Row("a line that is too long is told as that", [*SERVE, "--explain-lines", "red:2:4"], [LONG, *tick(3), "[]"],
        LINE_TOO_LONG + NOT_A_REQUEST, errors="silo: line 1: line is too long\nsilo: line 3: line is not a request"),
    Row("a step of a client isn't told, whatever it is answered", [*SERVE, "--explain-lines", "red:2:4"],
        call(1, "counter", "get") + call(2, A, "get", [0] * 32_000) + status(3),
        no(1, 20, "grain name is not well formed") + no(2, 11, "line is too long")
        + seen(3, 0, 0, 0)),
    Row("refusals of lines and of clients are counted together", [*SERVE, "--summary", "red:2:4"],
        [LONG] + call(1, A, "get", [0] * 32_000) + call(2, B, "get"),
        LINE_TOO_LONG + no(1, 11, "line is too long") + ok(2, 0),
        errors="silo: lines: 3\nsilo: answers: 1\nsilo: refusals 11: 2\nsilo: steps: 6"),
    Row("no line", [*SERVE, "--explain-lines", "--summary", "red:2:4"], [], [],
        errors="silo: lines: 0\nsilo: answers: 0\nsilo: steps: 0"),
    Row("the same behind the journal", [*SERVE, "--summary", "--journal", "j", "red:2:4"], [], [],
        errors="silo: lines: 0\nsilo: answers: 0\nsilo: steps: 0",
        files_after={"j": f"silo-journal 3\nkinds {NEWEST}\nage 900000\ntenant red 2 4\nclose 0\n"}),
]
