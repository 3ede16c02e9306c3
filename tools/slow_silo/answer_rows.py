"""Worked rows of lines that are answered at once: inputs of `answer` with what it writes, to be followed by hand.

`R` is red's relay, `RB` its second.
"""

from __future__ import annotations

from .kinds import NEWEST
from .row import Row
from .short_lines import (A, B, BLUE, BLUE_A, NOT_A_REQUEST, NOT_NOW, SHEET, SWEEP, at, begin, call, line, no, ok, poke,
                          seen, status, text, tick, told)

R, RB = "relay/red:r", "relay/red:s"
TWO = ["red:4:4", "blue:2:2"]


def join(number: int, relay: str, grain: str) -> list:
    return call(number, relay, "join", {"grain": grain})


def send(number: int, relay: str, method: str, args: object = None) -> list:
    return call(number, relay, "send", {"method": method, "args": args})


ADD = {"by": 1}
# a relay that sends what it is sent to its second, and that to a counter
CHAIN = join(1, R, RB) + join(2, RB, A)
FIRST = ["silo-journal 3", f"kinds {NEWEST}", "age 900000", "tenant red 2 4"]
CLOSED = text([*FIRST, "close 0"])

ANSWERED = [
    Row("no line", ["answer", "red:2:4"], [], []),
    Row("two calls to one counter are answered one after the other", ["answer", "red:2:4"],
        call(1, A, "add", {"by": 3}) + call(2, A, "add", {"by": 4}), ok(1, 3) + ok(2, 7)),
    Row("one place in a mailbox is enough", ["answer", "red:1:1"],
        call(1, A, "get") + call(2, A, "get") + call(3, B, "get"),
        ok(1, 0) + ok(2, 0) + no(3, 41, "tenant red has no free activation")),
    Row("what is saved is stored, and a row that was changed ends the activation", ["answer", "red:2:4"],
        call(1, A, "add", {"by": 3}) + call(2, A, "save") + poke(3, A, 10) + call(4, A, "save") + call(5, A, "get"),
        ok(1, 3) + ok(2, "1") + ok(3, "2") + no(4, 54, f"stored state of {A} has changed") + ok(5, 10)),
    Row("what a relay sends is delivered behind its line", ["answer", "red:4:4"],
        join(1, R, A) + join(2, R, B) + send(3, R, "add", ADD) + call(4, A, "get") + call(5, B, "get"),
        ok(1, True) + ok(2, True) + ok(3, 2) + ok(4, 1) + ok(5, 1)),
    Row("a delivery that is refused is told behind the line that sent it", ["answer", *TWO],
        join(1, R, BLUE_A) + send(2, R, "get"),
        ok(1, True) + ok(2, 1) + told(error=40, from_=R, text="tenant red may not call a grain of tenant blue")),
    Row("what a delivery sends goes on behind the same line", ["answer", "red:4:4"],
        CHAIN + send(3, R, "send", {"method": "add", "args": ADD}) + call(4, A, "get"),
        ok(1, True) + ok(2, True) + ok(3, 1) + ok(4, 1)),
    Row("one delivery a line: what is left goes on behind the tenant's next line", ["answer", "--sends", "1", "red:4:4"],
        CHAIN + send(3, R, "send", {"method": "add", "args": ADD}) + call(4, A, "get") + call(5, A, "get"),
        ok(1, True) + ok(2, True) + ok(3, 1) + ok(4, 0) + ok(5, 1)),
    Row("no line of another tenant and none of nobody carries on with it", ["answer", "--sends", "0", *TWO],
        join(1, R, A) + send(2, R, "add", ADD) + call(1, BLUE_A, "get", by=BLUE) + tick(1) + SWEEP + status(3),
        ok(1, True) + ok(2, 1) + ok(1, 0, BLUE) + seen(3, 1, 1, 2)),
    Row("the clock and sweeping are answered by nothing, or not now", ["answer", "--age", "5", "red:2:4"],
        call(1, A, "add", {"by": 3}) + tick(5) + SWEEP + call(2, A, "get") + tick(4),
        ok(1, 3) + ok(2, 0) + NOT_NOW),
    Row("steps that are no client's, and a poke that is marked, are no requests", ["answer", "red:2:4"],
        begin(A) + at("deliver", R) + line(op="poke", from_="red/c1", id=1, grain=A, state=1, failed=True) + ["hello"],
        NOT_A_REQUEST * 4),
    Row("a grain that rests goes when its line is answered, and a kind has an age of its own",
        ["answer", "--age", "10", "--ages", "sheet=1", "red:4:4"],
        call(1, A, "add", {"by": 3}) + call(2, A, "rest") + status(3) + call(4, A, "get") + call(5, SHEET, "list") + tick(1)
        + SWEEP + status(6) + call(7, A, "stay", {"for": 20}) + tick(20) + SWEEP + status(8) + tick(21) + SWEEP + status(9),
        ok(1, 3) + ok(2, None) + seen(3, 0, 0, 2) + ok(4, 0) + ok(5, []) + seen(6, 1, 1, 4) + ok(7, None)
        + seen(8, 1, 20, 5) + seen(9, 0, 21, 5)),
    Row("a journal of no lines", ["answer", "--journal", "j", "red:2:4"], [], [], files_after={"j": CLOSED}),
    Row("the journal is that of the steps", ["answer", "--journal", "j", "red:2:4"], call(1, A, "get"), ok(1, 0),
        files_after={"j": text([
            *FIRST, "call red/c1 1 counter/red:a 020000000367657400", "activate counter/red:a", "load counter/red:a ok",
            "begin counter/red:a", "end counter/red:a 1", "reply red/c1 1 ok 030000000000000000", "close 5"])}),
    Row("the ages of kinds are written down", ["answer", "--journal", "j", "--ages", "sheet=5,relay=4", "red:2:4"], [], [],
        files_after={"j": text([*FIRST[:3], "kind relay 4", "kind sheet 5", FIRST[3], "close 0"])}),
    Row("a refused age of a kind comes before the journal", ["answer", "--journal", "j", "--ages", "sheet", "red:2:4"],
        call(1, A, "get"), [], status=2, errors="silo: ages are refused"),
    Row("deliveries are from 0 to 1,000,000", ["answer", "--sends", "1000001", "red:2:4"], [], [], status=2),
    Row("deliveries are told without a sign", ["answer", "--sends", "+5", "red:2:4"], call(1, A, "get"), [], status=2,
        errors="error: the words are out of range"),
    Row("deliveries are told without zeros before other digits", ["answer", "--sends", "05", "red:2:4"],
        call(1, A, "get"), [], status=2, errors="error: the words are out of range"),
    Row("a tenant argument that is refused", ["answer", "red"], call(1, A, "get"), [], status=2,
        errors="silo: tenant argument 1 is refused"),
]
