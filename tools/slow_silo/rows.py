"""Worked rows: inputs of the program with what it writes, to be followed by hand."""

from __future__ import annotations

import json

from .answer_rows import ANSWERED
from .bytes_rows import BYTES_IN_JOURNALS, BYTES_IN_LINES, MIGRATED
from .data_rows import DATA
from .folder_rows import FOLDERS
from .journal_rows import JOURNALS, WRITTEN
from .listed_rows import LISTED
from .resting_rows import AGES_OF_KINDS, MISFIT, RESTING
from .row import Row
from .short_lines import (A, B, BLUE, BLUE_A, LINE_TOO_LONG, NOT_A_REQUEST, NOT_NOW, RELAY, SHEET, SWEEP, at,
                          begin, call, end, no, ok, poke, run, save, seen, status, text, tick, told, up)
from .told_rows import TOLD
from .waiting_rows import WAITING

TWO_TENANTS = ["red:2:4", "blue:2:4"]

# ---- one counter

FIRST_CALL = call(1, A, "add", {"by": 3})
THREE_READERS = call(1, A, "get") + call(2, A, "get") + call(3, A, "get")
TWO_READERS_AND_A_WRITER = call(1, A, "get") + call(2, A, "get") + call(3, A, "add", {"by": 1}) + up(A)

COUNTERS = [
    Row("a first call", ["steps", "red:2:4"], FIRST_CALL + up(A) + run(A, 1), ok(1, 3)),
    Row("no input", ["steps", "red:2:4"], [], []),
    Row("nothing waits at a grain that was never asked for", ["steps", "red:2:4"], begin(A), NOT_NOW),
    Row("a sum that leaves 64 bits is refused, and the number stays", ["steps", "red:2:4"],
        call(1, A, "add", {"by": 2**63 - 1}) + call(2, A, "add", {"by": 1}) + call(3, A, "get")
        + up(A) + run(A, 1) + run(A, 2) + run(A, 3),
        ok(1, 2**63 - 1) + no(2, 62, "result is out of range") + ok(3, 2**63 - 1)),
    Row("an unknown method, arguments that don't fit, and a turn that is abandoned", ["steps", "red:2:4"],
        call(1, A, "fly") + call(2, A, "add", {"by": "x"}) + call(3, A, "get")
        + up(A) + run(A, 1) + run(A, 2) + begin(A) + at("abandon", A, turn=3),
        no(1, 60, "method is unknown") + no(2, 61, "arguments do not fit") + no(3, 70, "turn met want of memory")),
    Row("two turns that read are open together, and one that writes waits for both", ["steps", "red:2:4"],
        TWO_READERS_AND_A_WRITER + begin(A) + begin(A) + begin(A) + end(A, 2) + begin(A) + end(A, 1) + run(A, 3),
        NOT_NOW + ok(2, 0) + NOT_NOW + ok(1, 0) + ok(3, 1)),
    Row("two turns that read end in the order of their begins", ["steps", "red:2:4"],
        TWO_READERS_AND_A_WRITER + begin(A) + begin(A) + begin(A) + end(A, 1) + begin(A) + end(A, 2) + run(A, 3),
        NOT_NOW + ok(1, 0) + NOT_NOW + ok(2, 0) + ok(3, 1)),
    Row("no turn that reads is opened while one writes", ["steps", "red:2:4"],
        call(1, A, "add", {"by": 1}) + call(2, A, "get") + up(A) + begin(A) + begin(A)
        + end(A, 2) + end(A, 1) + run(A, 2),
        NOT_NOW * 2 + ok(1, 1) + ok(2, 1)),
    Row("a turn that is abandoned keeps the state", ["steps", "red:2:4"],
        FIRST_CALL + call(2, A, "add", {"by": 4}) + call(3, A, "get") + up(A) + run(A, 1) + begin(A)
        + at("abandon", A, turn=2) + at("abandon", A, turn=2) + run(A, 3),
        ok(1, 3) + no(2, 70, "turn met want of memory") + NOT_NOW + ok(3, 3)),
    Row("a mailbox that is full", ["steps", "red:1:1"], call(1, A, "get") + call(2, A, "get") + up(A) + run(A, 1),
        no(2, 42, f"mailbox of {A} is full") + ok(1, 0)),
    Row("an open turn isn't counted in the mailbox", ["steps", "red:1:1"],
        call(1, A, "get") + up(A) + begin(A) + call(2, A, "get") + call(3, A, "get") + end(A, 1) + run(A, 2),
        no(3, 42, f"mailbox of {A} is full") + ok(1, 0) + ok(2, 0)),
    Row("no activation is free", ["steps", "red:1:4"], call(1, A, "get") + call(2, B, "get"),
        no(2, 41, "tenant red has no free activation")),
    Row("a mailbox that is full comes before an activation that isn't free", ["steps", "red:1:1"],
        call(1, A, "get") + call(2, A, "get") + call(3, B, "get"),
        no(2, 42, f"mailbox of {A} is full") + no(3, 41, "tenant red has no free activation")),
    Row("a refused request takes no number", ["steps", "red:1:1"],
        call(1, A, "get") + call(2, A, "get") + up(A) + run(A, 1) + call(3, A, "get") + run(A, 2),
        no(2, 42, f"mailbox of {A} is full") + ok(1, 0) + ok(3, 0)),
]

# ---- storage

OVERWRITTEN = (FIRST_CALL + up(A) + run(A, 1) + call(2, A, "save") + save(A, 2) + poke(3, A, 10)
               + call(4, A, "save") + call(5, A, "get") + save(A, 3) + up(A) + run(A, 4))

STORAGE = [
    Row("a row that another wrote ends the activation, and what waits is answered from the row", ["steps", "red:2:4"],
        OVERWRITTEN,
        ok(1, 3) + ok(2, "1") + ok(3, "2") + no(4, 54, f"stored state of {A} has changed") + ok(5, 10)),
    Row("a row that was cleared keeps its version", ["steps", "red:2:4"],
        call(1, A, "save") + up(A) + save(A, 1) + call(2, A, "clear") + save(A, 2) + call(3, A, "save") + save(A, 3),
        ok(1, "1") + ok(2, "2") + ok(3, "3")),
    Row("clearing where there is no row makes none, and empties the state", ["steps", "red:2:4"],
        FIRST_CALL + call(2, A, "clear") + call(3, A, "get") + call(4, A, "reload")
        + up(A) + run(A, 1) + save(A, 2) + run(A, 3) + save(A, 4),
        ok(1, 3) + ok(2, None) + ok(3, 0) + ok(4, None)),
    Row("what wasn't saved is lost when the row is read again", ["steps", "red:2:4"],
        FIRST_CALL + call(2, A, "save") + call(3, A, "add", {"by": 4}) + call(4, A, "reload")
        + up(A) + run(A, 1) + save(A, 2) + run(A, 3) + save(A, 4) + call(5, A, "get") + run(A, 5),
        ok(1, 3) + ok(2, "1") + ok(3, 7) + ok(4, "1") + ok(5, 3)),
    Row("what was saved is there after a collection", ["steps", "--age", "1", "red:2:4"],
        FIRST_CALL + call(2, A, "save") + up(A) + run(A, 1) + save(A, 2) + tick(1) + SWEEP + status(3)
        + call(4, A, "get") + up(A) + run(A, 3),
        ok(1, 3) + ok(2, "1") + seen(3, 0, 1, 2) + ok(4, 3)),
    Row("a turn that asks the storage is closed by a store alone, any other by an end alone", ["steps", "red:2:4"],
        call(1, A, "save") + call(2, A, "get") + up(A) + begin(A) + end(A, 1) + at("store", A, turn=1)
        + begin(A) + at("store", A, turn=2) + end(A, 2),
        NOT_NOW + ok(1, "1") + NOT_NOW + ok(2, 0)),
    Row("a load that fails refuses what waits, in order, and the entry goes", ["steps", "red:2:4"],
        THREE_READERS + at("activate", A) + at("load", A, failed=True) + status(4) + call(5, A, "get")
        + up(A) + run(A, 4),
        no(1, 53, "storage failed") + no(2, 53, "storage failed") + no(3, 53, "storage failed")
        + seen(4, 0, 0, 3) + ok(5, 0)),
    Row("a load that fails, without a status", ["steps", "red:2:4"],
        THREE_READERS + at("activate", A) + at("load", A, failed=True) + call(5, A, "get") + up(A) + run(A, 4),
        no(1, 53, "storage failed") + no(2, 53, "storage failed") + no(3, 53, "storage failed") + ok(5, 0)),
    Row("a store that fails keeps the state and the version", ["steps", "red:2:4"],
        FIRST_CALL + up(A) + run(A, 1) + call(2, A, "save") + begin(A) + at("store", A, turn=2, failed=True)
        + call(3, A, "save") + save(A, 3),
        ok(1, 3) + no(2, 53, "storage failed") + ok(3, "1")),
]

# ---- sheets and relays

OTHER_KINDS = [
    Row("a sheet's values by their names", ["steps", "red:1:8"],
        call(1, SHEET, "put", {"name": "k", "value": [1, "x"]}) + call(2, SHEET, "list")
        + call(3, SHEET, "get", {"name": "k"}) + call(4, SHEET, "drop", {"name": "k"})
        + call(5, SHEET, "drop", {"name": "k"}) + up(SHEET) + sum((run(SHEET, turn) for turn in range(1, 6)), []),
        ok(1, None) + ok(2, ["k"]) + ok(3, [1, "x"]) + ok(4, True) + ok(5, False)),
    Row("the names of a sheet ascend, and one that is dropped leaves the others", ["steps", "red:1:8"],
        call(1, SHEET, "put", {"name": "b", "value": None}) + call(2, SHEET, "put", {"name": "a", "value": False})
        + call(3, SHEET, "list") + call(4, SHEET, "drop", {"name": "b"}) + call(5, SHEET, "list")
        + call(6, SHEET, "get", {"name": "b"}) + up(SHEET) + sum((run(SHEET, turn) for turn in range(1, 5)), [])
        + begin(SHEET) * 2 + end(SHEET, 6) + end(SHEET, 5),
        ok(1, None) + ok(2, None) + ok(3, ["a", "b"]) + ok(4, True) + ok(6, None) + ok(5, ["a"])),
    Row("grains join a relay and leave it", ["steps", "red:1:8"],
        call(1, RELAY, "join", {"grain": "x"}) + call(2, RELAY, "join", {"grain": A})
        + call(3, RELAY, "join", {"grain": A}) + call(4, RELAY, "leave", {"grain": A})
        + call(5, RELAY, "leave", {"grain": A}) + up(RELAY) + sum((run(RELAY, turn) for turn in range(1, 6)), []),
        no(1, 61, "arguments do not fit") + ok(2, True) + ok(3, False) + ok(4, True) + ok(5, False)),
    Row("four grains join a relay, a fifth doesn't", ["steps", "red:1:8"],
        sum((call(number, RELAY, "join", {"grain": f"counter/red:{number}"}) for number in range(1, 6)), [])
        + call(6, RELAY, "join", {"grain": "counter/red:4"}) + up(RELAY)
        + sum((run(RELAY, turn) for turn in range(1, 7)), []),
        ok(1, True) + ok(2, True) + ok(3, True) + ok(4, True) + no(5, 62, "result is out of range") + ok(6, False)),
    Row("a state of another shape counts as empty, and is kept by what keeps the state", ["steps", "red:3:8"],
        poke(1, RELAY, ["x"]) + call(2, RELAY, "send", {"args": None, "method": "get"}) + call(3, RELAY, "save")
        + up(RELAY) + run(RELAY, 1) + save(RELAY, 2) + call(4, RELAY, "leave", {"grain": "x"})
        + call(5, RELAY, "join", {"grain": A}) + run(RELAY, 3) + run(RELAY, 4),
        ok(1, "1") + ok(2, 0) + ok(3, "2") + ok(4, False) + ok(5, True)),
    Row("five members, or one that stands twice, are no relay's state", ["steps", "red:3:8"],
        poke(1, RELAY, [f"counter/red:{n}" for n in range(5)]) + poke(2, "relay/red:t", [A, A])
        + call(3, RELAY, "send", {"args": None, "method": "get"}) + up(RELAY) + run(RELAY, 1)
        + call(4, "relay/red:t", "send", {"args": None, "method": "get"}) + up("relay/red:t") + run("relay/red:t", 2),
        ok(1, "1") + ok(2, "1") + ok(3, 0) + ok(4, 0)),
    Row("a text counts as the number 0 for a counter", ["steps", "red:2:4"],
        poke(1, A, "x") + call(2, A, "get") + call(3, A, "add", {"by": True}) + call(4, A, "add", {"by": 2})
        + up(A) + run(A, 1) + run(A, 2) + run(A, 3),
        ok(1, "1") + ok(2, 0) + no(3, 61, "arguments do not fit") + ok(4, 2)),
    Row("what a relay sends reaches its member", ["steps", "red:2:4"],
        call(1, RELAY, "join", {"grain": A}) + up(RELAY) + run(RELAY, 1)
        + call(2, RELAY, "send", {"args": {"by": 2}, "method": "add"}) + run(RELAY, 2)
        + at("deliver", RELAY) + at("deliver", RELAY) + up(A) + run(A, 3) + call(3, A, "get") + run(A, 4),
        ok(1, True) + ok(2, 1) + NOT_NOW + ok(3, 2)),
    Row("what a grain sends goes behind what it sent before", ["steps", "red:2:4"],
        call(1, RELAY, "join", {"grain": A}) + call(2, RELAY, "send", {"args": {"by": 2**63 - 1}, "method": "add"})
        + call(3, RELAY, "send", {"args": {"by": 1}, "method": "add"}) + up(RELAY)
        + run(RELAY, 1) + run(RELAY, 2) + run(RELAY, 3) + at("deliver", RELAY) * 2
        + up(A) + run(A, 4) + run(A, 5) + call(4, A, "get") + run(A, 6),
        ok(1, True) + ok(2, 1) + ok(3, 1) + ok(4, 2**63 - 1)),
    Row("a relay sends to its members in the order in which they joined", ["steps", "red:3:1"],
        call(1, B, "get") + call(2, A, "get") + call(3, RELAY, "join", {"grain": B}) + up(RELAY) + run(RELAY, 3)
        + call(4, RELAY, "join", {"grain": A}) + run(RELAY, 4)
        + call(5, RELAY, "send", {"args": None, "method": "get"}) + run(RELAY, 5) + at("deliver", RELAY) * 2,
        ok(3, True) + ok(4, True) + ok(5, 2) + told(error=42, from_=RELAY, text=f"mailbox of {B} is full")
        + told(error=42, from_=RELAY, text=f"mailbox of {A} is full")),
    Row("a grain's sends are delivered, and not another's before them", ["steps", "red:4:4"],
        sum((call(n, f"relay/red:{n}", "join", {"grain": f"clock{n}/red:a"})
             + call(n, f"relay/red:{n}", "send", {"args": None, "method": "get"}) + up(f"relay/red:{n}")
             + run(f"relay/red:{n}", 2 * n - 1) + run(f"relay/red:{n}", 2 * n) for n in (1, 2)), [])
        + at("deliver", "relay/red:2") * 2 + at("deliver", "relay/red:1"),
        (ok(1, True) + ok(1, 1) + ok(2, True) + ok(2, 1)
         + told(error=22, from_="relay/red:2", text="kind clock2 is unknown") + NOT_NOW
         + told(error=22, from_="relay/red:1", text="kind clock1 is unknown"))),
    Row("what a relay sends across tenants is refused, and the relay is told", ["steps", *TWO_TENANTS],
        call(1, RELAY, "join", {"grain": "counter/blue:x"}) + up(RELAY) + run(RELAY, 1)
        + call(2, RELAY, "send", {"args": None, "method": "get"}) + run(RELAY, 2) + at("deliver", RELAY),
        ok(1, True) + ok(2, 1)
        + told(error=40, from_=RELAY, text="tenant red may not call a grain of tenant blue")),
]

# ---- several tenants

TENANTS = [
    Row("a grain of a tenant that isn't known", ["steps", "red:2:4"], call(1, BLUE_A, "add", {"by": 3}),
        no(1, 40, "tenant red may not call a grain of tenant blue")),
    Row("a tenant that isn't known, then another's grain, then a kind that isn't known", ["steps", "red:2:4"],
        call(1, "clock/red:a", "get", None, BLUE) + call(2, "clock/blue:a", "get") + call(3, "clock/red:a", "get")
        + poke(4, "clock/red:a", 1, BLUE) + poke(5, "clock/blue:a", 1) + poke(6, "clock/red:a", 1),
        no(1, 21, "tenant blue is unknown", BLUE) + no(2, 40, "tenant red may not call a grain of tenant blue")
        + no(3, 22, "kind clock is unknown") + no(4, 21, "tenant blue is unknown", BLUE)
        + no(5, 40, "tenant red may not call a grain of tenant blue") + no(6, 22, "kind clock is unknown")),
    Row("each tenant numbers its own requests", ["steps", "--age", "1", *TWO_TENANTS],
        call(1, BLUE_A, "add", {"by": 7}, BLUE) + FIRST_CALL + at("activate", BLUE_A) + at("activate", A)
        + at("load", BLUE_A) + at("load", A) + run(BLUE_A, 1) + tick(1) + SWEEP
        + call(2, "counter/blue:b", "get", None, BLUE) + run(A, 1),
        ok(1, 7, BLUE) + ok(1, 3)),
    Row("a tenant whose name begins with another's", ["steps", "red:2:4", "reddish:2:4"],
        call(1, A, "get") + call(1, "counter/reddish:a", "get", None, "reddish/c1") + status(2)
        + call(2, A, "get", None, "reddish/c1"),
        seen(2, 1, 0, 1) + no(2, 40, "tenant reddish may not call a grain of tenant red", "reddish/c1")),
    Row("each tenant has its own activations", ["steps", "red:1:4", "blue:1:4"],
        call(1, A, "get") + call(2, B, "get") + call(1, BLUE_A, "get", None, BLUE) + up(BLUE_A) + run(BLUE_A, 1),
        no(2, 41, "tenant red has no free activation") + ok(1, 0, BLUE)),
    Row("many activations go, and another tenant's first call is its first",
        ["steps", "--age", "1", "red:10000:1", "blue:1:1"],
        sum((call(7, f"counter/red:c{n}", "get") + up(f"counter/red:c{n}") + run(f"counter/red:c{n}", n)
             for n in range(1, 10_001)), [])
        + tick(1) + SWEEP + call(1, BLUE_A, "add", {"by": 7}, BLUE) + up(BLUE_A) + run(BLUE_A, 1),
        ok(7, 0) * 10_000 + ok(1, 7, BLUE)),
]

# ---- the clock

SEVENTY = [f"counter/red:c{n}" for n in range(1, 71)]
CLOCK = [
    Row("an idle entry goes when it is as old as the age", ["steps", "--age", "1000", "red:2:4"],
        tick(5000) + FIRST_CALL + up(A) + run(A, 1) + tick(5999) + SWEEP + status(2) + tick(6000) + SWEEP + status(3)
        + call(4, A, "get") + up(A) + run(A, 2),
        ok(1, 3) + seen(2, 1, 5999, 1) + seen(3, 0, 6000, 1) + ok(4, 0)),
    Row("the clock never goes back", ["steps", "red:2:4"],
        tick(10) + tick(9) + status(1) + call(2, A, "get") + up(A) + run(A, 1) + end(A, 1),
        NOT_NOW + seen(1, 0, 10, 0) + ok(2, 0) + NOT_NOW),
    Row("the clock may stand still", ["steps", "red:2:4"], tick(10) + tick(10) + status(1), seen(1, 0, 10, 0)),
    Row("an entry that waits isn't idle", ["steps", "--age", "1", "red:2:4"],
        call(1, A, "get") + tick(5) + SWEEP + status(2), seen(2, 1, 5, 1)),
    Row("an entry with an open turn isn't idle", ["steps", "--age", "1", "red:2:4"],
        call(1, A, "get") + up(A) + begin(A) + tick(5) + SWEEP + status(2) + end(A, 1) + SWEEP + status(3) + tick(6)
        + SWEEP + status(4),
        seen(2, 1, 5, 1) + ok(1, 0) + seen(3, 1, 5, 1) + seen(4, 0, 6, 1)),
    Row("a later turn puts off the collection", ["steps", "--age", "2", "red:2:4"],
        tick(3) + call(1, B, "get") + up(B) + run(B, 1) + tick(5) + call(2, A, "get") + up(A) + run(A, 2)
        + tick(9) + call(3, A, "get") + run(A, 3) + SWEEP + status(4) + tick(11) + SWEEP + status(5),
        ok(1, 0) + ok(2, 0) + ok(3, 0) + seen(4, 1, 9, 3) + seen(5, 0, 11, 3)),
    Row("seventy idle entries go in one sweep", ["steps", "--age", "1", "red:100:4"],
        sum((call(turn, grain, "get") + up(grain) + run(grain, turn) for turn, grain in enumerate(SEVENTY, 1)), [])
        + tick(1) + SWEEP + status(71),
        sum((ok(number, 0) for number in range(1, 71)), []) + seen(71, 0, 1, 70)),
]

# ---- lines

DEEP = "[" * 33 + "1.5" + "]" * 33
NESTED = json.loads("[" * 33 + "]" * 33)
TOO_NESTED = FIRST_CALL[0].replace('{"by":3}', "[" * 200 + "]" * 200)
LINES = [
    Row("lines that are refused, and why", ["steps", "red:2:4"],
        ["hello"] + status(1, BLUE) + call(2, "Counter/red:a", "get") + call(3, "clock/red:a", "get")
        + call(4, A, "get", 1.5) + call(5, A, "get", NESTED),
        NOT_A_REQUEST + no(1, 21, "tenant blue is unknown", BLUE) + no(2, 20, "grain name is not well formed")
        + no(3, 22, "kind clock is unknown") + no(4, 13, "number is not a whole number of 64 bits")
        + no(5, 12, "arguments are too deep")),
    Row("a line and a message that are too long", ["steps", "red:2:4"],
        ["x" * 65_537] + call(1, A, "get", [0] * 8_000), LINE_TOO_LONG + no(1, 11, "line is too long")),
    Row("a line of 65,537 bytes", ["steps", "red:2:4"], ["x" * 65_537], LINE_TOO_LONG),
    Row("a line of 65,536 bytes, most of them spaces", ["steps", "red:2:4"], [SWEEP[0] + " " * 65_522], []),
    Row("a space more", ["steps", "red:2:4"], [SWEEP[0] + " " * 65_523], LINE_TOO_LONG),
    Row("200 nested lists are no JSON", ["steps", "red:2:4"], [TOO_NESTED], NOT_A_REQUEST),
    Row("as many lines as there may be", ["steps", "red:2:4"], [""] * 1_000_000, []),
    Row("a line more", ["steps", "red:2:4"], [""] * 1_000_001, [], 1, "silo: too much input"),
    Row("a state that is too large", ["steps", "red:2:4"], poke(1, A, [0] * 29_200), no(1, 63, "state is too large")),
    Row("a sheet as large as it may be, and one byte more", ["steps", "red:1:8"],
        sum((call(number, SHEET, "put", {"name": str(number), "value": "x" * 65_000}) for number in range(1, 5)), [])
        + call(5, SHEET, "put", {"name": "5", "value": "x" * 2_089})
        + call(6, SHEET, "put", {"name": "5", "value": "x" * 2_090})
        + call(7, SHEET, "list") + up(SHEET) + sum((run(SHEET, turn) for turn in range(1, 8)), []),
        sum((ok(number, None) for number in range(1, 6)), []) + no(6, 63, "state is too large")
        + ok(7, ["1", "2", "3", "4", "5"])),
    Row("of a line with several faults the first is told: depth, numbers, length, the grain", ["steps", "red:2:4"],
        [line.replace('"deep"', DEEP) for line in call(1, "x", "get", "deep") + poke(2, "x", "deep")]
        + call(3, "x", "get", [1.5] + [0] * 8_000) + call(4, "x", "get", [0] * 8_000) + poke(5, "x", [0] * 29_200)
        + at("load", A, failed=None) + at("store", A, turn=1, failed=0),
        no(1, 12, "arguments are too deep") + no(2, 12, "arguments are too deep")
        + no(3, 13, "number is not a whole number of 64 bits") + no(4, 11, "line is too long")
        + no(5, 63, "state is too large") + NOT_A_REQUEST * 2),
    Row("an unknown tenant's bad line is refused before the tenant", ["steps", "red:2:4"],
        call(1, "x", "get", None, BLUE) + call(2, A, "get", 1.5, BLUE) + call(3, A, "get", None, BLUE),
        no(1, 20, "grain name is not well formed", BLUE) + no(2, 13, "number is not a whole number of 64 bits", BLUE)
        + no(3, 21, "tenant blue is unknown", BLUE)),
]

# ---- words


def refused_tenant(name, number, *words) -> Row:
    """The tenant argument with this number is refused, and no line is answered."""
    lines = FIRST_CALL + up(A) + run(A, 1)
    return Row(f"tenants: {name}", ["steps", *words], lines, [], 2, f"silo: tenant argument {number} is refused")


WORDS = [
    refused_tenant("one that stands twice", 3, "red:1:1", "blue:1:1", "red:2:2"),
    refused_tenant("one that stands twice with the same limits", 2, "red:2:4", "red:2:4"),
    refused_tenant("one that stands twice, before one that isn't well formed", 2, "red:2:4", "red:1:1", "x"),
    refused_tenant("one that isn't well formed, before one that stands twice", 1, "x", "red:2:4", "red:1:1"),
    refused_tenant("a thousand, and one more", 1001, *(f"t{n}:1:1" for n in range(1_001))),
    refused_tenant("a zero before the activations", 1, "red:02:4", "blue:2:4"),
    refused_tenant("a zero before the activations of the second", 2, "red:2:4", "red:02:4"),
    refused_tenant("a zero before the mailbox", 1, "--age", "1", "red:2:04"),
    refused_tenant("an upper case name", 1, "Red:1:1"),
    refused_tenant("no activation", 1, "red:0:4"),
    refused_tenant("an activation too many", 1, "red:10001:1"),
    refused_tenant("a mailbox of nothing", 1, "red:1:0"),
    refused_tenant("a place of the mailbox too many", 1, "red:1:1001"),
    refused_tenant("a plus sign", 1, "red:+1:1"),
    refused_tenant("a number past 64 bits", 1, "red:1:99999999999999999999"),
    refused_tenant("no mailbox", 1, "red:1"),
    refused_tenant("a part too many", 1, "red:1:1:1"),
    refused_tenant("an empty number", 1, "red::1"),
    refused_tenant("an empty word", 1, ""),
    Row("words: the least numbers", ["steps", "--age", "1", "a:1:1"], [], []),
    Row("words: the greatest numbers", ["steps", "--age=86400000", "a-b-1:10000:1000"], [], []),
    Row("words: the age behind the tenant", ["steps", "red:2:4", "--age", "900000"], [], []),
    Row("words: the version, in short", ["-V"], FIRST_CALL + up(A) + run(A, 1), ["silo 0.2.0"]),
]

# ---- lanes

OF_THREE_LANES = (
    call(1, RELAY, "join", {"grain": "counter/blue:x"}, "red/c2") + ["hello"] + tick(5) + FIRST_CALL + begin(A)
    + call(2, RELAY, "send", {"args": None, "method": "get"}, "red/c2") + call(2, A, "get") + call(3, BLUE_A, "get"))
REPLIES_OF_THREE_LANES = (
    NOT_A_REQUEST * 2 + ok(1, True, "red/c2") + ok(2, 1, "red/c2") + ok(1, 3) + ok(2, 3)
    + no(3, 40, "tenant red may not call a grain of tenant blue")
    + told(error=40, from_=RELAY, text="tenant red may not call a grain of tenant blue"))
LANES = [
    Row("lanes by the usual number of workers", ["serve", "red:2:4"], OF_THREE_LANES, REPLIES_OF_THREE_LANES),
    Row("lanes by 64 workers", ["serve", "--workers", "64", "--age", "1", "red:2:4"],
        OF_THREE_LANES, REPLIES_OF_THREE_LANES),
    Row("one client is served", ["serve", "--workers", "1", "red:2:4"], FIRST_CALL, ok(1, 3)),
    Row("what was served is written down", ["serve", "--workers", "1", "--journal", "j", "red:2:4"],
        FIRST_CALL, ok(1, 3), files_after={"j": text(WRITTEN)}),
    Row("the ages of kinds are written down, ascending",
        ["serve", "--workers", "1", "--journal", "j", "--ages", "sheet=5,counter=7,c=86400000", "red:2:4"],
        FIRST_CALL, ok(1, 3),
        files_after={"j": text(WRITTEN[:3] + ["kind c 86400000", "kind counter 7", "kind sheet 5"] + WRITTEN[3:])}),
    Row("lanes of grains that rest", ["serve", "red:2:4"],
        FIRST_CALL + call(2, A, "rest") + status(3) + call(4, A, "get") + call(5, A, "stay", {"for": 0}),
        ok(1, 3) + ok(2, None) + seen(3, 0, 0, 2) + ok(4, 0) + no(5, 61, MISFIT)),
    Row("two clients of two tenants", ["serve", "--workers", "2", *TWO_TENANTS],
        call(1, A, "get") + call(1, BLUE_A, "get", None, BLUE), ok(1, 0) + ok(1, 0, BLUE)),
    Row("four clients of two tenants", ["serve", "--workers", "4", *TWO_TENANTS],
        call(1, A, "get") + call(1, A, "get", None, "red/c2") + call(1, BLUE_A, "get", None, BLUE)
        + call(1, BLUE_A, "get", None, "blue/c2"),
        ok(1, 0) + ok(1, 0, "red/c2") + ok(1, 0, BLUE) + ok(1, 0, "blue/c2")),
    Row("a client's next step waits for the reply to its last", ["serve", "--workers", "4", "red:2:4"],
        FIRST_CALL + call(2, A, "get") + status(3), ok(1, 3) + ok(2, 3) + seen(3, 1, 0, 2)),
    Row("refusals first, then each client's replies, then those to grains", ["serve", "--workers", "1", *TWO_TENANTS],
        call(1, RELAY, "join", {"grain": "counter/blue:x"}) + ["hello"]
        + call(2, RELAY, "send", {"args": None, "method": "get"}) + begin(A) + call(1, BLUE_A, "get", None, BLUE)
        + tick(5) + tick(4),
        NOT_A_REQUEST * 2 + ok(1, True) + ok(2, 1) + ok(1, 0, BLUE)
        + told(error=40, from_=RELAY, text="tenant red may not call a grain of tenant blue")),
    Row("the least grain's replies come first", ["serve", "--workers", "1", *TWO_TENANTS],
        sum((call(n, relay, "join", {"grain": "clock/red:a"}) + call(n, relay, "send", {"args": None, "method": "get"})
             for n, relay in ((1, "relay/red:z"), (2, "relay/red:a"))), []),
        ok(1, True) + ok(1, 1) + ok(2, True) + ok(2, 1)
        + told(error=22, from_="relay/red:a", text="kind clock is unknown")
        + told(error=22, from_="relay/red:z", text="kind clock is unknown")),
]

ROWS = [*COUNTERS, *STORAGE, *OTHER_KINDS, *TENANTS, *CLOCK, *RESTING, *LINES, *BYTES_IN_LINES, *WORDS, *AGES_OF_KINDS, *LANES,
        *TOLD, *JOURNALS, *BYTES_IN_JOURNALS, *MIGRATED, *ANSWERED, *WAITING, *DATA, *FOLDERS, *LISTED]
