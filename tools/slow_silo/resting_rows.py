"""Worked rows of grains that rest and stay, and of kinds with ages of their own."""

from __future__ import annotations

from .row import Row
from .short_lines import (A, B, BLUE, BLUE_A, NOT_NOW, RELAY, SHEET, SWEEP, at, begin, call, end, no, ok, poke, run, save,
                          seen, status, tick, up)

FIRST_CALL = call(1, A, "add", {"by": 3})
REST_THEN_ADD = call(1, A, "rest") + call(2, A, "add", {"by": 3}) + up(A)
STAY_50 = call(1, A, "stay", {"for": 50})
MISFIT = "arguments do not fit"


def refused_stay(name, argument) -> Row:
    """The argument of `stay` is refused, and the entry goes at its age."""
    return Row(f"stay: {name}", ["steps", "--age", "1", "red:2:4"],
               call(1, A, "stay", argument) + up(A) + run(A, 1) + tick(1) + SWEEP + status(2),
               no(1, 61, MISFIT) + seen(2, 0, 1, 1))


RESTING = [
    Row("a kind with an age of its own", ["steps", "--age", "1000", "--ages", "counter=10", "red:4:4"],
        tick(100) + FIRST_CALL + call(2, SHEET, "list") + up(A) + up(SHEET) + run(A, 1) + run(SHEET, 2) + tick(110) + SWEEP
        + status(3),
        ok(1, 3) + ok(2, []) + seen(3, 1, 110, 2)),
    Row("a kind's own age may be above that of the others",
        ["steps", "--age", "10", "--ages", "sheet=20,clock=1", "red:4:4"],
        FIRST_CALL + call(2, SHEET, "list") + up(A) + up(SHEET) + run(A, 1) + run(SHEET, 2) + tick(10) + SWEEP + status(3)
        + tick(19) + SWEEP + status(4) + tick(20) + SWEEP + status(5),
        ok(1, 3) + ok(2, []) + seen(3, 1, 10, 2) + seen(4, 1, 19, 2) + seen(5, 0, 20, 2)),
    Row("each kind has its own age, and it is every tenant's",
        ["steps", "--ages", "sheet=3,relay=2,counter=1", "red:2:4", "blue:2:4"],
        FIRST_CALL + call(1, BLUE_A, "get", None, BLUE) + call(2, RELAY, "leave", {"grain": A})
        + sum((up(grain) for grain in (A, BLUE_A, RELAY)), []) + run(A, 1) + run(BLUE_A, 1) + run(RELAY, 2)
        + tick(1) + SWEEP + status(3) + status(2, BLUE) + tick(2) + SWEEP + status(4),
        ok(1, 3) + ok(1, 0, BLUE) + ok(2, False) + seen(3, 1, 1, 2) + seen(2, 0, 1, 1, BLUE) + seen(4, 0, 2, 2)),
    Row("an entry that stays", ["steps", "--age", "10", "red:2:4"],
        tick(100) + STAY_50 + up(A) + run(A, 1) + tick(149) + SWEEP + status(2) + tick(150) + SWEEP + status(3),
        ok(1, None) + seen(2, 1, 149, 1) + seen(3, 0, 150, 1)),
    Row("an entry that stays for less than its age goes at its age", ["steps", "--age", "100", "red:2:4"],
        STAY_50 + up(A) + run(A, 1) + tick(99) + SWEEP + status(2) + tick(100) + SWEEP + status(3),
        ok(1, None) + seen(2, 1, 99, 1) + seen(3, 0, 100, 1)),
    Row("an entry stays from when the turn ends, and a later turn doesn't end it", ["steps", "--age", "10", "red:2:4"],
        STAY_50 + up(A) + begin(A) + tick(5) + end(A, 1) + tick(20) + call(2, A, "get") + run(A, 2) + tick(54) + SWEEP
        + status(3) + tick(55) + SWEEP + status(4),
        ok(1, None) + ok(2, 0) + seen(3, 1, 54, 2) + seen(4, 0, 55, 2)),
    Row("a later stay counts, also one that ends before", ["steps", "--age", "10", "red:2:4"],
        STAY_50 + call(2, A, "stay", {"for": 20}) + up(A) + run(A, 1) + run(A, 2) + tick(19) + SWEEP + status(3) + tick(20)
        + SWEEP + status(4),
        ok(1, None) + ok(2, None) + seen(3, 1, 19, 2) + seen(4, 0, 20, 2)),
    Row("the least and the longest that an entry stays", ["steps", "--age", "1", "red:2:4"],
        call(1, A, "stay", {"for": 1}) + call(2, B, "stay", {"for": 86_400_000}) + up(A) + up(B) + run(A, 1) + run(B, 2)
        + tick(1) + SWEEP + status(3) + tick(86_399_999) + SWEEP + status(4) + tick(86_400_000) + SWEEP + status(5),
        ok(1, None) + ok(2, None) + seen(3, 1, 1, 2) + seen(4, 1, 86_399_999, 2) + seen(5, 0, 86_400_000, 2)),
    Row("an entry that rests goes when nothing waits", ["steps", "red:2:4"],
        REST_THEN_ADD + run(A, 1) + status(3) + run(A, 2) + status(4),
        ok(1, None) + seen(3, 1, 0, 2) + ok(2, 3) + seen(4, 0, 0, 2)),
    Row("an entry that rests alone goes at once, and what wasn't saved is lost", ["steps", "red:2:4"],
        FIRST_CALL + call(2, A, "rest") + up(A) + run(A, 1) + run(A, 2) + status(3) + call(4, A, "get") + up(A) + run(A, 3)
        + status(5),
        ok(1, 3) + ok(2, None) + seen(3, 0, 0, 2) + ok(4, 0) + seen(5, 1, 0, 3)),
    Row("what was saved is there after a rest", ["steps", "red:2:4"],
        FIRST_CALL + call(2, A, "save") + call(3, A, "rest") + up(A) + run(A, 1) + save(A, 2) + run(A, 3) + call(4, A, "get")
        + up(A) + run(A, 4),
        ok(1, 3) + ok(2, "1") + ok(3, None) + ok(4, 3)),
    Row("the method, its argument and the end of a turn that rests", ["steps", "red:2:4"],
        call(1, A, "rest", {}) + up(A) + run(A, 1) + call(2, A, "rest", 1) + run(A, 2) + status(3),
        no(1, 61, MISFIT) + no(2, 61, MISFIT) + seen(3, 1, 0, 2)),
    Row("an entry that rests goes after a code, too", ["steps", "red:2:4"],
        call(1, A, "rest") + call(2, A, "fly") + up(A) + run(A, 1) + status(3) + run(A, 2) + status(4),
        ok(1, None) + seen(3, 1, 0, 2) + no(2, 60, "method is unknown") + seen(4, 0, 0, 2)),
    Row("an entry that rests goes after a turn that is abandoned, too", ["steps", "red:2:4"],
        REST_THEN_ADD + run(A, 1) + begin(A) + at("abandon", A, turn=2) + status(3),
        ok(1, None) + no(2, 70, "turn met want of memory") + seen(3, 0, 0, 2)),
    Row("an entry that rests goes after a store that is done", ["steps", "red:2:4"],
        call(1, A, "rest") + call(2, A, "save") + up(A) + run(A, 1) + save(A, 2) + status(3) + poke(4, A, 5),
        ok(1, None) + ok(2, "1") + seen(3, 0, 0, 2) + ok(4, "2")),
    Row("an entry that rests goes after a store that fails", ["steps", "red:2:4"],
        call(1, A, "rest") + call(2, A, "clear") + up(A) + run(A, 1) + begin(A) + at("store", A, turn=2, failed=True)
        + status(3),
        ok(1, None) + no(2, 53, "storage failed") + seen(3, 0, 0, 2)),
    Row("an entry that rests isn't idle while a turn that reads is open", ["steps", "red:2:4"],
        call(1, A, "rest") + call(2, A, "get") + call(3, A, "get") + up(A) + run(A, 1) + begin(A) * 2 + end(A, 2)
        + status(4) + end(A, 3) + status(5),
        ok(1, None) + ok(2, 0) + seen(4, 1, 0, 3) + ok(3, 0) + seen(5, 0, 0, 3)),
    Row("an entry that rests isn't swept while a request waits, and an abandoned rest doesn't rest",
        ["steps", "--age", "1", "red:2:4"],
        REST_THEN_ADD + run(A, 1) + tick(5) + SWEEP + status(3) + run(A, 2) + status(4) + call(5, B, "rest") + up(B) + begin(B)
        + at("abandon", B, turn=3) + status(6),
        ok(1, None) + seen(3, 1, 5, 2) + ok(2, 3) + seen(4, 0, 5, 2) + no(5, 70, "turn met want of memory") + seen(6, 1, 5, 3)),
    Row("staying ends resting", ["steps", "--age", "1", "red:2:4"],
        call(1, A, "rest") + call(2, A, "stay", {"for": 5}) + up(A) + run(A, 1) + run(A, 2) + tick(4) + SWEEP
        + status(3) + tick(5) + SWEEP + status(4),
        ok(1, None) + ok(2, None) + seen(3, 1, 4, 2) + seen(4, 0, 5, 2)),
    Row("resting ends staying", ["steps", "--age", "1", "red:2:4"], STAY_50 + call(2, A, "rest") + up(A) + run(A, 1) + run(A, 2)
        + status(3), ok(1, None) + ok(2, None) + seen(3, 0, 0, 2)),
    Row("a row that another wrote ends an entry that rests, and the next neither rests nor stays",
        ["steps", "--age", "1", "red:2:4"],
        call(1, A, "rest") + call(2, A, "save") + call(3, A, "get") + up(A) + run(A, 1) + poke(4, A, 7) + save(A, 2) + up(A)
        + run(A, 3) + status(5) + tick(1) + SWEEP + status(6),
        ok(1, None) + ok(4, "1") + no(2, 54, f"stored state of {A} has changed") + ok(3, 7) + seen(5, 1, 0, 3)
        + seen(6, 0, 1, 3)),
    Row("a row that another wrote ends an entry that stays, and the next goes at its age", ["steps", "--age", "1", "red:2:4"],
        STAY_50 + call(2, A, "save") + call(3, A, "get") + up(A) + run(A, 1) + poke(4, A, 7) + save(A, 2) + up(A)
        + run(A, 3) + tick(1) + SWEEP + status(5),
        ok(1, None) + ok(4, "1") + no(2, 54, f"stored state of {A} has changed") + ok(3, 7) + seen(5, 0, 1, 3)),
    Row("what an entry that rests sent goes out when it is gone", ["steps", "red:2:8"],
        call(1, RELAY, "join", {"grain": A}) + call(2, RELAY, "rest")
        + call(3, RELAY, "send", {"args": {"by": 2}, "method": "add"}) + up(RELAY)
        + run(RELAY, 1) + run(RELAY, 2) + run(RELAY, 3) + status(4) + at("deliver", RELAY) + up(A)
        + run(A, 4) + call(5, A, "get") + run(A, 5),
        ok(1, True) + ok(2, None) + ok(3, 1) + seen(4, 0, 0, 3) + ok(5, 2)),
    Row("a relay sends its member to rest", ["steps", "red:2:8"],
        call(1, RELAY, "join", {"grain": A}) + call(2, RELAY, "send", {"args": None, "method": "rest"})
        + up(RELAY) + run(RELAY, 1) + run(RELAY, 2) + at("deliver", RELAY) + up(A) + status(3) + run(A, 3) + status(4),
        ok(1, True) + ok(2, 1) + seen(3, 2, 0, 3) + seen(4, 1, 0, 3)),
    Row("a state of another shape is kept by a turn that rests or stays", ["steps", "red:2:4"],
        poke(1, A, "x") + call(2, A, "stay", {"for": 1}) + call(3, A, "rest") + call(4, A, "save") + up(A) + run(A, 1)
        + run(A, 2) + save(A, 3) + call(5, A, "get") + poke(6, "sheet/red:x", 1) + up(A) + run(A, 4),
        ok(1, "1") + ok(2, None) + ok(3, None) + ok(4, "2") + ok(6, "1") + ok(5, 0)),
    Row("sheets and relays rest and stay", ["steps", "--age", "1", "red:2:4"],
        call(1, SHEET, "stay", {"for": 9}) + call(2, RELAY, "stay", {"for": 9}) + up(SHEET) + up(RELAY) + run(SHEET, 1)
        + run(RELAY, 2) + tick(8) + SWEEP + status(3) + call(4, SHEET, "rest") + call(5, RELAY, "rest") + run(SHEET, 3)
        + run(RELAY, 4) + status(6),
        ok(1, None) + ok(2, None) + seen(3, 2, 8, 2) + ok(4, None) + ok(5, None) + seen(6, 0, 8, 4)),
    Row("a turn that rests isn't one that only reads", ["steps", "red:2:4"],
        call(1, A, "get") + call(2, A, "rest") + call(3, A, "stay", {"for": 1}) + up(A) + begin(A) * 2 + end(A, 1) + begin(A) * 2
        + end(A, 2) + run(A, 3),
        NOT_NOW + ok(1, 0) + NOT_NOW + ok(2, None) + ok(3, None)),
    refused_stay("0", {"for": 0}),
    refused_stay("a day and a millisecond", {"for": 86_400_001}),
    refused_stay("below 0", {"for": -1}),
    refused_stay("the last number", {"for": 2**63 - 1}),
    refused_stay("the least number", {"for": -(2**63)}),
    refused_stay("a text", {"for": "5"}),
    refused_stay("a truth value", {"for": True}),
    refused_stay("a name more", {"for": 5, "from": 5}),
    refused_stay("another name", {"by": 5}),
    refused_stay("nothing", None),
    refused_stay("a number alone", 5),
]

# ---- words


def refused_ages(name, ages) -> Row:
    """The text of `--ages` is refused, and no line is answered."""
    lines = FIRST_CALL + up(A) + run(A, 1)
    return Row(f"ages: {name}", ["steps", "--ages", ages, "red:2:4"], lines, [], 2, "silo: ages are refused")


KINDS_64 = [f"k{number}=1" for number in range(64)]
AGES_OF_KINDS = [
    refused_ages("0", "counter=0"),
    refused_ages("a day and a millisecond", "counter=86400001"),
    refused_ages("a zero before it", "counter=010"),
    refused_ages("a plus sign", "counter=+10"),
    refused_ages("a minus sign", "counter=-10"),
    refused_ages("a space", "counter= 10"),
    refused_ages("a number past 64 bits", "counter=99999999999999999999"),
    refused_ages("no number", "counter="),
    refused_ages("no kind", "=10"),
    refused_ages("a kind alone", "counter"),
    refused_ages("a number alone", "10"),
    refused_ages("an upper case kind", "Counter=10"),
    refused_ages("a kind that is too long", "k" * 33 + "=10"),
    refused_ages("a part too many", "counter=10=10"),
    refused_ages("a colon", "counter:10"),
    refused_ages("a kind that stands twice", "counter=10,sheet=10,counter=20"),
    refused_ages("a kind that stands twice with the same age", "counter=10,counter=10"),
    refused_ages("a comma at the end", "counter=10,"),
    refused_ages("a comma at the beginning", ",counter=10"),
    refused_ages("two commas", "counter=10,,sheet=10"),
    refused_ages("a space behind a comma", "counter=10, sheet=10"),
    refused_ages("a comma alone", ","),
    refused_ages("the empty text", ""),
    refused_ages("a 65th kind", ",".join([*KINDS_64, "counter=1"])),
    Row("ages: 64 kinds, of which the program knows none", ["steps", "--ages", ",".join(KINDS_64), "--age", "9", "red:2:4"],
        FIRST_CALL + up(A) + run(A, 1) + tick(8) + SWEEP + status(2) + tick(9) + SWEEP + status(3),
        ok(1, 3) + seen(2, 1, 8, 1) + seen(3, 0, 9, 1)),
    Row("ages: the least and the greatest", ["steps", "--ages=counter=1,sheet=86400000", "red:2:4"],
        FIRST_CALL + up(A) + run(A, 1) + SWEEP + status(2) + tick(1) + SWEEP + status(3),
        ok(1, 3) + seen(2, 1, 0, 1) + seen(3, 0, 1, 1)),
    Row("ages: a tenant that is refused comes first", ["steps", "--ages", "", "red:02:4"], FIRST_CALL, [], 2,
        "silo: tenant argument 1 is refused"),
    Row("ages: an age of all others that is refused comes before", ["steps", "--ages", "", "--age", "0", "red:2:4"],
        FIRST_CALL, [], 2),
    Row("ages: told twice", ["steps", "--ages", "counter=1", "--ages", "sheet=1", "red:2:4"], FIRST_CALL, [], 2),
    Row("ages: without a text", ["steps", "red:2:4", "--ages"], FIRST_CALL, [], 2),
    Row("ages: of lanes", ["serve", "--ages", "counter=1,", "red:2:4"], FIRST_CALL, [], 2, "silo: ages are refused"),
    Row("ages: of a journal", ["audit", "--ages", "counter=1", "j"], [], [], 2),
]
