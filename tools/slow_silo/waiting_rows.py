"""Worked rows of how much is delivered behind a line, and of turns that are given up since too much waits, to be followed by hand.

Those of `WAITING` are inputs of the program. Each of `WAITING_CALLS` is a function that says whether it holds. A message of `put` with a
text of n bytes under a name of one letter has n + 41 bytes, and at each relay above 32 more.
"""

from __future__ import annotations

from typing import Callable

from .answer_rows import join, send
from .data_rows import refused
from .folder_texts import log_of, words_said
from .program import run_program
from .row import Row
from .short_lines import A, BLUE, BLUE_A, call, ok, seen, status, text, told

LONG = "x" * 60_000


def relay(name: str) -> str:
    return f"relay/red:{name}"


def sheet(name: str) -> str:
    return f"sheet/red:{name}"


def listed(number: int, name: str) -> list:
    return call(number, sheet(name), "list")


def of_blue(lines: list) -> list:
    """The same lines of blue."""
    return [line.replace("red", "blue") for line in lines]


def put(length: int) -> dict:
    return {"name": "k", "value": "x" * length}


def through(relays: int, method: str, args: object = None) -> tuple:
    """What a relay is asked to send, so that the call passes through so many relays below it."""
    for _ in range(relays):
        method, args = "send", {"method": method, "args": args}
    return method, args


# ---- what is delivered behind a line

def joined(*members: tuple) -> list:
    return sum((join(number, relay(one), member) for number, (one, member) in enumerate(members, 1)), [])


# two relays below a relay, with two sheets each
BELOW = joined(("r", relay("s")), ("r", relay("t")), ("s", sheet("a")), ("s", sheet("b")), ("t", sheet("c")), ("t", sheet("d")))
BELOW_SENT = BELOW + send(7, relay("r"), *through(1, "put", put(60_000)))
BELOW_OUT = sum((ok(number, True) for number in range(1, 7)), []) + ok(7, 2)
# a relay with a relay and three sheets, that one likewise, and a sheet below the third: four messages of n + 105 bytes, four of n + 73,
# and the last one
DOWN = joined(("r", relay("s")), *(("r", sheet(name)) for name in "abc"), ("s", relay("t")), *(("s", sheet(name)) for name in "def"),
              ("t", sheet("g")))
DOWN_OUT = sum((ok(number, True) for number in range(1, 10)), []) + ok(10, 4)


def down(length: int) -> list:
    return DOWN + send(10, relay("r"), *through(2, "put", put(length))) + status(11)


DELIVERED = [
    Row("no more is delivered once 262,144 bytes were, and the rest goes on behind the tenant's next line",
        ["answer", "red:7:4", "blue:2:2"], BELOW_SENT + call(1, BLUE_A, "get", by=BLUE) + status(8) + listed(9, "d"),
        BELOW_OUT + ok(1, 0, BLUE) + seen(8, 6, 0, 12) + ok(9, ["k"])),
    Row("nothing is delivered where exactly so many were", ["answer", "red:10:4"], down(32_679), DOWN_OUT + seen(11, 9, 0, 18)),
    Row("the last delivery may pass the bound", ["answer", "red:10:4"], down(32_678), DOWN_OUT + seen(11, 10, 0, 19)),
    Row("as many calls as --sends says are delivered, though there is room for more bytes", ["answer", "--sends", "3", "red:7:4"],
        BELOW_SENT + status(8), BELOW_OUT + seen(8, 4, 0, 10)),
]

# ---- turns that are given up

# Two relays with four members each. One call is delivered behind each line: those of line 9, then two of line 10, to e and to f. Before
# that to f three of line 10 wait, and four of each of the lines 11 to 14.
EIGHT_OUT = sum((ok(number, True) for number in range(1, 9)), []) + sum((ok(number, 4) for number in range(9, 15)), [])


def eight(long: int, short: int, f: str = sheet("f")) -> list:
    """Sixteen calls and three wait, with texts so long."""
    members = [*map(sheet, "abcde"), f, *map(sheet, "gh")]
    lines = joined(*(("r" if place < 4 else "q", member) for place, member in enumerate(members)))
    for number in range(9, 15):
        lines += send(number, relay("q" if number == 10 else "r"), "put", put(short if number == 10 else long))
    return lines + status(15) + listed(16, "f") + listed(17, "g") + listed(18, "h")


# four relays, each other's members
RELAYS = [f"r{number}" for number in range(4)]
JOINED, JOINED_OUT = joined(*((one, relay(other)) for one in RELAYS for other in RELAYS)), sum((ok(n, True) for n in range(1, 17)), [])


def flood(relays: int, args: object, statuses: int) -> list:
    return JOINED + send(17, relay("r0"), *through(relays, "get", args)) + sum((status(18 + at) for at in range(statuses)), [])


# Five calls of 60 kB are delivered behind a line. The first five turns each send four, and 19 wait, so two are given up; where 17 wait, the
# turn sends four again: from the eighth on it is each fourth one. So 16, 20 and 20 calls are sent by those of before, and the last ones
# send nothing.
FLOOD = flood(3, LONG, 13)
FLOOD_OUT = JOINED_OUT + ok(17, 4) + sum((seen(18 + at, 4, 0, min(22 + 5 * at, 77)) for at in range(13)), [])
BESIDE = of_blue(join(1, relay("r"), A) + send(2, relay("r"), "add", {"by": 1}) + call(3, A, "get")
                 + send(4, relay("r"), "add", {"by": 1}) + call(5, A, "get"))
BESIDE_OUT = ok(1, True, BLUE) + ok(2, 1, BLUE) + ok(3, 1, BLUE) + ok(4, 1, BLUE) + ok(5, 2, BLUE)
WORDS = ["answer", "red:4:4", "blue:2:2"]


def with_blue(lines: list, blue: list) -> list:
    """One more of blue's behind each of the last lines."""
    first = len(lines) - len(blue)
    return lines[:first] + [one for pair in zip(lines[first:], blue) for one in pair]


ONE_EACH, JOURNALLED = ["answer", "--sends", "1", "red:10:4"], ["answer", "--journal", "j", *WORDS[1:]]
GIVEN_UP = [
    Row("messages of 1,048,576 bytes may wait", ONE_EACH, eight(59_960, 29_479),
        EIGHT_OUT + seen(15, 8, 0, 20) + ok(16, ["k"]) + ok(17, ["k"]) + ok(18, ["k"])),
    Row("while one byte more waits, a turn is given up: its grain is active, and nothing has changed", ONE_EACH, eight(59_961, 29_474),
        EIGHT_OUT + seen(15, 8, 0, 20) + ok(16, []) + ok(17, ["k"]) + ok(18, ["k"])),
    Row("a delivery that is refused is told then, too", ONE_EACH, eight(60_000, 60_000, "sheet/blue:f"),
        EIGHT_OUT + told(error=40, from_=relay("q"), text="tenant red may not call a grain of tenant blue") + seen(15, 7, 0, 19)
        + ok(16, []) + ok(17, []) + ok(18, ["k"])),
    Row("a turn that is given up sends nothing, and nobody is told", JOURNALLED, FLOOD, FLOOD_OUT),
    Row("a tenant beside is served as ever", WORDS, with_blue(FLOOD, BESIDE), with_blue(FLOOD_OUT, BESIDE_OUT)),
    # Three more wait behind each delivery: 9,004 behind 3,000 of them, and 10,003 behind 3,333. From then on each fourth turn sends. So of
    # the 4,096 turns of the sixth level, which begins behind 1,364, 1,969 and 531 send, and 5,460 and 10,000 calls are delivered in all.
    Row("while more than 10,000 calls wait, too", WORDS, flood(6, None, 16),
        JOINED_OUT + ok(17, 4) + sum((seen(18 + at, 4, 0, min(17 + 1_000 * (at + 1), 15_477)) for at in range(16)), [])),
]

# ---- with data

DATA_WORDS, BELOW_WORDS = ["answer", "--data", "d", *WORDS[1:]], ["answer", "--data", "d", "red:7:4"]
BEGUN = log_of((FLOOD, FLOOD_OUT), words=words_said(DATA_WORDS))
# 340 calls in all, which were delivered at once, and none of whose turns was given up
EARLIER = log_of((FLOOD[:18], FLOOD_OUT[:17] + seen(18, 4, 0, 357)), words=words_said(DATA_WORDS))
WITH_DATA = [
    Row("what was left goes on behind the next line of a start", BELOW_WORDS, status(8) + listed(9, "d"), seen(8, 6, 0, 12) + ok(9, ["k"]),
        files={"d/log": log_of((BELOW_SENT, BELOW_OUT), words=words_said(BELOW_WORDS))}),
    Row("turns that were given up are so again in a start", DATA_WORDS, status(31), seen(31, 4, 0, 77), files={"d/log": BEGUN}),
    refused("a log whose lines were told before turns were given up", EARLIER, 4, "silo: log line 26 is answered otherwise", DATA_WORDS),
]

WAITING = DELIVERED + GIVEN_UP + WITH_DATA


def the_journal_has_each_turn_that_is_given_up() -> bool:
    """Of the first 40 the 26 that don't send, and then three, until 17 wait. An audit finds no difference."""
    journal = run_program(JOURNALLED, text(FLOOD).encode()).files["j"]
    return journal.count(b"\nabandon ") == 29 and run_program(["audit", "j"], files={"j": journal}).status == 0


WAITING_CALLS: tuple[Callable[[], bool], ...] = (the_journal_has_each_turn_that_is_given_up,)
