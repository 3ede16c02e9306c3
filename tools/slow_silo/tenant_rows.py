"""Worked rows of tenants that come and go by lines, and of a bound on what a tenant keeps, to be followed by hand.

They are of the slow silo alone: the program has neither yet.
"""

from __future__ import annotations

from typing import Callable, Sequence

from .data_rows import ADD, GET
from .folder_rows import JOINS, OTHER_WORDS, SENT
from .folder_texts import after, changed, lines_text, log_of, of, point, words_said
from .machine import Limits
from .once_rows import add, of_program, last, of_both_forms, once, saw
from .program import run_program
from .row import Row
from .short_lines import A, B, BLUE, BLUE_A, NOT_A_REQUEST, RELAY, SHEET, SWEEP, call, line, no, ok, poke, seen, status, tick, told
from .switch_rows import refused, row
from .tenants import done

OPEN = ["answer", "--data", "d", "--checkpoints", "--replies", "9", "--operator", "red:2:4"]
BOTH = [*OPEN, "blue:1:1"]
CLOSED = [word for word in OPEN if word != "--operator"]


def tenant(name: object, activations: object, mailbox: object) -> list:
    return line(op="tenant", tenant=name, activations=activations, mailbox=mailbox)


def drop(name: object) -> list:
    return line(op="drop", tenant=name)


def had(name: str, *limits: int) -> list:
    """What is answered: the limits that there were, if any."""
    return [done(name, Limits(*limits) if limits else None)]


def not_done(name: str, code: int, text: str) -> list:
    return told(error=code, tenant=name, text=text)


def has(name: str, requests: int, sends: int, activations: int, rows: int, callers: int) -> list:
    return not_done(name, 47, f"tenant {name} has {requests} requests, {sends} sends, {activations} activations, {rows} rows, "
                              f"{callers} callers")


def asked(name: str, lines: list, out: list, words: Sequence[str] = tuple(OPEN)) -> Row:
    return Row(name, list(words), lines, out)


# ---- tenants

BLUE_GET = call(1, BLUE_A, "get", None, BLUE)
UNKNOWN = no(1, 21, "tenant blue is unknown", BLUE)
TABLE = "there may be 1 to 1000 tenants"
COMING = [
    Row("what is answered", OPEN, tenant("blue", 1, 2) + tenant("blue", 3, 4) + drop("blue") + drop("blue"),
        ['{"ok":null,"tenant":"blue"}', '{"ok":{"activations":1,"mailbox":2},"tenant":"blue"}',
         '{"ok":{"activations":3,"mailbox":4},"tenant":"blue"}', '{"error":21,"tenant":"blue","text":"tenant blue is unknown"}']),
    asked("a tenant is known from its line on", BLUE_GET + tenant("blue", 1, 1) + BLUE_GET, UNKNOWN + had("blue") + ok(1, 0, BLUE)),
    asked("nothing is kept of what it asked before",
          once(BLUE_GET * 2) + tenant("blue", 1, 1) + last(2, BLUE) + once(BLUE_GET) + last(2, BLUE),
          UNKNOWN * 2 + had("blue") + ok(2, None, BLUE) + ok(1, 0, BLUE) + ok(2, 1, BLUE)),
    asked("it has the silo's clock", tick(7) + tenant("blue", 1, 1) + status(1, BLUE), had("blue") + seen(1, 0, 7, 0, BLUE)),
    asked("until it is closed", tenant("blue", 1, 1) + status(1, BLUE) + drop("blue") + BLUE_GET,
          had("blue") + seen(1, 0, 0, 0, BLUE) + had("blue", 1, 1) + UNKNOWN),
    asked("a tenant that comes again is as one that never was", (tenant("blue", 1, 1) + drop("blue")) * 2 + tenant("blue", 2, 2) + BLUE_GET,
          (had("blue") + had("blue", 1, 1)) * 2 + had("blue") + ok(1, 0, BLUE)),
    asked("wider limits count at once", ADD + call(2, B, "get") + call(3, SHEET, "list") + tenant("red", 3, 4) + call(3, SHEET, "list"),
          ok(1, 3) + ok(2, 0) + no(3, 41, "tenant red has no free activation") + had("red", 2, 4) + ok(3, [])),
    asked("of narrower ones what is there stays", ADD + call(2, B, "get") + tenant("red", 1, 1) + GET + call(2, B, "get")
          + call(3, SHEET, "list"),
          ok(1, 3) + ok(2, 0) + had("red", 2, 4) + ok(3, 3) + ok(2, 0) + no(3, 41, "tenant red has no free activation")),
    asked("what grains sent waits on", SENT + tenant("red", 9, 5) + status(4) * 2 + call(5, A, "get"),
          ok(1, True) + ok(2, True) + ok(3, 2) + had("red", 9, 4) + seen(4, 2, 0, 4) + seen(4, 3, 0, 5) + ok(5, 1),
          ["answer", "--data", "d", "--sends", "1", "--operator", "red:9:4"]),
    asked("so do rows, states and receipts", once(poke(1, B, 5) + add(2, 3)) + call(3, A, "save") + tenant("red", 2, 5)
          + once(poke(1, B, 6) + add(2, 4)) + call(3, A, "save") + call(4, B, "get"),
          ok(1, "1") + ok(2, 3) + ok(3, "1") + had("red", 2, 4) + ok(1, "1") + ok(2, 3) + ok(3, "2") + ok(4, 5)),
]
KEEPING = [
    asked("a tenant isn't closed once a request was counted", tenant("blue", 1, 1) + call(1, BLUE_A, "rest", None, BLUE) + drop("blue"),
          had("blue") + ok(1, None, BLUE) + has("blue", 1, 0, 0, 0, 0)),
    asked("nor if it has a row", tenant("blue", 1, 1) + poke(1, BLUE_A, 4, BLUE) + drop("blue"),
          had("blue") + ok(1, "1", BLUE) + has("blue", 0, 0, 0, 1, 0)),
    asked("nor a caller with a number, though its reply was seen", tenant("blue", 1, 1) + once(call(3, "what", "get", None, BLUE))
          + saw(call(4, "what", "get", None, BLUE), 3) + drop("blue"),
          had("blue") + no(3, 20, "grain name is not well formed", BLUE) + no(4, 20, "grain name is not well formed", BLUE)
          + has("blue", 0, 0, 0, 0, 1)),
    asked("all that it has is told", once(JOINS) + SENT[2:] + call(4, RELAY, "save") + poke(5, B, 1) + tenant("blue", 1, 1) + drop("red"),
          ok(1, True) + ok(2, True) + ok(3, 2) + ok(4, "1") + ok(5, "1") + had("blue") + has("red", 4, 2, 1, 2, 1),
          ["answer", "--data", "d", "--sends", "0", "--replies", "9", "--operator", "red:9:4"]),
    asked("one that was only asked what it was refused is closed", tenant("blue", 1, 1) + call(1, A, "get", None, BLUE) + drop("blue"),
          had("blue") + no(1, 40, "tenant blue may not call a grain of tenant red", BLUE) + had("blue", 1, 1)),
    asked("the last one isn't closed", drop("red"), not_done("red", 46, TABLE)),
    asked("nor the last one that has something", ADD + drop("red"), ok(1, 3) + has("red", 1, 0, 1, 0, 0)),
]
FORMS = [
    asked("members that are none", tenant("Blue", 1, 1) + tenant(1, 1, 1) + tenant("blue", 0, 1) + tenant("blue", 10_001, 1)
          + tenant("blue", 1, 0) + tenant("blue", 1, 1_001) + tenant("blue", "1", 1) + tenant("blue", 1.5, 1) + drop("") + drop(None)
          + line(op="drop") + line(op="tenant", tenant="blue") + line(op="drop", tenant="blue", from_=BLUE)
          + line(op="drop", tenant="blue", id=1) + tenant("blue", 10_000, 1_000), NOT_A_REQUEST * 14 + had("blue")),
    asked("without the option such lines are none", tenant("blue", 1, 1) + drop("red"), NOT_A_REQUEST * 2, CLOSED),
    asked("nor is there a number without the other option", once(ADD) + last(1) + tenant("blue", 1, 1), NOT_A_REQUEST * 2 + had("blue"),
          ["answer", "--data", "d", "--operator", "red:2:4"]),
    Row("an operator without data", ["answer", "--operator", "red:2:4"], [], [], 2, "error: --data is missing"),
]

# ---- starts

CAME = tenant("blue", 1, 1) + BLUE_GET + tenant("red", 3, 4)
CAME_TOLD = had("blue") + ok(1, 0, BLUE) + had("red", 2, 4)
WIDE = ["answer", "--data", "d", "--checkpoints", "--replies", "9", "--operator", "red:3:4", "blue:1:1"]
LEFT = point(BLUE_GET, words=WIDE)
BEGUN = log_of(words=words_said(OPEN))
BACK = ["answer", "--data", "d", "--checkpoints", "--replies", "9", "red:2:4", "blue:1:1"]


def goes_on(name: str, words: Sequence[str], lines: list, out: list, then: str, left: Sequence[str]) -> Row:
    """A start from that checkpoint, and the one that it leaves."""
    return row(name, after(LEFT, WIDE), lines, out, after(then, left), words)


CLOSING = tenant("grey", 1, 1) + drop("grey")
ROWS_OF_BOTH = [
    row("tenants that came are in the checkpoint", {"d/log": BEGUN}, CAME, CAME_TOLD, after(LEFT, WIDE), OPEN),
    row("their lines are in the log", {"d/log": log_of((CAME, CAME_TOLD), words=words_said(OPEN))}, [], [], after(LEFT, WIDE), OPEN),
    row("and what is asked goes on from their checkpoint", {"d/log": log_of((CAME, CAME_TOLD), words=words_said(OPEN))}, BLUE_GET,
        ok(1, 0, BLUE), after(point(BLUE_GET * 2, of(LEFT), WIDE), WIDE), OPEN),
    row("the log that the checkpoint replaced is passed over, whatever tenants it has",
        {"d/checkpoint": LEFT, "d/log": log_of((CAME, CAME_TOLD), words=words_said(OPEN))}, [], [], after(LEFT, WIDE), OPEN),
    goes_on("a start goes on with them, whatever tenants its words have", OPEN, [], [], LEFT, WIDE),
    goes_on("tenants that its words alone have aren't known", [*OPEN, "green:1:1"], status(1, "green/c"),
            no(1, 21, "tenant green is unknown", "green/c"), changed(LEFT, of(LEFT)), WIDE),
    goes_on("one that was closed is gone", OPEN, CLOSING, had("grey") + had("grey", 1, 1), changed(LEFT, of(LEFT)), WIDE),
    refused("a log without a checkpoint has the words' tenants", {"d/log": BEGUN}, 2, OTHER_WORDS, BOTH),
    refused("a log whose line is answered otherwise", {"d/log": log_of((CAME, had("blue") * 2), words=words_said(OPEN))}, 4,
            "log line 13 is answered otherwise", OPEN),
]
STARTS = [
    goes_on("without the option its words' tenants count", BACK, [], [],
            changed(LEFT, of(LEFT), "operator 1", "operator 0", "tenant red 3 4", "tenant red 2 4"), BACK),
    refused("and leave out none of which something is kept", after(LEFT, WIDE), 2, "the data have the tenant blue", CLOSED),
    row("a folder of before has its own tenants, too", after(point(ADD + BLUE_GET, words=BACK), BACK), [], [],
        after(changed(point(ADD + BLUE_GET, words=BACK), of(point(ADD + BLUE_GET, words=BACK)), "operator 0", "operator 1"),
              [*OPEN, "blue:1:1"]), [*OPEN, "grey:1:1"]),
    refused("without the option its words are others then", after(LEFT, WIDE), 2, OTHER_WORDS, of_program(BACK)),
    refused("so are those of a folder of before", after(point(ADD, words=CLOSED), CLOSED), 2, OTHER_WORDS, of_program(OPEN)),
    refused("and other ages, whatever tenants they have", after(LEFT, WIDE), 2, OTHER_WORDS, [*of_program(OPEN), "--age", "5"]),
    refused("a log of the checkpoint's number with other tenants",
            {"d/checkpoint": LEFT, "d/log": log_of(words=words_said(OPEN), number=of(LEFT))}, 2, OTHER_WORDS, of_program(OPEN)),
]

# ---- bytes

# a counter named by a letter counts 13 bytes and 9, a sheet 11 and 5 as long as it is empty, a relay 11 and 5 and 18 for each such counter
def bounded(room: int, *more: str) -> list:
    return ["answer", "--data", "d", "--bytes", str(room), *(more or ["red:9:4"])]


FULL = "tenant red has no room left"


def put(number: int, value: str) -> list:
    return call(number, SHEET, "put", {"name": "k", "value": value})


PUT = put(1, "xx")
# the sheet has then 11 bytes and 5, and 5 and 7 for its name and its value
SHEET_BYTES = 28
# the relay with two members, and two sends: 11 bytes and 13 for their grains, and 28 for the message
RELAY_BYTES = 11 + 5 + 2 * 18 + 2 * (11 + 13 + 28)
ROOM = [
    asked("a grain is brought up if there is room for its name and its kind's empty state", ADD + call(2, B, "get"),
          ok(1, 3) + no(2, 57, FULL), bounded(43)),
    asked("with a byte more for both", ADD + call(2, B, "get"), ok(1, 3) + ok(2, 0), bounded(44)),
    asked("a turn ends if there is room for the state that it leaves", PUT, ok(1, None), bounded(SHEET_BYTES)),
    asked("otherwise the state stays", PUT + call(2, SHEET, "list"), no(1, 57, FULL) + ok(2, []), bounded(SHEET_BYTES - 1)),
    asked("as much and less may always be had",
          PUT + put(2, "yy") + put(3, "") + PUT + put(4, "xxx") + call(5, SHEET, "get", {"name": "k"}),
          ok(1, None) + ok(2, None) + ok(3, None) + ok(1, None) + no(4, 57, FULL) + ok(5, "xx"), bounded(SHEET_BYTES)),
    asked("what a turn may hold may be saved", PUT + call(2, SHEET, "save") + call(3, SHEET, "save") + call(4, SHEET, "reload"),
          ok(1, None) + ok(2, "1") + ok(3, "2") + ok(4, "2"), bounded(SHEET_BYTES)),
    asked("and is then read without room", PUT + call(2, SHEET, "save") + tick(900_000) + SWEEP + call(3, SHEET, "get", {"name": "k"}),
          ok(1, None) + ok(2, "1") + ok(3, "xx"), bounded(SHEET_BYTES)),
    asked("what wasn't saved makes room when its activation goes", PUT + ADD + call(2, SHEET, "rest") + ADD,
          ok(1, None) + no(1, 57, FULL) + ok(2, None) + ok(1, 3), bounded(SHEET_BYTES)),
    asked("a row keeps its name's room when it is cleared",
          PUT + call(2, SHEET, "save") + call(3, SHEET, "clear") + call(4, SHEET, "rest") + ADD + GET,
          ok(1, None) + ok(2, "1") + ok(3, "2") + ok(4, None) + no(1, 57, FULL) + no(3, 57, FULL),
          bounded(SHEET_BYTES + 4)),
    asked("a poke needs room as a turn does", poke(1, SHEET, {"k": "xx"}) + poke(2, SHEET, {"k": "xxx"}) + poke(3, SHEET, {"k": "yy"})
          + poke(4, B, 1), ok(1, "1") + no(2, 57, FULL) + ok(3, "2") + no(4, 57, FULL), bounded(SHEET_BYTES)),
    asked("of row and state the longer one counts",
          poke(1, SHEET, {"k": "xx"}) + call(2, SHEET, "drop", {"name": "k"}) + PUT + put(3, "xxx"),
          ok(1, "1") + ok(2, True) + ok(1, None) + no(3, 57, FULL), bounded(SHEET_BYTES)),
    asked("a stored state that is shorter than its kind's empty one needs that much to be brought up",
          poke(1, A, None) + GET + poke(2, B, None), ok(1, "1") + no(3, 57, FULL) + no(2, 57, FULL), bounded(21)),
    asked("and counts that much while it is active", poke(1, A, None) + call(2, A, "save") + poke(3, B, None),
          ok(1, "1") + ok(2, "2") + no(3, 57, FULL), bounded(22 + 13)),
    asked("what is sent needs room until it is delivered", SENT + status(4) + call(5, RELAY, "send", {"method": "add", "args": {"by": 1}}),
          ok(1, True) + ok(2, True) + no(3, 57, FULL) + seen(4, 1, 0, 3) + no(5, 57, FULL),
          bounded(RELAY_BYTES - 1, "--sends", "0", "red:9:4")),
    asked("with a byte more it has", SENT + status(4), ok(1, True) + ok(2, True) + ok(3, 2) + seen(4, 1, 0, 3),
          bounded(RELAY_BYTES, "--sends", "0", "red:9:4")),
    asked("and then its target has room", SENT + call(4, A, "get"), ok(1, True) + ok(2, True) + ok(3, 2) + ok(4, 1), bounded(RELAY_BYTES)),
    asked("each tenant has its own", ADD + add(1, 1, BLUE, BLUE_A) + call(2, B, "get"), ok(1, 3) + ok(1, 1, BLUE) + no(2, 57, FULL),
          bounded(23, "red:9:4", "blue:9:4")),
    asked("other faults come first", call(1, "clock/red:x", "get") + call(2, BLUE_A, "get") + ADD + call(3, B, "get") + call(4, A, "fly"),
          no(1, 22, "kind clock is unknown") + no(2, 40, "tenant red may not call a grain of tenant blue") + ok(1, 3)
          + no(3, 41, "tenant red has no free activation") + no(4, 60, "method is unknown"), bounded(22, "red:1:4")),
    asked("a request that had no room takes no number", call(1, "counter/red:ab", "get") + ADD + status(2),
          no(1, 57, FULL) + ok(1, 3) + seen(2, 1, 0, 1), bounded(22)),
    asked("a number that had no room has acted", once(call(1, "counter/red:ab", "get") + ADD + call(2, A, "get")),
          no(1, 57, FULL) * 2 + ok(2, 0), bounded(22, "--replies", "9", "red:9:4")),
    *(Row(f"words: {name}", ["answer", *words, "red:2:4"], [], [], 2, "error: refused") for name, words in (
        ("bytes without data", ["--bytes", "1"]), ("no byte", ["--data", "d", "--bytes", "0"]),
        ("more than a number", ["--data", "d", "--bytes", str(2**63)]))),
]
KEPT_WORDS = bounded(SHEET_BYTES, "--checkpoints", "red:9:4")
NARROW = bounded(9, "--checkpoints", "red:9:4")
KEPT_POINT = point(PUT, words=KEPT_WORDS)
SENT_WORDS = bounded(RELAY_BYTES, "--checkpoints", "--sends", "0", "red:9:4")
SENT_NARROW = bounded(9, "--checkpoints", "--sends", "1", "red:9:4")
SENT_POINT = point(SENT, words=SENT_WORDS)
NARROWED = changed(KEPT_POINT, of(KEPT_POINT), f"bytes {SHEET_BYTES}", "bytes 9")
ROOM_OF_BOTH = [
    row("what was no room is none again",
        {"d/log": log_of((PUT * 2 + ADD, ok(1, None) * 2 + no(1, 57, FULL)), words=words_said(KEPT_WORDS))}, [], [],
        after(point(PUT * 2, words=KEPT_WORDS), KEPT_WORDS), KEPT_WORDS),
    row("a start goes on with as much", after(KEPT_POINT, KEPT_WORDS), put(3, "xxx"), no(3, 57, FULL),
        after(changed(KEPT_POINT, of(KEPT_POINT), "account red 1 0 0", "account red 2 0 0"), KEPT_WORDS), KEPT_WORDS),
]
ROOM_STARTS = [
    row("who has more than the words allow may read, save and have less", after(KEPT_POINT, KEPT_WORDS),
        call(2, SHEET, "save") + put(3, "xxx") + put(4, "x"),
        ok(2, "1") + no(3, 57, FULL) + ok(4, None),
        after(changed(point(PUT + call(2, SHEET, "save") + call(4, SHEET, "list") + put(4, "x"), words=KEPT_WORDS), of(NARROWED),
                      f"bytes {SHEET_BYTES}", "bytes 9"), NARROW), NARROW),
    row("nor is a delivery more, whatever its target needs", after(SENT_POINT, SENT_WORDS), status(4) * 2,
        seen(4, 1, 0, 3) + seen(4, 2, 0, 4),
        after(changed(point(SENT + status(4), words=bounded(RELAY_BYTES, "--sends", "1", "red:9:4")),
                      of(changed(SENT_POINT, of(SENT_POINT), f"bytes {RELAY_BYTES}", "bytes 9", "sends 0", "sends 1")),
                      f"bytes {RELAY_BYTES}", "bytes 9"), SENT_NARROW), SENT_NARROW),
    row("without the option nothing is counted", after(KEPT_POINT, KEPT_WORDS), ADD, ok(1, 3),
        after(point(PUT + ADD, of(changed(point(PUT, words=["answer", "red:9:4"]), of(KEPT_POINT))), ["answer", "red:9:4"]),
              ["answer", "red:9:4"]), ["answer", "--data", "d", "--checkpoints", "red:9:4"]),
    refused("in the form of the program, other bytes are other words", after(KEPT_POINT, KEPT_WORDS), 2, OTHER_WORDS,
            of_program(NARROW)),
]

TENANT_ROWS: list[Row] = [*COMING, *KEEPING, *FORMS, *of_both_forms(ROWS_OF_BOTH), *STARTS, *ROOM, *of_both_forms(ROOM_OF_BOTH),
                          *ROOM_STARTS]


def there_are_no_more_than_a_thousand_tenants() -> bool:
    words = ["answer", "--data", "d", "--operator", *(f"t{number}:1:1" for number in range(999))]
    lines = tenant("red", 1, 1) + tenant("blue", 1, 1) + tenant("red", 2, 2) + drop("t5") + tenant("blue", 1, 1)
    run = run_program(words, lines_text(lines))
    return run.out == lines_text(had("red") + not_done("blue", 46, TABLE) + had("red", 1, 1) + had("t5", 1, 1) + had("blue"))


TENANT_CALLS: tuple[Callable[[], bool], ...] = (there_are_no_more_than_a_thousand_tenants,)
