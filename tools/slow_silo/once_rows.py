"""Worked rows of requests that act once, to be followed by hand. They are of the slow silo alone: the program has no such requests yet."""

from __future__ import annotations

import json
from typing import Callable, Sequence

from .checkpoint import checkpoint_of, checkpoint_text, read_checkpoint
from .cut_rows import Story, damaged, holds, is_refused, lived_in_memory
from .data_rows import ADD, FIRST, GET, MORE, GoesOn
from .folder_rows import JOINS, OTHER_WORDS, POINT_REFUSED, SENT
from .folder_texts import NUMBER, after, at_newest, changed, left_by, lines_text, log_of, of, point, summed, words_said
from .log import spelled
from .program import run_program
from .receipts import MAX_BYTES, MAX_RECEIPTS
from .row import Row
from .short_lines import (A, B, BLUE, LINE_TOO_LONG, NOT_A_REQUEST, RED, RELAY, SHEET, SWEEP, call, line, no, ok, poke, seen, status, tick,
                          told)
from .switch_rows import refused, row

OTHER = "red/c2"
ONE = ["answer", "--data", "d", "--checkpoints", "--replies", "10", "red:2:4"]
WITHOUT = ["answer", "--data", "d", "--checkpoints", "red:2:4"]


def once(lines: list, **more: object) -> list:
    """These lines, which act once, with other members behind."""
    return [json.dumps({**json.loads(one), "once": True, **more}, separators=(",", ":")) for one in lines]


def saw(lines: list, number: object) -> list:
    """These lines, which let receipts go."""
    return [json.dumps({**json.loads(one), "seen": number}, separators=(",", ":")) for one in lines]


def last(number: int, by: str = RED) -> list:
    return line(op="last", from_=by, id=number)


def was(number: int, to: str = RED) -> list:
    return no(number, 15, f"request {number} was answered", to)


def unseen(number: int, whose: str, to: str = RED) -> list:
    return no(number, 44, f"too many replies of {whose} were not seen", to)


def few(most: int, *more: str) -> list:
    """Words by which a tenant may have so many receipts."""
    return ["answer", "--data", "d", "--replies", str(most), *(more or ["red:2:4"])]


def of_program(words: Sequence[str]) -> list:
    """These words, in the form that the program has."""
    return [word for word in words if word != "--checkpoints"]


def of_both_forms(rows: list[Row]) -> list[Row]:
    return [*rows, *(it._replace(words=of_program(it.words)) for it in rows)]


def asked(name: str, lines: list, out: list, words: Sequence[str] = tuple(ONE)) -> Row:
    return Row(name, list(words), lines, out)


def add(number: int, by: int, who: str = RED, at: str = A) -> list:
    return call(number, at, "add", {"by": by}, who)


# ---- numbers

DEEP = json.loads("[" * 40 + "]" * 40)
NUMBERS = [
    asked("a number acts once, and is told the same again", once(ADD + ADD + ADD) + GET, ok(1, 3) * 3 + ok(3, 3)),
    asked("whatever is asked under it again", once(ADD + call(1, SHEET, "put", {"name": "k", "value": 1}) + poke(1, A, 9)
                                                  + call(1, "what", "get") + call(1, A, "get", DEEP)) + GET, ok(1, 3) * 5 + ok(3, 3)),
    asked("also once a greater one acted", once(ADD + MORE + ADD + GET), ok(1, 3) + ok(2, 7) + ok(1, 3) + ok(3, 7)),
    asked("numbers ascend: a lower one that isn't kept was answered", once(add(5, 1) + add(4, 1) + add(0, 1) + add(6, 1)),
          ok(5, 1) + was(4) + was(0) + ok(6, 2)),
    asked("the first may be 0, and the last is the greatest there is", once(add(0, 1) + add(2**63 - 1, 1) + add(0, 1) + add(7, 1)),
          ok(0, 1) + ok(2**63 - 1, 2) + ok(0, 1) + was(7)),
    asked("a poke acts once, too", once(poke(1, A, 5) + poke(1, A, 6) + poke(2, A, 7)) + GET, ok(1, "1") * 2 + ok(2, "2") + ok(3, 7)),
    asked("what a fault was told is told again, whatever changed",
          once(add(1, 1) + call(2, SHEET, "list") + add(3, 1, at=B) + add(3, 1, at=A))
          + tick(900_000) + SWEEP + once(add(3, 1, at=B) + add(4, 1, at=B)),
          ok(1, 1) + ok(2, []) + no(3, 41, "tenant red has no free activation") * 3 + ok(4, 1)),
    asked("so is that of a line whose value or grain is refused",
          once(call(1, A, "get", DEEP) + call(1, A, "get") + call(2, "what", "get") + call(2, A, "get") + add(3, 1.5) + add(3, 1)
               + call(4, "counter/blue:a", "get") + call(4, A, "get") + call(5, A, "fly") + call(5, A, "get")),
          no(1, 12, "arguments are too deep") * 2 + no(2, 20, "grain name is not well formed") * 2
          + no(3, 13, "number is not a whole number of 64 bits") * 2 + no(4, 40, "tenant red may not call a grain of tenant blue") * 2
          + no(5, 60, "method is unknown") * 2),
    asked("values are told again with their bytes", once(call(1, SHEET, "put", {"name": "k", "value": [{"$hex": "00ff"}, "\u00e9\n"]})
                                                         + call(2, SHEET, "get", {"name": "k"}) * 2),
          ok(1, None) + ['{"from":"red/c1","id":2,"ok":[{"$hex":"00ff"},"\u00e9\\n"]}'] * 2),
    asked("each caller has its own numbers", once(add(1, 1) + add(1, 2, OTHER) + add(1, 4) + add(1, 8, OTHER)),
          ok(1, 1) + ok(1, 3, OTHER) + ok(1, 1) + ok(1, 3, OTHER)),
    asked("also callers of one name of two tenants", once(add(1, 1) + add(1, 2, BLUE, "counter/blue:a") + add(1, 4)),
          ok(1, 1) + ok(1, 2, BLUE) + ok(1, 1), few(1, "red:1:1", "blue:1:1")),
    asked("what doesn't say that it acts once takes no number", add(9, 1) + once(add(1, 1)) + add(1, 1) + once(add(1, 1)) + GET,
          ok(9, 1) + ok(1, 2) + ok(1, 3) + ok(1, 2) + ok(3, 3)),
    asked("nor does what says that it doesn't", [one.replace("true", "false") for one in once(ADD + ADD)] + last(3),
          ok(1, 3) + ok(1, 6) + ok(3, None)),
    asked("a tenant that isn't known has nothing kept", once(add(1, 1, BLUE) * 2 + add(0, 1, BLUE)) + last(2, BLUE),
          no(1, 21, "tenant blue is unknown", BLUE) * 2 + no(0, 21, "tenant blue is unknown", BLUE)
          + no(2, 21, "tenant blue is unknown", BLUE)),
]

# ---- replies that were seen

SEEN = [
    asked("a reply that was seen is gone, and its number has acted", once(ADD) + once(MORE, seen=1) + once(ADD) + once(MORE),
          ok(1, 3) + ok(2, 7) + was(1) + ok(2, 7)),
    asked("so are those below", once(add(1, 1) + add(3, 1) + add(5, 1)) + once(add(7, 1), seen=4) + once(add(1, 1) + add(3, 1) + add(5, 1)),
          ok(1, 1) + ok(3, 2) + ok(5, 3) + ok(7, 4) + was(1) + was(3) + ok(5, 3)),
    asked("that comes before the number is looked at", once(add(5, 1), seen=5) + once(add(5, 1)) + once(add(5, 1), seen=5),
          ok(5, 1) * 2 + was(5)),
    asked("a line may say so that doesn't act once", once(ADD) + saw(GET, 1) + once(ADD), ok(1, 3) + ok(3, 3) + was(1)),
    asked("also one that is refused", once(ADD) + saw(call(2, "what", "get"), 1) + once(ADD),
          ok(1, 3) + no(2, 20, "grain name is not well formed") + was(1)),
    asked("a number that is yet to come lets all go, and is free", once(ADD) + saw(GET, 2**63 - 1) + last(4) + once(ADD + MORE),
          ok(1, 3) + ok(3, 3) + ok(4, 1) + was(1) + ok(2, 7)),
    asked("of another caller nothing goes", once(ADD + add(1, 1, OTHER)) + saw(call(2, A, "get", None, OTHER), 1) + once(ADD),
          ok(1, 3) + ok(1, 4, OTHER) + ok(2, 4, OTHER) + ok(1, 3)),
    asked("the greatest number is told, and that asks for no number", last(9) + once(add(4, 1)) + last(9) + once(add(5, 1)) + last(0),
          ok(9, None) + ok(4, 1) + ok(9, 4) + ok(5, 2) + ok(0, 5)),
]

# ---- sends

WAITING = few(10, "--sends", "1", "red:9:4")
SENDS = [
    asked("a number that acted has nothing delivered again", once(SENT) + once(SENT[2:] * 3) + last(8) + once(call(1, B, "get")) * 3
          + status(9) + call(10, A, "get") + call(11, B, "get"),
          ok(1, True) + ok(2, True) + ok(3, 2) + ok(3, 2) * 3 + ok(8, 3) + ok(1, True) * 3 + seen(9, 2, 0, 4) + ok(10, 1) + ok(11, 1),
          WAITING),
    asked("nor has one that may not act", once(SENT) + once(call(0, B, "get")) * 3 + status(9),
          ok(1, True) + ok(2, True) + ok(3, 2) + was(0) * 3 + seen(9, 2, 0, 4), WAITING),
    asked("what grains are told is told once", once(call(1, RELAY, "join", {"grain": "counter/blue:x"})
                                                    + call(2, RELAY, "send", {"method": "get", "args": None}) * 2),
          ok(1, True) + ok(2, 1) + told(error=40, from_=RELAY, text="tenant red may not call a grain of tenant blue") + ok(2, 1)),
]

# ---- bounds

LONG = call(1, SHEET, "put", {"name": "k", "value": "x" * 2_016})

BOUNDS = [
    asked("a tenant with as many receipts as it may have has to see some", once(add(1, 1) + add(2, 1) + add(3, 1) + add(1, 1) + add(3, 1)),
          ok(1, 1) + ok(2, 2) + unseen(3, "red") + ok(1, 1) + unseen(3, "red"), few(2)),
    asked("the number is free, and acts once some were seen", once(add(1, 1) + add(2, 1) + add(3, 1)) + once(add(3, 1), seen=1) + last(4),
          ok(1, 1) + ok(2, 2) + unseen(3, "red") + ok(3, 3) + ok(4, 3), few(2)),
    asked("any caller's may go", once(add(1, 1) + add(1, 1, OTHER) + add(2, 1, OTHER)) + saw(GET, 1) + once(add(2, 1, OTHER)),
          ok(1, 1) + ok(1, 2, OTHER) + unseen(2, "red", OTHER) + ok(3, 2) + ok(2, 3, OTHER), few(2)),
    asked("another tenant has its own", once(add(1, 1) + add(2, 1) + add(1, 1, BLUE, "counter/blue:a")),
          ok(1, 1) + unseen(2, "red") + ok(1, 1, BLUE), few(1, "red:1:1", "blue:1:1")),
    asked("a tenant has no more callers than receipts", once(add(1, 1)) + once(add(1, 1, OTHER), seen=0) + saw(GET, 1)
          + once(add(1, 1, "red/c3")) + last(2, "red/c3") + once(add(2, 1), seen=1),
          ok(1, 1) + ok(1, 2, OTHER) + ok(3, 2) + no(1, 45, "tenant red has too many callers", "red/c3") + ok(2, None, "red/c3") + ok(2, 3),
          few(2)),
    asked("a caller that asks for nothing once isn't counted", add(1, 1, "red/c3") + last(2, "red/c4") + once(add(1, 1)),
          ok(1, 1, "red/c3") + ok(2, None, "red/c4") + ok(1, 2), few(1)),
    asked("a line of two kB is as much as two receipts may have", LONG + once(call(2, SHEET, "get", {"name": "k"}) + add(3, 1)),
          ok(1, None) + ok(2, "x" * 2_016) + unseen(3, "red"), few(2)),
    asked("one that is a byte shorter isn't", [LONG[0].replace("x", "", 1)] + once(call(2, SHEET, "get", {"name": "k"}) + add(3, 1)),
          ok(1, None) + ok(2, "x" * 2_015) + ok(3, 1), few(2)),
]

# ---- forms

FORMS = [
    asked("members that are none",
          once(ADD, once=1) + once(ADD, once="true") + once(ADD, once=None) + once(ADD, seen=-1) + once(ADD, seen=True)
          + once(ADD, seen=None) + once(ADD, seen=1.5) + once(ADD, seen=2**63) + once(ADD, more=1) + last(1),
          NOT_A_REQUEST * 9 + ok(1, None)),
    asked("no other line has them", once(status(1) + last(1) + tick(1) + SWEEP) + saw(status(1) + last(1), 1) + line(op="last", from_=RED)
          + line(op="last", from_="red", id=1) + line(op="last", from_=RED, id=-1), NOT_A_REQUEST * 9),
    asked("of a member that stands twice the last counts", [once(ADD)[0].replace("true", 'false,"once":true')] * 2, ok(1, 3) * 2),
    asked("a line that is too long lets nothing go", once(ADD) + saw(call(2, A, "get", "x" * 65_536), 1) + once(ADD),
          ok(1, 3) + LINE_TOO_LONG + ok(1, 3)),
    asked("without the option no line has them", once(ADD) + saw(ADD, 1) + last(1) + ADD, NOT_A_REQUEST * 3 + ok(1, 3), WITHOUT),
    asked("nor without data", once(ADD) + last(1), NOT_A_REQUEST * 2, ["answer", "red:2:4"]),
    asked("nor step by step", once(ADD) + last(1), NOT_A_REQUEST * 2, ["steps", "red:2:4"]),
    asked("nor in lanes", once(ADD) + last(1), NOT_A_REQUEST * 2, ["serve", "--workers", "1", "red:2:4"]),
    *(Row(f"words: {name}", ["answer", *words, "red:2:4"], [], [], 2, "error: refused") for name, words in (
        ("replies without data", ["--replies", "1"]), ("no reply", ["--data", "d", "--replies", "0"]),
        ("a zero before a number", ["--data", "d", "--replies", "01"]), ("a sign", ["--data", "d", "--replies", "+1"]),
        ("more replies than there may be", ["--data", "d", "--replies", "1000001"]),
        ("twice", ["--data", "d", "--replies", "1", "--replies", "1"]))),
]

# ---- starts

ONE_POINT = at_newest("""\
silo-checkpoint 2
follows 0123456789abcdef
sends 1000
replies 10
bytes -
operator 0
clock 0
accounts 1
account red 3 0 2
caller red/c1 4 2
receipt red/c1 2 ok 030000000000000007
receipt red/c1 4 no 60 method is unknown
caller red/c2 9 0
grains 1
up counter/red:a - 0 0 030000000000000007
silo-journal 3
kinds 2
age 900000
tenant red 2 4
close 0
sum 9c11fd60c68c88df
""")
ONE_LOG = at_newest("""\
silo-log 2
kinds 2
sends 1000
replies 10
bytes -
operator 0
age 900000
tenant red 2 4
of 0123456789abcdef 74c5898311a950a7
""")
# what leads to this checkpoint, and what it is told
ONE_LINES = (once(ADD) + once(MORE, seen=1) + once(call(4, A, "fly")) + once(call(9, "what", "get", None, OTHER))
             + saw(call(1, "x", "", None, OTHER), 9))
ONE_TOLD = ok(1, 3) + ok(2, 7) + no(4, 60, "method is unknown") + no(9, 20, "grain name is not well formed", OTHER) + no(
    1, 20, "grain name is not well formed", OTHER)
AGAIN = once(ADD + MORE + add(3, 1) + call(4, A, "get") + add(8, 1, OTHER)) + last(5) + last(5, OTHER)
AGAIN_TOLD = was(1) + ok(2, 7) + was(3) + no(4, 60, "method is unknown") + was(8, OTHER) + ok(5, 4) + ok(5, 9, OTHER)
LOGGED = log_of((ONE_LINES, ONE_TOLD), words=words_said(ONE))
HELD = after(ONE_POINT, ONE)
LOGS = [
    GoesOn("lines with numbers are answered again, and those that are asked go on from their checkpoint", LOGGED, AGAIN, AGAIN_TOLD,
           of_program(ONE)),
    GoesOn("lines whose receipts are told again are in a log as others", ONE_LOG, once(ADD + ADD), ok(1, 3) * 2, of_program(ONE)),
]


def under(checkpoint: str, then: str, words: Sequence[str], lines: list, out: list, *parts: str) -> Row:
    """A start from a checkpoint under other words, which is asked lines that change nothing of what is kept."""
    left = changed(changed(checkpoint, of(checkpoint), *parts), of(changed(checkpoint, of(checkpoint), *parts)))
    return row(then, after(checkpoint, ONE), lines, out, after(left, words), words)


BOTH = [
    row("at the end of the input numbers and receipts are in the checkpoint", {"d/log": ONE_LOG}, ONE_LINES, ONE_TOLD, HELD, ONE),
    row("a start goes on from them", HELD, AGAIN, AGAIN_TOLD, after(changed(ONE_POINT, of(ONE_POINT)), ONE), ONE),
    row("the log that the checkpoint replaced is passed over", {"d/checkpoint": ONE_POINT, "d/log": LOGGED}, [], [], HELD, ONE),
    row("they come back with a log's lines", {"d/log": LOGGED}, [], [], HELD, ONE),
    refused("a log of other replies", {"d/log": ONE_LOG}, 2, OTHER_WORDS, few(9, "--checkpoints", "red:2:4")),
    refused("a log of before, without a checkpoint", {"d/log": log_of(FIRST)}, 2, OTHER_WORDS, ONE),
    refused("a log of the second form without the option", {"d/log": ONE_LOG}, 4, "log line 1 is refused", WITHOUT),
]
STARTS = [
    under(ONE_POINT, "fewer receipts than there are may be given", few(1, "--checkpoints", "red:2:4"), AGAIN + once(add(5, 1)),
          AGAIN_TOLD + unseen(5, "red"), "replies 10", "replies 1"),
    under(ONE_POINT, "without the option numbers and receipts stay", WITHOUT, once(ADD) + last(1), NOT_A_REQUEST * 2,
          "replies 10", "replies -"),
    row("and go on where it is given again", after(changed(ONE_POINT, NUMBER, "replies 10", "replies -"), WITHOUT), [], [],
        after(changed(ONE_POINT, of(changed(ONE_POINT, NUMBER, "replies 10", "replies -"))), ONE), ONE),
    row("a folder of before gets it", after(point(ADD)), once(MORE), ok(2, 7),
        after(point(ADD + once(MORE), of(changed(point(ADD, words=ONE), of(point(ADD)))), ONE), ONE), ONE),
    row("a log of before is answered again as it was", after(point(ADD), WITHOUT) | {"d/log": log_of((once(ADD), NOT_A_REQUEST),
                                                                                                    number=of(point(ADD)))},
        once(ADD), ok(1, 6), after(point(ADD + once(ADD), of(changed(point(ADD, words=ONE), of(point(ADD)))), ONE), ONE), ONE),
    Row("the rows of such a folder", ["rows", "d"], [], ['{"active":"counter/red:a","version":null,"last":0,"until":0,"state":7}'],
        files={"d/checkpoint": ONE_POINT}),
    refused("a tenant with a caller can't be left out", after(point(once(call(9, "what", "get")), words=ONE), ONE), 2,
            "the data have the tenant red", few(10, "--checkpoints", "blue:1:1")),
    *(refused(f"in the form of the program, a checkpoint of other words: {name}", before, 2, OTHER_WORDS, words)
      for name, before, words in (
          ("other replies", HELD, few(9)), ("none", HELD, of_program(WITHOUT)), ("bytes", HELD, few(10, "--bytes", "9", "red:2:4")),
          ("an operator", HELD, few(10, "--operator", "red:2:4")), ("one of before", after(point(ADD)), of_program(ONE)))),
]

# ---- checkpoints that are refused

TWO_WORDS = few(10, "--checkpoints", "red:2:4", "blue:1:1")
FORGED_TEXT = changed(point(ONE_LINES + once(add(3, 1, BLUE, "counter/blue:a")), words=TWO_WORDS), NUMBER)


def forged(name: str, number: int, old: str, new: str) -> Row:
    """A checkpoint with a part that was replaced is refused at this line; its sum is right."""
    body = FORGED_TEXT[:FORGED_TEXT.rindex("sum ")]
    assert body.count(old) == 1
    before = {"d/checkpoint": summed(body.replace(old, new)), "d/log": log_of(words=words_said(TWO_WORDS))}
    return refused(f"a forged checkpoint: {name}", before, 4, f"checkpoint line {number} is refused", TWO_WORDS)


# lines 1 to 8; red's account, 9 to 13; blue's, 14 to 16
TWO, FOUR = "receipt red/c1 2 ok 030000000000000007\n", "receipt red/c1 4 no 60 method is unknown\n"
FORGED = [
    forged("a receipt of another tenant's caller", 11, "receipt red/c1 2", "receipt blue/c1 2"),
    forged("a receipt of another caller", 11, "receipt red/c1 2", "receipt red/c2 2"),
    forged("a receipt of a grain", 11, "red/c1 2 ok", "counter/red:a - ok"),
    forged("a receipt above the greatest number", 12, "receipt red/c1 4 no", "receipt red/c1 5 no"),
    forged("a greatest number below a receipt", 12, "caller red/c1 4 2", "caller red/c1 3 2"),
    forged("receipts that don't ascend", 12, TWO + FOUR, FOUR + TWO),
    forged("a receipt that stands twice", 12, TWO + FOUR, TWO + TWO),
    forged("a receipt too few", 13, "caller red/c1 4 2", "caller red/c1 4 3"),
    forged("a receipt too many", 12, "caller red/c1 4 2", "caller red/c1 4 1"),
    forged("a receipt of a code that is never kept", 12, "no 60 method", "no 15 method"),
    forged("a receipt of no code", 12, "no 60 method", "no 61x method"),
    forged("a receipt of bytes that are no value", 11, "030000000000000007\nreceipt", "0300\nreceipt"),
    forged("a receipt as a line", 11, TWO, 'receipt red/c1 2 {"from":"red/c1","id":2,"ok":7}\n'),
    forged("a caller of another tenant", 10, "caller red/c1", "caller blue/c1"),
    forged("a caller that isn't well formed", 10, "caller red/c1", "caller red/C1"),
    forged("callers that don't ascend", 13, "caller red/c2", "caller red/c0"),
    forged("a caller that stands twice", 13, "caller red/c2", "caller red/c1"),
    forged("a number past the last", 13, "caller red/c2 9", "caller red/c2 9223372036854775808"),
    forged("a caller too few", 14, "account red 3 0 2", "account red 3 0 3"),
    forged("a caller too many", 13, "account red 3 0 2", "account red 3 0 1"),
    forged("an account without its callers", 9, "account red 3 0 2", "account red 3 0"),
    forged("no receipts that a tenant may have", 4, "replies 10", "replies 0"),
    forged("more than there may be", 4, "replies 10", "replies 1000001"),
    forged("no bytes", 5, "bytes -", "bytes 0"),
    forged("an operator that is no choice", 6, "operator 0", "operator 2"),
    forged("the first form with the second's lines", 4, "silo-checkpoint 2", "silo-checkpoint 1"),
    forged("the second form without them", 4, "replies 10\nbytes -\noperator 0\n", ""),
]

ONCE: list[Row] = [*NUMBERS, *SEEN, *SENDS, *BOUNDS, *FORMS, *of_both_forms(BOTH), *(it.row() for it in LOGS), *STARTS, *FORGED,
                   *(it._replace(words=of_program(it.words), errors="silo: " + POINT_REFUSED) for it in FORGED)]


# ---- runs

def a_caller_has_a_thousand_receipts_at_most() -> bool:
    """Once one was seen, there is room for one."""
    lines = once([one for number in range(MAX_RECEIPTS + 1) for one in add(number, 1)]) + once(add(MAX_RECEIPTS, 1), seen=0) * 2
    out = [one for number in range(MAX_RECEIPTS) for one in ok(number, number + 1)]
    return run_program(few(5000), lines_text(lines)).out == lines_text(
        out + unseen(MAX_RECEIPTS, RED) + ok(MAX_RECEIPTS, MAX_RECEIPTS + 1) * 2)


def a_caller_has_receipts_of_a_megabyte_at_most() -> bool:
    """The last one may go beyond."""
    size = 50_000
    reply = len(ok(10, "x" * size)[0])
    count = -(-(MAX_BYTES - len(ok(9, None)[0])) // reply)
    lines = call(9, SHEET, "put", {"name": "k", "value": "x" * size})
    lines += [one for number in range(10, 12 + count) for one in call(number, SHEET, "get", {"name": "k"})]
    out = ok(9, None) + [one for number in range(10, 10 + count) for one in ok(number, "x" * size)]
    return run_program(few(5000), lines_text(once(lines))).out == lines_text(out + unseen(10 + count, RED) + unseen(11 + count, RED))


STORY_WORDS = ["answer", "--data", "d", "--checkpoints", "--sends", "1", "--replies", "4", "--operator", "red:4:4", "blue:2:2"]
STORY = (once(JOINS + SENT[2:]) + once(SENT[2:]) + once(ADD) + once(add(4, 1), seen=2) + ["", "hello"]
         + once(add(1, 5, BLUE, "counter/blue:a") * 2) + line(op="tenant", tenant="green", activations=1, mailbox=1)
         + once(add(1, 5, "green/c", "counter/green:a")) + last(2, "green/c")
         + tick(2) + once(add(5, 1, OTHER) + add(5, 1, OTHER)) + once(poke(7, A, 40), seen=4) + line(op="drop", tenant="green")
         + line(op="tenant", tenant="grey", activations=1, mailbox=1) + line(op="drop", tenant="grey") + once(add(8, 1) * 2)
         + line(op="tenant", tenant="red", activations=1, mailbox=1) + once(call(9, B, "get")) + status(3) + once(call(9, A, "get"))
         + last(10))


def each_life_with_receipts_that_ends_at_a_call() -> bool:
    """It leaves where some first lines lead, with their receipts and tenants, as it would without (cut_rows.py)."""
    return all(holds(lived_in_memory, Story(STORY, words)) for words in (STORY_WORDS, of_program(STORY_WORDS)))


def each_changed_byte_of_a_checkpoint_with_receipts_has_it_refused() -> bool:
    files = {"d/checkpoint": ONE_POINT.encode(), "d/log": log_of(words=words_said(ONE)).encode(), "d/lock": b""}
    return all(is_refused(words, files, line_, text) for words in (ONE, of_program(ONE)) for line_, text in damaged(ONE_POINT.encode()))


def each_log_with_receipts_has_what_was_asked_if_the_input_fails() -> bool:
    return all(it.holds_still() for it in LOGS)


def what_was_kept_of_callers_is_read() -> bool:
    kept = checkpoint_of(left_by(STORY, STORY_WORDS), spelled(NUMBER).decode(), 1)
    return read_checkpoint(checkpoint_text(kept)) == kept and len(kept.accounts) == 3


ONCE_CALLS: tuple[Callable[[], bool], ...] = (
    a_caller_has_a_thousand_receipts_at_most, a_caller_has_receipts_of_a_megabyte_at_most, each_life_with_receipts_that_ends_at_a_call,
    each_changed_byte_of_a_checkpoint_with_receipts_has_it_refused, each_log_with_receipts_has_what_was_asked_if_the_input_fails,
    what_was_kept_of_callers_is_read)
