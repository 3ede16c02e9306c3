"""Journals at the limits of their forms: each number, length and depth at its limit and one past it, and odd ends."""

from __future__ import annotations

A = "counter/red:a"
AGE, TENANT = "age 900000", "tenant red 2 4"
# the first lines of a journal in each form
HEADS = {1: ["silo-journal 1", AGE, TENANT], 2: ["silo-journal 2", "kinds 1", AGE, TENANT],
         3: ["silo-journal 3", "kinds 1", AGE, TENANT]}
# the first byte of its messages
FIRST_BYTES = {1: "01", 2: "01", 3: "02"}
NO = "no 60 method is unknown"
LAST = 2**63 - 1
LAST_VERSION = 2**64 - 1


def whole(head: list[str], steps: list[str], behind: list[str] = ()) -> bytes:
    """A journal of these steps, with these replies and rows behind them."""
    return "".join(line + "\n" for line in [*head, *steps, *behind, f"close {len(steps)}"]).encode()


def text(form: int, steps: list[str], behind: list[str] = ()) -> bytes:
    return whole(HEADS[form], steps, behind)


def nulls(count: int) -> str:
    """The bytes of a list of nulls, five and one for each."""
    return f"05{count:08x}" + "00" * count


def zeros(count: int) -> str:
    """The value of so many bytes, five and one for each."""
    return f"07{count:08x}" + "00" * count


def nested(depth: int, inner: str = "00") -> str:
    return "0500000001" * (depth - 1) + inner


def message(form: int, node: str) -> str:
    """The bytes of a message of the method `a`, six before the node's."""
    return FIRST_BYTES[form] + "0000000161" + node


def called(form: int, node: str) -> bytes:
    return text(form, [f"call red/c1 1 {A} {message(form, node)}"])


def poked(form: int, node: str) -> bytes:
    return text(form, [f"poke red/c1 1 {A} ok {node}"], ["reply red/c1 1 ok 040000000131", f"row {A} 1 {node}"])


def named(form: int, grain: str) -> bytes:
    return text(form, [f"call red/c1 1 {grain} {message(form, '00')}"])


def tenants(form: int, count: int) -> bytes:
    return whole([*HEADS[form][:-1], *(f"tenant t{number} 1 1" for number in range(count))], ["sweep"])


def aged(form: int, *ages: str) -> bytes:
    """A journal with these ages of kinds."""
    return whole([*HEADS[form][:-1], *(f"kind {age}" for age in ages), TENANT], ["sweep"])


def logics(form: int) -> list[bytes]:
    """The logic and the ages of kinds, each at its limits and past them, and out of their places."""
    head = HEADS[form]
    found = [whole([head[0], f"kinds {number}", AGE, TENANT], ["sweep"]) for number in (0, 1, 2, 3, "01", "", "-1")]
    found += [aged(form, f"counter {number}") for number in (0, 1, 86_400_000, 86_400_001, "01", "")]
    found += [aged(form, *(f"k{number} 1" for number in range(100, 100 + count))) for count in (64, 65)]
    found += [aged(form, f"{'k' * count} 1") for count in (0, 1, 32, 33)]
    for kinds in (["a", "a"], ["b", "a"], ["a", "a-"], ["a-", "a"], ["a-b", "a0"], ["a0", "a-b"], ["A"], ["a b"]):
        found.append(aged(form, *(f"{kind} 1" for kind in kinds)))
    for lines in (head[:1], head[:-1], [head[0], AGE, TENANT], [*head[:-1], "kind a 1"], [*head, "kind a 1"],
                  [head[0], "kinds 1", "kind a 1", AGE, TENANT], [head[0], AGE, "kinds 1", TENANT],
                  [*head[:-1], *head[1:-1], TENANT], [head[0], *head[:-1], TENANT]):
        found.append(whole(lines, []))
    return found


def turned(form: int, kinds: int, node: str, said: str, method: str = "stay") -> bytes:
    """A journal of one turn of this method and argument, by this logic, with what it was told."""
    message_of = f"{FIRST_BYTES[form]}{len(method):08x}{method.encode().hex()}{node}"
    return whole([HEADS[form][0], f"kinds {kinds}", AGE, TENANT],
                 [f"call red/c1 1 {A} {message_of}", f"activate {A}", f"load {A} ok", f"begin {A}", f"end {A} 1"],
                 [f"reply red/c1 1 {said}"])


def stays(form: int) -> list[bytes]:
    """Turns that rest or stay, with the argument at its limits and past them, as each logic tells them."""
    found = []
    for time in (-(2**63), -1, 0, 1, 86_400_000, 86_400_001, LAST):
        node = f"060000000100000003666f7203{time % 2**64:016x}"
        found += [turned(form, kinds, node, said) for kinds, said in
                  ((1, NO), (1, "ok 00"), (2, NO), (2, "ok 00"), (2, "no 61 arguments do not fit"))]
    for node in ("00", "060000000100000002627903" + f"{5:016x}", "060000000100000003666f7200", "03" + f"{5:016x}",
                 "060000000100000003666f720700000000"):
        found += [turned(form, 2, node, said, method) for method in ("stay", "rest")
                  for said in ("ok 00", "no 61 arguments do not fit")]
    return found


def numbers(form: int) -> list[bytes]:
    """Each number of a line at its limits and past them."""
    head = HEADS[form]
    limits = [("age {}", 1, 86_400_000), ("tenant red {} 4", 1, 10_000), ("tenant red 2 {}", 1, 1_000)]
    found = []
    for line, least, most in limits:
        place = len(head) - (2 if line.startswith("age") else 1)
        for number in (least - 1, least, most, most + 1):
            found.append(whole([*head[:place], line.format(number), *head[place + 1:]], []))
    for line in ("status red/c1 {}", "tick {}", "end counter/red:a {}", "refuse red/c1 {} 20"):
        found += [text(form, [line.format(number)]) for number in (-1, 0, LAST, LAST + 1, LAST_VERSION + 1, "00", "+1")]
    for version in (0, 1, LAST_VERSION, LAST_VERSION + 1):
        found.append(text(form, [], [f"row {A} {version} -"]))
    for code in range(9, 72):
        found += [text(form, [], [f"reply red/c1 1 no {code} x"]), text(form, [f"refuse red/c1 1 {code}"])]
    return found


def lengths(form: int) -> list[bytes]:
    found = [called(form, node(65_530 - 5 + past)) for past in (0, 1) for node in (nulls, zeros)]
    found += [poked(form, node(262_144 - 5 + past)) for past in (0, 1) for node in (nulls, zeros)]
    found += [made(form, nested(depth, inner)) for depth in (32, 33) for made in (called, poked) for inner in ("00", zeros(1))]
    found += [tenants(form, count) for count in (1_000, 1_001)]
    found += [named(form, f"{'k' * count}/red:a") for count in (32, 33)]
    found += [named(form, f"counter/red:{'n' * count}") for count in (1, 128, 129)]
    grains = ("counter/red:", "counter/red:a/b:c", "counter/:a", "/red:a", "counter/red")
    return found + [named(form, grain) for grain in grains]


def ends(form: int) -> list[bytes]:
    """Odd beginnings, ends and characters."""
    some = text(form, ["sweep", "tick 1"], [f"reply {A} - {NO}", f"reply red/c1 1 {NO}", f"row {A} 1 -"])
    found = [b"", b"\n", some[:-1], some + b"\n", some + b"x", some[1:], some.replace(b"\n", b"\r\n")]
    for word in (b"\x7f", b"\x1f", b"~", b" ", b"\xc3\xa9", b"\x00", b"  "):
        found.append(some.replace(b"unknown", word))
    found += [some.replace(b"no 60 method is unknown", said) for said in (b"no 60 ", b"no 60", b"ok", b"ok ", b"ok 00 ")]
    found += [some.replace(b"close 2", close) for close in (b"close 1", b"close 3", b"close 02", b"close", b"close 2 ")]
    for grains in ([A, A], ["counter/red:b", A], [A, "counter/blue:a"], ["counter/blue:b", A, "sheet/blue:a"]):
        found.append(text(form, [], [f"row {grain} 1 -" for grain in grains]))
    names_out_of_order = "0600000002" + "000000016200" + "000000016100"
    return found + [called(form, node) for node in ("", "08", "0", "0G", "03", names_out_of_order, "0400000001ff")]


# a value of bytes alone, in a list and in a map; a map with the name that stands for bytes in lines; and bytes with
# another length than they have
BYTES = [zeros(0), zeros(1), "070000000200ff", nested(3, zeros(2)), "06000000010000000161" + zeros(1)]
NAMED_HEX = "060000000100000004246865780400000002" + "3030"
CUT = ["07", "070000", "0700000001", "070000000200", "07ffffffff", "07000000010000", "0700000001000", "08", "0800000000"]


def in_bytes(form: int) -> list[bytes]:
    """Bytes at every place of a value, and messages of every first byte."""
    found = []
    for node in [*BYTES, NAMED_HEX, *CUT]:
        found += [called(form, node), poked(form, node), text(form, [], [f"row {A} 1 {node}"]),
                  text(form, [], [f"reply red/c1 1 ok {node}"]), text(form, [], [f"reply {A} - ok {node}"])]
    for first in ("00", "01", "02", "03", "0", ""):
        for node in ("00", zeros(1), NAMED_HEX):
            found.append(text(form, [f"call red/c1 1 {A} {first}0000000161{node}"]))
    for code in ("14", "014", "+14", "14 "):
        found += [text(form, [f"refuse red/c1 1 {code}"], ["reply red/c1 1 no 14 bytes are not well formed"]),
                  text(form, [], [f"reply red/c1 1 no {code} bytes are not well formed"])]
    return found


def heads() -> list[bytes]:
    """Forms that there aren't, and one form's head on another's lines."""
    found = [whole([f"silo-journal {form}", *HEADS[3][1:]], []) for form in ("0", "4", "03", "+3", "", "3 ", "-3", "33", "1.0")]
    for form, head in HEADS.items():
        call = f"call red/c1 1 {A} {message(form, '00')}"
        found += [whole([other[0], *head[1:]], [call]) for other in HEADS.values()]
    return found


ALL = [*heads(), *(one for make in (logics, stays, numbers, lengths, ends, in_bytes) for form in HEADS for one in make(form))]
