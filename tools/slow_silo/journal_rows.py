"""Worked rows of journals: texts with what an audit tells of them."""

from __future__ import annotations

from .kinds import NEWEST
from .row import Row
from .short_lines import A, text
from .values import OLD_MESSAGE_FORM, spelled, spelled_message

SERVED = ["silo-journal 1", "age 900000", "tenant red 2 4",
          f"call red/c1 1 {A} 01000000036164640600000001000000026279030000000000000003",
          f"activate {A}", f"load {A} ok", f"begin {A}", f"end {A} 1"]
# one journal in the three forms; the last is as it is written
JOURNAL = SERVED + ["reply red/c1 1 ok 030000000000000003", "close 5"]
SECOND = ["silo-journal 2", "kinds 2", *JOURNAL[1:]]
THIRD = ["silo-journal 3", "kinds 2", *(one.replace(f"{A} 01", f"{A} 02") for one in JOURNAL[1:])]
# the same as the program writes it
WRITTEN = [THIRD[0], f"kinds {NEWEST}", *THIRD[2:]]


def audited(name, journal, out, status=0, errors="") -> Row:
    return Row(name, ["audit", "j"], [], out, status, errors, {"j": journal})


def refused_at(name, journal, number) -> Row:
    return audited(name, journal, [], 4, f"silo: journal line {number} is refused")


def changed(number, one) -> list:
    """The journal with another line at this number."""
    return JOURNAL[: number - 1] + [one] + JOURNAL[number:]


def cut(number) -> list:
    """The journal cut inside a line, just before its LF, and just after it."""
    before, inside = text(JOURNAL[: number - 1]), JOURNAL[number - 1]
    rows = [
        refused_at(f"cut inside line {number}", before + inside[:3], number),
        refused_at(f"cut before the LF of line {number}", before + inside, number),
    ]
    if number < len(JOURNAL):
        rows.append(refused_at(f"cut after the LF of line {number}", before + inside + "\n", number + 1))
    return rows


SHORT = "silo-journal 1\nage 1\ntenant red 1 1\n"
AGES = ["kind counter 10", "kind sheet 86400000"]


def message(method, args=None) -> str:
    return spelled_message(method, args, OLD_MESSAGE_FORM).hex()


def value(told_value) -> str:
    return spelled(told_value).hex()


def aged(*ages) -> str:
    """The journal of the second form, with these lines behind its age."""
    return text(SECOND[:3] + list(ages) + SECOND[3:])


# a turn that rests, and one of the next activation that stays, by the second logic
RESTED = [
    f"call red/c1 1 {A} {message('rest')}", f"activate {A}", f"load {A} ok", f"begin {A}", f"end {A} 1",
    f"call red/c1 2 {A} {message('stay', {'for': 9})}", f"activate {A}", f"load {A} ok", f"begin {A}", f"end {A} 2",
    "tick 8", "sweep", "status red/c1 3", "tick 9", "sweep", "status red/c1 4", "reply red/c1 1 ok 00", "reply red/c1 2 ok 00",
    f"reply red/c1 3 ok {value({'activations': 1, 'clock': 8, 'requests': 2})}",
    f"reply red/c1 4 ok {value({'activations': 0, 'clock': 9, 'requests': 2})}"]
# the same turns by the first logic: one activation, and both are refused
UNRESTED = [*RESTED[:6], *RESTED[8:10], "reply red/c1 1 no 60 method is unknown", "reply red/c1 2 no 60 method is unknown"]


def of_logic(number, age, lines, ages=()) -> str:
    """A journal of the second form with this logic, these ages, and these steps and replies."""
    steps = sum(not one.startswith("reply") for one in lines)
    return text([SECOND[0], f"kinds {number}", f"age {age}", *ages, "tenant red 1 4", *lines, f"close {steps}"])


def in_first_form(journal) -> str:
    """The text without its logic."""
    head, _kinds, *others = journal.splitlines()
    return text([head.replace("2", "1"), *others])


POKED = f"poke red/c1 1 {A} ok 00\nreply red/c1 1 ok 040000000131\n"
JOURNALS = [
    audited("a journal that agrees", text(JOURNAL), ["tenant red: 5 steps, 1 replies, 0 rows"]),
    audited("another reply", text(changed(9, "reply red/c1 1 ok 030000000000000004")),
            ["tenant red: reply 1 differs"], 3),
    refused_at("a journal without its last line", text(JOURNAL[:-1]), 10),
    audited("a step that isn't possible", SHORT + "tick 10\ntick 9\nclose 2\n", ["tenant red: step 2 differs"], 3),
    audited("a row that nothing wrote", SHORT + f"row {A} 1 030000000000000003\nclose 0\n",
            [f"tenant red: row {A} differs"], 3),
    audited("a tenant that isn't in the table",
            SHORT + "status blue/c1 1\nreply blue/c1 1 no 21 tenant blue is unknown\nclose 1\n",
            ["tenant red: 0 steps, 0 replies, 0 rows", "tenant blue: 1 steps, 1 replies, 0 rows"]),
    refused_at("a tenant that stands twice", SHORT + "tenant red 1 1\nclose 0\n", 4),
    *(row for number in range(1, 11) for row in cut(number)),
    audited("a reply that isn't recorded", text(SERVED + ["close 5"]), ["tenant red: reply 1 differs"], 3),
    audited("a reply that nothing gave", text(JOURNAL[:9] + ["reply red/c1 1 ok 00", "close 5"]),
            ["tenant red: reply 2 differs"], 3),
    audited("a row that isn't recorded", SHORT + POKED + "close 1\n", [f"tenant red: row {A} differs"], 3),
    audited("a row with another content", SHORT + POKED + f"row {A} 1 01\nclose 1\n",
            [f"tenant red: row {A} differs"], 3),
    audited("a row as it was written", SHORT + POKED + f"row {A} 1 00\nclose 1\n",
            ["tenant red: 1 steps, 1 replies, 1 rows"]),
    refused_at("a row that stands twice", SHORT + f"row {A} 1 00\nrow {A} 1 00\nclose 0\n", 5),
    refused_at("a line refused with a code that no step has", SHORT + "refuse red/c1 1 10\nclose 1\n", 4),
    refused_at("bytes behind the last line", text(JOURNAL) + "x", 11),
    audited("two tenants that differ", SHORT + "status blue/c1 1\ntick 2\ntick 1\nclose 3\n",
            ["tenant red: step 2 differs", "tenant blue: step 3 differs"], 3),
    refused_at("an empty journal", "", 1),
    refused_at("another form of journal", "silo-journal 4\n", 1),
    refused_at("an age of 0", "silo-journal 1\nage 0\n", 2),
    refused_at("nothing behind the tenants", SHORT, 4),
    refused_at("a step fewer than is told", SHORT + "tick 5\nclose 2\n", 5),
    refused_at("a leading zero", text(changed(3, "tenant red 02 4")), 3),
    refused_at("a digit in upper case", text(changed(4, SERVED[3][:-1] + "A")), 4),
    refused_at("a code that there isn't", text(changed(9, "reply red/c1 1 no 99 x")), 9),
    refused_at("another number of steps", text(changed(10, "close 6")), 10),
    refused_at("a line after the last", text(JOURNAL + ["close 5"]), 11),
    refused_at("a step after a reply", text(JOURNAL[:9] + [f"begin {A}"]), 10),
    audited("a journal of the second form", text(SECOND), ["tenant red: 5 steps, 1 replies, 0 rows"]),
    audited("the first logic in a journal of the second form", text(["silo-journal 2", "kinds 1", *JOURNAL[1:]]),
            ["tenant red: 5 steps, 1 replies, 0 rows"]),
    audited("another reply in a journal of the second form", text(SECOND).replace("03\nclose", "04\nclose"),
            ["tenant red: reply 1 differs"], 3),
    audited("kinds with ages of their own", aged(*AGES), ["tenant red: 5 steps, 1 replies, 0 rows"]),
    audited("64 kinds with ages of their own", aged(*(f"kind k{number} 1" for number in range(10, 74))),
            ["tenant red: 5 steps, 1 replies, 0 rows"]),
    refused_at("a journal of the second form without its last line", text(SECOND[:-1]), 11),
    refused_at("no logic", text(["silo-journal 2", *JOURNAL[1:]]), 2),
    refused_at("a logic that there isn't", text(["silo-journal 2", f"kinds {NEWEST + 1}", *JOURNAL[1:]]), 2),
    refused_at("the logic 0", text(["silo-journal 2", "kinds 0", *JOURNAL[1:]]), 2),
    refused_at("a logic in a journal of the first form", text(["silo-journal 1", "kinds 1", *JOURNAL[1:]]), 2),
    refused_at("the logic behind the age", text(["silo-journal 2", "age 900000", "kinds 2", *JOURNAL[2:]]), 2),
    refused_at("a logic that stands twice", text(["silo-journal 2", "kinds 2", *SECOND[1:]]), 3),
    refused_at("a kind's age in a journal of the first form", text(JOURNAL[:2] + AGES + JOURNAL[2:]), 3),
    refused_at("a kind before the age", text([*SECOND[:2], *AGES, *SECOND[2:]]), 3),
    refused_at("a kind that stands twice", aged(AGES[0], AGES[0]), 5),
    refused_at("kinds out of order", aged(*reversed(AGES)), 5),
    refused_at("a kind that ends another", aged("kind sheet 1", "kind she 1"), 5),
    refused_at("a kind too many", aged(*(f"kind k{number} 1" for number in range(10, 75))), 68),
    refused_at("a kind behind a tenant", text(SECOND[:4] + AGES + SECOND[4:]), 5),
    refused_at("a kind in upper case", aged("kind Counter 10"), 4),
    refused_at("a kind with no age", aged("kind counter"), 4),
    refused_at("a kind's age of 0", aged("kind counter 0"), 4),
    refused_at("a kind's age above a day", aged("kind counter 86400001"), 4),
    refused_at("a kind's age with a zero before it", aged("kind counter 010"), 4),
    audited("grains that rest and stay", of_logic(2, 5, RESTED), ["tenant red: 16 steps, 4 replies, 0 rows"]),
    audited("a kind's own age in place of the others'", of_logic(2, 1, RESTED, ["kind counter 9", "kind sheet 1"]),
            ["tenant red: 16 steps, 4 replies, 0 rows"]),
    audited("a kind's own age above how long it stays", of_logic(2, 1, RESTED, ["kind counter 10"]),
            ["tenant red: reply 4 differs"], 3),
    audited("the age of all others in place of a kind's own", of_logic(2, 10, RESTED, ["kind sheet 1"]),
            ["tenant red: reply 4 differs"], 3),
    audited("grains that rest and stay, by the first logic", of_logic(1, 5, RESTED), ["tenant red: step 7 differs"], 3),
    audited("grains that rest and stay, in a journal of the first form", in_first_form(of_logic(1, 5, RESTED)),
            ["tenant red: step 7 differs"], 3),
    audited("what isn't known by the first logic", of_logic(1, 5, UNRESTED), ["tenant red: 8 steps, 2 replies, 0 rows"]),
    audited("what isn't known in a journal of the first form", in_first_form(of_logic(1, 5, UNRESTED)),
            ["tenant red: 8 steps, 2 replies, 0 rows"]),
    audited("what isn't known by the first logic, by the second", of_logic(2, 5, UNRESTED), ["tenant red: step 7 differs"], 3),
]
