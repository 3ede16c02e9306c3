"""Inputs of the program, made from a seed: steps that are possible, steps that aren't, and lines that are broken.

Most of an input's lines are chosen by what the slow silo holds after the lines before, so that its entries load, its
turns open and close, its mailboxes fill and its sends arrive.
"""

from __future__ import annotations

from random import Random
from typing import NamedTuple

import places  # noqa: F401
from random_lines import (BAD_CALLERS, BAD_GRAINS, HEXED, NUMBERS, ODD_ARGUMENTS, OTHER_CALLERS, SPACES, TEXTS, VALUES,
                          asked_line, damaged, dumped, grain_line, long_line, object_line, odd_argument, raw_line,
                          some_value, with_extra)
from slow_silo import codes, lines, program
from slow_silo.journal import LAST_FORM, journal_of, journal_text
from slow_silo.kinds import EVERY_KIND, FIRST_KINDS, METHODS
from slow_silo.machine import LOADING, WAITING, Limits
from slow_silo.serve import lanes_of, serve
from slow_silo.silo import Setup, Silo
from slow_silo.steps import Call, Poke, Refuse, Step
from slow_silo.values import holds_bytes

TENANTS = ["red", "blue", "reddish", "r"]
NAMES = ["a", "a", "a", "b", "a/b:c", '"\\', "n" * 128]
ODD_METHODS = ["fly", "", "get", "add\u0000", "GET", "save", "rest", "stay", "rest "]
STRANGE_GRAINS = ["counter/blue:a", "counter/reddish:a", "counter/r:a", "clock/red:a", "sheet/red:a", "relay/blue:a"]
ACTIVATIONS = ["1", "2", "3", "4", "10000"]
MAILBOXES = ["1", "1", "2", "4", "1000"]
AGES = ["1", "5", "100", "900000"]
AGES_OF_KINDS = ["counter=1", "counter=3,sheet=1", "sheet=5,relay=2,counter=10", "clock=1", "counter=86400000",
                 "relay=1,counter=200", "a=1,sheet=2,z-9=3", ",".join(f"k{number}=7" for number in range(63)) + ",sheet=4"]
ODD_AGES = ["", "counter", "counter=0", "counter=86400001", "counter=01", "counter=+1", "counter=-1", "counter=1,", ",",
            "counter=1,counter=1", "sheet=1,counter=2,sheet=3", "Counter=1", "counter:1", "counter=1;sheet=2", "counter=1 ",
            "counter=1, sheet=2", "=1", "counter==1", "counter=99999999999999999999", "k" * 33 + "=1", "réd=1",
            ",".join(f"k{number}=7" for number in range(65))]
# how long a grain stays, and what stay refuses
STAYS = [1, 1, 2, 5, 50, 100, 86_400_000]
ODD_STAYS = [0, -1, 86_400_001, 2**63 - 1, -(2**63), "5", None, True]
LENGTHS = [1, 3, 12, 40, 120, 120]
ODD_WORDS = [
    ["steps", "--age", "0", "red:2:4"], ["steps", "--age", "86400001", "red:2:4"], ["steps", "--age", "x", "red:2:4"],
    ["steps", "--age", "1", "red:2:4"], ["steps", "red:2:4", "--age=86400000"], ["steps", "blue:2:4"],
    ["steps", "--years", "red:2:4"], ["steps"], ["walk", "red:2:4"], ["steps", "red:2:4", "red:2:4"],
    ["steps", "red:02:4", "x"], ["steps", "red:0:4"], ["steps", "red:10001:4"], ["steps", "red:2:1001"],
    ["steps", "red:2"], ["steps", "red:2:4:8"], ["steps", "Red:2:4"], ["steps", "red:+2:4"], ["steps", "red:2:"],
    ["steps", ""], ["steps", "r" * 33 + ":2:4"], ["steps", "red:99999999999999999999:4"], ["steps", "réd:2:4"],
    ["steps", "red:1:1", "blue:1:1", "x", "red:1:1"], ["steps", "--ages", "counter=1", "red:0:4"],
    ["steps", "--ages", "", "x"], ["steps", "--ages", "counter=0", "--age", "0", "red:2:4"], ["steps", "red:2:4", "--ages"],
    ["steps", "--ages", "counter=1", "--ages", "counter=1", "red:2:4"], ["steps", "red:2:4", "--ages=sheet=5,counter=1"],
    *(["steps", "--ages", ages, "red:2:4"] for ages in ODD_AGES),
]


class Input(NamedTuple):
    words: list[str]
    data: bytes
    # the files that there are, by their paths
    files: dict = {}


class World:
    """The names that an input's lines are made of, and the silo that they have led to."""

    def __init__(self, random: Random, tenants: list[str], silo: Silo, crowded: bool):
        self.random = random
        self.tenants = tenants
        self.silo = silo
        # how often a grain that the silo holds is asked for again
        self.again = 0.3 if crowded else 0.7
        # many grains, so that the limit of activations is met
        self.names = [f"c{number}" for number in range(6)] if crowded else NAMES

    def tenant(self) -> str:
        return self.random.choice(self.tenants)

    def caller(self, tenant: str) -> str:
        return f"{tenant}/{self.random.choice(['c1', 'c2', 'c-9'])}"

    def grain(self, tenant: str) -> str:
        """A grain of the tenant: as often as not one that the silo holds."""
        held = [grain.text() for grain in self.silo.machine(tenant).entries]
        if held and self.random.random() < self.again:
            return self.random.choice(held)
        kind = self.random.choice(sorted(METHODS))
        return f"{kind}/{tenant}:{self.random.choice(self.names)}"

    def any_grain(self) -> str:
        own = self.grain(self.tenant())
        return self.random.choice([own, own, self.random.choice(STRANGE_GRAINS)])

    # ---- calls

    def method_and_argument(self, kind: str) -> tuple[str, str]:
        """A method of the kind as a rule, with an argument that fits it as a rule."""
        random = self.random
        known = sorted(METHODS.get(kind, ["get"]))
        own = [method for method in known if method not in EVERY_KIND]
        chance = random.random()
        method = random.choice(ODD_METHODS if chance < 0.15 else own if chance < 0.75 else known)
        if random.random() < 0.12:
            return method, random.choice([random.choice(ODD_ARGUMENTS), random.choice(HEXED), odd_argument(random)])
        return method, dumped(self.fitting(kind, method))

    def fitting(self, kind: str, method: str) -> object:
        random = self.random
        if method == "add":
            return {"by": random.choice([1, 3, -2, 2**62, 2**63 - 1, -(2**63)])}
        if method == "put":
            return {"name": random.choice(["k", "l", "", "é"]), "value": some_value(random)}
        if method == "drop" or method == "get" and kind == "sheet":
            return {"name": random.choice(["k", "l", "", "é"])}
        if method == "stay":
            return {"for": random.choice(STAYS if random.random() < 0.8 else ODD_STAYS)}
        if method in ("join", "leave"):
            joined = [f"counter/{self.tenant()}:{name}" for name in "abcde"]
            return {"grain": random.choice([*joined, self.any_grain(), "counter/blue:x", "x"])}
        if method == "send":
            to, sent = random.choice([("counter", "get"), ("counter", "add"), ("sheet", "put"), ("relay", "join"),
                                      ("relay", "leave"), ("counter", "save"), ("counter", "fly"), ("sheet", "rest"),
                                      ("counter", "stay")])
            return {"args": self.fitting(to, sent), "method": sent}
        return None

    def good_call(self) -> str:
        """A call of a tenant to one of its own grains."""
        tenant = self.tenant()
        grain = self.grain(tenant)
        method, argument = self.method_and_argument(grain.split("/")[0])
        return self.call(self.caller(tenant), grain, method, argument)

    def other_call(self) -> str:
        """A call of any tenant to any grain."""
        caller = self.random.choice([self.caller(self.tenant()), *OTHER_CALLERS])
        return self.call(caller, self.any_grain(), "get", "null")

    def call(self, caller: str, grain: str, method: str, argument: str) -> str:
        return asked_line(self.random, "call", caller, grain=dumped(grain), method=dumped(method), args=argument)

    # ---- steps that are possible now, as a rule

    def possible(self) -> list[tuple[str, str, dict]]:
        """What may be done to the entries, as the op, the grain and the members beside."""
        found = []
        for grain, entry in self.silo.entries().items():
            machine = self.silo.machine(grain.tenant)
            if entry.phase == WAITING:
                found.append(("activate", grain.text(), {}))
            elif entry.phase == LOADING:
                found.append(("load", grain.text(), self.failed(0.05)))
            elif entry.queue and machine.may_open(grain, entry):
                found += [("begin", grain.text(), {})] * 2
            for number in entry.turns:
                _entry, _request, plan = machine.turn(grain, number)
                closing = ("end", {}) if plan.asks is None else ("store", self.failed(0.1))
                found += [(closing[0], grain.text(), {"turn": str(number), **closing[1]})] * 2
        for machine in self.silo.machines.values():
            found += [("deliver", source.text(), {}) for source, _sent in machine.sends]
        return found

    def failed(self, chance: float) -> dict:
        """The member `failed`, now and then."""
        if self.random.random() > 2 * chance:
            return {}
        return {"failed": self.random.choice(["true", "false"])}

    def asked(self) -> str:
        """What a client asks beside calls, and what nobody asks."""
        random, tenant = self.random, self.tenant()
        op = random.choice(["poke", "status", "tick", "tick", "sweep", "abandon"])
        if op == "poke":
            state = random.choice([dumped(self.state()), dumped(self.state()), odd_argument(random)])
            grain = random.choice([self.grain(tenant), self.any_grain()])
            return asked_line(random, "poke", self.caller(tenant), grain=dumped(grain), state=state)
        if op == "status":
            return asked_line(random, "status", random.choice([self.caller(tenant), *OTHER_CALLERS]))
        if op == "sweep":
            return object_line(random, [("op", '"sweep"')])
        if op == "tick":
            now = max(0, self.silo.clock + random.choice([0, 1, 1, 3, 5, 100, -1]))
            return object_line(random, [("op", '"tick"'), ("now", str(now))])
        turns = [(grain, number) for grain, entry in self.silo.entries().items() for number in entry.turns]
        grain, number = random.choice(turns) if turns else (None, 1)
        return grain_line(random, "abandon", self.grain(tenant) if grain is None else grain.text(), turn=str(number))

    def state(self) -> object:
        """A state of some kind, or of none."""
        grains = [self.grain(self.tenant()) for _ in range(self.random.randrange(6))]
        return self.random.choice([5, {"k": some_value(self.random)}, grains, some_value(self.random)])

    def likely_step(self) -> str:
        possible = self.possible()
        kind = self.random.random()
        if kind < 0.07:
            return self.asked()
        if kind < 0.35 or not possible:
            return self.good_call()
        op, grain, members = self.random.choice(possible)
        return grain_line(self.random, op, grain, **members)

    # ---- lines with something that isn't as it should be

    def odd_call(self) -> str:
        """A call with a member that may not be what it should be, or that is missing, or one too many."""
        random = self.random
        op = random.choice(["call", "call", "call", "poke"])
        members = {"from": dumped(self.caller(self.tenant())), "id": "1", "op": dumped(op)}
        members["grain"] = dumped(self.any_grain())
        if op == "call":
            members.update(method=random.choice(['"get"', '"add"']), args="null")
        else:
            members.update(state="5")
        for _ in range(random.choice([1, 1, 2])):
            members[random.choice(list(members))] = random.choice([
                dumped(random.choice(BAD_GRAINS + STRANGE_GRAINS)),
                dumped(random.choice(BAD_CALLERS + OTHER_CALLERS)),
                random.choice(NUMBERS), random.choice(TEXTS), random.choice(VALUES), random.choice(HEXED),
                odd_argument(random), odd_argument(random),
            ])
        if random.random() < 0.2:
            members.pop(random.choice(list(members)))
        return with_extra(random, object_line(random, members.items()))

    def odd_step(self) -> str:
        """A step that isn't possible now, as a rule, or has a member that isn't what it should be."""
        random = self.random
        op = random.choice(["activate", "load", "begin", "end", "end", "store", "abandon", "deliver", "tick", "sweep",
                            "status", "Begin", "", "call", "begin "])
        grain = random.choice([self.any_grain(), self.any_grain(), random.choice(STRANGE_GRAINS + BAD_GRAINS)])
        number = random.choice(["0", "1", "2", "3", random.choice(NUMBERS), '"1"', "null"])
        if op == "tick":
            return with_extra(random, object_line(random, [("op", '"tick"'), ("now", number)]))
        if op == "sweep":
            return with_extra(random, '{"op":"sweep"}')
        if op == "status":
            return with_extra(random, object_line(random, [("op", '"status"'), ("from", '"red/c1"'), ("id", number)]))
        has_turn = op in ("end", "store", "abandon") and random.random() < 0.95 or random.random() < 0.1
        return with_extra(random, grain_line(random, op, grain, **({"turn": number} if has_turn else {})))

    def doubled_member(self) -> str:
        """A call whose argument stands twice: the last one counts, and both have to be JSON."""
        line = self.call(self.caller(self.tenant()), self.any_grain(), "get", odd_argument(self.random))
        last = self.random.choice(["null", odd_argument(self.random)])
        return line.rstrip(" \t\r").removesuffix("}") + ',"args":' + last + "}"

    def line(self) -> bytes:
        """One line; one that has an LF inside becomes several."""
        random, kind = self.random, self.random.random()
        if kind < 0.70:
            return self.likely_step().encode()
        if kind < 0.76:
            return self.other_call().encode()
        if kind < 0.78:
            return self.doubled_member().encode()
        if kind < 0.82:
            return self.odd_call().encode()
        if kind < 0.88:
            return self.odd_step().encode()
        if kind < 0.93:
            make = random.choice([self.good_call, self.other_call, self.odd_call, self.odd_step, self.likely_step])
            return damaged(random, make().encode())
        if kind < 0.95:
            return raw_line(random)
        if kind < 0.97:
            return (random.choice(SPACES) + self.likely_step() + random.choice(SPACES)).encode()
        return long_line(random, self.good_call().encode()) if kind < 0.975 else b""


# ---- inputs

def tenant_words(random: Random, tenants: list[str]) -> list[str]:
    return [f"{tenant}:{random.choice(ACTIVATIONS)}:{random.choice(MAILBOXES)}" for tenant in tenants]


def age_words(random: Random) -> list[str]:
    """The options for the ages: the one of all kinds, and now and then those of some kinds."""
    ages = ["--ages", random.choice(AGES_OF_KINDS)] if random.random() < 0.4 else []
    return ["--age", random.choice(AGES), *ages]


def steps_input(random: Random, lengths: list[int] = LENGTHS) -> Input:
    """An input of `steps`, of one of these numbers of steps."""
    tenants = TENANTS[: random.choice([1, 1, 2, 2, 3, 4])]
    if random.random() < 0.05:
        return Input(random.choice(ODD_WORDS), b"")
    crowded = random.random() < 0.3
    words = ["steps", *age_words(random), *tenant_words(random, tenants)]
    silo = Silo(program.setup_of_words(words))
    world = World(random, tenants, silo, crowded)
    made = []
    for _ in range(random.choice(lengths)):
        made.append(world.line())
        for line in made[-1].split(b"\n"):
            lines.answer(silo, line)
    ending = random.choice([b"\n", b"\n", b"\n", b"\r\n"])
    data = ending.join(made) + (ending if made and random.random() < 0.8 else b"")
    return Input(words, data)


def serve_input(random: Random) -> Input:
    """An input of `serve` whose output is the same in every order: no two lanes ask for one grain, or for a status."""
    tenants = TENANTS[: random.choice([1, 2, 3])]
    silo = Silo(Setup(tuple((tenant, Limits(10_000, 1_000)) for tenant in tenants)))
    world = World(random, tenants, silo, False)
    made = []
    for _ in range(random.choice(LENGTHS)):
        caller = world.caller(world.tenant())
        tenant, client = caller.split("/")
        kind = random.choice(["counter", "sheet"])
        method, argument = world.method_and_argument(kind)
        grain = f"{kind}/{tenant}:{client}"
        line = world.call(caller, grain, method, argument)
        if random.random() < 0.15:
            line = random.choice([world.call("red/c1", "counter/red:c1", "get", odd_argument(random)), "hello",
                                  grain_line(random, "begin", grain), '{"op":"sweep"}', '{"op":"tick","now":3}',
                                  world.call(caller, random.choice(BAD_GRAINS), "get", "null")])
        made.append(line.encode() + b"\n")
    words = ["serve", "--workers", random.choice(["1", "2", "4", "64"]), *random.choice([[], ["--explain-lines"]])]
    return Input(words + [f"{tenant}:10000:1000" for tenant in tenants], b"".join(made))


def set_up_input(random: Random) -> tuple[Input, Setup]:
    """An input of `steps` whose words are taken, and what they set up."""
    made = steps_input(random)
    while made.words in ODD_WORDS:
        made = steps_input(random)
    return made, program.setup_of_words(made.words)


def as_written_before(setup: Setup) -> Setup:
    """What a silo was set up with whose journal has the first form."""
    return setup._replace(logic=FIRST_KINDS, ages=())


def has_form(step: Step, form: int) -> bool:
    """A journal of the form may hold the step: bytes are in the last form alone, and their code too."""
    if form == LAST_FORM:
        return True
    if isinstance(step, Refuse):
        return step.code != codes.NOT_BYTES
    return not holds_bytes(step.args if isinstance(step, Call) else step.state if isinstance(step, Poke) else None)


def set_up_steps(random: Random, form: int) -> tuple[Setup, list[Step]]:
    """What a silo whose journal has the form was set up with, and the steps of an input."""
    made, setup = set_up_input(random)
    read = [lines.read_line(line) for line in lines.lines_of([made.data])]
    steps = [step for step in read if step is not None and not isinstance(step, int) and has_form(step, form)]
    return as_written_before(setup) if form == 1 else setup, steps


def text_in_form(silo: Silo, form: int) -> bytes:
    return journal_text(journal_of(silo)._replace(form=form))


def steps_journal(random: Random, form: int = LAST_FORM) -> bytes:
    """The journal of a silo that took the lines of an input of `steps`."""
    setup, steps = set_up_steps(random, form)
    silo = Silo(setup)
    silo.run(steps)
    return text_in_form(silo, form)


def served_journal(random: Random, form: int = LAST_FORM) -> bytes:
    """The journal of a silo that served the lanes of an input of `steps`, each step at any time that it may come."""
    setup, steps = set_up_steps(random, form)
    _refused, asked = program.sort_lines(steps)
    return text_in_form(serve(setup, lanes_of(asked), random), form)


def journal_input(random: Random) -> Input:
    """A journal of a silo, as it is or with something changed, that is audited or migrated."""
    text = steps_journal(random, random.choice([1, 2, 3, 3]))
    kind = random.random()
    if kind < 0.3:
        text = damaged(random, text)
    elif kind < 0.8:
        text = with_lines_changed(random, text)
    return Input([random.choice(["audit", "audit", "migrate"]), "j"], b"", {"j": text})


def with_lines_changed(random: Random, text: bytes) -> bytes:
    """A line is left out, stands twice, or changes places with the next; the number of steps is made to fit again."""
    changed = text.splitlines(keepends=True)
    place = random.randrange(len(changed))
    kind = random.randrange(4)
    if kind == 0:
        del changed[place]
    elif kind == 1:
        changed.insert(place, changed[place])
    elif kind == 2:
        changed[place : place + 2] = reversed(changed[place : place + 2])
    else:
        changed[place] = damaged(random, changed[place])
    heads = (b"silo-journal", b"kind", b"age", b"tenant", b"reply", b"row", b"close")
    steps = sum(not line.startswith(heads) for line in changed)
    if changed and changed[-1].startswith(b"close") and random.random() < 0.8:
        changed[-1] = b"close %d\n" % steps
    return b"".join(changed)


MAKERS = {"steps": steps_input, "serve": serve_input, "journal": journal_input}


def make_input(random: Random) -> Input:
    """An input of one of the subcommands, most often of `steps`."""
    return MAKERS[random.choice(["steps"] * 8 + sorted(MAKERS))](random)
