"""Inputs of `answer`, made from a seed: what clients of several tenants ask, with relays that send to one another, lines that
no client may ask, and lines with something wrong. In some of them more waits to be delivered than may."""

from __future__ import annotations

from random import Random
from typing import Iterable, Iterator, Optional

import places  # noqa: F401
from certain_input import Lanes
from random_input import LENGTHS, TENANTS, Input, age_words, tenant_words
from random_lines import asked_line, dumped, some_value
from slow_silo import program
from slow_silo.answer import answer_line
from slow_silo.silo import Silo

SENDS = ["0", "1", "2", "5", "1000"]
# how long texts are that relays send to one another, and through how many of them each passes: some hundred thousand bytes are
# delivered behind a line then, and a million wait
LONG, PASSES = [9_000, 30_000, 60_000], [2, 4, 7]
# a call without a text that passes through so many, behind each of which are four, leaves more than ten thousand behind so many lines
MANY_PASSES, MANY_LINES = 6, [6, 10]


class Asking(Lanes):
    """Lines of several callers, and relays among them."""

    def caller(self, tenant: str) -> str:
        return f"{tenant}/c{self.random.randrange(3)}"

    def relay_line(self) -> bytes:
        random, tenant = self.random, self.tenant()
        relay = dumped(f"relay/{tenant}:r{random.randrange(3)}")
        other = random.choice([tenant, tenant, tenant, "blue", "nobody"])
        kind = random.choice(["counter", "relay", "relay", "sheet", "clock"])
        member = f"{kind}/{other}:r{random.randrange(3)}"
        inner = {"method": "send", "args": {"method": "add", "args": {"by": 1}}}
        sent = random.choice([{"method": "add", "args": {"by": 1}}, {"method": "get", "args": None}, inner,
                              {"method": "send", "args": inner}, {"method": "save", "args": None},
                              {"method": "rest", "args": None}])
        method, args = random.choice([("join", {"grain": member}), ("join", {"grain": member}), ("leave", {"grain": member}),
                                      ("send", sent), ("send", sent), ("send", sent)])
        return asked_line(random, "call", self.caller(tenant), grain=relay, method=dumped(method), args=dumped(args)).encode()

    def line(self) -> bytes:
        kind = self.random.random()
        if kind < 0.35:
            return self.relay_line()
        return self.odd_step().encode() if kind < 0.4 else self.request()


class Flooding(Asking):
    """Lines of relays that send long texts to one another, among others."""

    def __init__(self, random: Random, tenants: list[str], silo: Silo):
        super().__init__(random, tenants, silo, False)
        self.flooding = random.choice(tenants)

    def relay(self, number: int) -> str:
        return f"relay/{self.flooding}:r{number}"

    def call_of(self, relay: str, method: str, args: object) -> bytes:
        grain, caller = dumped(relay), self.caller(self.flooding)
        return asked_line(self.random, "call", caller, grain=grain, method=dumped(method), args=dumped(args)).encode()

    def status(self) -> bytes:
        return asked_line(self.random, "status", self.caller(self.flooding)).encode()

    def joins(self, count: int, others: list[str]) -> Iterator[bytes]:
        """So many relays have each other as members, or now and then one of the others."""
        relays = [self.relay(number) for number in range(count)]
        for one in relays:
            for member in relays:
                yield self.call_of(one, "join", {"grain": self.random.choice([*[member] * 20, *others])})

    def sent(self, passes: int, method: str, args: object) -> bytes:
        for _ in range(passes):
            method, args = "send", {"method": method, "args": args}
        return self.call_of(self.relay(0), "send", {"method": method, "args": args})

    def long(self) -> bytes:
        random, length = self.random, self.random.choice(LONG)
        method, args = random.choice([("put", {"name": random.choice("kl"), "value": "x" * length}), ("get", "x" * length),
                                      ("put", {"name": "k", "value": [some_value(random), b"x" * (length // 2)]})])
        return self.sent(random.choice(PASSES), method, args)

    def line(self) -> bytes:
        kind = self.random.random()
        return self.long() if kind < 0.2 else self.status() if kind < 0.5 else super().line()


def made_by(world: Asking, words: list[str], sends: str, lines: Iterable[bytes]) -> Input:
    """The input of such lines, which are answered as they come: what the world makes depends on that."""
    made = []
    for line in lines:
        for part in line.split(b"\n"):
            answer_line(world.silo, part, int(sends))
            made.append(part + b"\n")
    return Input(words, b"".join(made))


def make_input(random: Random, journal: Optional[str] = "j", lengths: list[int] = LENGTHS) -> Input:
    tenants = TENANTS[: random.choice([1, 2, 3, 4])]
    sends = random.choice(SENDS)
    options = [*age_words(random), "--sends", sends, *([] if journal is None else ["--journal", journal])]
    words = ["answer", *options, *tenant_words(random, tenants)]
    world = Asking(random, tenants, Silo(program.setup_of_words(words)), random.random() < 0.3)
    return made_by(world, words, sends, (world.line() for _ in range(random.choice(lengths))))


def flood_input(random: Random) -> Input:
    """More bytes wait than may, as a rule."""
    tenants, sends = TENANTS[: random.choice([1, 2, 3])], random.choice(["1", "5", "1000", "1000"])
    words = ["answer", *age_words(random), "--sends", sends, "--journal", "j"]
    words += [f"{tenant}:{random.choice(['4', '6', '10000'])}:{random.choice(['1', '4'])}" for tenant in tenants]
    world = Flooding(random, tenants, Silo(program.setup_of_words(words)))
    others = [f"sheet/{world.flooding}:a", f"counter/{world.flooding}:a", "counter/blue:x", "clock/red:a"]
    lines = (world.line() for _ in range(random.choice([20, 60])))
    return made_by(world, words, sends, (*world.joins(random.choice([2, 3, 4, 4]), others), *lines))


def many_input(random: Random) -> Input:
    """More calls wait than may, which takes the slow silo a second."""
    words = ["answer", *age_words(random), "--sends", "1000", "--journal", "j", "red:10:4", "blue:2:2"]
    world = Flooding(random, ["red", "blue"], Silo(program.setup_of_words(words)))
    world.flooding = "red"
    lines = (one for _ in range(random.choice(MANY_LINES)) for one in (world.status(), Asking.line(world)))
    return made_by(world, words, "1000", (*world.joins(4, []), world.sent(MANY_PASSES, "get", None), *lines))


def any_input(random: Random) -> Input:
    kind = random.random()
    return many_input(random) if kind < 0.01 else flood_input(random) if kind < 0.06 else make_input(random)
