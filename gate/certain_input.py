"""Inputs of `serve` whose output is certain, whatever the workers do, made from a seed.

What one lane is answered is certain if no other lane asks its tenant for anything: at each moment one step is possible,
so the journal is certain too. With a lane in each of several tenants each tenant's answers are still certain, but the
journal isn't; no kind has an age of its own there, since the clock may move. Sends are left to inputs of their own: there,
no lane asks a grain that is sent to.
"""

from __future__ import annotations

from random import Random
from typing import NamedTuple

import places  # noqa: F401
from random_input import LENGTHS, TENANTS, World, age_words, tenant_words
from random_lines import asked_line, damaged, dumped, long_line, raw_line
from slow_silo import lines, program
from slow_silo.silo import Silo
from slow_silo.steps import OF_A_CALLER, OF_NOBODY, Call, Status, Tick

AGE = "86400000"
WIDE = ":10000:1000"


class Certain(NamedTuple):
    """An input, and whether its journal is certain too."""

    words: list[str]
    data: bytes
    journal: bool


class Lanes(World):
    """Lines of one caller for each tenant."""

    def caller(self, tenant: str) -> str:
        return f"{tenant}/c1"

    def request(self) -> bytes:
        """A line that a lane may give, as a rule."""
        random, kind = self.random, self.random.random()
        if kind < 0.6:
            return self.good_call().encode()
        if kind < 0.78:
            return self.asked().encode()
        if kind < 0.85:
            return self.other_call().encode()
        if kind < 0.93:
            return self.odd_call().encode()
        if kind < 0.95:
            return damaged(random, self.good_call().encode())
        if kind < 0.97:
            return self.odd_step().encode()
        return random.choice([b"", raw_line(random), long_line(random, self.good_call().encode())])


def is_kept(step: object, callers: list[str], alone: bool) -> bool:
    """The line leaves the output certain. Beside other lanes the clock may move, but nobody asks for it."""
    if isinstance(step, OF_NOBODY):
        return not alone and not (isinstance(step, Tick) and step.now >= int(AGE))
    if not isinstance(step, OF_A_CALLER):
        return True
    sends = isinstance(step, Call) and step.method == "send" and step.grain.kind == "relay"
    return step.caller.text() in callers and not sends and (alone or not isinstance(step, Status))


def lanes_input(random: Random, alone: bool, lengths: list[int] = LENGTHS) -> Certain:
    """One lane, or one in each of several tenants, of calls, pokes and lines with something wrong."""
    count = random.choice([1, 2, 3] if alone else [2, 3, 4])
    asking = [random.choice(TENANTS[:count])] if alone else TENANTS[:count]
    words = [*(age_words(random) if alone else ["--age", AGE]), *tenant_words(random, TENANTS[:count])]
    silo = Silo(program.setup_of_words(["serve", *words]))
    world = Lanes(random, asking, silo, random.random() < 0.3)
    kept = []
    for _ in range(random.choice(lengths)):
        for line in world.request().split(b"\n"):
            step = lines.read_line(line)
            if is_kept(step, [world.caller(tenant) for tenant in asking], alone):
                lines.answer(silo, line)
                kept.append(line + b"\n")
    return Certain(words, b"".join(kept), alone)


def sends_input(random: Random) -> Certain:
    """Lanes with relays of their own, whose members nobody asks; some are another tenant's, or of no kind."""
    tenants = TENANTS[: random.choice([1, 2, 3])]
    made = []
    for _ in range(random.choice(LENGTHS)):
        tenant = random.choice(tenants)
        relay = dumped(f"relay/{tenant}:r{random.randrange(2)}")
        other = random.choice([tenant, tenant, "blue", "nobody"])
        member = random.choice(["counter", "sheet", "relay", "clock"]) + f"/{other}:m{random.randrange(4)}"
        sent = random.choice([("add", {"by": 1}), ("get", None), ("save", None), ("fly", None), ("put", 1), ("rest", None)])
        method, args = random.choice([
            ("join", {"grain": member}), ("leave", {"grain": member}), ("send", {"args": sent[1], "method": sent[0]}),
            ("send", {"args": sent[1], "method": sent[0]}), ("save", None), random.choice([("rest", None), ("save", None)])])
        made.append(asked_line(random, "call", f"{tenant}/c1", grain=relay, method=dumped(method), args=dumped(args)))
    return Certain([tenant + WIDE for tenant in tenants], "".join(line + "\n" for line in made).encode(), False)


def make_input(random: Random) -> Certain:
    kind = random.randrange(5)
    return sends_input(random) if kind == 0 else lanes_input(random, kind < 3)
