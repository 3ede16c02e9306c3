"""Stories of tenants that come and go, and ask some things once; and what a tenant is told if it is alone, by a simpler model."""

from __future__ import annotations

import copy
import json
from random import Random
from typing import NamedTuple, Optional

import places  # noqa: F401
from slow_silo import codes, receipts
from slow_silo.answer import answer_line
from slow_silo.kinds import KINDS
from slow_silo.machine import Limits
from slow_silo.program import setup_of_words
from slow_silo.silo import Setup, Silo
from slow_silo.storage import CLEARED
from slow_silo.values import spelled, spelled_message

# the first one is always there
TENANTS = ["rock", "red", "blue", "green"]


def text_of(said: dict) -> str:
    return json.dumps(said, separators=(",", ":"))


class Story(NamedTuple):
    words: list[str]
    sends: int
    # what lines say, each with its tenant, or None if it is nobody's
    lines: list[tuple[dict, Optional[str]]]

    def setup(self) -> Setup:
        return setup_of_words(self.words)


# ---- stories

class Making:
    """Makes lines, and knows the greatest number that each caller said."""

    def __init__(self, random: Random):
        self.random = random
        self.greatest: dict[str, int] = {}
        self.now = 0

    def line(self) -> tuple[dict, Optional[str]]:
        tenant, kind = self.random.choice(TENANTS), self.random.random()
        if kind < 0.08:
            self.now += self.random.randrange(3)
            return {"op": "tick", "now": max(0, self.now - self.random.choice([0, 0, 0, 1]))}, None
        if kind < 0.12:
            return {"op": "sweep"}, None
        if kind < 0.25:
            return self.operator(tenant), tenant
        caller = f"{tenant}/c{self.random.randrange(3)}"
        if kind < 0.32:
            return {"op": self.random.choice(["last", "status"]), "from": caller, "id": self.random.randrange(4)}, tenant
        return {**self.asked(tenant), "from": caller, **self.members(caller)}, tenant

    def operator(self, tenant: str) -> dict:
        if tenant != TENANTS[0] and self.random.random() < 0.4:
            return {"op": "drop", "tenant": tenant}
        return {"op": "tenant", "tenant": tenant, "activations": self.random.randrange(1, 5), "mailbox": self.random.randrange(1, 3)}

    def members(self, caller: str) -> dict:
        """The number, which is greater than before, or was perhaps asked before; whether it acts once; and what was seen."""
        random, greatest = self.random, self.greatest.get(caller, -1)
        number = greatest + random.randrange(1, 3) if random.random() < 0.6 else random.randrange(greatest + 2)
        self.greatest[caller] = max(greatest, number)
        once = {"once": random.random() < 0.9} if random.random() < 0.85 else {}
        return {"id": number, **once, **({"seen": random.randrange(number + 2)} if random.random() < 0.3 else {})}

    def asked(self, tenant: str) -> dict:
        random = self.random
        counter, sheet, relay = (f"{kind}/{tenant}:{random.choice('abc')}" for kind in ("counter", "sheet", "relay"))
        if random.random() < 0.2:
            return {"op": "poke", "grain": random.choice([counter, sheet, relay, "what"]), "state": random.choice([1, None, 1.5, {"k": "xx"}])}
        send = {"method": "add", "args": {"by": 1}}
        grain, method, args = random.choice([
            (counter, "add", {"by": random.randrange(4)}), (counter, "add", {"by": 1}), (counter, "get", None), (counter, "save", None),
            (counter, "rest", None), (sheet, "put", {"name": "k", "value": "x" * random.randrange(60)}), (sheet, "get", {"name": "k"}),
            (sheet, "save", None), (sheet, "clear", None), (f"relay/{tenant}:a", "join", {"grain": counter}),
            (relay, "join", {"grain": relay}), (f"relay/{tenant}:a", "send", send), (relay, "send", {"method": "send", "args": send}), (f"clock/{tenant}:a", "get", None),
            ("counter/blue:a", "get", None), (counter, "fly", None), (counter, "add", {"by": 1.5}), ("what", "get", None)])
        return {"op": "call", "grain": grain, "method": method, "args": args}


def make_story(random: Random) -> Story:
    sends, room = random.choice([0, 0, 1, 5]), random.choice([None, random.randrange(30, 250)])
    words = ["answer", "--data", "d", *random.choice([[], ["--checkpoints"], ["--checkpoints"]]), "--sends", str(sends), "--age", "3",
             "--replies", str(random.choice([2, 4, 9])), *([] if room is None else ["--bytes", str(room)]), "--operator"]
    words += [f"{tenant}:{random.randrange(1, 5)}:2" for tenant in TENANTS[:random.randrange(1, 5)]]
    making = Making(random)
    return Story(words, sends, [making.line() for _ in range(random.choice([10, 40, 80]))])


# ---- a tenant alone

class Alone:
    """A tenant whose lines come to a silo that has no other, and that knows of no receipts: which of them act is told apart before."""

    def __init__(self, tenant: str, story: Story):
        setup = story.setup()
        self.tenant, self.sends, self.most, self.room = tenant, story.sends, setup.replies, setup.room
        own = tuple(entry for entry in setup.tenants if entry[0] == tenant)
        self.silo = Silo(setup._replace(tenants=own, replies=None, operator=False))
        # what each number of each caller was told when it acted, and up to which one that was seen
        self.told: dict[str, dict[int, str]] = {}
        self.seen: dict[str, int] = {}
        # of the bytes that it kept
        self.wrong: Optional[str] = None

    def line(self, said: dict) -> list[str]:
        """What is written for a line of the tenant or of nobody."""
        if said["op"] in ("tenant", "drop"):
            return [text_sorted({**self.operator(said), "tenant": self.tenant})]
        is_known = self.tenant in self.silo.limits
        if said["op"] == "last" and is_known:
            return [text_sorted({"from": said["from"], "id": said["id"], "ok": max(self.told.get(said["from"], {None: 0}))})]
        plain = {name: value for name, value in said.items() if name not in ("once", "seen")}
        if said["op"] == "last":
            plain["op"] = "status"
        if not is_known or not {"once", "seen"} & set(said):
            return self.answer(plain)
        return self.asked(said, plain)

    def asked(self, said: dict, plain: dict) -> list[str]:
        caller, number = said["from"], said["id"]
        self.seen[caller] = max(self.seen.get(caller, -1), min(said.get("seen", -1), max(self.told.get(caller, {-1: ""}))))
        if said.get("once") and number in self.kept(caller):
            return [self.told[caller][number]]
        code, whose = self.refusal(caller, number) if said.get("once") else (None, "")
        if code is not None:
            return [text_sorted({"from": caller, "id": number, "error": code, "text": codes.text_of(code, whose)})]
        texts = self.answer(plain)
        if said.get("once"):
            assert number not in self.told.setdefault(caller, {})
            self.told[caller][number] = texts[0]
        return texts

    def kept(self, caller: str) -> list[int]:
        return [number for number in self.told.get(caller, {}) if number > self.seen.get(caller, -1)]

    def refusal(self, caller: str, number: int) -> tuple[Optional[int], object]:
        if number <= max(self.told.get(caller, {-1: ""})):
            return codes.WAS_ANSWERED, number
        if caller not in self.told and len(self.told) >= self.most:
            return codes.MANY_CALLERS, self.tenant
        for whose, callers, most, size in ((caller, [caller], receipts.MAX_RECEIPTS, receipts.MAX_BYTES),
                                           (self.tenant, self.told, self.most, 1024 * self.most)):
            lines = [self.told[one][of].encode() for one in callers for of in self.kept(one)]
            if len(lines) >= most or sum(map(len, lines)) >= size:
                return codes.NOT_SEEN, whose
        return None, ""

    def operator(self, said: dict) -> dict:
        before, machine = self.silo.limits.get(self.tenant), self.silo.machine(self.tenant)
        limits = {"ok": None if before is None else {"activations": before[0], "mailbox": before[1]}}
        if said["op"] == "tenant":
            machine.limits = self.silo.limits[self.tenant] = Limits(said["activations"], said["mailbox"])
            return limits
        has = machine.count, len(machine.sends), len(machine.entries), len(machine.storage.rows), len(self.told)
        code = codes.UNKNOWN_TENANT if before is None else codes.HAS_SOMETHING if any(has) else None
        if code is not None:
            return {"error": code, "text": codes.text_of(code, self.tenant, *has)}
        machine.limits = None
        del self.silo.limits[self.tenant]
        return limits

    def answer(self, plain: dict) -> list[str]:
        """What the silo answers; and what is wrong with the bytes that the tenant then keeps."""
        aside = copy.deepcopy(self.silo) if self.room is not None and self.sends == 0 else None
        texts = answer_line(self.silo, text_of(plain).encode(), self.sends)
        if self.room is not None and kept_bytes(self.silo, self.tenant) > self.room:
            self.wrong = f"{self.tenant} keeps {kept_bytes(self.silo, self.tenant)} bytes of {self.room} behind {plain}"
        # a grain that rests goes again
        if aside is not None and codes_of(texts) == [codes.NO_ROOM] and plain.get("method") != "rest":
            aside.machine(self.tenant).room = None
            answer_line(aside, text_of(plain).encode(), self.sends)
            if kept_bytes(aside, self.tenant) <= self.room:
                self.wrong = f"{self.tenant} would keep {kept_bytes(aside, self.tenant)} bytes of {self.room} behind {plain}"
        return texts


def kept_bytes(silo: Silo, tenant: str) -> int:
    """What the tenant keeps where no request waits (slow_silo/room.py)."""
    machine = silo.machine(tenant)
    held = {at: [entry.state, KINDS[at.kind].empty] for at, entry in machine.entries.items()}
    for at, row in machine.storage.rows.items():
        held[at] = held.get(at, []) + ([] if row.content is CLEARED else [row.content])
    sends = [at.text() + sent.target.text() + "x" * len(spelled_message(sent.method, sent.args)) for at, sent in machine.sends]
    grains = [len(at.text()) + max((len(spelled(value)) for value in values), default=0) for at, values in held.items()]
    return len("".join(sends)) + sum(grains)


def codes_of(texts: list[str]) -> list[Optional[int]]:
    return [json.loads(text).get("error") for text in texts]


def text_sorted(members: dict) -> str:
    return json.dumps(members, separators=(",", ":"), sort_keys=True)
