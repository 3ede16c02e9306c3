"""The silo of one tenant: one function for each kind of step, each a row of the table in docs/steps.md.

Each gives the replies that the step adds, or None where the step isn't possible now, and then nothing has changed.
"""

from __future__ import annotations

from typing import Callable, NamedTuple, Optional, Union

from . import codes
from .kinds import CLEAR, KINDS, READ, REST, SAME, Logic, Plan, Send, is_read
from .names import Grain
from .room import grain_bytes, kept_bytes, send_bytes, state_bytes
from .steps import (MAX_NUMBER, Abandon, Activate, Begin, Call, Client, Deliver, End, Load, Poke, Refuse, Reply, Status,
                    Step, Store, Sweep, Tick, fault, ok)
from .storage import CLEARED, Failed, Row, Spent, Stale, Storage

WAITING, LOADING, READY = "waiting", "loading", "ready"


class Limits(NamedTuple):
    # how many entries the tenant may have
    activations: int
    # how many requests may wait at a grain
    mailbox: int


class Request(NamedTuple):
    """What was accepted under a number, and is the turn of that number when it is open."""

    number: int
    sender: Union[Client, Grain]
    method: str
    args: object


class Entry:
    """What the silo holds of a grain. State and version count if it is ready."""

    def __init__(self) -> None:
        self.phase = WAITING
        self.state: object = None
        self.version: Optional[int] = None
        # the mailbox: the requests that wait
        self.queue: list[Request] = []
        # the open turns, by their numbers
        self.turns: dict[int, Request] = {}
        # when a request last came, or a turn last closed
        self.last = 0
        # it isn't collected before this moment
        self.until = 0
        # it goes as soon as it is idle
        self.resting = False

    def is_idle(self) -> bool:
        """It is ready, nothing waits, and no turn is open."""
        return self.phase == READY and not self.queue and not self.turns

    def counts(self, at: Grain) -> int:
        """How many bytes of what its tenant keeps (room.py)."""
        return state_bytes(at, self.state if self.phase == READY else KINDS[at.kind].empty)


class Refused(Exception):
    """A request is refused, with this code and the names in its text."""

    def __init__(self, code: int, *names: str):
        super().__init__(code, *names)
        self.code = code
        self.names = names


Replies = list[Reply]
Perhaps = Optional[Replies]


def answered(request: Request, value: object) -> Replies:
    """A client is told what its request came to. A grain isn't."""
    return [ok(request.sender, value)] if isinstance(request.sender, Client) else []


def refused(request: Request, code: int, *names: str) -> Replies:
    return [fault(request.sender, code, *names)] if isinstance(request.sender, Client) else []


def version_value(version: Optional[int]) -> Optional[str]:
    """What a client is told of a row's version."""
    return None if version is None else str(version)


class Machine:
    """One tenant's part. `limits` is None for a tenant that the silo doesn't know.

    `ages` are those of the kinds that have one of their own; all others have the one `age`.
    """

    def __init__(self, tenant: str, limits: Optional[Limits], age: int, ages: dict[str, int], logic: Logic,
                 storage: Storage, room: Optional[int] = None):
        self.tenant = tenant
        self.limits = limits
        self.age = age
        self.ages = ages
        self.logic = logic
        self.storage = storage
        # how many bytes the tenant may keep, if that is bounded
        self.room = room
        self.clock = 0
        self.count = 0
        self.entries: dict[Grain, Entry] = {}
        # what the tenant's grains sent, and whose it is
        self.sends: list[tuple[Grain, Send]] = []

    def step(self, step: Step) -> Perhaps:
        return STEPS[type(step)](self, step)

    # ---- what a client asks

    def refuse(self, step: Refuse) -> Perhaps:
        return [fault(Client(step.caller, step.id), step.code)]

    def call(self, step: Call) -> Perhaps:
        return self.request(Client(step.caller, step.id), step.grain, step.method, step.args)

    def poke(self, step: Poke) -> Perhaps:
        asker = Client(step.caller, step.id)
        try:
            self.check(step.grain)
            self.check_bytes(self.more_by_poke, step.grain, step.state)
            if step.failed:
                raise Failed
            return [ok(asker, version_value(self.storage.poke(step.grain, step.state)))]
        except Refused as refusal:
            return [fault(asker, refusal.code, *refusal.names)]
        except Failed:
            return [fault(asker, codes.STORAGE_FAILED)]
        except Spent:
            return [fault(asker, codes.VERSIONS_SPENT, step.grain.text())]

    def status(self, step: Status) -> Perhaps:
        asker = Client(step.caller, step.id)
        if self.limits is None:
            return [fault(asker, codes.UNKNOWN_TENANT, self.tenant)]
        return [ok(asker, {"activations": len(self.entries), "clock": self.clock, "requests": self.count})]

    # ---- how a request is accepted, of a client or of a grain

    def check(self, grain: Grain) -> None:
        """The tenant is known, the grain is its own, and the grain's kind is known."""
        if self.limits is None:
            raise Refused(codes.UNKNOWN_TENANT, self.tenant)
        if grain.tenant != self.tenant:
            raise Refused(codes.ACROSS_TENANTS, self.tenant, grain.tenant)
        if not self.logic.knows(grain.kind):
            raise Refused(codes.UNKNOWN_KIND, grain.kind)

    def check_room(self, grain: Grain) -> None:
        """There is a number left; there is room in the grain's mailbox, or for one more entry."""
        entry = self.entries.get(grain)
        if self.count == MAX_NUMBER:
            raise Refused(codes.NO_NUMBER, self.tenant)
        if entry is not None and len(entry.queue) >= self.limits.mailbox:
            raise Refused(codes.MAILBOX_FULL, grain.text())
        if entry is None and len(self.entries) >= self.limits.activations:
            raise Refused(codes.NO_ACTIVATION, self.tenant)

    def request(self, sender: Union[Client, Grain], grain: Grain, method: str, args: object, freed: int = 0) -> Replies:
        """So many bytes were freed for it (room.py)."""
        try:
            self.check(grain)
            self.check_room(grain)
            self.check_bytes(self.more_by_request, grain, freed=freed)
        except Refused as refusal:
            return [fault(sender, refusal.code, *refusal.names)]
        self.count += 1
        entry = self.entries.get(grain)
        if entry is None:
            entry = self.entries[grain] = Entry()
        entry.queue.append(Request(self.count, sender, method, args))
        entry.last = self.clock
        return []

    def deliver(self, step: Deliver) -> Perhaps:
        """The first that the grain sent is asked of its target."""
        for place, (source, sent) in enumerate(self.sends):
            if source == step.grain:
                del self.sends[place]
                return self.request(source, sent.target, sent.method, sent.args, send_bytes(source, sent))
        return None

    # ---- how an entry becomes ready

    def activate(self, step: Activate) -> Perhaps:
        entry = self.entries.get(step.grain)
        if entry is None or entry.phase != WAITING:
            return None
        entry.phase = LOADING
        return []

    def load(self, step: Load) -> Perhaps:
        """State and version come from the row, and the entry neither rests nor stays. If the storage fails, what waits is
        refused, and the entry goes."""
        entry = self.entries.get(step.grain)
        if entry is None or entry.phase != LOADING:
            return None
        try:
            if step.failed:
                raise Failed
            self.take_row(step.grain, entry, self.storage.read(step.grain))
        except Failed:
            del self.entries[step.grain]
            return [reply for request in entry.queue for reply in refused(request, codes.STORAGE_FAILED)]
        entry.phase = READY
        entry.until = 0
        entry.resting = False
        return []

    def take_row(self, grain: Grain, entry: Entry, row: Optional[Row]) -> None:
        has_content = row is not None and row.content is not CLEARED
        entry.state = row.content if has_content else KINDS[grain.kind].empty
        entry.version = None if row is None else row.version

    # ---- what the tenant keeps (room.py)

    def would_pass(self, more: Callable[..., int], *given: object, freed: int = 0) -> bool:
        """What makes the tenant keep so much more, where so much was freed before, makes it keep more than it may."""
        if self.room is None:
            return False
        held = {at: entry.counts(at) for at, entry in self.entries.items()}
        added = more(*given)
        return added > freed and kept_bytes(self.storage.rows, held, self.sends) + added > self.room

    def check_bytes(self, more: Callable[..., int], *given: object, freed: int = 0) -> None:
        if self.room is not None and self.would_pass(more, *given, freed=freed):
            raise Refused(codes.NO_ROOM, self.tenant)

    def more(self, grain: Grain, row: Optional[Row], held: Optional[int]) -> int:
        """How much more the grain counts with this row, and with an entry that counts so much."""
        entry = self.entries.get(grain)
        return grain_bytes(grain, row, held) - grain_bytes(grain, self.storage.rows.get(grain), entry and entry.counts(grain))

    def more_by_request(self, grain: Grain) -> int:
        return self.more(grain, self.storage.rows.get(grain), self.entries.get(grain, Entry()).counts(grain))

    def more_by_poke(self, grain: Grain, state: object) -> int:
        entry = self.entries.get(grain)
        return self.more(grain, Row(1, state), entry and entry.counts(grain))

    def more_by_end(self, grain: Grain, plan: Plan) -> int:
        sent = sum(send_bytes(grain, one) for one in plan.sends)
        return self.more(grain, self.storage.rows.get(grain), state_bytes(grain, plan.state)) + sent

    # ---- turns

    def begin(self, step: Begin) -> Perhaps:
        """The first request that waits becomes an open turn."""
        entry = self.entries.get(step.grain)
        if entry is None or entry.phase != READY or not entry.queue or not self.may_open(step.grain, entry):
            return None
        request = entry.queue.pop(0)
        entry.turns[request.number] = request
        return []

    def may_open(self, grain: Grain, entry: Entry) -> bool:
        """A turn that only reads needs that no open turn writes, any other that none is open."""
        if self.reads(grain, entry.queue[0]):
            return all(self.reads(grain, request) for request in entry.turns.values())
        return not entry.turns

    def reads(self, grain: Grain, request: Request) -> bool:
        return is_read(grain.kind, request.method)

    def turn(self, grain: Grain, number: int) -> Union[tuple[Entry, Request, Plan], None]:
        """An open turn: its entry, its request, and what it comes to."""
        entry = self.entries.get(grain)
        if entry is None or number not in entry.turns:
            return None
        request = entry.turns[number]
        return entry, request, self.logic.plan_of(grain.kind, request.method, entry.state, request.args)

    def close(self, grain: Grain, entry: Entry, request: Request, keep: Union[str, int] = SAME) -> None:
        """The turn is closed. What it said of the activation counts, and an entry that rests goes if it is idle now."""
        del entry.turns[request.number]
        entry.last = self.clock
        if keep == REST:
            entry.until = 0
            entry.resting = True
        elif keep != SAME:
            entry.until = self.clock + keep
            entry.resting = False
        if entry.resting and entry.is_idle():
            del self.entries[grain]

    def end(self, step: End) -> Perhaps:
        """A turn that asks nothing of the storage is closed, as it was planned."""
        found = self.turn(step.grain, step.turn)
        if found is None or found[2].asks is not None:
            return None
        entry, request, plan = found
        if plan.code is None and self.room is not None and self.would_pass(self.more_by_end, step.grain, plan):
            self.close(step.grain, entry, request)
            return refused(request, codes.NO_ROOM, self.tenant)
        self.close(step.grain, entry, request, plan.keep)
        entry.state = plan.state
        self.sends += [(step.grain, sent) for sent in plan.sends]
        if plan.code is not None:
            return refused(request, plan.code)
        return answered(request, plan.value)

    def store(self, step: Store) -> Perhaps:
        """A turn that asks the storage is closed, by what the storage answers."""
        found = self.turn(step.grain, step.turn)
        if found is None or found[2].asks is None:
            return None
        entry, request, plan = found
        try:
            if step.failed:
                raise Failed
            self.ask_storage(step.grain, entry, plan)
        except Failed:
            self.close(step.grain, entry, request)
            return refused(request, codes.STORAGE_FAILED)
        except Spent:
            self.close(step.grain, entry, request)
            return refused(request, codes.VERSIONS_SPENT, step.grain.text())
        except Stale:
            self.end_activation(step.grain, entry, request)
            return refused(request, codes.STATE_CHANGED, step.grain.text())
        self.close(step.grain, entry, request)
        return answered(request, version_value(entry.version))

    def ask_storage(self, grain: Grain, entry: Entry, plan: Plan) -> None:
        """The entry stands on what was written, cleared or read."""
        if plan.asks == READ:
            self.take_row(grain, entry, self.storage.read(grain))
        elif plan.asks == CLEAR:
            entry.version = self.storage.clear(grain, entry.version)
            entry.state = KINDS[grain.kind].empty
        else:
            entry.version = self.storage.write(grain, entry.version, entry.state)

    def end_activation(self, grain: Grain, entry: Entry, request: Request) -> None:
        """The requests that wait wait for a new activation. If none waits, the entry goes."""
        del entry.turns[request.number]
        entry.phase = WAITING
        if not entry.queue:
            del self.entries[grain]

    def abandon(self, step: Abandon) -> Perhaps:
        """A turn that ran out of memory is closed, and the state kept."""
        found = self.turn(step.grain, step.turn)
        if found is None:
            return None
        entry, request, _plan = found
        self.close(step.grain, entry, request)
        return refused(request, codes.NO_MEMORY)

    # ---- the clock

    def tick(self, step: Tick) -> Perhaps:
        if step.now < self.clock:
            return None
        self.clock = step.now
        return []

    def sweep(self, _step: Sweep) -> Perhaps:
        self.entries = {grain: entry for grain, entry in self.entries.items() if not self.is_due(grain, entry)}
        return []

    def is_due(self, grain: Grain, entry: Entry) -> bool:
        """It has been idle for the age of its kind, and hasn't to stay any more."""
        age = self.ages.get(grain.kind, self.age)
        return entry.is_idle() and max(entry.last + age, entry.until) <= self.clock


STEPS = {
    Refuse: Machine.refuse, Call: Machine.call, Poke: Machine.poke, Status: Machine.status, Deliver: Machine.deliver,
    Activate: Machine.activate, Load: Machine.load, Begin: Machine.begin, Store: Machine.store, End: Machine.end,
    Abandon: Machine.abandon, Tick: Machine.tick, Sweep: Machine.sweep,
}
