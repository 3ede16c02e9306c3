"""The silo of all tenants: their machines, one beside the other, none of which looks at another."""

from __future__ import annotations

from typing import Iterable, NamedTuple, Optional

from .kinds import NEWEST_KINDS, Logic
from .machine import LOADING, WAITING, Limits, Machine
from .names import Caller, Grain
from .receipts import Receipts
from .steps import (Activate, Begin, Client, Deliver, Load, Poke, Reply, Step, Store, Tick, owner)
from .storage import Fuse, Row, Storage

DEFAULT_AGE = 900_000
DONE, FAILED, NOT_NOW = "done", "failed", "not now"
MAY_FAIL = (Poke, Load, Store)


class Setup(NamedTuple):
    # in the order in which they were given
    tenants: tuple[tuple[str, Limits], ...]
    age: int = DEFAULT_AGE
    # the kinds that have an age of their own, ascending
    ages: tuple[tuple[str, int], ...] = ()
    rows: tuple[tuple[Grain, Row], ...] = ()
    # which of the storage's calls fail, by their numbers from 1
    failing: tuple[int, ...] = ()
    logic: Logic = NEWEST_KINDS
    # how many bytes a tenant may keep, if that is bounded
    room: Optional[int] = None
    # how many replies of requests that act once are kept of a tenant; none if there are no such requests
    replies: Optional[int] = None
    # whether tenants come and go by lines
    operator: bool = False


class Has(NamedTuple):
    """How much is kept of a tenant."""

    requests: int
    sends: int
    activations: int
    rows: int
    callers: int


class Silo:
    def __init__(self, setup: Setup):
        self.setup = setup
        self.fuse = Fuse(setup.failing)
        self.limits = dict(setup.tenants)
        self.clock = 0
        self.machines: dict[str, Machine] = {}
        for tenant, _limits in setup.tenants:
            self.machine(tenant)
        # of all tenants, in the order in which they came
        self.replies: list[Reply] = []
        # the steps that were done; those whose storage call failed say so
        self.journal: list[Step] = []
        # beside the machines: what is kept for those who ask once
        self.receipts = Receipts(setup.replies)

    def machine(self, tenant: str) -> Machine:
        """The tenant's machine. One that was never asked for is as it was at the start, but for the clock."""
        if tenant not in self.machines:
            rows = [(grain, row) for grain, row in self.setup.rows if grain.tenant == tenant]
            setup, storage = self.setup, Storage(rows, self.fuse)
            made = Machine(tenant, self.limits.get(tenant), setup.age, dict(setup.ages), setup.logic, storage, setup.room)
            made.clock = self.clock
            self.machines[tenant] = made
        return self.machines[tenant]

    def apply(self, step: Step) -> str:
        """Takes a step, and says whether it was done, done with a storage call that failed, or not possible now."""
        tenant = owner(step)
        failures = self.fuse.failures
        if tenant is not None:
            replies = self.machine(tenant).step(step)
        else:
            replies = self.shared_step(step)
        if replies is None:
            return NOT_NOW
        failed = self.fuse.failures > failures
        self.replies.extend(replies)
        self.journal.append(step._replace(failed=True) if failed else step)
        return FAILED if failed else DONE

    def shared_step(self, step: Step) -> Optional[list]:
        """A step of nobody is each machine's."""
        answers = [machine.step(step) for machine in self.machines.values()]
        if any(answer is None for answer in answers):
            return None
        if isinstance(step, Tick):
            self.clock = step.now
        return []

    def run(self, steps: Iterable[Step]) -> list[str]:
        return [self.apply(step) for step in steps]

    # ---- what it shows

    def replies_of(self, tenant: str) -> list[Reply]:
        return [reply for reply in self.replies if reply.tenant() == tenant]

    def rows(self) -> list[tuple[Grain, Row]]:
        return sorted((grain, row) for machine in self.machines.values() for grain, row in machine.storage.rows.items())

    def has(self, tenant: str) -> Has:
        machine = self.machine(tenant)
        return Has(machine.count, len(machine.sends), len(machine.entries), len(machine.storage.rows), len(self.receipts.of(tenant)))

    def rows_of(self, tenant: str) -> list[tuple[Grain, Row]]:
        return [(grain, row) for grain, row in self.rows() if grain.tenant == tenant]

    # ---- for those who drive it

    def todos(self) -> list[Step]:
        """The steps on grains that are possible now beside those that close turns, the least grain's first."""
        found: list[Step] = []
        for grain, entry in sorted(self.entries().items()):
            if entry.phase == WAITING:
                found.append(Activate(grain))
            elif entry.phase == LOADING:
                found.append(Load(grain))
            elif entry.queue and self.machine(grain.tenant).may_open(grain, entry):
                found.append(Begin(grain))
        sources = {source for machine in self.machines.values() for source, _sent in machine.sends}
        return found + [Deliver(source) for source in sorted(sources)]

    def entries(self) -> dict:
        return {grain: entry for machine in self.machines.values() for grain, entry in machine.entries.items()}

    def has_pending(self, caller: Caller) -> bool:
        """A request of the caller waits or is open."""
        pending = [request for entry in self.entries().values() for request in [*entry.queue, *entry.turns.values()]]
        return any(isinstance(request.sender, Client) and request.sender.caller == caller for request in pending)

    def is_quiet(self) -> bool:
        """No request waits, no turn is open, and nothing that a grain sent is left."""
        machines = self.machines.values()
        busy = any(entry.queue or entry.turns for entry in self.entries().values())
        return not busy and not any(machine.sends for machine in machines)
