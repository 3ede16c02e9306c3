"""What a picture of a journal shows, tenant by tenant: turns, activations, and what is asked and replied at which step.

The steps of each tenant are done once more by its machine, since a journal doesn't say of a `begin` which turn it opens,
nor of a reply at which step it came. It is shown up to the first step that isn't possible. What isn't of the steps that are
shown takes no words: a part of a long journal is shown in the time that its steps take.
"""

from __future__ import annotations

import json
from typing import NamedTuple, Optional

from slow_silo.journal import step_fields
from slow_silo.replies import object_of
from slow_silo.machine import Request
from slow_silo.names import Grain
from slow_silo.steps import Abandon, Activate, Begin, Call, Client, Deliver, End, Load, Poke, Reply, Step, Store, Sweep
from .parted import Parted
from .redone import Done, Redone
from .words import shortened

READS, WRITES, STORES = "reads", "writes", "stores"
CLOSES = frozenset([End, Store, Abandon])

# made once, since to make one takes longer than to use it
SPACED = json.JSONEncoder(default=object_of)


class Bar(NamedTuple):
    """A turn, from the step that opens it to the one that closes it; the place is its line in the grain's row."""

    grain: Grain
    place: int
    begin: int
    end: int
    kind: str
    method: str
    text: str


class Band(NamedTuple):
    """How long a grain's entry is in one phase."""

    grain: Grain
    begin: int
    end: int
    phase: str


class Mark(NamedTuple):
    """Something at one step: in a grain's row, or without a grain in that of the clients."""

    step: int
    grain: Optional[Grain]
    shape: str
    text: str
    # the other row that it is bound to, if there is one
    bound: Optional[Grain] = None
    code: Optional[int] = None


def dumped(value: object) -> str:
    return SPACED.encode(value)


def step_text(number: int, step: Step) -> str:
    """A step in words, with the message of a call as it was asked."""
    fields = step_fields(step)
    if isinstance(step, Call):
        fields[-1:] = [dumped(step.method).strip('"'), dumped(step.args)]
    if isinstance(step, Poke):
        fields[-1] = dumped(step.state)
    return shortened(f"step {number}: " + " ".join(map(str, [type(step).__name__.lower(), *fields])))


def reply_text(reply: Reply) -> str:
    to = f"{reply.to.caller.text()} {reply.to.id}" if isinstance(reply.to, Client) else reply.to.text()
    said = dumped(reply.value) if reply.code is None else f"{reply.code}, {reply.text}"
    return shortened(f"reply to {to}: {said}")


class Picture:
    """What is shown of one tenant in some of a journal's steps, with the turns and entries that are there then."""

    def __init__(self, parted: Parted, tenant: str, steps: range):
        self.tenant = tenant
        self.steps = steps
        self.limits = dict(parted.journal.tenants).get(tenant)
        # the grains, in the order in which they come up
        self.grains: dict[Grain, None] = {}
        self.marks: list[Mark] = []
        self.bars: dict[Grain, list[Bar]] = {}
        self.bands: dict[Grain, list[Band]] = {}
        # the turns that are open, by grain and number, each with its first step and its place
        self.open: dict[Grain, dict[int, tuple[int, int, Request]]] = {}
        self.phases: dict[Grain, tuple[int, str]] = {}
        part = Redone(parted.journal, tenant)
        self.machine = part.machine
        for number, step in parted.steps_of(tenant):
            done = part.take(number, step)
            if done is None:
                break
            self.show(done)
        self.end_all(len(parted.journal.steps))
        self.difference = parted.recorded.report(part).difference

    def show(self, done: Done) -> None:
        """Shows a step that was done: its marks, the turn that it opens or closes, and the entries that it changes."""
        self.show_marks(done)
        kind = type(done.step)
        if kind is Begin:
            self.begin(done)
        if kind in CLOSES:
            self.add_bar(done.grain, self.open[done.grain].pop(done.request.number), done.number)
        for grain in done.gone if kind is Sweep else [done.grain]:
            self.note_phase(done.number, grain)

    # ---- turns and entries

    def begin(self, done: Done) -> None:
        opened = self.open.setdefault(done.grain, {})
        used = {place for _begin, place, _asked in opened.values()}
        place = next(place for place in range(len(used) + 1) if place not in used) if used else 0
        opened[done.request.number] = (done.number, place, done.request)

    def is_shown(self, begin: int, end: int) -> bool:
        """It is there during some of the steps that are shown."""
        return begin < self.steps.stop and end >= self.steps.start

    def add_bar(self, grain: Grain, found: tuple[int, int, Request], end: int) -> None:
        begin, place, request = found
        if not self.is_shown(begin, end):
            return
        stores = request.method in ("save", "reload", "clear")
        kind = READS if self.machine.reads(grain, request) else STORES if stores else WRITES
        method = dumped(request.method).strip('"')
        sender = request.sender.caller.text() if isinstance(request.sender, Client) else request.sender.text()
        asked = f"{method} {dumped(request.args)} of {sender}"
        text = f"turn {request.number} of {grain.text()}: {asked}, steps {begin} to {end}"
        self.bars.setdefault(grain, []).append(Bar(grain, place, begin, end, kind, method, shortened(text)))

    def note_phase(self, number: int, grain: Optional[Grain]) -> None:
        entry = self.machine.entries.get(grain)
        before = self.phases.get(grain)
        now = None if entry is None else entry.phase
        if before is not None and before[1] != now:
            self.add_band(Band(grain, before[0], number, before[1]))
            del self.phases[grain]
        if now is not None and grain not in self.phases:
            self.phases[grain] = (number, now)

    def add_band(self, band: Band) -> None:
        if self.is_shown(band.begin, band.end):
            self.bands.setdefault(band.grain, []).append(band)

    def end_all(self, last: int) -> None:
        """What is still open at the end of the journal."""
        for grain, opened in self.open.items():
            for found in opened.values():
                self.add_bar(grain, found, last)
        for grain, (begin, phase) in self.phases.items():
            self.add_band(Band(grain, begin, last, phase))

    def shown_grains(self) -> list[Grain]:
        """Those of which something is shown."""
        shown = {mark.grain for mark in self.marks} | set(self.bars) | set(self.bands)
        return [grain for grain in self.grains if grain in shown]

    # ---- marks

    def show_marks(self, done: Done) -> None:
        number, step, replies = done.number, done.step, done.replies
        text = step_text(number, step) if number in self.steps else ""
        own = done.grain if done.grain is not None and done.grain.tenant == self.tenant else None
        source = step.grain if isinstance(step, Deliver) else None
        if source is not None:
            self.mark(number, source, "deliver", text)
        refused = bool(replies) and any([reply.code is not None for reply in replies])
        if isinstance(step, (Call, Deliver)) and not refused:
            self.mark(number, own, "call", text, bound=source)
        if isinstance(step, Poke) and own is not None and not refused:
            self.mark(number, own, "poke", text)
        if isinstance(step, (Activate, Load)):
            self.mark(number, own, type(step).__name__.lower(), text)
        closes = isinstance(step, (End, Store, Abandon, Load))
        for reply in replies:
            at = None if isinstance(reply.to, Client) else reply.to
            shape = "reply" if reply.code is None else "refusal"
            told = f"{text}; {reply_text(reply)}" if number in self.steps else ""
            self.mark(number, at, shape, told, own if closes else None, reply.code)

    def mark(self, number: int, grain: Optional[Grain], shape: str, text: str, bound: Optional[Grain] = None,
             code: Optional[int] = None) -> None:
        if grain is not None:
            self.grains.setdefault(grain)
        if number in self.steps:
            self.marks.append(Mark(number, grain, shape, text, bound, code))
