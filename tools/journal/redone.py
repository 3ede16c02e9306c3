"""The steps of one tenant of a journal, done once more by its machine, and what each came to.

A journal doesn't say of a `begin` which request it opens, nor of a reply at which step it came.
"""

from __future__ import annotations

from functools import partial
from typing import NamedTuple, Optional, Union

from slow_silo.audit import machine_of
from slow_silo.journal import Journal
from slow_silo.kinds import Send
from slow_silo.machine import Entry, Request
from slow_silo.names import Grain
from slow_silo.steps import Abandon, Begin, Deliver, End, Reply, Step, Store, Sweep

OPENS_OR_CLOSES = frozenset([Begin, End, Store, Abandon])


class Done(NamedTuple):
    """A step that was done, and what it came to."""

    # its place in the journal, from 1
    number: int
    step: Step
    # the grain whose entry or row it is about: of a delivery the one that is asked
    grain: Optional[Grain]
    # the grain's entry before, which may have gone since
    entry: Optional[Entry]
    # what it accepted, opened or closed
    request: Optional[Request]
    # what it delivered
    sent: Optional[Send]
    # how many calls its turn sent
    sends: int
    # the grains whose entries went, ascending
    gone: list[Grain]
    replies: list[Reply]


# to make a tuple so takes a third of the time that its class takes
DONE = partial(tuple.__new__, Done)


class Redone:
    """One tenant's machine, stepped once more up to the first step that isn't possible."""

    def __init__(self, journal: Journal, tenant: str):
        self.machine = machine_of(journal, tenant)
        self.replies: list[Reply] = []
        # how many steps were asked for, and whether the last of them wasn't possible
        self.steps = 0
        self.stopped = False

    def take(self, number: int, step: Step) -> Optional[Done]:
        """Does a step of the tenant or of nobody; None if it isn't possible, or if one before it wasn't."""
        if self.stopped:
            return None
        machine, kind = self.machine, type(step)
        sent = self.sent_by(step) if kind is Deliver else None
        grain = getattr(step, "grain", None) if sent is None else sent.target
        held, count, waiting = machine.entries, machine.count, len(machine.sends)
        entry = held.get(grain)
        request = turn_of(step, entry) if entry is not None and kind in OPENS_OR_CLOSES else None
        replies = machine.step(step)
        self.steps += 1
        self.stopped = replies is None
        if replies is None:
            return None
        self.replies += replies
        entries = machine.entries
        if machine.count > count:
            request = entries[grain].queue[-1]
        sends = len(machine.sends) - waiting if kind is End else 0
        # a sweep makes others of the entries, and leaves those before as they were
        gone = sorted(held.keys() - entries.keys()) if kind is Sweep else [grain] if entry is not None and grain not in entries else []
        return DONE((number, step, grain, entry, request, sent, sends, gone, replies))

    def sent_by(self, step: Step) -> Optional[Send]:
        """What a delivery takes: the oldest call that its grain sent."""
        return next((sent for source, sent in self.machine.sends if source == step.grain), None)


def turn_of(step: Union[Begin, End, Store, Abandon], entry: Entry) -> Optional[Request]:
    """What the step opens or closes in its grain's entry."""
    if type(step) is Begin:
        return entry.queue[0] if entry.queue else None
    return entry.turns.get(step.turn)
