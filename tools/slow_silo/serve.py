"""Several clients at once: each has a lane of steps, and gives the next when the last was replied to.

Which step comes next is left open. Without a chance this is the order of one worker that closes the turn that it
opened, then does what there is to do on the least grain, and takes the next step of a lane only if there is nothing to
do, from the first lane that may give one. What each lane is answered is fixed as far as it is the same in every order.
"""

from __future__ import annotations

from random import Random
from typing import NamedTuple, Optional

from .names import Caller
from .silo import Setup, Silo
from .steps import OF_A_CALLER, OF_NOBODY, Client, End, Reply, Step, Store


class Lane(NamedTuple):
    """The steps of a caller; those of no caller are the ticks and the sweeps."""

    caller: Optional[Caller]
    steps: tuple[Step, ...]

    def foreign(self) -> Optional[int]:
        """The place of the first step that isn't the lane's, from 0."""
        for place, step in enumerate(self.steps):
            if self.caller is None:
                fits = isinstance(step, OF_NOBODY)
            else:
                fits = isinstance(step, OF_A_CALLER) and step.caller == self.caller
            if not fits or getattr(step, "failed", False):
                return place
        return None


def are_distinct(lanes: list[Lane]) -> bool:
    return len({lane.caller for lane in lanes}) == len(lanes)


def lanes_of(steps: list[Step]) -> list[Lane]:
    """The lanes, in the order of their first steps."""
    found: dict[Optional[Caller], list[Step]] = {}
    for step in steps:
        found.setdefault(None if isinstance(step, OF_NOBODY) else step.caller, []).append(step)
    return [Lane(caller, tuple(those)) for caller, those in found.items()]


def serve(setup: Setup, lanes: list[Lane], chance: Optional[Random] = None) -> Silo:
    """Runs the lanes to their ends; with a chance, each time any step that is possible comes next."""
    silo = Silo(setup)
    left = [list(lane.steps) for lane in lanes]
    while True:
        ready = [steps for lane, steps in zip(lanes, left) if steps and may_give(silo, lane)]
        possible = closings(silo) + silo.todos() + [steps[0] for steps in ready]
        if not possible:
            return silo
        step = chance.choice(possible) if chance else possible[0]
        for steps in ready:
            if steps[0] is step:
                del steps[0]
        silo.apply(step)


def may_give(silo: Silo, lane: Lane) -> bool:
    """The lane's last step has its reply."""
    return lane.caller is None or not silo.has_pending(lane.caller)


def closings(silo: Silo) -> list[Step]:
    """For each open turn the step that closes it, as its plan says."""
    found: list[Step] = []
    for grain, entry in silo.entries().items():
        for number in entry.turns:
            _entry, _request, plan = silo.machine(grain.tenant).turn(grain, number)
            found.append(End(grain, number) if plan.asks is None else Store(grain, number))
    return found


def answers_of(silo: Silo, lane: Lane) -> list[Reply]:
    """The replies to a lane's caller, in order."""
    return [reply for reply in silo.replies if isinstance(reply.to, Client) and reply.to.caller == lane.caller]


def replies_to_grains(silo: Silo) -> list[Reply]:
    """The least grain's first, and each grain's in order."""
    found = [reply for reply in silo.replies if not isinstance(reply.to, Client)]
    return sorted(found, key=lambda reply: reply.to)
