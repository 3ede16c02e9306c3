"""What is promised of every list of steps, looked at after each step of a run of the slow silo.

That a tenant's part is its own machine's run is looked at elsewhere: by `audit`, and by gate/tenants-apart.
"""

from __future__ import annotations

from collections import Counter
from typing import Iterable, Optional

from .kinds import is_read
from .machine import Request
from .names import Grain
from .silo import NOT_NOW, Setup, Silo
from .steps import OF_A_CALLER, Abandon, Begin, Client, End, Step, Store

# for each grain the methods of its open turns, by their numbers
OpenTurns = dict[Grain, dict[int, str]]


def pending(silo: Silo) -> list[Request]:
    """The requests that wait or are open."""
    return [request for entry in silo.entries().values() for request in [*entry.queue, *entry.turns.values()]]


def note_turn(turns: OpenTurns, step: Step, first: Optional[Request]) -> None:
    """A turn is open from the begin that was done until what closed it, whatever the silo's own set of turns says."""
    if isinstance(step, Begin) and first is not None:
        turns.setdefault(step.grain, {})[first.number] = first.method
    elif isinstance(step, (End, Store, Abandon)):
        turns.get(step.grain, {}).pop(step.turn, None)


def writes_alone(silo: Silo, turns: OpenTurns) -> bool:
    """An open turn that doesn't only read is the only one of its grain."""
    return all(len(of_grain) < 2 or is_read(grain.kind, method)
               for grain, of_grain in turns.items() for method in of_grain.values())


def is_settled(silo: Silo, asked: Counter) -> bool:
    """What a client asked under a number was replied to, or waits or is open, each once; and no two have one number."""
    requests = pending(silo)
    told = Counter(reply.to for reply in silo.replies if isinstance(reply.to, Client))
    told.update(request.sender for request in requests if isinstance(request.sender, Client))
    numbers = [(grain.tenant, number) for grain, entry in silo.entries().items()
               for number in [*entry.turns, *(request.number for request in entry.queue)]]
    return told == asked and len(set(numbers)) == len(numbers)


def none_rests_idle(silo: Silo) -> bool:
    """An entry that rests went in the step that left it idle."""
    return not any(entry.resting and entry.is_idle() for entry in silo.entries().values())


def first_broken(setup: Setup, steps: Iterable[Step]) -> Optional[str]:
    """The first law that doesn't hold after some step."""
    silo, turns, asked = Silo(setup), {}, Counter()
    for place, step in enumerate(steps, 1):
        entry = silo.entries().get(step.grain) if isinstance(step, Begin) else None
        first = entry.queue[0] if entry is not None and entry.queue else None
        if silo.apply(step) == NOT_NOW:
            continue
        note_turn(turns, step, first)
        if isinstance(step, OF_A_CALLER):
            asked[Client(step.caller, step.id)] += 1
        if not writes_alone(silo, turns):
            return f"step {place}: another turn is open beside one that writes"
        if not is_settled(silo, asked):
            return f"step {place}: a request isn't settled"
        if not none_rests_idle(silo):
            return f"step {place}: an idle entry rests"
    return None
