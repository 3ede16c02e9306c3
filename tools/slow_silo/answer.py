"""Lines that are answered at once: what a line asks is answered before the next line is looked at."""

from __future__ import annotations

from typing import Callable, Iterable, Optional

from . import codes
from .lines import NOT_NOW_TEXT, lines_of, read_line, refusal_text, reply_text
from .names import Grain
from .silo import DONE, NOT_NOW, Silo
from .steps import (OF_A_CALLER, OF_NOBODY, Abandon, Activate, Begin, Call, Deliver, End, Load, Step, Store, owner)
from .values import message_length

DEFAULT_SENDS = 1_000
MAX_SENDS = 1_000_000
MAX_ANSWERED_LINES = 1_073_741_824
# While more calls of a tenant wait to be delivered, or the messages of those that wait have more bytes, the turn of each that is delivered
# is given up: one that is served may send four others.
WAITING_CALLS = 10_000
WAITING_BYTES = 1_048_576
# Once the messages of what was delivered behind a line have as many bytes, no more is delivered behind it.
DELIVERED_BYTES = 262_144


def is_asked(step: Step) -> bool:
    """A client asks it, or it is the clock or sweeping; and it has no mark of a failure."""
    return isinstance(step, OF_A_CALLER + OF_NOBODY) and not getattr(step, "failed", False)


def bring(silo: Silo, step: Step, grain: Optional[Grain], is_given_up: bool = False) -> str:
    """Takes a step. The request that it brought to the grain is served, if it was accepted: nobody is told anything."""
    before = len(silo.replies)
    answer = silo.apply(step)
    if grain is not None and len(silo.replies) == before:
        serve(silo, grain, is_given_up)
    return answer


def serve(silo: Silo, grain: Grain, is_given_up: bool) -> None:
    """The grain is brought up, and its first request is given its turn, which ends or else is stored, or is given up."""
    if silo.apply(Activate(grain)) == DONE:
        silo.apply(Load(grain))
    entry = silo.machine(grain.tenant).entries.get(grain)
    number = entry.queue[0].number if entry is not None and entry.queue else None
    if silo.apply(Begin(grain)) == NOT_NOW:
        return
    if is_given_up:
        silo.apply(Abandon(grain, number))
    elif silo.apply(End(grain, number)) == NOT_NOW:
        silo.apply(Store(grain, number))


def bytes_of(sends: list) -> int:
    """How many bytes the messages have of what grains sent."""
    return sum(message_length(sent.method, sent.args) for _source, sent in sends)


def deliver(silo: Silo, tenant: str, most: int) -> None:
    """The oldest of what the tenant's grains sent, and so on, so many times at most, and while there is room for more bytes."""
    sends = silo.machine(tenant).sends
    waiting, room = bytes_of(sends), DELIVERED_BYTES
    while most > 0 and room > 0 and sends:
        source, sent = sends[0]
        oldest, others = bytes_of(sends[:1]), len(sends) - 1
        bring(silo, Deliver(source), sent.target, len(sends) > WAITING_CALLS or waiting > WAITING_BYTES)
        waiting += bytes_of(sends[others:]) - oldest
        room -= oldest
        most -= 1


def answer(silo: Silo, step: Step, most: int) -> str:
    """Answers what is asked, and says whether its step was possible."""
    done = bring(silo, step, step.grain if isinstance(step, Call) else None)
    if owner(step) is not None:
        deliver(silo, owner(step), most)
    return done


def answer_step(silo: Silo, step: Step, most: int) -> list[str]:
    """The lines that are written for what is asked."""
    before = len(silo.replies)
    if answer(silo, step, most) == NOT_NOW:
        return [NOT_NOW_TEXT]
    return [reply_text(reply) for reply in silo.replies[before:]]


def answer_line(silo: Silo, line: bytes, most: int) -> list[str]:
    """The lines that are written for a line."""
    said = read_line(line)
    if said is None:
        return []
    if isinstance(said, int):
        return [refusal_text(said)]
    if not is_asked(said):
        return [refusal_text(codes.NOT_A_REQUEST)]
    return answer_step(silo, said, most)


def answer_lines(silo: Silo, pieces: Iterable[bytes], most: int, write: Callable[[bytes], None]) -> int:
    """Answers each line as it comes. Gives the number of lines."""
    count = 0
    for line in lines_of(pieces, MAX_ANSWERED_LINES):
        for text in answer_line(silo, line, most):
            write(text.encode() + b"\n")
        count += 1
    return count
