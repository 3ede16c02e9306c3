"""What a step is about: the grains and clients that it names, the codes that were answered, and the request."""

from __future__ import annotations

from typing import Iterator

from slow_silo.machine import READY
from slow_silo.names import Caller, Grain
from slow_silo.steps import Abandon, Client, Store
from .told import ToldStep


def grains_of(told: ToldStep) -> Iterator[Grain]:
    """That of the step, whom it delivers to, whose entries went, and who was told."""
    if hasattr(told.step, "grain"):
        yield told.step.grain
    if told.done is not None:
        if told.done.sent is not None:
            yield told.done.sent.target
        yield from told.done.gone
        yield from (reply.to for reply in told.done.replies if isinstance(reply.to, Grain))


def clients_of(told: ToldStep) -> Iterator[Caller]:
    """Who asks by the step, whose request it is about, and who was told."""
    if hasattr(told.step, "caller"):
        yield told.step.caller
    if told.done is not None:
        if told.done.request is not None and isinstance(told.done.request.sender, Client):
            yield told.done.request.sender.caller
        yield from (reply.to.caller for reply in told.done.replies if isinstance(reply.to, Client))


def codes_of(told: ToldStep) -> list[int]:
    return [] if told.done is None else [reply.code for reply in told.done.replies if reply.code is not None]


def requests_of(told: ToldStep) -> list[int]:
    return [] if told.done is None or told.done.request is None else [told.done.request.number]


def is_error(told: ToldStep) -> bool:
    """It wasn't possible, somebody was refused, the storage failed, or a turn was lost."""
    if told.done is None or codes_of(told) or getattr(told.step, "failed", False) or isinstance(told.step, Abandon):
        return True
    return isinstance(told.step, Store) and told.done.entry is not None and told.done.entry.phase != READY
