"""What the steps of a journal came to, in words."""

from __future__ import annotations

import datetime
import json
from typing import Optional

from slow_silo.replies import object_of
from slow_silo.machine import READY, Machine
from slow_silo.names import Caller
from slow_silo.steps import (Abandon, Activate, Begin, Call, Client, Deliver, End, Load, Poke, Refuse, Reply, Status, Store,
                             Sweep, Tick)
from slow_silo.storage import CLEARED, Row
from .redone import Done

LONGEST = 100
# made once, since to make one takes longer than to use it
COMPACT = json.JSONEncoder(separators=(",", ":"), default=object_of)
# words of arguments, by where the argument is
KEPT: dict[int, tuple[object, str]] = {}
MOST_KEPT = 8_192
# a clock between these is one that is set by the time of day, in milliseconds: from 2001 to 9999
DAYS = range(10**12, 253_402_300_800_000)
STORED = {"save": "was stored as", "clear": "cleared", "reload": "read"}


def shortened(text: str) -> str:
    return text if len(text) <= LONGEST else text[: LONGEST - 3] + "..."


def shown(value: object) -> str:
    if value is None:
        return "null"
    return str(value) if type(value) is int else shortened(COMPACT.encode(value))


def message_words(method: str, args: object) -> str:
    """A method and its argument, which is left out if it is null."""
    # most are words, which are shown as they are
    name = shortened(method if method.isascii() and method.isalnum() else json.dumps(method)[1:-1])
    return name if args is None else f"{name} {argument_words(args)}"


def argument_words(args: object) -> str:
    """What is shown of an argument. It is kept beside the argument, which is one object in all steps with the same message."""
    kept = KEPT.get(id(args))
    if kept is not None and kept[0] is args:
        return kept[1]
    if len(KEPT) == MOST_KEPT:
        KEPT.clear()
    KEPT[id(args)] = args, shown(args)
    return KEPT[id(args)][1]


def who(asker: object) -> str:
    """A client with the number under which it asked, or a grain."""
    return numbered(*asker) if isinstance(asker, Client) else asker.text()


def numbered(caller: Caller, number: int) -> str:
    return f"{caller.text()} (its {number})"


def told(reply: Reply) -> str:
    return f"told {shown(reply.value)}" if reply.code is None else f"refused with {reply.code}, {reply.text}"


# ---- the words of each kind of step

def asked(done: Done, asker: str, what: str) -> str:
    """What somebody asked, and under which number of the tenant it was accepted, or what was answered at once."""
    if done.request is not None:
        return f"{asker} {what}, as request {done.request.number}"
    return f"{asker} {what}" + "".join([f": {told(reply)}" for reply in done.replies])


def by_client(done: Done, what: str) -> str:
    return asked(done, numbered(done.step.caller, done.step.id), what)


def call_words(done: Done, _machine: Machine) -> str:
    step = done.step
    return by_client(done, f"asked {step.grain.text()} to {message_words(step.method, step.args)}")


def poke_words(done: Done, _machine: Machine) -> str:
    return by_client(done, f"asked for the row of {done.grain.text()} to be {shown(done.step.state)}")


def deliver_words(done: Done, _machine: Machine) -> str:
    sent = done.sent
    return asked(done, done.step.grain.text(), f"asked {sent.target.text()} to {message_words(sent.method, sent.args)}")


def came_to(done: Done, what: str) -> str:
    """What came of requests that were accepted before, and who was told."""
    for reply in done.replies:
        what += f"; {who(reply.to)} was {told(reply)}"
    return what


def turn_came_to(done: Done, what: str) -> str:
    """What a turn came to. The activation goes with it if it rests and is idle then."""
    if done.gone and done.entry.phase == READY:
        what += ", and the activation went, since it rests"
    return came_to(done, f"request {done.request.number} of {done.grain.text()} {what}")


def load_words(done: Done, machine: Machine) -> str:
    name = done.grain.text()
    if done.step.failed:
        return came_to(done, f"{name} went, since the storage failed")
    version = machine.entries[done.grain].version
    return f"{name} is ready, " + ("and has no row" if version is None else f"by version {version} of its row")


def begin_words(done: Done, _machine: Machine) -> str:
    return turn_came_to(done, f"began: {message_words(done.request.method, done.request.args)}")


def end_words(done: Done, _machine: Machine) -> str:
    if not done.sends:
        return turn_came_to(done, "ended")
    return turn_came_to(done, "ended, and one call was sent" if done.sends == 1 else f"ended, and {done.sends} calls were sent")


def store_words(done: Done, _machine: Machine) -> str:
    if done.step.failed:
        return turn_came_to(done, "ended, since the storage failed")
    if done.entry.phase != READY:
        return turn_came_to(done, "ended with the activation, since the row has another version")
    version = "no row" if done.entry.version is None else f"version {done.entry.version}"
    return turn_came_to(done, f"{STORED[done.request.method]} {version}")


def sweep_words(done: Done, _machine: Machine) -> str:
    return "a sweep: " + (", ".join(grain.text() for grain in done.gone) + " went" if done.gone else "nothing went")


def tick_words(done: Done, _machine: Machine) -> str:
    now = done.step.now
    if now not in DAYS:
        return f"the clock is {now}"
    moment = datetime.datetime.fromtimestamp(now // 1_000, datetime.timezone.utc)
    return f"the clock is {now} ({moment:%Y-%m-%dT%H:%M:%SZ})"


# what a step that was just done came to, on the machine that did it
WORDS = {
    Refuse: lambda done, _machine: by_client(done, "sent a line"),
    Call: call_words,
    Poke: poke_words,
    Status: lambda done, _machine: by_client(done, "asked for the status"),
    Deliver: deliver_words,
    Activate: lambda done, _machine: f"{done.grain.text()} is being brought up",
    Load: load_words,
    Begin: begin_words,
    Store: store_words,
    End: end_words,
    Abandon: lambda done, _machine: turn_came_to(done, "was given up"),
    Tick: tick_words,
    Sweep: sweep_words,
}


def row_words(row: Optional[Row]) -> str:
    if row is None:
        return "no row"
    return f"version {row.version}, " + ("cleared" if row.content is CLEARED else shown(row.content))
