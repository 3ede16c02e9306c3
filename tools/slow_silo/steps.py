"""The thirteen kinds of step, whose each is, and what is replied."""

from __future__ import annotations

from typing import NamedTuple, Optional, Union

from . import codes
from .names import Caller, Grain

MAX_NUMBER = 2**63 - 1


class Refuse(NamedTuple):
    caller: Caller
    id: int
    code: int


class Call(NamedTuple):
    caller: Caller
    id: int
    grain: Grain
    method: str
    args: object


class Poke(NamedTuple):
    caller: Caller
    id: int
    grain: Grain
    state: object
    failed: bool = False


class Status(NamedTuple):
    caller: Caller
    id: int


class Deliver(NamedTuple):
    grain: Grain


class Activate(NamedTuple):
    grain: Grain


class Load(NamedTuple):
    grain: Grain
    failed: bool = False


class Begin(NamedTuple):
    grain: Grain


class Store(NamedTuple):
    grain: Grain
    turn: int
    failed: bool = False


class End(NamedTuple):
    grain: Grain
    turn: int


class Abandon(NamedTuple):
    grain: Grain
    turn: int


class Tick(NamedTuple):
    now: int


class Sweep(NamedTuple):
    pass


OF_A_CALLER = (Refuse, Call, Poke, Status)
OF_NOBODY = (Tick, Sweep)
Step = Union[Refuse, Call, Poke, Status, Deliver, Activate, Load, Begin, Store, End, Abandon, Tick, Sweep]


def owner(step: Step) -> Optional[str]:
    """The tenant whose step it is: that of its first field, a caller or a grain. A call across tenants is its caller's."""
    return None if type(step) in OF_NOBODY else step[0].tenant


def concerns(step: Step, tenant: str) -> bool:
    """It is the tenant's, or nobody's."""
    return owner(step) in (tenant, None)


class Client(NamedTuple):
    """A caller with the number under which it asked: who is replied to, if it isn't a grain."""

    caller: Caller
    id: int


class Reply(NamedTuple):
    """A value, or the code and the text of a fault."""

    to: Union[Client, Grain]
    value: object = None
    code: Optional[int] = None
    text: str = ""

    def tenant(self) -> str:
        return self.to.caller.tenant if isinstance(self.to, Client) else self.to.tenant


def ok(to: Union[Client, Grain], value: object) -> Reply:
    return Reply(to, value)


def fault(to: Union[Client, Grain], code: int, *names: object) -> Reply:
    return Reply(to, code=code, text=codes.text_of(code, *names))
