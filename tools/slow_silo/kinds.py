"""What the methods of grains come to: one function for each method, each a row of the table in docs/formats.md.

A method's function takes the state and the argument, and gives the plan of a turn. A state of another shape, as a poke
can leave one, counts as the kind's empty state; a plan that keeps the state leaves such a state as it is.

There is one table of methods, each with the version of the logic since which it stands: a version hasn't those of a later one.
"""

from __future__ import annotations

from typing import Callable, NamedTuple, Optional, Union

from . import codes
from .names import Grain, read_grain
from .values import MAX_STATE, is_whole, spelled_length

MAX_MEMBERS = 4
# the longest that an activation may be asked to stay, in milliseconds
MAX_STAY = 86_400_000
READ, WRITE, CLEAR = "read", "write", "clear"
# what a turn says of the activation: nothing, or that it rests; a number says for how long it stays
SAME, REST = "same", "rest"


class Send(NamedTuple):
    """A call that a turn sends to a grain."""

    target: Grain
    method: str
    args: object


class Plan(NamedTuple):
    """What a turn comes to. Where there is a code, it is the answer, and the value isn't looked at."""

    state: object
    value: object = None
    code: Optional[int] = None
    # what is asked of the storage, if anything
    asks: Optional[str] = None
    sends: tuple = ()
    keep: Union[str, int] = SAME


def answers(state: object, value: object) -> Plan:
    return Plan(state, value)


def refuses(state: object, code: int) -> Plan:
    return Plan(state, code=code)


def has_fields(args: object, /, **kinds: type) -> bool:
    """The argument is a map with exactly these fields, each of its type."""
    if not isinstance(args, dict) or args.keys() != kinds.keys():
        return False
    for name, kind in kinds.items():
        if kind is not object and type(args[name]) is not kind:
            return False
    return True


# ---- counters

def number_of(state: object) -> int:
    return state if is_whole(state) else 0


def add(state: object, args: object) -> Plan:
    if not has_fields(args, by=int):
        return refuses(state, codes.MISFIT)
    total = number_of(state) + args["by"]
    return answers(total, total) if is_whole(total) else refuses(state, codes.OUT_OF_RANGE)


def get_number(state: object, args: object) -> Plan:
    return answers(state, number_of(state)) if args is None else refuses(state, codes.MISFIT)


# ---- sheets

def names_of(state: object) -> dict:
    return state if isinstance(state, dict) else {}


def put(state: object, args: object) -> Plan:
    if not has_fields(args, name=str, value=object):
        return refuses(state, codes.MISFIT)
    changed = {**names_of(state), args["name"]: args["value"]}
    if spelled_length(changed) > MAX_STATE:
        return refuses(state, codes.STATE_TOO_LARGE)
    return answers(changed, None)


def get_value(state: object, args: object) -> Plan:
    if not has_fields(args, name=str):
        return refuses(state, codes.MISFIT)
    return answers(state, names_of(state).get(args["name"]))


def drop(state: object, args: object) -> Plan:
    if not has_fields(args, name=str):
        return refuses(state, codes.MISFIT)
    others = {name: value for name, value in names_of(state).items() if name != args["name"]}
    return answers(others, args["name"] in names_of(state))


def list_names(state: object, args: object) -> Plan:
    return answers(state, sorted(names_of(state))) if args is None else refuses(state, codes.MISFIT)


# ---- relays

def members_of(state: object) -> list:
    """The texts of the grains in a relay: at most 4, no two alike."""
    fits = (
        isinstance(state, list)
        and len(state) <= MAX_MEMBERS
        and all(isinstance(member, str) and read_grain(member) for member in state)
        and len(set(state)) == len(state)
    )
    return state if fits else []


def join(state: object, args: object) -> Plan:
    if not has_fields(args, grain=str) or read_grain(args["grain"]) is None:
        return refuses(state, codes.MISFIT)
    members = members_of(state)
    if args["grain"] in members:
        return answers(state, False)
    if len(members) == MAX_MEMBERS:
        return refuses(state, codes.OUT_OF_RANGE)
    return answers(members + [args["grain"]], True)


def leave(state: object, args: object) -> Plan:
    if not has_fields(args, grain=str):
        return refuses(state, codes.MISFIT)
    members = members_of(state)
    return answers([member for member in members if member != args["grain"]], args["grain"] in members)


def send(state: object, args: object) -> Plan:
    if not has_fields(args, args=object, method=str):
        return refuses(state, codes.MISFIT)
    members = members_of(state)
    sends = tuple(Send(read_grain(member), args["method"], args["args"]) for member in members)
    return Plan(state, len(members), sends=sends)


# ---- every kind

def asking(storage_call: str) -> Callable[[object, object], Plan]:
    """A method that asks one thing of the storage: its answer is the storage's."""
    def method(state: object, args: object) -> Plan:
        return Plan(state, asks=storage_call) if args is None else refuses(state, codes.MISFIT)
    return method


def rest(state: object, args: object) -> Plan:
    """The activation goes as soon as it is idle."""
    return Plan(state, keep=REST) if args is None else refuses(state, codes.MISFIT)


def stay(state: object, args: object) -> Plan:
    """The activation isn't collected for so many milliseconds."""
    if not has_fields(args, **{"for": int}) or not 1 <= args["for"] <= MAX_STAY:
        return refuses(state, codes.MISFIT)
    return Plan(state, keep=args["for"])


class Kind(NamedTuple):
    """The version of the logic since which the kind stands, and the state of a grain that was never written."""

    since: int
    empty: object


KINDS = {"counter": Kind(1, 0), "sheet": Kind(1, {}), "relay": Kind(1, [])}
# each method with the version since which it stands
STORING = {"save": (1, asking(WRITE)), "reload": (1, asking(READ)), "clear": (1, asking(CLEAR))}
RESTING = {"rest": (2, rest), "stay": (2, stay)}
EVERY_KIND = {**RESTING, **STORING}
METHODS = {
    "counter": {"add": (1, add), "get": (1, get_number), **EVERY_KIND},
    "sheet": {"put": (1, put), "get": (1, get_value), "drop": (1, drop), "list": (1, list_names), **EVERY_KIND},
    "relay": {"join": (1, join), "leave": (1, leave), "send": (1, send), **EVERY_KIND},
}
READ_METHODS = {"counter": ["get"], "sheet": ["get", "list"], "relay": []}


def is_read(kind: str, method: str) -> bool:
    """The method never changes the state, asks nothing of the storage, sends nothing, and neither rests nor stays."""
    return method in READ_METHODS[kind]


class Logic(NamedTuple):
    """A version of the table, under the number by which a journal names it."""

    number: int

    def knows(self, kind: str) -> bool:
        return kind in KINDS and KINDS[kind].since <= self.number

    def plan_of(self, kind: str, method: str, state: object, args: object) -> Plan:
        """What a turn of a kind that is known comes to."""
        since, plan = METHODS[kind].get(method, (self.number + 1, None))
        return plan(state, args) if since <= self.number else refuses(state, codes.UNKNOWN_METHOD)


# the number of the newest version, which the program runs
NEWEST = max([kind.since for kind in KINDS.values()] + [since for methods in METHODS.values() for since, _ in methods.values()])
FIRST_KINDS, NEWEST_KINDS = Logic(1), Logic(NEWEST)
