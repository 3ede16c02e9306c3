"""Lines of `answer` with a folder of data: with those that it always answers, requests that act once (receipts.py) and the operator's
lines (tenants.py).

    {"op":"call",..,"once":B,"seen":N}      and a poke likewise; `once` may be left out, and is then false, and so may `seen`
    {"op":"last","from":F,"id":I}           the greatest number of the caller that acted once, null if there is none

Which of these forms are known is said by the silo's words: the first two with `--replies`, those of the operator with `--operator`. A
line of any other form is no request. What has none of these members is answered as ever, to the byte.
"""

from __future__ import annotations

from typing import NamedTuple, Union

from . import codes
from .answer import answer_line as answer_other_line
from .answer import answer_step
from .journal import MAX_ACTIVATIONS, MAX_MAILBOX
from .lines import FORMS, NotARequest, asked_step, natural, of_type, read_line, read_with
from .machine import Limits
from .names import is_word, read_caller
from .receipts import NO_NUMBER
from .replies import reply_text
from .silo import Setup, Silo
from .steps import Call, Client, Poke, Refuse, fault, ok
from .tenants import DropTenant, SetTenant, drop_tenant, set_tenant

LEFT_OUT = object()
ONCE = {"once": False, "seen": LEFT_OUT}
FORMS_ONCE = {
    **{op: (needed, {**left_out, **ONCE}) for op, (needed, left_out) in FORMS.items() if op in ("call", "poke")},
    "last": (["from", "id"], {}),
}
FORMS_OF_OPERATOR = {
    "tenant": (["tenant", "activations", "mailbox"], {}),
    "drop": (["tenant"], {}),
}


class Asked(NamedTuple):
    """A call or a poke."""

    step: Union[Call, Poke, Refuse]
    is_once: bool
    # up to which number replies were seen
    seen: int


class Last(NamedTuple):
    asker: Client


Said = Union[Asked, Last, SetTenant, DropTenant]


def meaning(said: dict) -> Said:
    """What the members of a line of these forms say."""
    op = said["op"]
    if op == "last":
        return Last(Client(read_with(read_caller, said["from"]), natural(said["id"])))
    if op in FORMS_OF_OPERATOR:
        tenant = of_type(str, said["tenant"])
        if not is_word(tenant):
            raise NotARequest
        return DropTenant(tenant) if op == "drop" else SetTenant(tenant, limits_of(said))
    is_once = of_type(bool, said["once"])
    return Asked(asked_step(said), is_once, NO_NUMBER if said["seen"] is LEFT_OUT else natural(said["seen"]))


def limits_of(said: dict) -> Limits:
    limits = Limits(natural(said["activations"]), natural(said["mailbox"]))
    if not 1 <= limits.activations <= MAX_ACTIVATIONS or not 1 <= limits.mailbox <= MAX_MAILBOX:
        raise NotARequest
    return limits


def known_forms(setup: Setup) -> dict:
    return {**(FORMS_ONCE if setup.replies is not None else {}), **(FORMS_OF_OPERATOR if setup.operator else {})}


def answer_line(silo: Silo, line: bytes, most: int) -> list[str]:
    """The lines that are written for a line."""
    said = read_line(line, known_forms(silo.setup), meaning)
    if isinstance(said, Asked):
        return answer_asked(silo, said, most)
    if isinstance(said, Last):
        return [answer_last(silo, said.asker)]
    if isinstance(said, SetTenant):
        return [set_tenant(silo, said)]
    if isinstance(said, DropTenant):
        return [drop_tenant(silo, said)]
    # of no form of these
    return answer_other_line(silo, line, most)


def answer_asked(silo: Silo, said: Asked, most: int) -> list[str]:
    asker = Client(said.step.caller, said.step.id)
    if asker.caller.tenant not in silo.limits:
        return answer_step(silo, said.step, most)
    silo.receipts.let_go(asker.caller, said.seen)
    if not said.is_once:
        return answer_step(silo, said.step, most)
    told = silo.receipts.reply_to(asker)
    if told is not None:
        return [reply_text(told)]
    before = len(silo.replies)
    texts = answer_step(silo, said.step, most)
    # the first is to the client, and what follows to grains
    silo.receipts.keep(silo.replies[before])
    return texts


def answer_last(silo: Silo, asker: Client) -> str:
    tenant = asker.caller.tenant
    if tenant not in silo.limits:
        return reply_text(fault(asker, codes.UNKNOWN_TENANT, tenant))
    return reply_text(ok(asker, silo.receipts.last(asker.caller)))
