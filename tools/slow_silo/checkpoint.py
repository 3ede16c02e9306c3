"""A checkpoint's text: what is kept of a silo where it is left, so that another can go on from there.

Lists have their lengths before them. The rows, the ages and the tenants' limits stand in a journal of no step. The last line has the sum
of all bytes before it.

There are two forms of it. The second also tells how many receipts and bytes a tenant may have, whether tenants come and go by lines, and
each account's callers, with their greatest numbers and their receipts. A checkpoint is written in the first if it says nothing of these.

A folder of the program may have a log of any number, and how many requests were accepted is looked at there once the text was read: `LOOSE`
rules say that, and `STRICT` ones those of the form of folders that is to come.

A text that is none is refused at its first line that fits no form in its place, behind the lines before it, counted from 1; what comes
after the last LF is no line yet. So a length that is too great or too small is refused where a line of the list is missing or is one too
many. The accounts are those of the journal's tenants, in their order: a `tenant` line of another is refused, and a missing one at the line
in its place. A send's source is a grain of the account's tenant, and a caller is one of it; callers ascend, and a caller's receipts do, by
their numbers, up to its greatest. A receipt is a reply, as a journal has it, and not a line: so whatever a forged one says, it is told to
its caller under its number. A wrong sum is refused at the last line, and any byte behind that line at the next one.
"""

from __future__ import annotations

import re
from functools import partial
from typing import Callable, NamedTuple, Optional

from . import codes
from .journal import (LAST_FORM, MAX_NUMBER, MAX_TENANTS, MOST_KINDS, Reader, RefusedAt, caller, fits, grain, journal_of, journal_text,
                      message, number, read_age, read_journal, read_kind, read_kinds, read_reply, read_row, read_tenant, reply_fields,
                      split, state)
from .kinds import Logic, Send
from .log import DIGITS, more_lines, spelled as sum_spelled, sum_after
from .machine import READY, Entry
from .names import Caller, Grain, is_word
from .receipts import MAX_REPLIES, record_of
from .silo import Setup, Silo
from .steps import Client, Reply
from .storage import LAST_VERSION
from .values import spelled, spelled_message

FORMS = FIRST, SECOND = "silo-checkpoint 1", "silo-checkpoint 2"
IS_SUM = re.compile("[0-9a-f]{%d}" % DIGITS, re.ASCII).fullmatch
IS_VISIBLE = re.compile("[!-~]*", re.ASCII).fullmatch


class Rules(NamedTuple):
    """Which texts are those of a checkpoint, where two forms of the program differ."""

    # what it may follow
    follows: Callable[[str], object]
    # how many requests of a tenant may have been accepted
    requests: int


STRICT, LOOSE = Rules(IS_SUM, MAX_NUMBER), Rules(IS_VISIBLE, LAST_VERSION)


class CheckpointRefused(RefusedAt):
    """The first line that fits no form in its place, counted from 1."""


class KeptSend(NamedTuple):
    source: Grain
    target: Grain
    method: str
    args: object


class KeptCaller(NamedTuple):
    caller: Caller
    # the greatest number that acted
    last: int
    # what isn't seen yet, ascending by its number
    replies: tuple[Reply, ...] = ()


class KeptAccount(NamedTuple):
    tenant: str
    # how many requests were accepted
    count: int
    # what its grains sent and isn't delivered, the oldest first
    sends: tuple[KeptSend, ...] = ()
    # ascending
    callers: tuple[KeptCaller, ...] = ()


class KeptGrain(NamedTuple):
    grain: Grain
    version: Optional[int]
    last: int
    until: int
    state: object


class Checkpoint(NamedTuple):
    # the number of the log that it replaces, as it is spelled
    follows: str
    # how many sends are delivered after a line
    sends: int
    clock: int
    accounts: tuple[KeptAccount, ...]
    # ascending
    grains: tuple[KeptGrain, ...]
    # the journal of no step
    journal: bytes
    # those of the second form
    replies: Optional[int] = None
    room: Optional[int] = None
    operator: bool = False

    def says_more(self) -> bool:
        """Whether it says something that the first form hasn't."""
        more = self.replies, self.room, self.operator
        return more != (None, None, False) or any(account.callers for account in self.accounts)


# ---- writing

def checkpoint_of(silo: Silo, follows: str, sends: int) -> Checkpoint:
    """What is kept of a silo in which nothing waits and no turn is open."""
    setup = silo.setup
    accounts = tuple(account_of(silo, tenant) for tenant, _limits in setup.tenants)
    grains = sorted(KeptGrain(at, entry.version, entry.last, entry.until, entry.state)
                    for tenant, _limits in setup.tenants for at, entry in silo.machine(tenant).entries.items())
    journal = journal_text(journal_of(silo)._replace(steps=(), replies=()))
    return Checkpoint(follows, sends, silo.clock, accounts, tuple(grains), journal, setup.replies, setup.room, setup.operator)


def account_of(silo: Silo, tenant: str) -> KeptAccount:
    machine = silo.machine(tenant)
    sends = tuple(KeptSend(source, sent.target, sent.method, sent.args) for source, sent in machine.sends)
    callers = tuple(KeptCaller(caller, record.last, tuple(receipt.reply for receipt in record.receipts))
                    for caller, record in silo.receipts.of(tenant))
    return KeptAccount(tenant, machine.count, sends, callers)


def account_lines(account: KeptAccount, form: str) -> list:
    """The fields of its lines in a checkpoint of the form."""
    callers = [len(account.callers)] if form == SECOND else []
    lines: list = [["account", account.tenant, account.count, len(account.sends), *callers]]
    lines += [["send", it.source.text(), it.target.text(), spelled_message(it.method, it.args).hex()] for it in account.sends]
    for it in account.callers:
        lines += [["caller", it.caller.text(), it.last, len(it.replies)], *(["receipt", *reply_fields(reply)] for reply in it.replies)]
    return lines


def checkpoint_text(checkpoint: Checkpoint) -> bytes:
    form = SECOND if checkpoint.says_more() else FIRST
    lines = [[form], ["follows", checkpoint.follows], ["sends", checkpoint.sends]]
    lines += [[line] for line in more_lines(checkpoint.replies, checkpoint.room, checkpoint.operator) if form == SECOND]
    lines += [["clock", checkpoint.clock], ["accounts", len(checkpoint.accounts)]]
    lines += [fields for account in checkpoint.accounts for fields in account_lines(account, form)]
    lines += [["grains", len(checkpoint.grains)]]
    lines += [["up", it.grain.text(), "-" if it.version is None else it.version, it.last, it.until, spelled(it.state).hex()]
              for it in checkpoint.grains]
    body = "".join(" ".join(map(str, fields)) + "\n" for fields in lines).encode() + checkpoint.journal
    return body + b"sum " + sum_spelled(sum_after(0, body)) + b"\n"


# ---- reading

def fields(word: str, line: str, count: int) -> list[str]:
    """Those behind the word of a line."""
    first, *found = split(line, count + 1)
    fits(first == word)
    return found


def read_number(word: str, least: int, most: int, line: str, _before: list) -> int:
    return number(*fields(word, line, 1), least, most)


def read_follows(rules: Rules, line: str, _before: list) -> str:
    found, = fields("follows", line, 1)
    fits(rules.follows(found))
    return found


def read_form(line: str, _before: list) -> str:
    fits(line in FORMS)
    return line


def read_bound(word: str, most: int, line: str, _before: list) -> Optional[int]:
    """A number from 1 on, or none."""
    found, = fields(word, line, 1)
    return None if found == "-" else number(found, 1, most)


def read_account(rules: Rules, form: str, line: str, _before: list) -> tuple[str, int, int, int]:
    """How many sends and callers it has, too."""
    tenant, count, sends, *callers = fields("account", line, 4 if form == SECOND else 3)
    fits(is_word(tenant))
    lengths = [number(it, most=LAST_VERSION) for it in (sends, *(callers or ["0"]))]
    return tenant, number(count, most=rules.requests), *lengths


def read_send(tenant: str, line: str, _before: list) -> KeptSend:
    """What a grain of the tenant sent."""
    source, target, said = fields("send", line, 3)
    fits(grain(source).tenant == tenant)
    return KeptSend(grain(source), grain(target), *message(LAST_FORM, said))


def read_caller(tenant: str, before: Optional[Caller], line: str, _before: list) -> tuple[Caller, int, int]:
    """One of the tenant that is greater than the one before, its greatest number, and how many receipts it has."""
    who, last, replies = fields("caller", line, 3)
    fits(caller(who).tenant == tenant and (before is None or before < caller(who)))
    return caller(who), number(last), number(replies, most=LAST_VERSION)


def read_receipt(who: Caller, least: int, last: int, line: str, before: list) -> Reply:
    """One of the caller under a number in these bounds."""
    reply = read_reply(line, before, LAST_FORM, "receipt", (*codes.TEXTS, codes.NO_ROOM))
    fits(isinstance(reply.to, Client) and reply.to.caller == who and least <= reply.to.id <= last)
    return reply


def read_grain(before: Optional[Grain], line: str, _before: list) -> KeptGrain:
    """A grain that is greater than the one before."""
    at, version, last, until, held = fields("up", line, 5)
    fits(before is None or before < grain(at))
    known = None if version == "-" else number(version, most=LAST_VERSION)
    return KeptGrain(grain(at), known, number(last), number(until, most=LAST_VERSION), state(LAST_FORM, held))


def read_named_tenant(names: list[str], line: str, before: list) -> tuple:
    """A tenant of the journal: the one that the account in its place has."""
    found = read_tenant(line, before)
    fits(len(before) < len(names) and found[0] == names[len(before)])
    return found


def take_accounts(reader: Reader, rules: Rules, form: str) -> tuple[KeptAccount, ...]:
    found = []
    for _ in range(reader.next(partial(read_number, "accounts", 1, MAX_TENANTS))):
        tenant, count, sends, callers = reader.next(partial(read_account, rules, form))
        sent = tuple(reader.next(partial(read_send, tenant)) for _ in range(sends))
        found.append(KeptAccount(tenant, count, sent, take_callers(reader, tenant, callers)))
    return tuple(found)


def take_callers(reader: Reader, tenant: str, count: int) -> tuple[KeptCaller, ...]:
    found: list[KeptCaller] = []
    for _ in range(count):
        who, last, receipts = reader.next(partial(read_caller, tenant, found[-1].caller if found else None))
        replies: list[Reply] = []
        for _ in range(receipts):
            least = replies[-1].to.id + 1 if replies else 0
            replies.append(reader.next(partial(read_receipt, who, least, last)))
        found.append(KeptCaller(who, last, tuple(replies)))
    return tuple(found)


def take_grains(reader: Reader) -> tuple[KeptGrain, ...]:
    found: list[KeptGrain] = []
    for _ in range(reader.next(partial(read_number, "grains", 0, LAST_VERSION))):
        found.append(reader.next(partial(read_grain, found[-1].grain if found else None)))
    return tuple(found)


def take_journal(reader: Reader, names: list[str]) -> bytes:
    """The text of a journal of the last form, of no step and no reply, with these tenants."""
    begin = reader.place
    reader.next(lambda line, _before: fits(line == f"silo-journal {LAST_FORM}"))
    reader.next(partial(read_kinds, MOST_KINDS))
    reader.next(read_age)
    reader.all_that(read_kind)
    if len(reader.all_that(partial(read_named_tenant, names))) < len(names):
        raise reader.refused()
    reader.all_that(partial(read_row, form=LAST_FORM))
    reader.next(lambda line, _before: fits(line == "close 0"))
    return reader.text(begin, reader.place)


def read_checkpoint(text: bytes, rules: Rules = STRICT) -> Checkpoint:
    """The checkpoint whose text it is by these rules, or CheckpointRefused."""
    try:
        return take_checkpoint(Reader(text), rules)
    except RefusedAt as refusal:
        raise CheckpointRefused(refusal.line) from refusal


def take_checkpoint(reader: Reader, rules: Rules) -> Checkpoint:
    form = reader.next(read_form)
    follows = reader.next(partial(read_follows, rules))
    sends = reader.next(partial(read_number, "sends", 0, LAST_VERSION))
    more = take_more(reader) if form == SECOND else (None, None, False)
    clock = reader.next(partial(read_number, "clock", 0, MAX_NUMBER))
    accounts, grains = take_accounts(reader, rules, form), take_grains(reader)
    journal = take_journal(reader, [account.tenant for account in accounts])
    after = sum_spelled(sum_after(0, reader.text(0, reader.place))).decode()
    reader.next(lambda line, _before: fits(line == f"sum {after}"))
    if reader.place < len(reader.lines) or reader.rest:
        raise reader.refused()
    return Checkpoint(follows, sends, clock, accounts, grains, journal, *more)


def take_more(reader: Reader) -> tuple[Optional[int], Optional[int], bool]:
    replies = reader.next(partial(read_bound, "replies", MAX_REPLIES))
    room = reader.next(partial(read_bound, "bytes", MAX_NUMBER))
    return replies, room, reader.next(partial(read_number, "operator", 0, 1)) == 1


def sum_of(text: bytes) -> int:
    """The sum in the last line of a checkpoint's text."""
    return int(text[-DIGITS - 1:-1], 16)


# ---- going on

def own_setup(checkpoint: Checkpoint) -> Setup:
    """That of the silo that was left."""
    journal = read_journal(checkpoint.journal, MOST_KINDS)
    more = checkpoint.room, checkpoint.replies, checkpoint.operator
    return Setup(journal.tenants, journal.age, journal.ages, journal.rows, (), Logic(journal.kinds), *more)


def entry_of(it: KeptGrain) -> Entry:
    """The entry of a grain that is active and idle."""
    entry = Entry()
    entry.phase, entry.state, entry.version, entry.last, entry.until = READY, it.state, it.version, it.last, it.until
    return entry


def reopened(checkpoint: Checkpoint, setup: Setup) -> Silo:
    """A silo that goes on from what was kept, with its rows, and these tenants, limits, ages and logic."""
    rows = own_setup(checkpoint).rows
    silo = Silo(setup._replace(rows=rows))
    silo.clock = checkpoint.clock
    for tenant in {*silo.machines, *(at.tenant for at, _row in rows)}:
        silo.machine(tenant).clock = checkpoint.clock
    for account in checkpoint.accounts:
        if account.tenant in silo.limits:
            machine = silo.machine(account.tenant)
            machine.count = account.count
            machine.sends = [(it.source, Send(it.target, it.method, it.args)) for it in account.sends]
            silo.receipts.records |= {it.caller: record_of(it.last, it.replies) for it in account.callers}
    for it in checkpoint.grains:
        silo.machine(it.grain.tenant).entries[it.grain] = entry_of(it)
    return silo
