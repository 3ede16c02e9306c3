"""A journal's text: what a silo was set up with, the steps that it did, what it replied, and its rows.

There are three forms of it. The second also tells which logic the kinds have, by its number, and the kinds that have an
age of their own; in the first they have the first logic, and none has an age of its own. In these two messages have the
first form, no value holds bytes, and no code says that bytes aren't well formed; the third is the second without that.
A silo's journal is written in the third, and all three are read.
"""

from __future__ import annotations

import re
from functools import lru_cache, partial
from itertools import islice
from typing import Callable, Collection, NamedTuple, Optional

from . import codes
from .kinds import NEWEST
from .machine import Limits
from .names import Caller, Grain, is_word, read_caller, read_grain
from .silo import Silo
from .steps import (MAX_NUMBER, Abandon, Activate, Begin, Call, Client, Deliver, End, Load, Poke, Refuse, Reply, Status,
                    Step, Store, Sweep, Tick)
from .storage import CLEARED, LAST_VERSION, Row
from .values import (OLD_MESSAGE_FORM, NotSpelled, read_message, read_old_message, read_old_state, read_state, spelled,
                     spelled_message)

FORMS = (1, 2, 3)
LAST_FORM = 3
# the versions of the logic may have numbers up to this
MOST_KINDS = 255
MAX_AGE = 86_400_000
MAX_AGES = 64
MAX_TENANTS = 1_000
MAX_ACTIVATIONS = 10_000
MAX_MAILBOX = 1_000
# to make a tuple so takes a third of the time that its class takes: of a long journal these are the most
CALL, END, CLIENT, REPLY = (partial(tuple.__new__, kind) for kind in (Call, End, Client, Reply))
# what short fields read as is kept, since a journal says the same names and messages again and again
MOST_KEPT = 8_192
SHORT = 1_024


class Journal(NamedTuple):
    tenants: tuple[tuple[str, Limits], ...]
    age: int
    steps: tuple[Step, ...]
    replies: tuple[Reply, ...]
    rows: tuple[tuple[Grain, Row], ...]
    # which logic the kinds have, by its number
    kinds: int = NEWEST
    # the kinds that have an age of their own, ascending
    ages: tuple[tuple[str, int], ...] = ()
    form: int = LAST_FORM


class RefusedAt(Exception):
    """A line that fits no form in its place, counted from 1."""

    def __init__(self, line: int):
        super().__init__(line)
        self.line = line


def journal_of(silo: Silo) -> Journal:
    setup = silo.setup
    return Journal(setup.tenants, setup.age, tuple(silo.journal), tuple(silo.replies), tuple(silo.rows()),
                   setup.logic.number, setup.ages)


# ---- writing

def whether_failed(failed: bool) -> str:
    return "failed" if failed else "ok"


def message_in(form: int, step: Call) -> bytes:
    """The bytes of a call's message in a journal of the form."""
    if form == LAST_FORM:
        return spelled_message(step.method, step.args)
    return spelled_message(step.method, step.args, OLD_MESSAGE_FORM)


def step_fields(step: Step, form: int = LAST_FORM) -> list:
    """The fields of a step's line behind its first word."""
    if isinstance(step, Call):
        return [step.caller.text(), step.id, step.grain.text(), message_in(form, step).hex()]
    if isinstance(step, Poke):
        return [step.caller.text(), step.id, step.grain.text(), whether_failed(step.failed), spelled(step.state).hex()]
    if isinstance(step, Load):
        return [step.grain.text(), whether_failed(step.failed)]
    if isinstance(step, Store):
        return [step.grain.text(), step.turn, whether_failed(step.failed)]
    return [field.text() if isinstance(field, (Caller, Grain)) else field for field in step]


def reply_fields(reply: Reply) -> list:
    to = [reply.to.caller.text(), reply.to.id] if isinstance(reply.to, Client) else [reply.to.text(), "-"]
    return [*to, "ok", spelled(reply.value).hex()] if reply.code is None else [*to, "no", reply.code, reply.text]


def row_fields(grain: Grain, row: Row) -> list:
    return [grain.text(), row.version, "-" if row.content is CLEARED else spelled(row.content).hex()]


def journal_text(journal: Journal) -> bytes:
    """The text, in the journal's form, if that has it: in the first the kinds have the first logic, and no age of their own."""
    assert journal.form != 1 or (journal.kinds, journal.ages) == (1, ())
    lines = [["silo-journal", journal.form], *([["kinds", journal.kinds]] if journal.form != 1 else [])]
    lines += [["age", journal.age], *(["kind", *entry] for entry in journal.ages)]
    lines += [["tenant", tenant, *limits] for tenant, limits in journal.tenants]
    lines += [[type(step).__name__.lower(), *step_fields(step, journal.form)] for step in journal.steps]
    lines += [["reply", *reply_fields(reply)] for reply in journal.replies]
    lines += [["row", *row_fields(grain, row)] for grain, row in journal.rows]
    lines += [["close", len(journal.steps)]]
    return "".join(" ".join(map(str, fields)) + "\n" for fields in lines).encode()


# ---- reading fields

class Misfit(Exception):
    """A field isn't what stands in its place."""


def fits(value: object) -> object:
    if value is None or value is False:
        raise Misfit
    return value


IS_NUMBER = re.compile("0|[1-9][0-9]{0,19}", re.ASCII).fullmatch
IS_HEX = re.compile("([0-9a-f]{2})*", re.ASCII).fullmatch


@lru_cache(maxsize=MOST_KEPT)
def number(field: str, least: int = 0, most: int = MAX_NUMBER) -> int:
    found = int(field) if IS_NUMBER(field) else -1
    if not least <= found <= most:
        raise Misfit
    return found


def kept(read: Callable) -> Callable:
    """The same reader of a value's field, which keeps what short ones read as. Nobody changes a value."""
    keep = lru_cache(maxsize=MOST_KEPT)(read)

    def reader(form: int, field: str) -> object:
        return keep(form, field) if len(field) <= SHORT else read(form, field)
    return reader


@lru_cache(maxsize=MOST_KEPT)
def caller(field: str) -> Caller:
    return fits(read_caller(field))


@lru_cache(maxsize=MOST_KEPT)
def grain(field: str) -> Grain:
    return fits(read_grain(field))


def failed(field: str) -> bool:
    fits(field in ("ok", "failed"))
    return field == "failed"


def data(field: str) -> bytes:
    fits(IS_HEX(field))
    return bytes.fromhex(field)


def spelled_as(read, field: str) -> object:
    try:
        return read(data(field))
    except NotSpelled as error:
        raise Misfit from error


@kept
def message(form: int, field: str) -> tuple[str, object]:
    return spelled_as(read_message if form == LAST_FORM else read_old_message, field)


@kept
def state(form: int, field: str) -> object:
    return spelled_as(read_state if form == LAST_FORM else read_old_state, field)


def code(form: int, among, field: str) -> int:
    """One of these codes that the form has."""
    fits(field in map(str, among))
    fits(form == LAST_FORM or int(field) != codes.NOT_BYTES)
    return int(field)


# ---- reading lines

def refuse_line(form: int, who: str, asked: str, why: str) -> Refuse:
    return Refuse(caller(who), number(asked), code(form, codes.LINE_REFUSALS, why))


def call_line(form: int, who: str, asked: str, target: str, said: str) -> Call:
    return CALL((caller(who), number(asked), grain(target), *message(form, said)))


def poke_line(form: int, who: str, asked: str, target: str, went: str, held: str) -> Poke:
    return Poke(caller(who), number(asked), grain(target), state(form, held), failed(went))


# how many fields stand behind the first word, and what they read as in a journal of a form
STEP_LINES = {
    "refuse": (3, refuse_line),
    "call": (4, call_line),
    "poke": (5, poke_line),
    "status": (2, lambda _form, who, asked: Status(caller(who), number(asked))),
    "deliver": (1, lambda _form, at: Deliver(grain(at))),
    "activate": (1, lambda _form, at: Activate(grain(at))),
    "load": (2, lambda _form, at, went: Load(grain(at), failed(went))),
    "begin": (1, lambda _form, at: Begin(grain(at))),
    "store": (3, lambda _form, at, turn, went: Store(grain(at), number(turn), failed(went))),
    "end": (2, lambda _form, at, turn: END((grain(at), number(turn)))),
    "abandon": (2, lambda _form, at, turn: Abandon(grain(at), number(turn))),
    "tick": (1, lambda _form, now: Tick(number(now))),
    "sweep": (0, lambda _form: Sweep()),
}
NAMED = ("begin ", "activate ", "load ", "deliver ")


def read_tenant(line: str, before: list) -> tuple[str, Limits]:
    word, tenant, activations, mailbox = split(line, 4)
    fits(word == "tenant" and is_word(tenant) and tenant not in dict(before) and len(before) < MAX_TENANTS)
    return tenant, Limits(number(activations, 1, MAX_ACTIVATIONS), number(mailbox, 1, MAX_MAILBOX))


def read_step(line: str, _before: list, form: int = LAST_FORM) -> Step:
    return named_step(line, form) if line.startswith(NAMED) else read_fields(line, form)


@lru_cache(maxsize=MOST_KEPT)
def named_step(line: str, form: int) -> Step:
    """The same of a line in which nothing but a grain is named: it comes again and again."""
    return read_fields(line, form)


def read_fields(line: str, form: int) -> Step:
    fields = line.split(" ")
    count, read = STEP_LINES.get(fields[0], (None, None))
    if len(fields) - 1 != count:
        raise Misfit
    return read(form, *fields[1:])


def read_reply(line: str, _before: list, form: int, word: str = "reply", among: Collection[int] = codes.TEXTS) -> Reply:
    fields = line.split(" ", 5)
    fits(fields[0] == word and len(fields) >= 5)
    to = grain(fields[1]) if fields[2] == "-" else CLIENT((caller(fields[1]), number(fields[2])))
    if fields[3] == "ok":
        fits(len(fields) == 5)
        return REPLY((to, state(form, fields[4]), None, ""))
    fits(fields[3] == "no" and len(fields) == 6 and re.fullmatch("[ -~]+", fields[5], re.ASCII))
    return Reply(to, code=code(form, among, fields[4]), text=fields[5])


def read_row(line: str, before: list, form: int) -> tuple[Grain, Row]:
    word, at, version, content = split(line, 4)
    fits(word == "row" and (not before or before[-1][0] < grain(at)))
    held = CLEARED if content == "-" else state(form, content)
    return grain(at), Row(number(version, 1, LAST_VERSION), held)


def split(line: str, count: int) -> list[str]:
    fields = line.split(" ")
    fits(len(fields) == count)
    return fields


class Reader:
    """The lines of a text, which are read one after the other."""

    def __init__(self, text: bytes):
        *self.lines, self.rest = text.split(b"\n")
        self.place = 0

    def refused(self) -> RefusedAt:
        return RefusedAt(self.place + 1)

    def text(self, begin: int, end: int) -> bytes:
        """The text of the lines from one place to another."""
        return b"".join(line + b"\n" for line in self.lines[begin:end])

    def all_that(self, read) -> list:
        """What the next lines read as, up to the first that doesn't fit."""
        found: list = []
        try:
            for line in islice(self.lines, self.place, None):
                found.append(read(line.decode("ascii"), found))
        except (Misfit, UnicodeDecodeError):
            pass
        self.place += len(found)
        return found

    def next(self, read) -> object:
        if self.place == len(self.lines):
            raise self.refused()
        try:
            found = read(self.lines[self.place].decode("ascii"), [])
        except (Misfit, UnicodeDecodeError):
            raise self.refused() from None
        self.place += 1
        return found


def read_head(line: str, _before: list) -> int:
    word, form = split(line, 2)
    fits(word == "silo-journal" and form in map(str, FORMS))
    return int(form)


def read_kinds(most: int, line: str, _before: list) -> int:
    word, kinds = split(line, 2)
    fits(word == "kinds")
    return number(kinds, 1, most)


def read_age(line: str, _before: list) -> int:
    word, age = split(line, 2)
    fits(word == "age")
    return number(age, 1, MAX_AGE)


def read_kind(line: str, before: list) -> tuple[str, int]:
    word, kind, age = split(line, 3)
    fits(word == "kind" and is_word(kind) and len(before) < MAX_AGES and (not before or before[-1][0] < kind))
    return kind, number(age, 1, MAX_AGE)


def read_journal(text: bytes, most: int = NEWEST) -> Journal:
    """The journal, of a version up to that one, or RefusedAt."""
    reader = Reader(text)
    form = reader.next(read_head)
    kinds = 1 if form == 1 else reader.next(partial(read_kinds, most))
    age = reader.next(read_age)
    ages = [] if form == 1 else reader.all_that(read_kind)
    tenants = reader.all_that(read_tenant)
    if not tenants:
        raise reader.refused()
    steps = reader.all_that(lambda line, before: read_step(line, before, form))
    replies = reader.all_that(lambda line, before: read_reply(line, before, form))
    rows = reader.all_that(lambda line, before: read_row(line, before, form))
    reader.next(lambda line, _before: fits(line == f"close {len(steps)}"))
    if reader.place < len(reader.lines) or reader.rest:
        raise reader.refused()
    return Journal(tuple(tenants), age, tuple(steps), tuple(replies), tuple(rows), kinds, tuple(ages), form)


def migrate_journal(text: bytes) -> bytes:
    """The text of the same journal in the last form, or RefusedAt."""
    return journal_text(read_journal(text)._replace(form=LAST_FORM))
