"""What is told of a journal: its steps, each with what came of it, its rows, and what an audit says of each tenant."""

from __future__ import annotations

from functools import partial
from typing import Iterator, NamedTuple, Optional

from slow_silo.audit import Report
from slow_silo.journal import Journal
from slow_silo.names import Grain
from slow_silo.steps import Reply, Step, owner
from slow_silo.storage import Row
from .members import done_members, report_members, row_members, step_members
from .parted import Recorded
from .redone import Done, Redone
from .words import WORDS, row_words, told, who


class ToldStep(NamedTuple):
    """A step just behind it, before the next one is done: its words are of that moment."""

    number: int
    step: Step
    # what it came to, if it was possible
    done: Optional[Done]
    # the tenant's steps so far; of a step of nobody those of the first tenant of whom it was possible
    part: Redone

    def words(self) -> str:
        if self.done is not None:
            return WORDS[type(self.step)](self.done, self.part.machine)
        kind = type(self.step).__name__.lower()
        return f"this {kind} isn't possible: no later step of tenant {self.part.machine.tenant} is told"

    def members(self) -> dict:
        if self.done is not None:
            return done_members(self.done)
        return {**step_members(self.number, self.step), "tenant": self.part.machine.tenant, "possible": False}


# to make a tuple so takes a third of the time that its class takes
TOLD_STEP = partial(tuple.__new__, ToldStep)


class ToldRow(NamedTuple):
    grain: Grain
    row: Row

    def words(self) -> str:
        return f"row {self.grain.text()}: {row_words(self.row)}"

    def members(self) -> dict:
        return row_members(self.grain, self.row)


class ToldReport(NamedTuple):
    """What an audit says of a tenant, and of a difference what was recorded and what was expected."""

    found: Report
    recorded: Recorded
    part: Redone

    def words(self) -> str:
        return self.found.text() + what_differs(self.found.difference, self.recorded, self.part)

    def members(self) -> dict:
        return report_members(self.found)


def parts_of(journal: Journal, tenants: list[str]) -> dict[str, Redone]:
    return {tenant: Redone(journal, tenant) for tenant in tenants}


def told_steps(journal: Journal, parts: dict[str, Redone]) -> Iterator[ToldStep]:
    """Each step of these tenants and of nobody, up to the first that isn't possible."""
    for number, step in enumerate(journal.steps, 1):
        own = owner(step)
        part = parts.get(own)
        if part is not None and not part.stopped:
            yield TOLD_STEP((number, step, part.take(number, step), part))
        elif own is None:
            yield from told_of_all(number, step, [part for part in parts.values() if not part.stopped])


def told_of_all(number: int, step: Step, parts: list[Redone]) -> Iterator[ToldStep]:
    """A step of nobody: first of whom it wasn't possible, then what it came to in all others together."""
    taken = [(part, part.take(number, step)) for part in parts]
    yield from (ToldStep(number, step, None, part) for part, done in taken if done is None)
    found = [(part, done) for part, done in taken if done is not None]
    if found:
        gone = sorted(grain for _part, done in found for grain in done.gone)
        yield ToldStep(number, step, found[0][1]._replace(gone=gone), found[0][0])


def told_rows(journal: Journal, tenants: list[str]) -> Iterator[ToldRow]:
    wanted = set(tenants)
    return (ToldRow(grain, row) for grain, row in journal.rows if grain.tenant in wanted)


def told_reports(journal: Journal, parts: dict[str, Redone]) -> Iterator[ToldReport]:
    """Of each tenant, whose steps were all told before."""
    recorded = Recorded(journal)
    return (ToldReport(recorded.report(part), recorded, part) for part in parts.values())


def what_differs(difference: Optional[str], recorded: Recorded, part: Redone) -> str:
    """The recorded reply or row beside the machine's, or nothing if no reply or row differs."""
    tenant = part.machine.tenant
    word, _space, which = (difference or "").partition(" ")
    if word == "reply":
        sides = recorded.replies.get(tenant, []), part.replies
        one, other = (reply_at(side, int(which)) for side in sides)
    elif word == "row":
        both = recorded.rows.get(tenant, {}), part.machine.storage.rows
        one, other = (row_words({grain.text(): row for grain, row in side.items()}.get(which)) for side in both)
    else:
        return ""
    return f": recorded is {one}; expected is {other}"


def reply_at(replies: list[Reply], place: int) -> str:
    if place > len(replies):
        return "no reply"
    return f"{who(replies[place - 1].to)} {told(replies[place - 1])}"
