"""A folder with checkpoints: how a start goes on from one, and when a new one is written.

The number of a log that goes on from a checkpoint is the sum in the checkpoint's last line; one that goes on from nothing has a random
number. A checkpoint `follows` the number of the log that it replaces. At a switch the new checkpoint is put in the place of the old one,
and then a new log, without a batch, in the place of the old log. So whatever a crash leaves has one reading:

- no checkpoint: the log's lines are answered again from nothing;
- a checkpoint and its log: the lines are answered again from what the checkpoint has;
- a checkpoint and the log that it replaced: all of the log is in the checkpoint.

Any other log is refused. A log is replaced once a start has answered lines of it again, once it got more bytes of lines than there is room
for, and at the end of the input, if it has lines (`logged`). Two forms differ in the folders from which a start goes on: `of_program`, where
a start may have other words than the folder if its log has no batch, and `full`, which is to come, where it may whatever the log has.

A start has the tenants of its words. With `--operator` these count in a folder without a checkpoint alone, in both forms: one with a
checkpoint has its own table, which lines of its operator may have changed, and no start takes back what they did. Callers keep their
numbers and receipts under all words.
"""

from __future__ import annotations

import re
from typing import Callable, Iterable, NamedTuple, Optional

from .checkpoint import LOOSE, STRICT, Checkpoint, Rules, checkpoint_of, own_setup, read_checkpoint, reopened, sum_of
from .data import Folder
from .journal import MAX_NUMBER
from .log import DIGITS, OtherWords, Words, cut_head, first_difference, head_with, numbered_head, spelled
from .logged import Found, Log, LogRefused, answer_again, begin_log, random_number, words_of
from .silo import Setup, Silo

# bytes of lines up to which a silo that runs goes on with its log, unless the last checkpoint that it made has more
MOST_LOG = 16_777_216
IS_NUMBER = re.compile(b"[0-9a-f]{%d}" % DIGITS).fullmatch


class LogMissing(Exception):
    """There is a checkpoint, and no log."""


class HasTenant(Exception):
    """Something is kept of this tenant, which the words leave out."""


class HasKind(Exception):
    """A row or an active grain has this kind, which isn't known."""


class HasCount(Exception):
    """More requests of a tenant were accepted than can be counted."""


# ---- what is looked at beside a checkpoint

class Beside(NamedTuple):
    """A checkpoint, and the log that stands beside it."""

    checkpoint: Checkpoint
    # those of the checkpoint, and those of the start
    setup: Setup
    words: Words
    asked: Words
    # of the log that goes on from it
    number: bytes
    log: Optional[bytes]

    def has_own_log(self) -> bool:
        return self.log.startswith(head_with(self.words, self.number))

    def has_replaced_log(self) -> bool:
        head = numbered_head(self.log)
        return head is not None and head.number == self.checkpoint.follows.encode()


def kept_tenants(it: Beside) -> Iterable[str]:
    """The tenants of which something is kept: first as accounts have them, then active grains, then rows."""
    yield from (at.tenant for at in it.checkpoint.accounts if at.count > 0 or at.sends)
    yield from (at.grain.tenant for at in it.checkpoint.grains)
    yield from (grain.tenant for grain, _row in it.setup.rows)


def look_at_words(it: Beside) -> None:
    """Other words may begin where the log that goes on from the checkpoint has no batch. They leave out no tenant of which something is
    kept: the first one is told."""
    asked = it.asked._replace(tenants=it.words.tenants) if it.asked.operator else it.asked
    if it.words == asked:
        return
    if it.words.say_more() or asked.say_more() or it.words.kinds > asked.kinds:
        raise OtherWords
    look_for_log(it)
    if it.log != head_with(it.words, it.number):
        raise OtherWords
    known = {tenant for tenant, *_limits in asked.tenants}
    for tenant in kept_tenants(it):
        if tenant not in known:
            raise HasTenant(tenant)


def look_for_log(it: Beside) -> None:
    if it.log is None:
        raise LogMissing


def look_at_head(it: Beside) -> None:
    """The log has the checkpoint's words. The one that it replaced may have any."""
    if not it.has_replaced_log():
        cut_head(it.words, it.log)


def look_at_number(it: Beside) -> None:
    """The log is the checkpoint's own, or the one that it replaced, whatever words that has."""
    if it.has_own_log() or it.has_replaced_log():
        return
    head = numbered_head(it.log)
    if head is not None and head.number != it.number:
        raise LogRefused(head.line)
    raise LogRefused(first_difference(it.log, head_with(it.words, it.number)))


def look_at_grains(it: Beside, rows: Iterable = ()) -> None:
    """The kinds of all active grains are known, and of these rows. The least that isn't is told."""
    kinds = {at.kind for at, _row in rows} | {kept.grain.kind for kept in it.checkpoint.grains}
    for kind in sorted(kinds):
        if not it.setup.logic.knows(kind):
            raise HasKind(kind)


def look_at_kinds(it: Beside) -> None:
    look_at_grains(it, it.setup.rows)


def look_at_counts(it: Beside) -> None:
    if any(account.count > MAX_NUMBER for account in it.checkpoint.accounts):
        raise HasCount


def look_at_tenants(silo: Silo, setup: Setup) -> None:
    """The words leave out no tenant of which something is kept. The least that they leave out is told."""
    for tenant in sorted(silo.machines):
        if any(silo.has(tenant)) and tenant not in dict(setup.tenants):
            raise HasTenant(tenant)


# ---- the two forms

class Form(NamedTuple):
    """From which folders a start goes on, and how long a log may be."""

    # bytes of its lines
    most_log: int
    # whether a start may have other words than the folder whatever its log has, which then gets a checkpoint under them
    other_words: bool
    rules: Rules
    # whether a log may go on from nothing that has this number
    is_first: Callable[[bytes], object]
    # one after the other
    looks: tuple[Callable[[Beside], None], ...]


def of_program(most_log: int) -> Form:
    return Form(most_log, False, LOOSE, lambda _number: True,
                (look_at_words, look_for_log, look_at_head, look_at_number, look_at_grains, look_at_counts))


def full(most_log: int) -> Form:
    return Form(most_log, True, STRICT, IS_NUMBER, (look_at_kinds, look_for_log, look_at_number))


# ---- a start

def found_without(content: Optional[bytes], setup: Setup, words: Words, form: Form) -> Found:
    """What a folder without a checkpoint has."""
    if content is None:
        return Found(Silo(setup), words, random_number(), None)
    number, _end = cut_head(words, content)
    if not form.is_first(number):
        raise OtherWords
    return Found(Silo(setup), words, number, content)


def found_with(text: bytes, content: Optional[bytes], words: Words, form: Form) -> Found:
    """What a folder with a checkpoint has. Of the log that it replaced nothing is answered again."""
    checkpoint = read_checkpoint(text, form.rules)
    setup = own_setup(checkpoint)
    it = Beside(checkpoint, setup, words_of(setup, checkpoint.sends), words, spelled(sum_of(text)), content)
    for look in form.looks:
        look(it)
    return Found(reopened(checkpoint, setup), it.words, it.number, content if it.has_own_log() else None)


def start(folder: Folder, setup: Setup, sends: int, form: Form) -> tuple[Silo, Log]:
    """The silo to which the folder leads, and its log; what stands behind the log's last batch is cut off. Nothing changes in a folder
    that is refused.

    If a line was answered again, or the folder has other words, a checkpoint then takes the log's place.
    """
    words, content = words_of(setup, sends), folder.open()
    text = folder.own_checkpoint()
    found = found_without(content, setup, words, form) if text is None else found_with(text, content, words, form)
    again = None if found.log is None else answer_again(found.silo, found.log, found.words)
    has_lines = again is not None and again.lines > 0
    if setup.operator:
        setup = setup._replace(tenants=found.silo.setup.tenants)
        words = words_of(setup, sends)
    is_left = has_lines or found.words != words
    if form.other_words:
        look_at_tenants(found.silo, setup)
    place = begin_log(folder, found.words, found.number) if again is None else again.place
    if again is not None and again.length != len(found.log):
        folder.keep(again.length)
    if found.words != words:
        found = found._replace(silo=reopened(checkpoint_of(found.silo, "", sends), setup), words=words)
    log = Log(folder, found, place, has_lines, form.most_log)
    if is_left:
        log.switch()
    return log.silo, log
