"""What is kept of requests that act once.

A call or a poke that says `"once":true` acts once under its number: the numbers of a caller ascend. Of each caller the greatest number that
acted is kept for ever, and its receipts: the replies to its numbers that it hasn't said it has seen. Asked again, a number is told what
its receipt says, whatever the line asks now, and nothing is done.

`"seen":N` lets go the caller's receipts up to number N; that comes first, also in a line that doesn't say `once`. A number that says `once`
is then answered by the first of these that fits:

- by its receipt, if there is one;
- 15, if it isn't above the caller's greatest;
- 45, if the caller has no number yet and its tenant has as many callers as it may have receipts;
- 44 with the caller's name, if the caller has 1,000 receipts, or their lines have 1 MB;
- 44 with the tenant's name, if the tenant has as many receipts as it may have, or their lines have that many kB;
- else it acts, and is the caller's greatest; what it is replied, also a fault, is its receipt.

Nothing is done for a number that doesn't act, and no send is delivered behind it; 44 and 45 leave it free. A receipt is kept if there was
room before it: so the last one may be longer than what was left. Callers of tenants that aren't known have nothing kept, and are answered
as if they didn't say `once`.

All this is of the tenant's own callers, and a function of its lines and of those that are nobody's: so a log says nothing of it, and a
checkpoint has it whole.
"""

from __future__ import annotations

from typing import Iterable, NamedTuple, Optional

from . import codes
from .names import Caller
from .replies import reply_text
from .steps import Client, Reply, fault

# how many receipts the words may give a tenant
MAX_REPLIES = 1_000_000
# of a caller
MAX_RECEIPTS = 1_000
MAX_BYTES = 1_048_576
# of a tenant, for each receipt that it may have
BYTES_A_RECEIPT = 1_024
# below all numbers
NO_NUMBER = -1


class Receipt(NamedTuple):
    reply: Reply
    # the bytes of its line, without LF
    length: int


def receipt_of(reply: Reply) -> Receipt:
    return Receipt(reply, len(reply_text(reply).encode()))


class Record(NamedTuple):
    """What is kept of a caller."""

    # the greatest number that acted
    last: int = NO_NUMBER
    # ascending by their numbers
    receipts: tuple[Receipt, ...] = ()


def record_of(last: int, replies: Iterable[Reply]) -> Record:
    return Record(last, tuple(map(receipt_of, replies)))


def are_enough(receipts: Iterable[Receipt], most: int, most_bytes: int) -> bool:
    """Whether there is no room for one more."""
    lengths = [receipt.length for receipt in receipts]
    return len(lengths) >= most or sum(lengths) >= most_bytes


class Receipts:
    """The records of all callers. A tenant may have `most` callers and receipts."""

    def __init__(self, most: Optional[int]):
        self.most = most
        self.records: dict[Caller, Record] = {}

    def of(self, tenant: str) -> list[tuple[Caller, Record]]:
        """Those of a tenant's callers, ascending."""
        return sorted((caller, record) for caller, record in self.records.items() if caller.tenant == tenant)

    def last(self, caller: Caller) -> Optional[int]:
        return self.records[caller].last if caller in self.records else None

    def let_go(self, caller: Caller, seen: int) -> None:
        if caller in self.records:
            last, receipts = self.records[caller]
            self.records[caller] = Record(last, tuple(it for it in receipts if it.reply.to.id > seen))

    def reply_to(self, asker: Client) -> Optional[Reply]:
        """What a number that doesn't act is told; none if it acts."""
        caller, number = asker
        record = self.records.get(caller, Record())
        for receipt in record.receipts:
            if receipt.reply.to.id == number:
                return receipt.reply
        if number <= record.last:
            return fault(asker, codes.WAS_ANSWERED, number)
        others = [one for whose, one in self.records.items() if whose.tenant == caller.tenant]
        if caller not in self.records and len(others) >= self.most:
            return fault(asker, codes.MANY_CALLERS, caller.tenant)
        if are_enough(record.receipts, MAX_RECEIPTS, MAX_BYTES):
            return fault(asker, codes.NOT_SEEN, caller.text())
        if are_enough((it for one in others for it in one.receipts), self.most, self.most * BYTES_A_RECEIPT):
            return fault(asker, codes.NOT_SEEN, caller.tenant)
        return None

    def keep(self, reply: Reply) -> None:
        """A number acted, and was replied this."""
        caller, number = reply.to
        receipts = self.records.get(caller, Record()).receipts
        self.records[caller] = Record(number, (*receipts, receipt_of(reply)))
