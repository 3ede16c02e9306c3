"""How many bytes a tenant keeps, and what is refused because of them, if its bytes are bounded (`--bytes`).

A tenant keeps its rows, the states of its entries, and what its grains sent and isn't delivered yet:

- a grain that has a row or an entry counts the bytes of its text, and those that spell its row's content or its entry's state, whichever
  are more. A row that was cleared has no content. An entry counts no less than its kind's empty state, and that if it isn't ready;
- a send counts the bytes of both grains' texts and of its message.

Three things can make this more: a request to a grain that has no entry, the end of a turn, and a poke. Such a one is refused with 57 if
it makes it more, and more than the tenant may keep. A request and a poke then change nothing else; the turn is closed, its state stays, and
nothing is sent, as if the storage had failed. A load, a save, a clear, a reload and a sweep never make it more: what a turn may hold may
be saved, and what is stored may be read. Nor does a delivery to any of the three kinds: what is sent counts more than its target brought
up. So no tenant comes to have more than it may keep; one that has, because the bound was wider, may do all that makes it no more.

57 comes after all other reasons to refuse a request or a poke, but before the storage is asked; and a turn that has a code has that.

Only the tenant's own rows, entries and sends are counted, so no other tenant can tell how much it has.
"""

from __future__ import annotations

from typing import Iterable, Mapping, Optional

from .kinds import KINDS, Send
from .names import Grain
from .storage import CLEARED, Row
from .values import message_length, spelled_length


def state_bytes(at: Grain, state: object) -> int:
    """Of an entry that is ready with this state."""
    return max(spelled_length(state), spelled_length(KINDS[at.kind].empty))


def grain_bytes(at: Grain, row: Optional[Row], held: Optional[int]) -> int:
    """Of a grain with this row, if it has one, and an entry that counts so much, if it has one."""
    if row is None and held is None:
        return 0
    stored = 0 if row is None or row.content is CLEARED else spelled_length(row.content)
    return len(at.text()) + max(stored, held or 0)


def send_bytes(source: Grain, sent: Send) -> int:
    return len(source.text()) + len(sent.target.text()) + message_length(sent.method, sent.args)


def kept_bytes(rows: Mapping[Grain, Row], held: Mapping[Grain, int], sends: Iterable[tuple[Grain, Send]]) -> int:
    """Of a tenant with these rows, with entries that count so much, and with these sends."""
    grains = sum(grain_bytes(at, rows.get(at), held.get(at)) for at in {*rows, *held})
    return grains + sum(send_bytes(source, sent) for source, sent in sends)
