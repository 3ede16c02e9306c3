"""What a process that was forked does with the silos of its parent."""

from __future__ import annotations

import os
import weakref
from typing import Protocol

# the status and the text with which such a silo has ended for the child
LEFT = (0, "it is the silo of the process that forked this one")


class Forked(Protocol):
    def leave(self) -> None:
        """Lets go of what is the parent's."""


_open: weakref.WeakSet[Forked] = weakref.WeakSet()
_registered = False


def leave_in_children(it: Forked) -> None:
    """Has each process that is forked from now on leave it."""
    global _registered
    if not _registered:
        _registered = True
        os.register_at_fork(after_in_child=_leave_all)
    _open.add(it)


def _leave_all() -> None:
    for it in list(_open):
        it.leave()
