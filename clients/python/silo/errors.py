"""What a request may end by, other than its value."""

from __future__ import annotations

import concurrent.futures


class SiloError(Exception):
    """A request that was refused, or that its grain answered by a fault: its code and text, as docs/formats.md lists them."""

    def __init__(self, code: int, text: str) -> None:
        super().__init__(f"{code}: {text}")
        self.code = code
        self.text = text


def reason_of(status: int, told: str) -> str:
    """Why a process ended: what it wrote on standard error, if it did."""
    return told.strip() or (f"signal {-status} ended it" if status < 0 else "it gave no reason")


class SiloEnded(Exception):
    """The silo has ended: its status (-9 if it was killed by signal 9), and what it told.

    `under_way` is true if the request was asked before that: then it isn't known whether it was done. Otherwise nothing was asked.
    """

    def __init__(self, status: int, told: str, under_way: bool = False) -> None:
        known = "; whether the request was done is not known" if under_way else ""
        super().__init__(f"the silo ended with status {status}: {reason_of(status, told)}{known}")
        self.status = status
        self.told = told
        self.under_way = under_way


class SiloTimeout(concurrent.futures.TimeoutError):
    """A request that wasn't answered in time. Whether it was done, or will be, is not known."""

    def __init__(self, seconds: float) -> None:
        super().__init__(f"not answered within {seconds:g} s; whether the request was done is not known")
        self.seconds = seconds
