"""Which lines of a journal are told: those that fit all that was asked for."""

from __future__ import annotations

import argparse
from itertools import takewhile
from typing import Iterator, NamedTuple, Optional

from slow_silo.names import Caller, Grain, read_caller, read_grain
from .subjects import clients_of, grains_of, is_error
from .told import ToldReport, ToldRow, ToldStep


def grain_named(text: str) -> Grain:
    found = read_grain(text) if text.isascii() else None
    if found is None:
        raise argparse.ArgumentTypeError("it is the name of a grain, such as counter/red:a")
    return found


def client_named(text: str) -> Caller:
    found = read_caller(text) if text.isascii() else None
    if found is None:
        raise argparse.ArgumentTypeError("it is the name of a client, such as red/c1")
    return found


class Chosen(NamedTuple):
    steps: Optional[range] = None
    grain: Optional[Grain] = None
    client: Optional[Caller] = None
    errors: bool = False

    def of_steps(self, told: Iterator[ToldStep]) -> Iterator[ToldStep]:
        """The steps that are chosen, up to the last that can be."""
        last = None if self.steps is None else self.steps.stop
        before = told if last is None else takewhile(lambda one: one.number < last, told)
        return before if self == Chosen() else filter(self.has_step, before)

    def has_step(self, told: ToldStep) -> bool:
        if self.steps is not None and told.number not in self.steps:
            return False
        if self.errors and not is_error(told):
            return False
        return (self.grain is None or self.grain in grains_of(told)) and (self.client is None or self.client in clients_of(told))

    def has_row(self, told: ToldRow) -> bool:
        if self.steps is not None or self.client is not None or self.errors:
            return False
        return self.grain in (None, told.grain)

    def has_report(self, told: ToldReport) -> bool:
        if self.steps is not None or self.client is not None or self.grain is not None:
            return False
        return not self.errors or told.found.difference is not None

    def tenants(self, tenants: list[str]) -> list[str]:
        """Those of whom a step may be chosen."""
        return [tenant for tenant in tenants if self.client is None or self.client.tenant == tenant]

    def may_be_empty(self) -> bool:
        """To find nothing is an answer: there is no error."""
        return self.errors or self.grain is None and self.client is None
