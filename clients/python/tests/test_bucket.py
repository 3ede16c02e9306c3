"""A program with a kind of its own, `crates/example_bucket`: the client and the gateway in front of it, where it is built beside the program."""

from __future__ import annotations

import pathlib
from typing import cast

from silo import KindGrain, Silo, SiloError

from . import beside
from .beside import SECONDS, WEB
from .gateways import Gateways


class Bucket(KindGrain):
    kind = "bucket"

    def take(self, now: int) -> bool:
        return cast(bool, self._call("take", {"now": now}))


class Buckets(Gateways):
    def setUp(self) -> None:
        path = pathlib.Path(beside.program).parent.parent.parent / "example_bucket" / "out" / "example_bucket"
        if not path.exists():
            self.skipTest("example_bucket isn't built beside the program")
        self.program = str(path)

    def taken(self, silo: Silo) -> None:
        """A bucket has ten tokens, of which one comes back each second."""
        bucket = Bucket(silo.client(WEB), "ann")
        self.assertEqual([bucket.take(now) for now in [1_000] * 11 + [1_999, 2_000, 2_000]], [True] * 10 + [False, False, True, False])
        with self.assertRaisesRegex(SiloError, "22: kind counter is unknown"):
            silo.call(WEB, "counter/red:ann", "get")

    def test_by_a_pipe(self) -> None:
        self.taken(self.started(program=self.program))

    def test_by_a_gateway(self) -> None:
        silo = Silo.connect(self.gateway(program=self.program).address(), timeout=SECONDS)
        self.addCleanup(silo.close)
        self.taken(silo)
