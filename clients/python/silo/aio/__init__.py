"""A silo for asyncio: the calls of `silo`, awaited.

    import asyncio
    from silo import aio

    async def main():
        async with aio.Silo("red:2:4") as silo:
            print(await silo.client("red/web").grain("counter/red:a").add(by=3))

    asyncio.run(main())

What many tasks ask is written in one call of the system. Errors and values are those of `silo`.
"""

from silo.aio.client import Client, Silo
from silo.aio.kinds import Counter, Relay, Sheet, StoredGrain
from silo.aio.stream import Answer
from silo.grain import Grain, KindGrain

__all__ = ["Answer", "Client", "Counter", "Grain", "KindGrain", "Relay", "Sheet", "Silo", "StoredGrain"]
