"""A client of `silo answer`: calls grains of a silo that runs as a process of its own.

    from silo import Silo

    with Silo("red:2:4") as silo:
        web = silo.client("red/web")
        print(web.grain("counter/red:a").add(by=3))

`red:2:4` is the tenant `red` with at most 2 activations and 4 waiting requests at each grain. A value is None, a bool, a whole
number of 64 bits (no float), a text, bytes, a list or a dict of them. The silo lives as long as the `with` block, and answers
each request before it reads the next. Requests may be made from many threads; for asyncio there is `silo.aio`.

    python -m silo red:2:4

is a shell by hand: `counter/red:a add by=3` prints `3`. It wants Python 3.9 or later, nothing but its standard library,
and the program `silo` on the PATH (or named by `program`).
"""

from silo.answer import Answer
from silo.batch import serve_file
from silo.client import Client, Silo
from silo.errors import SiloEnded, SiloError, SiloTimeout
from silo.grain import Grain, KindGrain
from silo.kept import ActiveGrain, Kept, Row, rows
from silo.kinds import Counter, Relay, Sheet, StoredGrain
from silo.values import Value

__all__ = [
    "ActiveGrain",
    "Answer",
    "Client",
    "Counter",
    "Grain",
    "Kept",
    "KindGrain",
    "Relay",
    "Row",
    "Sheet",
    "Silo",
    "SiloEnded",
    "SiloError",
    "SiloTimeout",
    "StoredGrain",
    "Value",
    "rows",
    "serve_file",
]
