"""python -m silo.gateway FOLDER TENANT:ACT:MAIL.. [-- WORDS]"""

from __future__ import annotations

import asyncio
import sys
from typing import Sequence

from silo.gateway.log import tell
from silo.gateway.options import read_options
from silo.gateway.service import Service


async def run(words: Sequence[str]) -> int:
    options = read_options(words)
    try:
        return await Service(options).run()
    except OSError as fault:
        tell("error", f"the gateway can't begin: {fault}")
        return 1


if __name__ == "__main__":
    sys.exit(asyncio.run(run(sys.argv[1:])))
