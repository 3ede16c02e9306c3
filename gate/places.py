"""Where the folders are. Whoever imports it finds what stands in tools/, such as the slow silo."""

from __future__ import annotations

import pathlib
import sys

ROOT = pathlib.Path(__file__).resolve().parent.parent
TOOLS = ROOT / "tools"

sys.path.insert(1, str(TOOLS))
