"""Runs the worked rows on the slow silo, and what lines can't show by its functions."""

from __future__ import annotations

from typing import Optional

from .call_rows import CALL_ROWS
from .checkpoint_rows import CHECKPOINT_ROWS
from .cut_rows import CUT_CALLS
from .data_rows import DATA_CALLS
from .folder_rows import FOLDER_CALLS
from .log_rows import LOG_ROWS
from .once_rows import ONCE, ONCE_CALLS
from .program import run_program
from .row import Row
from .rows import ROWS
from .running_rows import RUNNING_CALLS
from .switch_rows import SWITCHED, SWITCH_CALLS
from .tenant_rows import TENANT_CALLS, TENANT_ROWS
from .waiting_rows import WAITING_CALLS


def input_of(row: Row) -> bytes:
    return "".join(line + "\n" for line in row.lines).encode()


def output_of(row: Row) -> bytes:
    return "".join(line + "\n" for line in row.out).encode()


def errors_of(row: Row) -> bytes:
    return row.errors.encode() + b"\n" if row.errors else b""


def difference(row: Row) -> Optional[str]:
    """What of a row differs."""
    files = {path: content.encode() for path, content in row.files.items()}
    run = run_program(row.words, input_of(row), files)
    if run.out != output_of(row):
        return f"standard output is {run.out[:300]!r}"
    if run.errors is not None and run.errors != errors_of(row):
        return f"standard error is {run.errors!r}"
    if run.status != row.status:
        return f"the status is {run.status}"
    for path, content in row.files_after.items():
        if run.files.get(path) != content.encode():
            return f"the file {path} is {run.files.get(path)!r}"
    return None


def call_difference(check) -> Optional[str]:
    return None if check() else "it doesn't hold"


def main() -> int:
    """Prints each row that differs, and last 'N passed, M failed'."""
    passed = failed = 0
    checks = [(row.name, difference, row) for row in (*ROWS, *SWITCHED, *ONCE, *TENANT_ROWS)]
    calls = (*CALL_ROWS, *LOG_ROWS, *CHECKPOINT_ROWS, *DATA_CALLS, *FOLDER_CALLS, *RUNNING_CALLS, *SWITCH_CALLS, *CUT_CALLS, *ONCE_CALLS,
             *TENANT_CALLS, *WAITING_CALLS)
    checks += [(check.__name__.replace("_", " "), call_difference, check) for check in calls]
    for name, run, row in checks:
        what = run(row)
        if what is None:
            passed += 1
        else:
            failed += 1
            print(f"FAILED {name}: {what}")
    print(f"{passed} passed, {failed} failed")
    return 1 if failed else 0
