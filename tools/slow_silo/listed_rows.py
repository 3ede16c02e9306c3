"""Worked rows of `rows`, which prints what a folder's checkpoint has, to be followed by hand."""

from __future__ import annotations

from .data_rows import TWO
from .folder_rows import FIRST_POINT, SAVED, TEXT
from .folder_texts import NUMBER, changed, point
from .kinds import NEWEST
from .row import Row
from .short_lines import BLUE, SHEET, call, poke

HELD = point(SAVED + call(4, "counter/red:b", "stay", {"for": 9}) + poke(5, "counter/blue:a", 4, BLUE)
             + poke(6, SHEET, {"z": "\u00e9\n", "b": [None, {"$hex": "00ff"}]}) + call(7, "counter/red:c", "save")
             + call(8, "counter/red:c", "clear") + poke(9, 'counter/red:"', 1), words=["answer", "red:9:4", "blue:1:1"])
OF_BLUE = '{"row":"counter/blue:a","version":1,"state":4}'
OF_RED = ['{"row":"counter/red:\\"","version":1,"state":1}', '{"row":"counter/red:a","version":1,"state":3}',
          '{"row":"counter/red:c","version":2}', '{"row":"sheet/red:s","version":2,"state":{"b":[null,{"$hex":"00ff"}],"z":"\u00e9\\n"}}',
          '{"active":"counter/red:a","version":1,"last":0,"until":0,"state":3}',
          '{"active":"counter/red:b","version":null,"last":0,"until":9,"state":0}',
          '{"active":"counter/red:c","version":2,"last":0,"until":0,"state":0}',
          '{"active":"sheet/red:s","version":1,"last":0,"until":0,"state":{}}']


def refused(name: str, checkpoint: str) -> Row:
    return Row(name, ["rows", "d"], [], [], 4, "silo: the checkpoint is refused", {"d/checkpoint": checkpoint})


def unread(name: str, files: dict) -> Row:
    """A folder without a checkpoint stays as it is, and so does what is no folder."""
    return Row(name, ["rows", "d"], [], [], 1, "silo: reading failed", files, files)


LISTED: list[Row] = [
    Row("the rows and then the active grains of a folder, ascending", ["rows", "d"], [], [OF_BLUE, *OF_RED],
        files={"d/checkpoint": HELD}, files_after={"d/checkpoint": HELD}),
    Row("those of one tenant", ["rows", "d", "blue"], [], [OF_BLUE], files={"d/checkpoint": HELD}),
    Row("those of the other", ["rows", "d", "red"], [], OF_RED, files={"d/checkpoint": HELD}),
    Row("those of one that isn't there", ["rows", "d", "green"], [], [], files={"d/checkpoint": HELD}),
    Row("those of what is no tenant's name", ["rows", "d", "Red"], [], [], files={"d/checkpoint": HELD}),
    Row("a log behind the checkpoint isn't read", ["rows", "d"], [], ['{"active":"counter/red:a","version":null,"last":0,"until":0,"state":3}'],
        files={"d/checkpoint": FIRST_POINT, "d/log": TWO}, files_after={"d/checkpoint": FIRST_POINT, "d/log": TWO}),
    unread("nor one without a checkpoint", {"d/log": TWO}),
    unread("nor is a folder made", {}),
    unread("what stands in the folder's place", {"d": FIRST_POINT}),
    refused("a checkpoint whose sum is of other bytes", TEXT.replace("clock 7", "clock 8")),
    refused("a checkpoint without its last line", HELD[:HELD.rindex("sum ")]),
    refused("an empty checkpoint", ""),
    refused("a checkpoint of a newer version of the kinds", changed(FIRST_POINT, NUMBER, f"kinds {NEWEST}", f"kinds {NEWEST + 1}")),
    Row("one of an older version", ["rows", "d"], [], ['{"active":"counter/red:a","version":null,"last":0,"until":0,"state":3}'],
        files={"d/checkpoint": changed(FIRST_POINT, NUMBER, f"kinds {NEWEST}", "kinds 1")}),
    Row("no folder", ["rows"], [], [], 2, "error: DIR is missing"),
    Row("two tenants", ["rows", "d", "red", "blue"], [], [], 2, "error: one word too many"),
]
