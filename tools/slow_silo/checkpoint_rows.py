"""Worked rows of checkpoints: the text of one, what is read of it, and of one that is cut or changed.

Each is a function that says whether it holds; its first line says what is shown.
"""

from __future__ import annotations

from typing import Callable

from .answer import answer_line
from .checkpoint import Checkpoint, CheckpointRefused, checkpoint_of, checkpoint_text, read_checkpoint
from .kinds import Logic
from .machine import Limits
from .silo import Setup, Silo

ASKED = (
    '{"op":"tick","now":5}',
    '{"op":"call","from":"red/c1","id":1,"grain":"counter/red:a","method":"add","args":{"by":3}}',
    '{"op":"call","from":"red/c1","id":2,"grain":"counter/red:a","method":"save","args":null}',
    '{"op":"tick","now":7}',
    '{"op":"call","from":"red/c1","id":3,"grain":"relay/red:r","method":"join","args":{"grain":"counter/red:a"}}',
    '{"op":"call","from":"red/c1","id":4,"grain":"relay/red:r","method":"send","args":{"method":"get","args":null}}',
    '{"op":"call","from":"blue/c","id":1,"grain":"sheet/blue:s","method":"put","args":{"name":"k","value":"v"}}',
)
TEXT = b"""\
silo-checkpoint 1
follows 0123456789abcdef
sends 1000
clock 7
accounts 2
account red 4 1
send relay/red:r counter/red:a 020000000367657400
account blue 1 0
grains 3
up counter/red:a 1 5 0 030000000000000003
up relay/red:r - 7 0 0500000001040000000d636f756e7465722f7265643a61
up sheet/blue:s - 7 0 0600000001000000016b040000000176
silo-journal 3
kinds 2
age 900000
kind counter 1000
tenant red 2 4
tenant blue 1 1
row counter/red:a 1 030000000000000003
close 0
sum dc21d3484373bcc4
"""


def kept() -> Checkpoint:
    """What is kept of a silo that was asked that, and delivered nothing."""
    silo = Silo(Setup((("red", Limits(2, 4)), ("blue", Limits(1, 1))), ages=(("counter", 1000),), logic=Logic(2)))
    for line in ASKED:
        answer_line(silo, line.encode(), 0)
    return checkpoint_of(silo, "0123456789abcdef", 1000)


def a_checkpoint_has_this_text() -> bool:
    return checkpoint_text(kept()) == TEXT


def what_was_kept_is_read() -> bool:
    return read_checkpoint(TEXT) == kept()


def is_none(content: bytes) -> bool:
    try:
        read_checkpoint(content)
    except CheckpointRefused:
        return True
    return False


def a_cut_text_is_none() -> bool:
    """Nor is one with a byte more."""
    return all(is_none(TEXT[:end]) for end in range(len(TEXT))) and is_none(TEXT + b"\n")


def a_text_with_a_changed_byte_is_none() -> bool:
    return all(is_none(TEXT[:place] + bytes([TEXT[place] ^ 1]) + TEXT[place + 1:]) for place in range(len(TEXT)))


CHECKPOINT_ROWS: tuple[Callable[[], bool], ...] = (
    a_checkpoint_has_this_text, what_was_kept_is_read, a_cut_text_is_none, a_text_with_a_changed_byte_is_none)
