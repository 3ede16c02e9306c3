"""Lines in short, for the worked rows. Each function gives a list of lines without LF.

`call`, `poke` and `status` are the lines of a client of red, unless said otherwise; `up` activates and loads a grain,
`run` opens a turn and ends it, and `save` opens a turn and stores it. `told`, `ok` and `no` are what is written.
"""

from __future__ import annotations

import json

A, B = "counter/red:a", "counter/red:b"
BLUE_A = "counter/blue:a"
SHEET, RELAY = "sheet/red:s", "relay/red:r"
RED, BLUE = "red/c1", "blue/c1"


# ---- lines

def line(**members) -> list:
    """A line with these members, in this order. (`from` is given as `from_`.)"""
    return [json.dumps({name.rstrip("_"): value for name, value in members.items()}, separators=(",", ":"))]


def call(number, grain, method, args=None, by=RED) -> list:
    return line(op="call", from_=by, id=number, grain=grain, method=method, args=args)


def poke(number, grain, state, by=RED) -> list:
    return line(op="poke", from_=by, id=number, grain=grain, state=state)


def status(number, by=RED) -> list:
    return line(op="status", from_=by, id=number)


def at(op, grain, **more) -> list:
    return line(op=op, grain=grain, **more)


def begin(grain) -> list:
    return at("begin", grain)


def end(grain, turn) -> list:
    return at("end", grain, turn=turn)


def up(grain) -> list:
    return at("activate", grain) + at("load", grain)


def run(grain, turn) -> list:
    return begin(grain) + end(grain, turn)


def save(grain, turn) -> list:
    return begin(grain) + at("store", grain, turn=turn)


def tick(now) -> list:
    return line(op="tick", now=now)


SWEEP = line(op="sweep")


# ---- what is written

def told(**members) -> list:
    """A reply, whose members have to be given in the order of their names."""
    return line(**members)


def ok(number, value, to=RED) -> list:
    return told(from_=to, id=number, ok=value)


def no(number, code, text, to=RED) -> list:
    return told(error=code, from_=to, id=number, text=text)


def no_line(code, text) -> list:
    return told(error=code, text=text)


def seen(number, activations, clock, requests, to=RED) -> list:
    """The answer to a status."""
    return ok(number, {"activations": activations, "clock": clock, "requests": requests}, to)


def text(lines: list) -> str:
    return "".join(one + "\n" for one in lines)


NOT_NOW = told(text="not now")
NOT_A_REQUEST = no_line(10, "line is not a request")
LINE_TOO_LONG = no_line(11, "line is too long")
