"""The shapes of a picture as parts of an SVG. All text in them is escaped here."""

from __future__ import annotations

import html

from slow_silo.machine import LOADING, READY, WAITING
from .picture import READS, STORES, WRITES

BAR = 13
FILLS = {WRITES: "#1f5fa8", READS: "#8cc4ee", STORES: "#7b4ea3"}
INKS = {WRITES: "#ffffff", READS: "#123a5c", STORES: "#ffffff"}
BANDS = {WAITING: "#fbf3d9", LOADING: "#f3dfa2", READY: "#e4f1e4"}
GOOD, BAD, GREY, INK = "#2c8a4b", "#c62828", "#8a8a8a", "#222222"
LEGEND = [
    ("writes", "turn that may write"), ("reads", "turn that only reads"), ("stores", "turn that asks the storage"),
    ("call", "call"), ("poke", "poke of a row"), ("deliver", "send delivered"), ("activate", "activate"),
    ("load", "load"), ("reply", "reply"), ("refusal", "refusal, with its code"), (WAITING, "waits to be activated"),
    (LOADING, "loading"), (READY, "ready"),
]


def escaped(text: str) -> str:
    return html.escape(text, quote=True)


def with_title(drawn: str, text: str, more: str = "") -> str:
    """Shapes with a text that a browser shows if the pointer rests on them."""
    return f"<g{more}>{drawn}<title>{escaped(text)}</title></g>"


def words(x: float, y: float, text: str, size: int = 11, fill: str = INK, more: str = "") -> str:
    return f'<text x="{x:.1f}" y="{y:.1f}" font-size="{size}" fill="{fill}"{more}>{escaped(text)}</text>'


def box(x: float, y: float, width: float, height: float, fill: str, more: str = "") -> str:
    return f'<rect x="{x:.1f}" y="{y:.1f}" width="{width:.1f}" height="{height:.1f}" fill="{fill}"{more}/>'


def line(x: float, y: float, x2: float, y2: float, stroke: str, more: str = "") -> str:
    return f'<line x1="{x:.1f}" y1="{y:.1f}" x2="{x2:.1f}" y2="{y2:.1f}" stroke="{stroke}"{more}/>'


def shape(kind: str, x: float, y: float) -> str:
    """A mark around a point."""
    if kind == "call":
        return line(x, y - 5, x, y + 4, INK, ' stroke-width="2"')
    if kind == "asked":
        return f'<circle cx="{x:.1f}" cy="{y:.1f}" r="3" fill="#ffffff" stroke="{INK}"/>'
    if kind == "poke":
        return box(x - 3, y - 3, 6, 6, FILLS[STORES])
    if kind == "deliver":
        return f'<path d="M{x - 4:.1f} {y - 4:.1f} l8 4 l-8 4 z" fill="{INK}"/>'
    if kind == "activate":
        return f'<path d="M{x - 4:.1f} {y + 4:.1f} l4 -7 l4 7 z" fill="#b07d00"/>'
    if kind == "load":
        return f'<path d="M{x - 4:.1f} {y - 4:.1f} l4 7 l4 -7 z" fill="#b07d00"/>'
    if kind == "reply":
        return f'<circle cx="{x:.1f}" cy="{y:.1f}" r="4" fill="{GOOD}"/>'
    return f'<path d="M{x - 4:.1f} {y - 4:.1f} l8 8 m0 -8 l-8 8" stroke="{BAD}" stroke-width="2.2" fill="none"/>'


def legend_shape(kind: str, x: float, y: float) -> str:
    if kind in FILLS:
        return box(x, y - 5, 18, BAR - 2, FILLS[kind], ' rx="2"')
    if kind in BANDS:
        return box(x, y - 6, 18, 14, BANDS[kind], ' stroke="#dddddd"')
    return shape(kind, x + 9, y + 1)
