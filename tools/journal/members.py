"""What is told of a journal, as members of JSON objects."""

from __future__ import annotations

from slow_silo.audit import Report
from slow_silo.names import Grain
from slow_silo.steps import Client, Reply, Step, owner
from slow_silo.storage import CLEARED, Row
from .redone import Done


def text_of(value: object) -> object:
    return value.text() if hasattr(value, "text") else value


def reply_members(reply: Reply) -> dict:
    to = {"from": text_of(reply.to.caller), "id": reply.to.id} if isinstance(reply.to, Client) else \
        {"from": reply.to.text()}
    return {**to, "ok": reply.value} if reply.code is None else {**to, "error": reply.code, "text": reply.text}


def step_members(number: int, step: Step) -> dict:
    """The members of the line that says the step, with its place and its tenant."""
    fields = {{"caller": "from"}.get(name, name): text_of(value) for name, value in step._asdict().items()}
    return {"step": number, "tenant": owner(step), "op": type(step).__name__.lower(), **fields}


def done_members(done: Done) -> dict:
    members = step_members(done.number, done.step)
    if done.sent is not None:
        members.update(target=done.sent.target.text(), method=done.sent.method, args=done.sent.args)
    if done.request is not None:
        members["request"] = done.request.number
    if done.sends:
        members["sends"] = done.sends
    if done.gone:
        members["gone"] = [grain.text() for grain in done.gone]
    if done.replies:
        members["replies"] = [reply_members(reply) for reply in done.replies]
    return members


def row_members(grain: Grain, row: Row) -> dict:
    content = {} if row.content is CLEARED else {"state": row.content}
    return {"row": grain.text(), "tenant": grain.tenant, "version": row.version, **content}


def report_members(found: Report) -> dict:
    counts = {"steps": found.steps, "replies": found.replies, "rows": found.rows}
    return {"tenant": found.tenant, **(counts if found.difference is None else {"differs": found.difference})}
