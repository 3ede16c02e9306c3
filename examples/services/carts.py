"""Carts of a shop: what is added twice by mistake is there once, and what is ordered is ordered once.

    python3 carts.py unix:/tmp/shop/shop.sock 5004

listens at that port of this machine:

    POST /carts/ann           {"item": "tea", "count": 2, "id": "a1"}
    GET /carts/ann
    POST /carts/ann/order     {"id": "o1"}
    GET /orders/o1
"""

from __future__ import annotations

import collections
import json
import secrets
import sys
from typing import Any, Dict, List, Tuple

from silo import Client, Sheet
from web import Answer, Service, serve

HELP = "POST or GET /carts/NAME, POST /carts/NAME/order, GET /orders/ID"


class Entries(Sheet):
    """What was added, by the ids that the callers gave."""

    def all(self) -> Dict[str, Any]:
        found = {name: self.get(name) for name in self.list()}
        # one that another process has dropped meanwhile is None
        return {name: entry for name, entry in found.items() if entry is not None}


class Cart(Entries):
    prefix = "cart/"


class Part(Entries):
    """What one request has moved into an order."""

    prefix = "part/"


class Order(Sheet):
    """The parts of an order: one for each request that made it."""

    prefix = "order/"


class Carts(Service):
    def __init__(self, gateway: str) -> None:
        super().__init__(gateway, "shop/web")

    def answer(self, web: Client, method: str, path: List[str], body: bytes) -> Answer:
        if path[0] == "carts" and len(path) == 2 and method == "POST":
            return self.add(Cart(web, path[1]), *read_entry(body))
        if path[0] == "carts" and len(path) == 2 and method == "GET":
            return 200, sums(Cart(web, path[1]).all())
        if path[0] == "carts" and path[2:] == ["order"] and method == "POST":
            return self.order(web, Cart(web, path[1]), read_id(json.loads(body)))
        if path[0] == "orders" and len(path) == 2 and method == "GET":
            return 200, self.ordered(web, path[1])
        return 404, {"error": HELP}

    def add(self, cart: Cart, name: str, entry: Dict[str, Any]) -> Answer:
        """The same id may be posted again, after a timeout say: it is the same entry."""
        cart.put(name, entry)
        cart.save()
        return 200, sums(cart.all())

    def order(self, web: Client, cart: Cart, name: str) -> Answer:
        """Moves each entry into a part of the order, and then out of the cart: if it ends between the two, the entry is in both, not in none.

        So the same id may be posted again. Of two requests at once, the one that drops an entry has it.
        """
        number = secrets.token_hex(8)
        order, part = Order(web, name), Part(web, f"{name}/{number}")
        order.put(number, True)
        order.save()
        for entry_name, entry in cart.all().items():
            part.put(entry_name, entry)
            part.save()
            if not cart.drop(entry_name):
                part.drop(entry_name)
        part.save()
        cart.save()
        return 200, self.ordered(web, name)

    def ordered(self, web: Client, name: str) -> Dict[str, int]:
        found: Dict[str, Any] = {}
        for number in Order(web, name).list():
            found.update(Part(web, f"{name}/{number}").all())
        return sums(found)


def sums(entries: Dict[str, Any]) -> Dict[str, int]:
    counts: Dict[str, int] = collections.Counter()
    for entry in entries.values():
        counts[entry["item"]] += entry["count"]
    return dict(counts)


def read_entry(body: bytes) -> Tuple[str, Dict[str, Any]]:
    said = json.loads(body)
    name = read_id(said)
    item, count = said.get("item"), said.get("count")
    if not isinstance(item, str) or type(count) is not int:
        raise ValueError("an item and a count are needed")
    return name, {"item": item, "count": count}


def read_id(said: Any) -> str:
    if not isinstance(said, dict) or not isinstance(said.get("id"), str):
        raise ValueError("an id is needed, which makes it safe to ask again")
    return str(said["id"])


if __name__ == "__main__":
    if len(sys.argv) != 3:
        sys.exit("usage: carts.py unix:PATH PORT")
    serve(Carts(sys.argv[1]), int(sys.argv[2]))
