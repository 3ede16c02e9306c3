"""The inputs of bench/run: lines for `steps`, `answer` and `serve`, each made from its size and nothing else.

An input is the words behind the command, and the lines. Whoever writes lines for `steps` has to know when a grain has an activation and
which number a request gets: `Writer` keeps both for the steps that these inputs take.
"""

from __future__ import annotations

import itertools
import random
from typing import Callable, Dict, List, NamedTuple, Tuple


class Input(NamedTuple):
    words: List[str]
    data: bytes


def call(caller: str, number: int, grain: str, method: str, args: str = "null") -> str:
    return f'{{"op":"call","from":"{caller}","id":{number},"grain":"{grain}","method":"{method}","args":{args}}}\n'


def at(op: str, grain: str) -> str:
    return f'{{"op":"{op}","grain":"{grain}"}}\n'


def tenant_of(grain: str) -> str:
    return grain.partition("/")[2].partition(":")[0]


class Writer:
    """Lines of steps, with the request numbers of each tenant and the grains that have an activation."""

    def __init__(self) -> None:
        self.lines: List[str] = []
        self.count = 0
        self.numbers: Dict[str, int] = {}
        self.active: Dict[str, int] = {}

    def add(self, line: str) -> None:
        self.lines.append(line)
        self.count += 1

    def next_number(self, grain: str) -> int:
        tenant = tenant_of(grain)
        self.numbers[tenant] = self.numbers.get(tenant, 0) + 1
        return self.numbers[tenant]

    def turn(self, grain: str, number: int, op: str = "end") -> None:
        """The turn of a request that was accepted, with an activation if there is none."""
        if grain not in self.active:
            self.active[grain] = number
            self.add(at("activate", grain))
            self.add(at("load", grain))
        self.add(at("begin", grain))
        self.add(f'{{"op":"{op}","grain":"{grain}","turn":{number}}}\n')

    def ask(self, caller: str, grain: str, method: str, args: str = "null", op: str = "end") -> None:
        """A call and its turn."""
        number = self.next_number(grain)
        self.add(call(caller, number, grain, method, args))
        self.turn(grain, number, op)

    def data(self) -> bytes:
        return "".join(self.lines).encode()


# ---- for `steps`

def hot(lines: int) -> Input:
    """one counter, called, begun and ended again and again"""
    writer = Writer()
    while writer.count < lines:
        writer.ask("red/c1", "counter/red:a", "add", '{"by":1}')
    return Input(["red:10:10"], writer.data())


def wide(lines: int) -> Input:
    """ten thousand counters of each of ten tenants or more, each called once"""
    writer, tenants = Writer(), max(10, lines // 50_000 + 1)
    place = 0
    while writer.count < lines:
        tenant = f"t{place % tenants}"
        writer.ask(f"{tenant}/c1", f"counter/{tenant}:user-{place // tenants}", "add", '{"by":1}')
        place += 1
    return Input([f"t{number}:10000:4" for number in range(tenants)], writer.data())


def tenants(lines: int) -> Input:
    """a thousand tenants in turn, with twenty counters each"""
    writer, place = Writer(), 0
    while writer.count < lines:
        tenant = f"tenant-{place % 1000}"
        method, args = ("get", "null") if place % 3 == 2 else ("add", '{"by":2}')
        writer.ask(f"{tenant}/c1", f"counter/{tenant}:g{place // 1000 * 7 % 20}", method, args)
        place += 1
    return Input([f"tenant-{number}:20:10" for number in range(1000)], writer.data())


def sheet(lines: int) -> Input:
    """sheets that grow by a put after the other to some 35 kB, with gets and lists"""
    writer, place = Writer(), 0
    sheets, fields = 10, 300
    while writer.count < lines:
        grain, field = f"sheet/red:s{place // fields % sheets}", place % fields
        numbers = ",".join(str(field * 7919 * step % 1_000_003) for step in range(10))
        value = f'{{"at":[{numbers}],"kind":"row","note":"{"n" * 40}","place":{field}}}'
        writer.ask("red/c1", grain, "put", f'{{"name":"field-{field:03}","value":{value}}}')
        if field % 4 == 3:
            writer.ask("red/c1", grain, "get", f'{{"name":"field-{field // 2:03}"}}')
        if field % 100 == 99:
            writer.ask("red/c1", grain, "list")
        place += 1
    return Input(["red:100:10"], writer.data())


def collect(lines: int) -> Input:
    """ticks and sweeps over ten thousand counters, of which few are called between two"""
    writer, chance, now, grains = Writer(), random.Random("collect"), 0, 10_000
    age = max(2, lines // 1_500)
    used: Dict[str, int] = {}
    while writer.count < lines:
        now += 1
        writer.add(f'{{"op":"tick","now":{now}}}\n')
        writer.add('{"op":"sweep"}\n')
        # the first are those that were used first
        for grain in [grain for grain, last in itertools.islice(used.items(), 20) if now - last >= age]:
            del used[grain]
            del writer.active[grain]
        for _ in range(20):
            grain = f"counter/red:c{chance.randrange(grains)}"
            used.pop(grain, None)
            used[grain] = now
            writer.ask("red/c1", grain, "add", '{"by":1}')
    return Input(["--age", str(age), "red:10000:4"], writer.data())


def storage(lines: int) -> Input:
    """saves, reloads and clears of counters and sheets, and pokes"""
    writer, chance = Writer(), random.Random("storage")
    while writer.count < lines:
        grain = f"{chance.choice(('counter', 'sheet'))}/red:g{chance.randrange(500)}"
        does = chance.choice(("save", "save", "reload", "clear", "work", "work", "poke"))
        if does == "poke":
            # a reload afterwards, so that no save finds another version than its own
            writer.add(f'{{"op":"poke","from":"red/c1","id":{writer.count},"grain":"{grain}","state":{chance.randrange(100)}}}\n')
            writer.ask("red/c1", grain, "reload", op="store")
        elif does != "work":
            writer.ask("red/c1", grain, does, op="store")
        elif grain.startswith("counter"):
            writer.ask("red/c1", grain, "add", '{"by":3}')
        else:
            writer.ask("red/c1", grain, "put", f'{{"name":"n{chance.randrange(9)}","value":{writer.count}}}')
    return Input(["red:1000:10"], writer.data())


def relay(lines: int) -> Input:
    """calls that relays send on to four counters each"""
    writer, chance, relays = Writer(), random.Random("relay"), 50
    for place in range(relays):
        for member in range(4):
            writer.ask("red/c1", f"relay/red:r{place}", "join", f'{{"grain":"counter/red:m{(place * 3 + member) % 120}"}}')
    while writer.count < lines:
        place = chance.randrange(relays)
        grain = f"relay/red:r{place}"
        writer.ask("red/c1", grain, "send", '{"args":{"by":1},"method":"add"}')
        for member in range(4):
            target = f"counter/red:m{(place * 3 + member) % 120}"
            writer.add(at("deliver", grain))
            writer.turn(target, writer.next_number(target))
    return Input(["red:1000:10"], writer.data())


REFUSED = [
    "hello\n", '{"op":"fly","grain":"counter/red:a"}\n', '{"op":"tick","now":-1}\n', "[1,2,3]\n", "\n", '{"op":"sweep","x":1}\n',
    '{"op":"begin","grain":"Counter/red:a"}\n', '{"op":"begin","grain":"counter/red:none"}\n', '{"op":"status","from":"Red","id":1}\n',
    '{"op":"end","grain":"counter/red:a","turn":7}\n', call("red/c1", 1, "counter/blue:a", "get"), call("grey/c1", 2, "counter/grey:a", "get"),
    call("red/c1", 3, "clock/red:a", "get"), call("red/c1", 4, "Counter/red:a", "get"), call("red/c1", 5, "counter/red:a", "add", '{"by":1.5}'),
    call("red/c1", 6, "counter/red:a", "get", "[" * 40 + "]" * 40), call("red/c1", 7, "counter/red:a", "add", '{"by":{"$hex":"0G"}}'),
    call("red/c1", 8, "counter/red:a", "get", "1e999"), call("red/c1", 9, "counter/red:full", "get"),
]
LONG = ["x" * 70_000 + "\n", call("red/c1", 10, "sheet/red:a", "put", "[" + ",".join("0" * 8_000) + "]")]


def refusals(lines: int) -> Input:
    """lines that are refused, and steps that aren't possible now"""
    chance = random.Random("refusals")
    found = [call("red/c1", number, "counter/red:full", "get") for number in range(2)]
    found += [chance.choice(LONG if chance.random() < 0.002 else REFUSED) for _ in range(lines)]
    return Input(["red:2:2", "blue:1:1"], "".join(found).encode())


REQUESTS = [
    ("add", '{"by":1}'), ("get", "null"), ("add", '{"to":2,"by":1}'), ("get", "[1,2,3,4,5,6,7,8]"), ("add", '{"by":-7}'),
    ("fly", '{"name":"k","a":[true,false,null],"b":{"d":"x","c":"\\u00e9"}}'), ("add", '"a text that is no argument of any method"'),
]


def mixed(lines: int) -> Input:
    """ten counters, methods and arguments of every kind, names in any order, and refused lines"""
    writer, place = Writer(), 0
    while writer.count < lines:
        writer.ask("red/c1", f"counter/red:{place * 7 % 10}", *REQUESTS[place % len(REQUESTS)])
        writer.add(REFUSED[place // 3 % len(REFUSED)])
        place += 1
    return Input(["red:100:1000", "blue:1:1"], writer.data())


def aged(lines: int) -> Input:
    """five thousand counters and as many sheets in turn, where counters have an age of their own"""
    writer, place = Writer(), 0
    while writer.count < lines:
        if place % 2:
            writer.ask("red/c1", f"sheet/red:{place % 10_000}", "drop", '{"name":"k"}')
        else:
            writer.ask("red/c1", f"counter/red:{place % 10_000}", "add", '{"by":1}')
        place += 1
    return Input(["--ages", "counter=1000", "red:10000:10"], writer.data())


def set_again(lines: int, fields: int, value: str) -> Input:
    """A sheet with some long fields, a field of which is set again and again."""
    writer = Writer()
    for field in range(fields):
        writer.ask("red/c1", "sheet/red:a", "put", f'{{"name":"field{field}","value":"{"x" * 50_000}"}}')
    while writer.count < lines:
        writer.ask("red/c1", "sheet/red:a", "put", f'{{"name":"field","value":{value}}}')
    return Input(["red:100:1000"], writer.data())


DIGITS = bytes(number * 7 % 251 for number in range(30_000)).hex()


def grown(lines: int) -> Input:
    """a sheet of 250,000 bytes, a short field of which is set again and again; a hundredth of the lines"""
    return set_again(lines // 100, 5, "123456")


def in_bytes(lines: int) -> Input:
    """a field of 30,000 bytes set again and again; a five-hundredth of the lines"""
    return set_again(lines // 500, 0, f'{{"$hex":"{DIGITS}"}}')


def digits(lines: int) -> Input:
    """the same with the digits of these bytes as a text"""
    return set_again(lines // 500, 0, f'"{DIGITS}"')


# ---- for `answer` and `serve`

def clients(lines: int, count: int, tenants: int, grains: int) -> Input:
    """Clients in turn, each of which calls counters that nobody else calls."""
    found = []
    for place in range(lines):
        client, time = place % count, place // count
        tenant = f"t{client % tenants}"
        found.append(call(f"{tenant}/c{client}", time, f"counter/{tenant}:c{client}-{time % grains}", "add", '{"by":1}'))
    return Input([f"t{tenant}:10000:1000" for tenant in range(tenants)], "".join(found).encode())


def few(lines: int) -> Input:
    """64 clients of one tenant, each with a counter"""
    return clients(lines, 64, 1, 1)


def many(lines: int) -> Input:
    """1,000 clients of 4 tenants, 10,000 counters"""
    return clients(lines, 1_000, 4, 10)


def sheets(lines: int) -> Input:
    """32 clients of one tenant, each with a sheet that grows to 300 fields; a fifth of the lines"""
    found = []
    for place in range(lines // 5):
        client, time = place % 32, place // 32
        grain, field = f"sheet/t0:s{client}-{time // 400}", time % 400 * 3 // 4
        numbers = ",".join(str(field * 7919 * step % 1_000_003) for step in range(20))
        if time % 4 == 3:
            found.append(call(f"t0/c{client}", time, grain, "get", f'{{"name":"field-{field // 2:03}"}}'))
        else:
            found.append(call(f"t0/c{client}", time, grain, "put", f'{{"name":"field-{field:03}","value":{{"at":[{numbers}],"n":{field}}}}}'))
    return Input(["t0:10000:10"], "".join(found).encode())


Maker = Callable[[int], Input]
STEPS: Dict[str, Maker] = {
    "hot": hot, "wide": wide, "tenants": tenants, "sheet": sheet, "collect": collect, "storage": storage, "relay": relay,
    "refusals": refusals, "mixed": mixed, "aged": aged, "grown": grown, "bytes": in_bytes, "digits": digits,
}
# those that take but a part of the lines, which are long or are answered slowly
LARGE = ("grown", "bytes", "digits")
CLIENTS: Dict[str, Maker] = {"few": few, "many": many, "sheets": sheets}


def runs() -> List[Tuple[str, List[str], Maker]]:
    """Each run's name, its command and the maker of its input."""
    found = [(name, ["steps"], made) for name, made in STEPS.items()]
    found += [(f"answer {name}", ["answer"], made) for name, made in CLIENTS.items()]
    for workers in ("1", "2", "4"):
        found += [(f"serve {workers} {name}", ["serve", "--workers", workers], made) for name, made in CLIENTS.items()]
    return found
