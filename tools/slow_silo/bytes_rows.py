"""Worked rows of bytes: in lines, in journals, and journals that are written in the last form."""

from __future__ import annotations

from .journal_rows import AGES, JOURNAL, SECOND, THIRD, audited, refused_at
from .row import Row
from .short_lines import A, BLUE, NOT_A_REQUEST, RELAY, SHEET, SWEEP, at, call, line, no, ok, poke, run, save, text, up

MISFIT = "arguments do not fit"
NOT_BYTES = "bytes are not well formed"
NOT_WHOLE = "number is not a whole number of 64 bits"
TOO_DEEP = "arguments are too deep"


def hexed(digits) -> dict:
    return {"$hex": digits}


def with_value(lines: list, value: str) -> list:
    """The lines with a value that is told in JSON in the place of the text `value`."""
    return [one.replace('"VALUE"', value) for one in lines]


def put(number, name, value) -> list:
    return call(number, SHEET, "put", {"name": name, "value": value})


def got(number, name) -> list:
    return call(number, SHEET, "get", {"name": name})


def turns(grain, count, first=1) -> list:
    return sum((run(grain, turn) for turn in range(first, first + count)), [])


def nested(levels, inner) -> str:
    return "[" * levels + inner + "]" * levels


# ---- lines


def kept(name, argument: str, written) -> Row:
    """A value that is put is told as it is written here."""
    return Row(f"bytes: {name}", ["steps", "red:1:8"],
               with_value(put(1, "k", "VALUE"), argument) + got(2, "k") + up(SHEET) + turns(SHEET, 2),
               ok(1, None) + ok(2, written))


def refused(name, argument: str, code=14, why=NOT_BYTES) -> Row:
    """An argument is refused, and so it is as a state of a poke."""
    return Row(f"bytes: {name}", ["steps", "red:1:8"],
               with_value(call(1, SHEET, "get", "VALUE") + poke(2, SHEET, "VALUE"), argument),
               no(1, code, why) + no(2, code, why))


def no_line(name, argument: str) -> Row:
    return Row(f"bytes: {name}", ["steps", "red:1:8"],
               with_value(call(1, SHEET, "get", "VALUE") + poke(2, SHEET, "VALUE"), argument), NOT_A_REQUEST * 2)


# zeros of nine bytes each, beside bytes: a message of the method `get` is as long as it may be, or a byte longer
ZEROS = 7_000
REST = 65_536 - 8 - 5 - 9 * ZEROS - 5
# the same of a state, whose zeros are 29,000
REST_OF_STATE = 262_144 - 5 - 9 * 29_000 - 5

BYTES_IN_LINES = [
    Row("bytes are put and told, and those in upper case are refused", ["steps", "red:1:8"],
        put(1, "k", hexed("00ff")) + got(2, "k") + call(3, SHEET, "get", hexed("0F")) + up(SHEET) + turns(SHEET, 2),
        no(3, 14, NOT_BYTES) + ok(1, None) + ok(2, hexed("00ff"))),
    Row("nothing in what stands for bytes is looked at, and with another member it is a map", ["steps", "red:1:8"],
        with_value(call(1, SHEET, "get", "VALUE"), '{"$hex":1.5}') + put(2, "k", {"$hex": "", "x": 1}) + got(3, "k")
        + up(SHEET) + turns(SHEET, 2),
        no(1, 14, NOT_BYTES) + ok(2, None) + ok(3, {"$hex": "", "x": 1})),
    kept("none", '{"$hex":""}', hexed("")),
    kept("each of 256", '{"$hex":"%s"}' % bytes(range(256)).hex(), hexed(bytes(range(256)).hex())),
    kept("their name and digits with escapes", r'{"\u0024he\u0078":"\u0030f"}', hexed("0f")),
    kept("the last of two that stand there counts", '{"$hex":"00","$hex":"01"}', hexed("01")),
    kept("the last counts though the first is none", '{"$hex":1.5,"$hex":"01"}', hexed("01")),
    kept("with spaces around", ' { "$hex" : "01" } ', hexed("01")),
    kept("in lists and maps", '[{"$hex":"01"},{"a":{"$hex":""},"b":[{"$hex":"02"}]}]',
         [hexed("01"), {"a": hexed(""), "b": [hexed("02")]}]),
    kept("a member with another name before, and one behind", '[{"$hex":"0F","$hey":1},{"$hew":1,"$hex":"0F"}]',
         [{"$hex": "0F", "$hey": 1}, {"$hew": 1, "$hex": "0F"}]),
    kept("a map with another name is a map", '[{"$HEX":"0F"},{"$hex ":"0F"},{"hex":"0F"},{"$he":"0F"},{"":"0F"}]',
         [{"$HEX": "0F"}, {"$hex ": "0F"}, {"hex": "0F"}, {"$he": "0F"}, {"": "0F"}]),
    kept("a text is a text", '["$hex","00",{"a":"00"}]', ["$hex", "00", {"a": "00"}]),
    Row("bytes: the name of a value in a sheet may be theirs", ["steps", "red:1:8"],
        put(1, "$hex", "0F") + call(2, SHEET, "list") + got(3, "$hex") + call(4, SHEET, "drop", {"name": "$hex"}) + up(SHEET)
        + turns(SHEET, 4), ok(1, None) + ok(2, ["$hex"]) + ok(3, "0F") + ok(4, True)),
    refused("a digit alone", '{"$hex":"0"}'),
    refused("three digits", '{"$hex":"000"}'),
    refused("one digit in upper case", '{"$hex":"00fF"}'),
    refused("a letter that is no digit", '{"$hex":"0g"}'),
    refused("a space between", '{"$hex":"00 ff"}'),
    refused("a line's end behind", r'{"$hex":"00\n"}'),
    refused("a sign before", '{"$hex":"-0"}'),
    refused("as a number is written", '{"$hex":"0x00"}'),
    refused("digits of another script", '{"$hex":"\u0660\u0661"}'),
    refused("a letter of two bytes", '{"$hex":"\u00e9"}'),
    refused("a NUL", r'{"$hex":"\u0000"}'),
    refused("null", '{"$hex":null}'),
    refused("a truth value", '{"$hex":true}'),
    refused("a whole number", '{"$hex":10}'),
    refused("a number that isn't whole", '{"$hex":1.5}'),
    refused("a number above 64 bits", '{"$hex":18446744073709551616}'),
    refused("a list", '{"$hex":["00"]}'),
    refused("an empty map", '{"$hex":{}}'),
    refused("bytes", '{"$hex":{"$hex":"00"}}'),
    refused("forty lists", '{"$hex":%s}' % nested(40, "1.5")),
    refused("the last of two", '{"$hex":"00","$hex":"0"}'),
    refused("the second of two", '[{"$hex":"00"},{"$hex":"0"}]'),
    refused("in a map", '{"a":{"b":[{"$hex":"0"}]}}'),
    refused("in depth 32", nested(31, '{"$hex":"0"}')),
    refused("in depth 33", nested(32, '{"$hex":"00"}'), 12, TOO_DEEP),
    refused("what isn't well formed in depth 33", nested(32, '{"$hex":"0"}'), 12, TOO_DEEP),
    refused("beside what is too deep", '[{"$hex":"0"},%s]' % nested(32, "1.5"), 12, TOO_DEEP),
    refused("beside a number that isn't whole", '[{"$hex":"0"},1.5]', 13, NOT_WHOLE),
    refused("behind a number that isn't whole", '{"a":-0,"b":{"$hex":"0"}}', 13, NOT_WHOLE),
    refused("a number that isn't whole beside them in their own object", '{"$hex":"00","x":1.5}', 13, NOT_WHOLE),
    no_line("a number that no float holds", '{"$hex":1e999}'),
    no_line("half a letter", r'{"$hex":"\ud800"}'),
    no_line("127 levels", '{"$hex":%s}' % nested(126, "")),
    refused("126 levels", '{"$hex":%s}' % nested(125, "")),
    Row("bytes: in depth 32 they are told", ["steps", "red:1:8"],
        with_value(poke(1, SHEET, "VALUE"), nested(31, '{"$hex":"0a"}')), ok(1, "1")),
    Row("bytes: a message is as long as its bytes, and not as its digits", ["steps", "red:1:8"],
        call(1, A, "get", [0] * ZEROS + [hexed("00" * REST)]) + call(2, A, "get", [0] * ZEROS + [hexed("00" * (REST + 1))])
        + poke(3, A, [0] * 29_000 + [hexed("00" * REST_OF_STATE)])
        + poke(4, A, [0] * 29_000 + [hexed("00" * (REST_OF_STATE + 1))]) + up(A) + run(A, 1),
        no(2, 11, "line is too long") + ok(3, "1") + no(4, 63, "state is too large") + no(1, 61, MISFIT)),
    Row("bytes: what isn't well formed comes before a length, a grain and a tenant", ["steps", "red:1:8"],
        call(1, "x", "get", [0] * 8_000 + [hexed("0")]) + poke(2, "x", [0] * 29_200 + [hexed("0")])
        + call(3, "x", "get", hexed("0")) + call(4, A, "get", hexed("0"), BLUE) + call(5, "x", "get", hexed("00")),
        no(1, 14, NOT_BYTES) + no(2, 14, NOT_BYTES) + no(3, 14, NOT_BYTES) + no(4, 14, NOT_BYTES, BLUE)
        + no(5, 20, "grain name is not well formed")),
    Row("bytes: only an argument or a state may be bytes", ["steps", "red:1:8"],
        line(op="status", from_="red/c1", id=1, **hexed("00")) + line(op="status", from_="red/c1", id=hexed("00"))
        + line(op="status", from_=hexed("00"), id=1) + line(op=hexed("00"), from_="red/c1", id=1)
        + line(op="call", from_="red/c1", id=1, grain=hexed("00"), method="get")
        + line(op="call", from_="red/c1", id=1, grain=A, method=hexed("00")) + at("load", A, failed=hexed("00"))
        + line(**hexed("00")) + line(op="tick", now=hexed("00")), NOT_A_REQUEST * 9),
    Row("bytes: no method takes them for a number or a text", ["steps", "red:3:8"],
        call(1, A, "add", {"by": hexed("00")}) + call(2, A, "get", hexed("")) + call(3, SHEET, "get", hexed("6b"))
        + call(4, SHEET, "put", {"name": hexed("6b"), "value": 1}) + call(5, SHEET, "list", hexed(""))
        + call(6, RELAY, "join", {"grain": hexed(A.encode().hex())}) + call(7, A, "save", hexed(""))
        + call(8, A, "stay", {"for": hexed("01")}) + call(9, A, "rest", hexed("")) + up(A) + up(SHEET) + up(RELAY)
        + run(A, 1) + run(A, 2) + turns(SHEET, 3, 3) + run(RELAY, 6) + turns(A, 3, 7),
        sum((no(number, 61, MISFIT) for number in range(1, 10)), [])),
    Row("bytes: as a state they count as empty, and are kept by what keeps the state", ["steps", "red:4:8"],
        poke(1, A, hexed("03")) + poke(2, SHEET, hexed("")) + poke(3, RELAY, [hexed(A.encode().hex())])
        + call(4, A, "get") + call(5, SHEET, "list") + call(6, RELAY, "send", {"args": None, "method": "get"})
        + call(7, A, "save") + call(8, A, "add", {"by": 2}) + up(A) + up(SHEET) + up(RELAY) + run(A, 1) + run(SHEET, 2)
        + run(RELAY, 3) + save(A, 4) + run(A, 5),
        ok(1, "1") + ok(2, "1") + ok(3, "1") + ok(4, 0) + ok(5, []) + ok(6, 0) + ok(7, "2") + ok(8, 2)),
    Row("bytes: what was saved is there when it is loaded", ["steps", "red:4:8"],
        put(1, "k", hexed("00ff")) + call(2, SHEET, "save") + call(3, SHEET, "rest") + got(4, "k") + up(SHEET) + run(SHEET, 1)
        + save(SHEET, 2) + run(SHEET, 3) + run(SHEET, 4) + got(5, "k") + up(SHEET) + run(SHEET, 5),
        ok(1, None) + ok(2, "1") + ok(3, None) + ok(4, hexed("00ff")) + ok(5, hexed("00ff"))),
    Row("bytes: a relay sends them", ["answer", "red:4:8"],
        call(1, RELAY, "join", {"grain": SHEET})
        + call(2, RELAY, "send", {"args": {"name": "k", "value": hexed("0a")}, "method": "put"}) + got(3, "k")
        + call(4, RELAY, "send", {"args": {"name": "k", "value": hexed("0A")}, "method": "put"}),
        ok(1, True) + ok(2, 1) + ok(3, hexed("0a")) + no(4, 14, NOT_BYTES)),
    Row("bytes: lanes of them", ["serve", "--workers", "1", "red:2:4"],
        put(1, "k", hexed("0a")) + got(2, "k") + put(3, "k", hexed("0A")),
        ok(1, None) + ok(2, hexed("0a")) + no(3, 14, NOT_BYTES)),
]

# ---- journals

# the bytes of the value of one byte, and of a list of it
NODE = "070000000100"
LISTED = "0500000001" + NODE
HEADS = {1: ["silo-journal 1", "age 1", "tenant red 1 1"], 2: ["silo-journal 2", "kinds 1", "age 1", "tenant red 1 1"],
         3: ["silo-journal 3", "kinds 1", "age 1", "tenant red 1 1"]}
POKED_1 = "reply red/c1 1 ok 040000000131"
WORKED = "tenant red: 5 steps, 1 replies, 0 rows"


def journal(form, *lines) -> str:
    """A journal of the form with these steps, replies and rows."""
    steps = sum(not one.startswith(("reply", "row")) for one in lines)
    return text([*HEADS[form], *lines, f"close {steps}"])


def only_in_the_last(name, out, status, *lines) -> list:
    """The last of the lines is refused in a journal of the first or the second form, and fits in one of the third."""
    return [audited(f"{name} in a journal of the third form", journal(3, *lines), [f"tenant red: {out}"], status),
            *(refused_at(f"{name} in a journal of form {form}", journal(form, *lines), len(HEADS[form]) + len(lines))
              for form in (1, 2))]


def fits_in_none(name, *lines) -> list:
    """The last of the lines is refused in every form."""
    return [refused_at(f"{name} in a journal of form {form}", journal(form, *lines), len(HEADS[form]) + len(lines))
            for form in HEADS]


def sent(node, first) -> str:
    return f"call red/c1 1 {A} {first}0000000161{node}"


BYTES_IN_JOURNALS = [
    audited("a journal of the third form", text(THIRD), [WORKED]),
    audited("another reply in a journal of the third form", text(THIRD).replace("03\nclose", "04\nclose"),
            ["tenant red: reply 1 differs"], 3),
    refused_at("a journal of the third form without its last line", text(THIRD[:-1]), 11),
    refused_at("a journal of the third form without its logic", text([THIRD[0], *THIRD[2:]]), 2),
    audited("kinds with ages of their own in a journal of the third form", text(THIRD[:3] + AGES + THIRD[3:]),
            [WORKED]),
    refused_at("kinds out of order in a journal of the third form", text(THIRD[:3] + AGES[::-1] + THIRD[3:]), 5),
    refused_at("a message of the first form in a journal of the third", text(["silo-journal 3", *SECOND[1:]]), 5),
    refused_at("a message of the second form in a journal of the second", text(["silo-journal 2", *THIRD[1:]]), 5),
    refused_at("a message of the second form in a journal of the first", text(["silo-journal 1", *THIRD[2:]]), 4),
    *(refused_at(f"a message of no form in a journal of form {form}", journal(form, sent("00", "03")), len(HEADS[form]) + 1)
      for form in HEADS),
    audited("bytes in a message of the third form's journal", journal(3, sent(NODE, "02")),
            ["tenant red: 1 steps, 0 replies, 0 rows"]),
    *(refused_at(f"{name} in a message of the first form in a journal of form {form}", journal(form, sent(node, "01")),
                 len(HEADS[form]) + 1) for name, node in (("bytes", NODE), ("listed bytes", LISTED)) for form in HEADS),
    *only_in_the_last("a poke of bytes", "reply 1 differs", 3, f"poke red/c1 1 {A} ok {NODE}"),
    *only_in_the_last("a poke of listed bytes", "reply 1 differs", 3, f"poke red/c1 1 {A} ok {LISTED}"),
    *only_in_the_last("a reply of bytes", "reply 1 differs", 3, f"reply red/c1 1 ok {NODE}"),
    *only_in_the_last("a reply of bytes to a grain", "reply 1 differs", 3, f"reply {A} - ok {LISTED}"),
    *only_in_the_last("a row of bytes", f"row {A} differs", 3, f"row {A} 1 {NODE}"),
    *only_in_the_last("a line refused with 14", "reply 1 differs", 3, "refuse red/c1 1 14"),
    *only_in_the_last("a reply with 14", "reply 1 differs", 3, f"reply red/c1 1 no 14 {NOT_BYTES}"),
    *only_in_the_last("a reply with 14 to a grain", "reply 1 differs", 3, f"reply {A} - no 14 x"),
    audited("a line that was refused with 14", journal(3, "refuse red/c1 1 14", f"reply red/c1 1 no 14 {NOT_BYTES}"),
            ["tenant red: 1 steps, 1 replies, 0 rows"]),
    audited("a line that was refused with 14, told in other words",
            journal(3, "refuse red/c1 1 14", "reply red/c1 1 no 14 x"), ["tenant red: reply 1 differs"], 3),
    audited("a row of bytes as they were poked", journal(3, f"poke red/c1 1 {A} ok {NODE}", POKED_1, f"row {A} 1 {NODE}"),
            ["tenant red: 1 steps, 1 replies, 1 rows"]),
    audited("a row of other bytes", journal(3, f"poke red/c1 1 {A} ok {NODE}", POKED_1, f"row {A} 1 070000000101"),
            [f"tenant red: row {A} differs"], 3),
    audited("a row of a text of the same bytes",
            journal(3, f"poke red/c1 1 {A} ok {NODE}", POKED_1, f"row {A} 1 040000000100"),
            [f"tenant red: row {A} differs"], 3),
    *fits_in_none("bytes above what is left", f"poke red/c1 1 {A} ok 070000000200"),
    *fits_in_none("as many bytes as a length may tell", f"poke red/c1 1 {A} ok 07ffffffff"),
    *fits_in_none("more behind the bytes", f"poke red/c1 1 {A} ok 07000000010000"),
    *fits_in_none("a part of the length of bytes", f"poke red/c1 1 {A} ok 07000000"),
    *fits_in_none("a node that there isn't", f"poke red/c1 1 {A} ok 0800000000"),
    *fits_in_none("bytes in depth 33", f"poke red/c1 1 {A} ok {'0500000001' * 32}{NODE}"),
    *fits_in_none("digits of bytes in upper case", f"row {A} 1 07000000010A"),
    audited("bytes in depth 32", journal(3, f"row {A} 1 {'0500000001' * 31}{NODE}"), [f"tenant red: row {A} differs"], 3),
]

# ---- migrated journals


def migrated(name, old, new) -> Row:
    return Row(f"migrated: {name}", ["migrate", "j"], [], new.splitlines(), files={"j": old}, files_after={"j": old})


def not_migrated(name, words, status, errors="", files=None) -> Row:
    return Row(f"migrated: {name}", ["migrate", *words], [], [], status, errors, files or {})


MAP_NAMED_HEX = "060000000100000004246865780400000002" + "3030"
OLD_LINES = [f"call red/c1 1 {A} 01000000016100", f"poke red/c1 2 {A} ok {MAP_NAMED_HEX}", "refuse red/c1 3 13",
             f"row {A} 1 {MAP_NAMED_HEX}"]
FIRST_OF_THE_THIRD = [THIRD[0], "kinds 1", *THIRD[2:]]

MIGRATED = [
    migrated("a journal of the first form", text(JOURNAL), text(FIRST_OF_THE_THIRD)),
    migrated("what was migrated", text(FIRST_OF_THE_THIRD), text(FIRST_OF_THE_THIRD)),
    migrated("a journal of the second form keeps its logic", text(SECOND), text(THIRD)),
    migrated("and the ages of kinds", text(SECOND[:3] + AGES + SECOND[3:]), text(THIRD[:3] + AGES + THIRD[3:])),
    migrated("a journal that differs", text(JOURNAL).replace("03\nclose", "04\nclose"),
             text(FIRST_OF_THE_THIRD).replace("03\nclose", "04\nclose")),
    migrated("a tenant that isn't in the table", journal(1, "status blue/c1 1"), journal(3, "status blue/c1 1")),
    migrated("a map with the name for bytes stays a map", journal(1, *OLD_LINES),
             journal(3, OLD_LINES[0].replace(f"{A} 01", f"{A} 02"), *OLD_LINES[1:])),
    migrated("bytes stay", *[journal(3, sent(NODE, "02"), f"row {A} 1 {NODE}")] * 2),
    not_migrated("a journal that is refused", ["j"], 4, "silo: journal line 3 is refused",
                 {"j": text([*JOURNAL[:2], "tenant red 02 4", *JOURNAL[3:]])}),
    not_migrated("a message of the second form in a journal of the first", ["j"], 4, "silo: journal line 4 is refused",
                 {"j": text([JOURNAL[0], *THIRD[2:]])}),
    not_migrated("the last line is missing", ["j"], 4, "silo: journal line 10 is refused", {"j": text(JOURNAL[:-1])}),
    not_migrated("nothing", ["j"], 4, "silo: journal line 1 is refused", {"j": ""}),
    not_migrated("no file", ["j"], 1, "silo: reading failed"),
    not_migrated("no path", [], 2),
    not_migrated("two paths", ["j", "k"], 2, files={"j": text(JOURNAL), "k": text(JOURNAL)}),
    not_migrated("an option", ["--age", "1", "j"], 2, files={"j": text(JOURNAL)}),
]
