"""Worked rows of what lines can't show: the message form, failing storage, readers and writers that fail, and lanes.

Each is a function that says whether it holds; its first line says what is shown.
"""

from __future__ import annotations

from random import Random
from typing import Callable, Iterable

from .audit import audit
from .journal import journal_of, journal_text, migrate_journal, read_journal
from .laws import first_broken
from .lines import ReaderFailed, WriterFailed, read_line, run_lines
from .machine import Limits
from .names import read_caller, read_grain
from .program import run_program, setup_of_words
from .replies import compact
from .row import Row
from .rows import FIRST_CALL, LANES, OVERWRITTEN, ROWS
from .serve import Lane, are_distinct, lanes_of, serve
from .short_lines import A, BLUE, NOT_NOW, RED, at, begin, call, no, ok, run, save, text, up
from .silo import DONE, FAILED, Setup, Silo
from .steps import End, Load, Poke, Step, Tick
from .storage import CLEARED, LAST_VERSION, Row as StoredRow
from .values import (MAX_MESSAGE, NotSpelled, holds_bytes, message_length, migrate_message, read_message, read_old_state,
                     read_state, spelled, spelled_message)

ONE_TENANT = (("red", Limits(2, 4)),)
COUNTER_A = read_grain(A)


def is_refused(read: Callable, data: bytes) -> bool:
    try:
        read(data)
    except NotSpelled:
        return True
    return False


def written(silo: Silo, lines: list) -> list:
    """What the lines write, in lines without LF."""
    out: list[bytes] = []
    run_lines(silo, [text(lines).encode()], out.append)
    return b"".join(out).decode().splitlines()


# ---- the message form

ADD_3 = bytes.fromhex("02 00000003 616464 06 00000001 00000002 6279 03 0000000000000003")


def spelling_of_a_message() -> bool:
    """A message of 28 bytes, and one of 9."""
    get = bytes.fromhex("02 00000003 676574 00")
    return (spelled_message("add", {"by": 3}) == ADD_3 and read_message(ADD_3) == ("add", {"by": 3})
            and len(ADD_3) == 28 and spelled_message("get", None) == get and read_message(get) == ("get", None))


def names_of_a_map_ascend() -> bool:
    """A map whose names don't ascend, or stand twice, is spelled by nothing."""
    out_of_order = bytes.fromhex("02 00000001 61 06 00000002 00000001 62 00 00000001 61 00")
    twice = bytes.fromhex("02 00000001 61 06 00000002 00000001 61 00 00000001 61 00")
    return is_refused(read_message, out_of_order) and is_refused(read_message, twice)


def spelling_of_states() -> bool:
    """A list and a map as states."""
    listed = bytes.fromhex("05 00000002 03 0000000000000001 04 00000001 78")
    mapped = bytes.fromhex("06 00000001 00000001 61 00")
    return (spelled([1, "x"]) == listed and read_state(listed) == [1, "x"]
            and spelled({"a": None}) == mapped and read_state(mapped) == {"a": None})


def no_message_within_a_message() -> bool:
    """No beginning of a message is one, nor a message with a byte behind it."""
    beginnings = [ADD_3[:end] for end in range(len(ADD_3))]
    return all(is_refused(read_message, data) for data in [*beginnings, ADD_3 + b"\0"])


def a_count_above_what_is_there() -> bool:
    """A list that says to have four thousand million members, and has none."""
    return is_refused(read_message, bytes.fromhex("02 00000001 61 05 FFFFFFFF"))


def depth_of_a_message() -> bool:
    """32 levels are read, 33 aren't."""
    def nested(levels: int) -> bytes:
        return bytes.fromhex("02 00000001 61" + "05 00000001" * (levels - 1) + "05 00000000")
    return not is_refused(read_message, nested(32)) and is_refused(read_message, nested(33))


def length_of_a_message() -> bool:
    """A message of 65,536 bytes is read, one of a byte more isn't."""
    return (message_length("a", "x" * 65_525) == MAX_MESSAGE
            and not is_refused(read_message, spelled_message("a", "x" * 65_525))
            and is_refused(read_message, spelled_message("a", "x" * 65_526)))


def spelling_of_bytes() -> bool:
    """Bytes as a state, none of them too, and in a message; they count one level."""
    put = bytes.fromhex("02 00000001 61 06 00000001 00000001 6b 07 00000002 00FF")
    def nested(levels: int) -> bytes:
        return bytes.fromhex("05 00000001" * (levels - 1) + "07 00000001 0A")
    return (spelled(b"\x00\xff") == bytes.fromhex("07 00000002 00FF") and spelled(b"") == bytes.fromhex("07 00000000")
            and read_state(spelled(b"\x00\xff")) == b"\x00\xff" and read_state(spelled(b"")) == b""
            and spelled_message("a", {"k": b"\x00\xff"}) == put and read_message(put) == ("a", {"k": b"\x00\xff"})
            and not is_refused(read_state, nested(32)) and is_refused(read_state, nested(33)))


def bytes_have_their_length() -> bool:
    """A length above what is left, one below it, a part of a length, and the byte of no node."""
    odd = ["07 00000003 00FF", "07 00000001 00FF", "07 FFFFFFFF", "07 80000000 00", "07 000002", "07", "08", "08 00000001 00",
           "05 00000001 07 00000001", "05 00000002 07 00000001 00"]
    return (all(is_refused(read_state, bytes.fromhex(one)) for one in odd)
            and all(is_refused(read_message, bytes.fromhex("02 00000001 61" + one)) for one in odd))


def length_of_a_message_with_bytes() -> bool:
    """A message of 65,536 bytes is read, one of a byte more isn't; so are states of 262,144 bytes."""
    return (message_length("a", b"x" * 65_525) == MAX_MESSAGE
            and not is_refused(read_message, spelled_message("a", b"x" * 65_525))
            and is_refused(read_message, spelled_message("a", b"x" * 65_526))
            and not is_refused(read_state, spelled(b"x" * 262_139)) and is_refused(read_state, spelled(b"x" * 262_140)))


def a_map_is_no_bytes() -> bool:
    """A map whose only name is that for bytes is a map: it is spelled, read and written as one."""
    named = bytes.fromhex("06 00000001 00000004 24686578 04 00000002 3030")
    return (spelled({"$hex": "00"}) == named and read_state(named) == {"$hex": "00"} and not holds_bytes({"$hex": "00"})
            and compact({"a": {"$hex": "00"}, "b": b"\0"}) == '{"a":{"$hex":"00"},"b":{"$hex":"00"}}')


def messages_of_the_first_form() -> bool:
    """They are no messages any more, and become such ones of the same method and argument."""
    old = b"\x01" + ADD_3[1:]
    others = [ADD_3, b"\0" + old[1:], b"\x03" + old[1:], old[:-1], old + b"\0", b"",
              bytes.fromhex("01 00000001 61 07 00000000"), bytes.fromhex("01 00000001 61 05 00000001 07 00000001 00"),
              spelled_message("a", "x" * 65_526, b"\x01")]
    return (is_refused(read_message, old) and migrate_message(old) == ADD_3
            and migrate_message(spelled_message("a", {"$hex": "00"}, b"\x01")) == spelled_message("a", {"$hex": "00"})
            and all(is_refused(migrate_message, data) for data in others))


def no_bytes_in_states_of_before() -> bool:
    """A state of an old journal holds no bytes at any depth, and is otherwise as it is now."""
    old = [None, {"$hex": "00"}, ["x", {"a": [1]}]]
    now = [b"", [b"x"], {"a": [{"b": b"\0"}]}]
    return (all(read_old_state(spelled(value)) == value for value in old)
            and all(is_refused(read_old_state, spelled(value)) and read_state(spelled(value)) == value for value in now))


def texts_are_utf_8() -> bool:
    """Bytes that no text is spelled by, nor a name, nor a method."""
    return (is_refused(read_state, bytes.fromhex("04 00000002 C080"))
            and is_refused(read_state, bytes.fromhex("06 00000001 00000002 C080 00"))
            and is_refused(read_message, bytes.fromhex("02 00000002 C080 00")))


# ---- storage

def versions_are_spent() -> bool:
    """A row with the last version is read, and never written or poked again."""
    setup = Setup(ONE_TENANT, rows=((COUNTER_A, StoredRow(LAST_VERSION, 3)),))
    spent = f"versions of {A} are spent"
    out = written(Silo(setup), call(1, A, "save") + call(2, A, "get") + up(A) + save(A, 1) + run(A, 2))
    silo = Silo(setup)
    poked = silo.apply(Poke(read_caller(RED), 3, COUNTER_A, 4))
    return (out == no(1, 56, spent) + ok(2, 3) and poked == DONE and silo.replies[-1].text == spent
            and silo.rows() == list(setup.rows))


def a_stale_row_comes_before_spent_versions() -> bool:
    """The row got its last version from another."""
    silo = Silo(Setup(ONE_TENANT, rows=((COUNTER_A, StoredRow(LAST_VERSION - 1, 3)),)))
    begun = written(silo, call(1, A, "save") + up(A) + begin(A))
    silo.apply(Poke(read_caller(RED), 2, COUNTER_A, 4))
    return (begun == [] and written(silo, at("store", A, turn=1)) == no(1, 54, f"stored state of {A} has changed")
            and silo.rows() == [(COUNTER_A, StoredRow(LAST_VERSION, 4))])


def an_odd_state_is_kept_by_what_keeps_the_state() -> bool:
    """A counter whose state is a text is read, and saved as it is."""
    silo = Silo(Setup(ONE_TENANT, rows=((COUNTER_A, StoredRow(1, "x")),)))
    out = written(silo, call(1, A, "get") + call(2, A, "save") + up(A) + run(A, 1) + save(A, 2))
    return out == ok(1, 0) + ok(2, "2") and silo.rows() == [(COUNTER_A, StoredRow(2, "x"))]


def a_load_whose_storage_fails() -> bool:
    """The first storage call fails: what waits is refused, and the journal says so."""
    silo = Silo(Setup(ONE_TENANT, failing=(1,)))
    out = written(silo, call(1, A, "get") + up(A) + call(2, A, "get") + up(A) + run(A, 2))
    return (out == no(1, 53, "storage failed") + ok(2, 0) and silo.fuse.failures == 1
            and silo.journal[2] == Load(COUNTER_A, failed=True))


SAVE_CLEAR_SAVE = (call(1, A, "save") + up(A) + save(A, 1) + call(2, A, "clear") + save(A, 2)
                   + call(3, A, "save") + save(A, 3))
NOT_NOW_SIX_TIMES = ['{"text":"not now"}'] * 6
FAILING = {
    1: no(1, 53, "storage failed") + NOT_NOW_SIX_TIMES,
    2: no(1, 53, "storage failed") + ok(2, None) + ok(3, "1"),
    3: ok(1, "1") + no(2, 53, "storage failed") + ok(3, "2"),
    4: ok(1, "1") + ok(2, "2") + no(3, 53, "storage failed"),
    5: ok(1, "1") + ok(2, "2") + ok(3, "3"),
}


def each_storage_call_fails_once() -> bool:
    """A row is read, written, cleared and written, and one of these calls fails; the fifth isn't made."""
    return all(written(Silo(Setup(ONE_TENANT, failing=(number,))), SAVE_CLEAR_SAVE) == out
               for number, out in FAILING.items())


HAS_CHANGED = no(4, 54, f"stored state of {A} has changed")
# a load, a save, a poke, a save that is stale, and a load: what is told if one of them fails, and the row's version then
FAILING_WITH_A_POKE = {
    1: (no(1, 53, "storage failed") + NOT_NOW * 4 + ok(3, "1") + NOT_NOW * 3, 1),
    2: (ok(1, 3) + no(2, 53, "storage failed") + ok(3, "1") + HAS_CHANGED + ok(5, 10), 1),
    3: (ok(1, 3) + ok(2, "1") + no(3, 53, "storage failed") + ok(4, "2") + NOT_NOW * 2 + ok(5, 3), 2),
    4: (ok(1, 3) + ok(2, "1") + ok(3, "2") + no(4, 53, "storage failed") + NOT_NOW * 2 + ok(5, 3), 2),
    5: (ok(1, 3) + ok(2, "1") + ok(3, "2") + HAS_CHANGED + no(5, 53, "storage failed") + NOT_NOW * 2, 2),
    6: (ok(1, 3) + ok(2, "1") + ok(3, "2") + HAS_CHANGED + ok(5, 10), 2),
}


def a_poke_is_one_storage_call() -> bool:
    """A row is loaded, saved, poked, saved in vain and loaded, and one of these calls fails; the sixth isn't made."""
    def holds(number: int, out: list, version: int) -> bool:
        silo = Silo(Setup(ONE_TENANT, failing=(number,)))
        return (written(silo, OVERWRITTEN) == out and silo.fuse.failures == (number < 6)
                and silo.rows()[0][1].version == version)
    return all(holds(number, *told) for number, told in FAILING_WITH_A_POKE.items())


def a_poke_whose_storage_fails() -> bool:
    """The poke is refused with 53 and changes no row; one that is refused before makes no storage call."""
    silo = Silo(Setup(ONE_TENANT, failing=(1,)))
    red, blue = read_caller(RED), read_caller(BLUE)
    answers = silo.run([Poke(blue, 1, COUNTER_A, 4), Poke(red, 1, COUNTER_A, 4), Poke(red, 2, COUNTER_A, 5),
                        Poke(red, 3, COUNTER_A, 6, failed=True)])
    return (answers == [DONE, FAILED, DONE, DONE] and [reply.code for reply in silo.replies] == [21, 53, None, 53]
            and silo.rows() == [(COUNTER_A, StoredRow(1, 5))])


def a_cleared_row_is_not_null() -> bool:
    """A row may hold null, and then isn't cleared; both count as 0 for a counter."""
    silo = Silo(Setup(ONE_TENANT))
    silo.apply(Poke(read_caller(RED), 1, COUNTER_A, None))
    held = silo.rows()[0][1]
    out = written(silo, call(2, A, "clear") + call(3, A, "get") + up(A) + save(A, 1) + run(A, 2))
    return held == StoredRow(1, None) and silo.rows()[0][1] == StoredRow(2, CLEARED) and out == ok(2, "2") + ok(3, 0)


# ---- readers and writers

def pieces(lines: list, failing: bool) -> Iterable[bytes]:
    """An input that comes byte by byte."""
    for byte in text(lines).encode():
        yield bytes([byte])
    if failing:
        raise ReaderFailed


def a_reader_that_fails() -> bool:
    """What was read before has been answered."""
    out: list[bytes] = []
    try:
        run_lines(Silo(Setup(ONE_TENANT)), pieces(FIRST_CALL + up(A) + run(A, 1), True), out.append)
    except ReaderFailed:
        return b"".join(out).decode().splitlines() == ok(1, 3)
    return False


def a_writer_that_fails() -> bool:
    """The step whose reply isn't written is done all the same."""
    def fail(_data: bytes) -> None:
        raise WriterFailed
    silo = Silo(Setup(ONE_TENANT))
    try:
        run_lines(silo, pieces(FIRST_CALL + up(A) + run(A, 1), False), fail)
    except WriterFailed:
        return silo.journal[-1] == End(COUNTER_A, 1)
    return False


# ---- lanes

def a_lane_has_its_own_steps() -> bool:
    """A tick is no step of a client's lane, and a client's lane has one client."""
    red = read_caller(RED)
    own = Lane(red, (read_line(FIRST_CALL[0].encode()),))
    failed = Poke(red, 2, COUNTER_A, 1, failed=True)
    return (Lane(red, (Tick(1),)).foreign() == 0 and Lane(None, (Tick(1), *own.steps)).foreign() == 1
            and Lane(red, (*own.steps, failed)).foreign() == 1 and own.foreign() is None
            and are_distinct([own, Lane(None, ())]) and not are_distinct([own, own]))


def two_hundred_calls_of_two_clients() -> bool:
    """Each of the numbers from 1 to 200 is answered once."""
    lines = [one for number in range(1, 101) for by in (RED, "red/c2") for one in call(number, A, "add", {"by": 1}, by)]
    silo = serve(Setup(ONE_TENANT), lanes_of([read_line(line.encode()) for line in lines]))
    return sorted(reply.value for reply in silo.replies) == list(range(1, 201)) and silo.is_quiet()


def any_order_answers_the_lanes_alike() -> bool:
    """What the rows of lanes write is the same in whatever order their steps come."""
    return all(run_program(row.words, text(row.lines).encode(), chance=Random(number)).out == text(row.out).encode()
               for row in LANES for number in range(20))


# ---- journals

def setup_and_steps(row: Row) -> tuple[Setup, list[Step]]:
    said = [read_line(line.encode()) for line in row.lines]
    steps = [step for step in said if step is not None and not isinstance(step, int)]
    return setup_of_words(row.words), steps


def journal_agrees(row: Row) -> bool:
    """The journal of the row's steps reads back, and has no difference."""
    setup, steps = setup_and_steps(row)
    silo = Silo(setup)
    silo.run(steps)
    journal = journal_of(silo)
    return read_journal(journal_text(journal)) == journal and not any(one.difference for one in audit(journal))


def every_journal_agrees() -> bool:
    """So it is for each worked row of up to ten thousand lines that ends well."""
    rows = [row for row in ROWS if row.words[0] == "steps" and row.status == 0]
    return all(journal_agrees(row) for row in rows if len(row.lines) <= 10_000)


def is_read(row: Row) -> bool:
    return row.words == ["audit", "j"] and row.status in (0, 3)


def a_migrated_journal_has_its_report() -> bool:
    """So it is for each journal of the rows that is one; it is in the last form then, and stays as it is."""
    def holds(text_of_it: bytes) -> bool:
        migrated = migrate_journal(text_of_it)
        return (audit(read_journal(migrated)) == audit(read_journal(text_of_it)) and migrate_journal(migrated) == migrated
                and migrated.startswith(b"silo-journal 3\n"))
    return all(holds(row.files["j"].encode()) for row in ROWS if is_read(row))


# ---- laws

def laws_hold_after_each_step_of_each_row() -> bool:
    """So it is for each worked row of up to a hundred lines that ends well."""
    rows = [row for row in ROWS if row.words[0] == "steps" and row.status == 0 and len(row.lines) <= 100]
    return all(first_broken(*setup_and_steps(row)) is None for row in rows)


CALL_ROWS = [
    spelling_of_a_message, names_of_a_map_ascend, spelling_of_states, no_message_within_a_message,
    a_count_above_what_is_there, depth_of_a_message, length_of_a_message, texts_are_utf_8, spelling_of_bytes,
    bytes_have_their_length, length_of_a_message_with_bytes, a_map_is_no_bytes, messages_of_the_first_form,
    no_bytes_in_states_of_before, versions_are_spent,
    a_stale_row_comes_before_spent_versions, an_odd_state_is_kept_by_what_keeps_the_state,
    a_load_whose_storage_fails, each_storage_call_fails_once, a_poke_is_one_storage_call, a_poke_whose_storage_fails,
    a_cleared_row_is_not_null, a_reader_that_fails, a_writer_that_fails, a_lane_has_its_own_steps,
    any_order_answers_the_lanes_alike, two_hundred_calls_of_two_clients, every_journal_agrees,
    a_migrated_journal_has_its_report,
    laws_hold_after_each_step_of_each_row,
]
