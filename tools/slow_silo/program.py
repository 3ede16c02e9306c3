"""The program: its words, what it writes on both streams, and its status."""

from __future__ import annotations

from random import Random
from typing import Callable, Iterable, NamedTuple, Optional, Union

from . import codes, lines, log, logged, switched
from .answer import DEFAULT_SENDS, MAX_SENDS, answer_lines, is_asked
from .audit import audit
from .checkpoint import LOOSE, CheckpointRefused, own_setup, read_checkpoint
from .data import Folder, InUse, MemoryFolder, NotRead, NotWritten
from .journal import (IS_NUMBER, MAX_ACTIVATIONS, MAX_AGE, MAX_AGES, MAX_MAILBOX, MAX_TENANTS, RefusedAt, journal_of, journal_text,
                      migrate_journal, read_journal)
from .kinds import NEWEST
from .listed import listed_rows
from .machine import Limits
from .names import is_word
from .receipts import MAX_REPLIES
from .serve import answers_of, lanes_of, replies_to_grains, serve
from .silo import DEFAULT_AGE, Setup, Silo
from .steps import MAX_NUMBER

MAX_WORKERS = 64
DEFAULT_WORKERS = 4
VERSION = b"silo 0.2.0\n"
FINE, BROKEN, BAD_WORDS, DIFFERS, BAD_JOURNAL = range(5)


class Ended(Exception):
    """The program ends with this status, and this line on standard error; with None the line isn't modelled."""

    def __init__(self, status: int, line: Optional[str] = None):
        super().__init__(status, line)
        self.status = status
        self.line = line


class Run(NamedTuple):
    """What a run gives. A stream that isn't modelled is None."""

    out: Optional[bytes]
    errors: Optional[bytes]
    status: int
    # the files after it, by their paths
    files: dict


# ---- words

def is_number(text: str, most: int) -> bool:
    """Digits of a number from 1 on."""
    digits = text.lstrip("0")
    return all(letter in "0123456789" for letter in text) and 1 <= len(digits) <= 8 and int(digits) <= most


def is_decimal(text: str, most: int) -> bool:
    """Digits of a number from 1 on, without a sign or a leading zero."""
    return not text.startswith("0") and is_number(text, most)


def is_bound(text: str, most: int) -> bool:
    """Digits of a number from 1 on, which may be great, without a sign or a leading zero."""
    return IS_NUMBER(text) is not None and 1 <= int(text) <= most


def is_option_number(text: str, most: int) -> bool:
    """As the reader of arguments takes a number: a plus sign and zeros may stand before it."""
    return is_number(text[1:] if text.startswith("+") else text, most)


def is_sends(text: str) -> bool:
    """Digits of a number from 0 on, without a sign or a leading zero."""
    return text == "0" or is_decimal(text, MAX_SENDS)


def tenant_of(word: str) -> Optional[tuple[str, Limits]]:
    parts = word.split(":")
    if len(parts) != 3 or not is_word(parts[0]):
        return None
    if not is_decimal(parts[1], MAX_ACTIVATIONS) or not is_decimal(parts[2], MAX_MAILBOX):
        return None
    return parts[0], Limits(int(parts[1]), int(parts[2]))


def tenants_of(words: list[str]) -> tuple[tuple[str, Limits], ...]:
    """The table; the first word that is malformed, out of range, repeated or one too many is refused."""
    found: dict[str, Limits] = {}
    for place, word in enumerate(words, 1):
        read = tenant_of(word)
        if read is None or read[0] in found or place > MAX_TENANTS:
            raise Ended(BAD_WORDS, f"silo: tenant argument {place} is refused")
        found[read[0]] = read[1]
    return tuple(found.items())


def ages_of(text: str) -> tuple[tuple[str, int], ...]:
    """The ages of kinds, ascending by kind: `KIND=MS`, parted by commas, at most 64, and no kind twice."""
    found: dict[str, int] = {}
    for entry in text.split(","):
        kind, equals, age = entry.partition("=")
        if not equals or not is_word(kind) or not is_decimal(age, MAX_AGE) or kind in found or len(found) == MAX_AGES:
            raise Ended(BAD_WORDS, "silo: ages are refused")
        found[kind] = int(age)
    return tuple(sorted(found.items()))


# what each subcommand takes: its options, with what their values are
IS_AGE = ("--age", lambda text: is_option_number(text, MAX_AGE))
# any text is a value: whether it tells ages is looked at after the tenants
IS_AGES = ("--ages", lambda text: True)
IS_WORKERS = ("--workers", lambda text: is_option_number(text, MAX_WORKERS))
IS_PATH = ("--journal", lambda text: True)
IS_DATA = ("--data", lambda text: True)
IS_SENDS = ("--sends", is_sends)
IS_REPLIES = ("--replies", lambda text: is_decimal(text, MAX_REPLIES))
IS_BYTES = ("--bytes", lambda text: is_bound(text, MAX_NUMBER))
OPTIONS = {
    "steps": dict([IS_AGE, IS_AGES]),
    "answer": dict([IS_AGE, IS_AGES, IS_SENDS, IS_PATH, IS_DATA, IS_REPLIES, IS_BYTES]),
    "serve": dict([IS_AGE, IS_AGES, IS_WORKERS, IS_PATH]),
    "audit": {},
    "migrate": {},
    "rows": {},
}
# what takes no value; the program has no `--checkpoints`, replies, bytes or operator yet
FLAGS = {"answer": ["--no-sync", "--checkpoints", "--operator"], "serve": ["--explain-lines", "--summary"]}


def split_words(words: list[str], options: dict, flags: list[str]) -> tuple[dict, list[str]]:
    """The options' values, and the words that aren't options."""
    rest, given, others = list(words), {}, []
    while rest:
        word = rest.pop(0)
        name, equals, value = word.partition("=")
        if word == "--":
            return given, others + rest
        if word in flags:
            if word in given:
                raise Ended(BAD_WORDS)
            given[word] = ""
        elif name in options:
            if not equals and (not rest or rest[0].startswith("-")):
                raise Ended(BAD_WORDS)
            value = value if equals else rest.pop(0)
            if name in given or not options[name](value):
                raise Ended(BAD_WORDS)
            given[name] = value
        elif word.startswith("-"):
            raise Ended(BAD_WORDS)
        else:
            others.append(word)
    return given, others


def asks_for_help(words: list[str]) -> bool:
    """The words ask for a text that isn't modelled."""
    of_commands = [asked for name in OPTIONS for asked in ([name, "--help"], [name, "-h"], ["help", name])]
    return words in [["--help"], ["-h"], ["help"], *of_commands]


def setup_of(given: dict, words: list[str]) -> Setup:
    """What the options and the tenant words set up: the tenants are looked at first, then the ages of kinds."""
    if not words:
        raise Ended(BAD_WORDS)
    tenants = tenants_of(words)
    ages = ages_of(given["--ages"]) if "--ages" in given else ()
    room, replies = (int(given[name]) if name in given else None for name in ("--bytes", "--replies"))
    return Setup(tenants, int(given.get("--age", DEFAULT_AGE)), ages, room=room, replies=replies, operator="--operator" in given)


def setup_of_words(words: list[str]) -> Setup:
    """What all words of `steps`, `answer` or `serve` set up."""
    return setup_of(*split_words(words[1:], OPTIONS[words[0]], FLAGS.get(words[0], [])))


def are_together(given: dict) -> bool:
    """Whether these options of `answer` may stand beside one another."""
    of_data = {"--no-sync", "--checkpoints", "--replies", "--bytes", "--operator"} & set(given)
    return "--journal" not in given if "--data" in given else not of_data


# ---- the commands

def run_steps(given: dict, words: list[str], data: bytes, written: list[bytes]) -> None:
    silo = Silo(setup_of(given, words))
    try:
        lines.run_lines(silo, [data], written.append)
    except lines.TooMuchInput as error:
        raise Ended(BROKEN, "silo: too much input") from error


def run_answer(given: dict, words: list[str], data: bytes, files: dict, written: list[bytes]) -> None:
    silo = Silo(setup_of(given, words))
    if "--journal" in given:
        files[given["--journal"]] = journal_text(journal_of(silo))
    try:
        answer_lines(silo, pieces_of(data), int(given.get("--sends", DEFAULT_SENDS)), written.append)
    except lines.TooMuchInput as error:
        raise Ended(BROKEN, "silo: too much input") from error
    finally:
        if "--journal" in given:
            files[given["--journal"]] = journal_text(journal_of(silo))


# what ends a run with a folder of data, and what is then said
FAULTS_OF_DATA = {
    InUse: (BROKEN, "silo: the data are in use"),
    NotRead: (BROKEN, "silo: reading failed"),
    NotWritten: (BROKEN, "silo: writing failed"),
    lines.TooMuchInput: (BROKEN, "silo: too much input"),
    log.OtherWords: (BAD_WORDS, "silo: the data have other words"),
    switched.HasTenant: (BAD_WORDS, "silo: the data have the tenant {}"),
    switched.HasKind: (BAD_JOURNAL, "silo: the data have the kind {}"),
    CheckpointRefused: (BAD_JOURNAL, "silo: checkpoint line {} is refused"),
    switched.LogMissing: (BAD_JOURNAL, "silo: the log is missing"),
    log.NotALog: (BAD_JOURNAL, "silo: log line 1 is refused"),
    logged.LogRefused: (BAD_JOURNAL, "silo: log line {} is refused"),
    logged.AnsweredOtherwise: (BAD_JOURNAL, "silo: log line {} is answered otherwise"),
}
# without --checkpoints it isn't said why a checkpoint is refused
REFUSED = (BAD_JOURNAL, "silo: the checkpoint is refused")
FAULTS_OF_PROGRAM = {**FAULTS_OF_DATA, CheckpointRefused: REFUSED, switched.HasKind: REFUSED, switched.HasCount: REFUSED}


def run_data(given: dict, words: list[str], data: Union[bytes, Iterable[bytes]], folder: Folder, written: list[bytes],
             most_log: int) -> None:
    """`answer` with a folder of data: it goes on from what was answered before, and answers the input."""
    setup, most = setup_of(given, words), int(given.get("--sends", DEFAULT_SENDS))
    form, faults = (switched.full, FAULTS_OF_DATA) if "--checkpoints" in given else (switched.of_program, FAULTS_OF_PROGRAM)
    try:
        silo, kept = switched.start(folder, setup, most, form(most_log))
        logged.answer_logged(silo, kept, pieces_of(data), most, written.append)
    except tuple(faults) as error:
        status, says = faults[type(error)]
        raise Ended(status, says.format(*error.args)) from error


def run_rows(words: list[str], folder: Folder) -> bytes:
    """What the checkpoint of a folder has, of all tenants or of one. One of a newer version of the kinds is refused."""
    try:
        checkpoint = read_checkpoint(folder.checkpoint(), LOOSE)
    except NotRead as error:
        raise Ended(*FAULTS_OF_DATA[NotRead]) from error
    except CheckpointRefused as error:
        raise Ended(*REFUSED) from error
    if own_setup(checkpoint).logic.number > NEWEST:
        raise Ended(*REFUSED)
    return listed_rows(checkpoint, *words)


def pieces_of(data: Union[bytes, Iterable[bytes]]) -> Iterable[bytes]:
    """An input that is there whole, or that comes in pieces."""
    return [data] if isinstance(data, bytes) else data


def written_lines(texts: Iterable[str]) -> bytes:
    return "".join(text + "\n" for text in texts).encode()


def run_serve(given: dict, words: list[str], data: bytes, files: dict, chance: Optional[Random]) -> tuple[bytes, bytes]:
    """What is written, and what is told of the lines."""
    setup = setup_of(given, words)
    if "--journal" in given:
        files[given["--journal"]] = journal_text(journal_of(Silo(setup)))
    try:
        read = [lines.read_line(line) for line in lines.lines_of([data])]
    except lines.TooMuchInput as error:
        raise Ended(BROKEN, "silo: too much input") from error
    refusals, steps = sort_lines(read)
    lanes = lanes_of(steps)
    silo = serve(setup, lanes, chance)
    if "--journal" in given:
        files[given["--journal"]] = journal_text(journal_of(silo))
    replies = [reply for lane in lanes if lane.caller is not None for reply in answers_of(silo, lane)]
    replies += replies_to_grains(silo)
    told = [*(reasons(read) if "--explain-lines" in given else []), *(counts(read, silo) if "--summary" in given else [])]
    return written_lines([*map(lines.refusal_text, refusals), *map(lines.reply_text, replies)]), written_lines(told)


def reason_of(said: object) -> Optional[str]:
    """Why a line made no step, if it made none and has bytes."""
    if said == codes.TOO_LONG:
        return "line is too long"
    if said == codes.NOT_A_REQUEST:
        return "line is not a request"
    return None if said is None or is_asked(said) else "step is not one of silo serve"


def reasons(read: list) -> Iterable[str]:
    """Which lines made no step, and why."""
    for number, said in enumerate(read, 1):
        reason = reason_of(said)
        if reason is not None:
            yield f"silo: line {number}: {reason}"


def counts(read: list, silo: Silo) -> Iterable[str]:
    """How many lines, answers, refusals by code and steps there are."""
    refused = sort_lines(read)[0] + [reply.code for reply in silo.replies if reply.code is not None]
    yield f"silo: lines: {len(read)}"
    yield f"silo: answers: {sum(reply.code is None for reply in silo.replies)}"
    yield from (f"silo: refusals {code}: {refused.count(code)}" for code in sorted(set(refused)))
    yield f"silo: steps: {len(silo.journal)}"


def sort_lines(read: list) -> tuple[list[int], list]:
    """The codes of refused lines, and the steps of lanes: a step that is no lane's is refused."""
    refusals, steps = [], []
    for said in read:
        if isinstance(said, int):
            refusals.append(said)
        elif said is not None and is_asked(said):
            steps.append(said)
        elif said is not None:
            refusals.append(codes.NOT_A_REQUEST)
    return refusals, steps


def read_with(read: Callable, words: list[str], files: dict) -> object:
    """What the journal at the one path reads as."""
    if len(words) != 1:
        raise Ended(BAD_WORDS)
    if words[0] not in files:
        raise Ended(BROKEN, "silo: reading failed")
    try:
        return read(files[words[0]])
    except RefusedAt as refusal:
        raise Ended(BAD_JOURNAL, f"silo: journal line {refusal.line} is refused") from refusal


def run_audit(words: list[str], files: dict) -> tuple[bytes, int]:
    reports = audit(read_with(read_journal, words, files))
    differs = any(report.difference is not None for report in reports)
    return written_lines(report.text() for report in reports), DIFFERS if differs else FINE


# ---- one run

def run_program(words: list[str], data: Union[bytes, Iterable[bytes]] = b"", files: Optional[dict] = None,
                chance: Optional[Random] = None, written: Optional[list[bytes]] = None,
                folder_at: Optional[Callable[[str, bool], Folder]] = None, most_log: int = switched.MOST_LOG) -> Run:
    """A run on this standard input; `files` are the contents of the files that there are, by their paths.

    With a chance, `serve` does its steps in any order. The input of `answer` may come in pieces, and what is written goes
    to `written`, if it is given, as each line is answered. A folder of data is among the files, or is what `folder_at` gives for
    its path, and for whether it is synced. There is room for `most_log` bytes of lines in its log (`logged`).
    """
    files = dict(files or {})

    def folder_of(path: str, is_synced: bool = True) -> Folder:
        return folder_at(path, is_synced) if folder_at else MemoryFolder(files, path)

    if asks_for_help(words):
        return Run(None, b"", FINE, files)
    if words in [["--version"], ["-V"]]:
        return Run(VERSION, b"", FINE, files)
    written = [] if written is None else written
    status, errors = FINE, b""
    try:
        if not words or words[0] not in OPTIONS:
            raise Ended(BAD_WORDS)
        given, others = split_words(words[1:], OPTIONS[words[0]], FLAGS.get(words[0], []))
        if words[0] == "steps":
            run_steps(given, others, data, written)
        elif words[0] == "answer" and not are_together(given):
            raise Ended(BAD_WORDS)
        elif "--data" in given:
            run_data(given, others, data, folder_of(given["--data"], "--no-sync" not in given), written, most_log)
        elif words[0] == "answer":
            run_answer(given, others, data, files, written)
        elif words[0] == "serve":
            out, errors = run_serve(given, others, data, files, chance)
            written.append(out)
        elif words[0] == "rows":
            if not 1 <= len(others) <= 2:
                raise Ended(BAD_WORDS)
            written.append(run_rows(others[1:], folder_of(others[0])))
        elif words[0] == "migrate":
            written.append(read_with(migrate_journal, others, files))
        else:
            out, status = run_audit(others, files)
            written.append(out)
    except Ended as end:
        status = end.status
        errors = None if end.line is None else end.line.encode() + b"\n"
    except lines.ReaderFailed:
        status, errors = BROKEN, b"silo: reading failed\n"
    except lines.WriterFailed:
        status, errors = BROKEN, b"silo: writing failed\n"
    return Run(b"".join(written), errors, status, files)
