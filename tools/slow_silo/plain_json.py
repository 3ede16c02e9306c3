"""Reads JSON as the silo's lines are to be read: a plain reader, one function for each part.

What a text may be is RFC 8259 with what docs/formats.md adds: UTF-8 only, at most 127 levels of lists
and objects, no number past a float's range, no lone surrogate; of a member that stands twice the last
counts. A value is None, a bool, a whole number (int), a Float, a text (str), a list or a dict. A whole
number is one of 64 bits, with a sign or without; any other number is a Float, -0 too.
"""

MAX_LEVELS = 127
SPACES = " \t\n\r"
ESCAPES = {'"': '"', "\\": "\\", "/": "/", "b": "\b", "f": "\f", "n": "\n", "r": "\r", "t": "\t"}
DIGITS = "0123456789"


class NotJson(Exception):
    """The bytes are no JSON."""


class Float:
    """A number that is no whole number: its value is never looked at."""


def read(line):
    """The value of the bytes, or NotJson."""
    try:
        text = line.decode("utf-8", "strict")
    except UnicodeDecodeError as error:
        raise NotJson from error
    value, place = read_value(text, skip_spaces(text, 0), 0)
    if skip_spaces(text, place) != len(text):
        raise NotJson
    return value


def skip_spaces(text, place):
    while text[place : place + 1] and text[place] in SPACES:
        place += 1
    return place


def read_value(text, place, levels):
    """The value that begins at the place, and the place behind it, inside so many levels."""
    first = text[place : place + 1]
    if first == "{":
        return read_object(text, place + 1, inside(levels))
    if first == "[":
        return read_list(text, place + 1, inside(levels))
    if first == '"':
        return read_text(text, place + 1)
    for word, value in (("null", None), ("true", True), ("false", False)):
        if text.startswith(word, place):
            return value, place + len(word)
    return read_number(text, place)


def inside(levels):
    if levels == MAX_LEVELS:
        raise NotJson
    return levels + 1


def expect(text, place, wanted):
    if text[place : place + 1] != wanted:
        raise NotJson
    return place + 1


def read_list(text, place, levels):
    items = []
    place = skip_spaces(text, place)
    if text[place : place + 1] == "]":
        return items, place + 1
    while True:
        item, place = read_value(text, skip_spaces(text, place), levels)
        items.append(item)
        place = skip_spaces(text, place)
        if text[place : place + 1] == "]":
            return items, place + 1
        place = expect(text, place, ",")


def read_object(text, place, levels):
    members = {}
    place = skip_spaces(text, place)
    if text[place : place + 1] == "}":
        return members, place + 1
    while True:
        place = expect(text, skip_spaces(text, place), '"')
        name, place = read_text(text, place)
        place = expect(text, skip_spaces(text, place), ":")
        value, place = read_value(text, skip_spaces(text, place), levels)
        members[name] = value
        place = skip_spaces(text, place)
        if text[place : place + 1] == "}":
            return members, place + 1
        place = expect(text, place, ",")


def read_text(text, place):
    """The text whose opening quote stands just before the place."""
    parts = []
    while True:
        letter = text[place : place + 1]
        if letter == "" or letter < " ":
            raise NotJson
        if letter == '"':
            return "".join(parts), place + 1
        if letter == "\\":
            part, place = read_escape(text, place + 1)
        else:
            part, place = letter, place + 1
        parts.append(part)


def read_escape(text, place):
    letter = text[place : place + 1]
    if letter in ESCAPES:
        return ESCAPES[letter], place + 1
    if letter != "u":
        raise NotJson
    unit, place = read_unit(text, place + 1)
    if 0xD800 <= unit < 0xDC00:
        place = expect(text, expect(text, place, "\\"), "u")
        low, place = read_unit(text, place)
        if not 0xDC00 <= low < 0xE000:
            raise NotJson
        return chr(0x10000 + (unit - 0xD800) * 0x400 + (low - 0xDC00)), place
    if 0xDC00 <= unit < 0xE000:
        raise NotJson
    return chr(unit), place


def read_unit(text, place):
    digits = text[place : place + 4]
    if len(digits) < 4 or any(d not in "0123456789abcdefABCDEF" for d in digits):
        raise NotJson
    return int(digits, 16), place + 4


def read_number(text, place):
    start = place
    if text[place : place + 1] == "-":
        place += 1
    if text[place : place + 1] == "0":
        place += 1
    else:
        place = read_digits(text, place)
    whole_end = place
    if text[place : place + 1] == ".":
        place = read_digits(text, place + 1)
    if text[place : place + 1] in ("e", "E"):
        place += 1
        if text[place : place + 1] in ("+", "-"):
            place += 1
        place = read_digits(text, place)
    number = text[start:place]
    if place == whole_end and number != "-0" and len(number) <= 20 and -(2**63) <= int(number) < 2**64:
        return int(number), place
    if float(number) in (float("inf"), float("-inf")):
        raise NotJson
    return Float(), place


def read_digits(text, place):
    """The place behind one digit or more."""
    end = place
    while text[end : end + 1] and text[end] in DIGITS:
        end += 1
    if end == place:
        raise NotJson
    return end
