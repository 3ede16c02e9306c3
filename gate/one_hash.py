"""Names of one hash, by the seed that everybody knows.

The program's maps hash a text by the toolchain's `FoldHasher`: it multiplies 16 bytes at a time, and a product is 0 whatever
one half is if the other equals what was read before. So 8 bytes of a name that equal that state make the hash forget all
that came before, and the 8 bytes beside them are free. Whoever knows the seed finds such names in no time.

A text here is 32 bytes long: what has to stand in front, bytes that are tried until the next 8, which they lead to, are
letters that a name may have; those 8; and 8 that are free, by which the texts differ.
"""
from __future__ import annotations

import itertools
import string
from typing import Iterator, Optional

WORD = (1 << 64) - 1
MULTIPLIER = 0x9E37_79B9_7F4A_7C15
INITIAL = 0x243F_6A88_85A3_08D3
LENGTH = 32

# what the name of a grain may have, but for what JSON escapes, and what the name of a client may have
GRAINS = "".join(sorted(set(map(chr, range(0x21, 0x7F))) - set('"\\')))
CLIENTS = string.ascii_lowercase + string.digits + "-"


def folded(one: int, other: int) -> int:
    product = one * other
    return product & WORD ^ product >> 64


def number_at(data: bytes, at: int) -> int:
    return int.from_bytes(data[at:at + 8], "little")


def short(data: bytes) -> int:
    """Up to 8 bytes as one number."""
    if len(data) >= 4:
        return int.from_bytes(data[:4], "little") | int.from_bytes(data[-4:], "little") << 32
    return data[0] | data[len(data) // 2] << 8 | data[-1] << 16 if data else 0


def write(state: int, data: bytes) -> int:
    """The state of a hasher that has read these bytes too."""
    if len(data) <= 8:
        return folded(state ^ short(data), MULTIPLIER ^ 2 * len(data))
    state, at = (state + len(data)) & WORD, 0
    while len(data) - at > 16:
        state, at = folded(number_at(data, at) ^ state, number_at(data, at + 8) ^ MULTIPLIER), at + 16
    return folded(number_at(data, max(0, len(data) - 16)) ^ state, number_at(data, len(data) - 8) ^ MULTIPLIER)


def hash_of(text: str, seed: Optional[int] = None) -> int:
    """The hash of a name, from the fixed seed if none is given."""
    begun = INITIAL if seed is None else write(INITIAL, seed.to_bytes(8, "little"))
    return write(write(begun, text.encode()), b"\xff")


def begin_of_one_hash(front: str, letters: str) -> str:
    """24 bytes that begin so, whose last 8 equal the state that the others lead to."""
    allowed, tried = letters.encode(), front.encode().ljust(8, b"a")
    if len(tried) > 12:
        raise ValueError(f"{front!r} is too long")
    left = number_at(tried, 0) ^ (INITIAL + LENGTH) & WORD
    for chosen in itertools.product(letters, repeat=16 - len(tried)):
        block = tried[8:] + "".join(chosen).encode()
        state = folded(left, int.from_bytes(block, "little") ^ MULTIPLIER).to_bytes(8, "little")
        if not state.translate(None, allowed):
            return (tried[:8] + block + state).decode()
    raise ValueError(f"nothing begins with {front!r}")


def texts_of_one_hash(front: str, letters: str, count: int) -> Iterator[str]:
    """So many texts that begin so."""
    begin = begin_of_one_hash(front, letters)
    free = itertools.product(sorted(set(letters) & set(CLIENTS)), repeat=8)
    return (begin + "".join(chosen) for chosen in itertools.islice(free, count))
