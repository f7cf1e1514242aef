"""The file of a kept repository, read without a server (docs/FORMATS.md, 'Stored files').

An entry is appended behind a closed gate, and the gate is opened once all of it
is there. So what is read from the beginning up to the first closed gate is whole,
also while a server writes on.
"""

from __future__ import annotations

import os
import re
from typing import BinaryIO, Iterator, NamedTuple

from . import disk

HEADER = b"pijulj1\n"
CLOSED, OPEN = b"\0", b"\1"
EMPTY = len(HEADER) + 1  # a file of at most so many bytes stores nothing, whatever they are
LENGTH = 8  # bytes of the length of an entry, the highest first
LONGEST = 16_777_230  # bytes of an entry at most
TEXT = 16_777_216  # bytes of a text that is put at most

_ENTERED = re.compile(  # the requests that a kept file may store, but for `put`
    rb"(?:(new|drop) %(c)b|(fork|pull) %(c)b %(c)b|(apply|unrecord|uproot) %(c)b %(n)b)\n"
    % {b"c": rb"[A-Za-z0-9._-]{1,64}", b"n": rb"[0-9a-f]{64}"}
)
_PUT = re.compile(rb"put (0|[1-9][0-9]{0,7})\n")


class Broken(Exception):
    """A file is no kept repository from an entry on; the message says what is wrong there."""

    def __init__(self, number: int, at: int, why: str):
        super().__init__(f"entry {number:,}, at byte {at:,}: {why}")


class Entry(NamedTuple):
    """A request that a file stores."""

    word: str  # its first word
    data: bytes  # as it is spelled, with its text where it is a `put`


def word_of(data: bytes) -> str:
    """The first word of the one whole request that these bytes are; empty where they are none.

    Only of a request that a kept file may store: one that asks enters nothing.
    """
    put = _PUT.match(data)
    if put is not None:
        size = int(put.group(1))
        whole = size <= TEXT and len(data) == put.end() + size + 1 and data.endswith(b"\n")
        return "put" if whole else ""
    found = _ENTERED.fullmatch(data)
    return next(word for word in found.groups() if word).decode() if found else ""


def entries(file: BinaryIO) -> Iterator[Entry]:
    """The requests that a file stores, in their order; `Broken` where it breaks.

    The file then stands behind the gate of the first entry that is not there.
    """
    head = file.read(EMPTY + 1)
    if len(head) <= EMPTY:
        return
    if not head.startswith(HEADER):
        raise Broken(1, 0, "the file does not begin with the header of a kept repository")
    file.seek(EMPTY)
    gate, number, at = head[EMPTY - 1 : EMPTY], 1, len(HEADER)
    while gate != CLOSED:
        data = _string(file, number, at)
        word = word_of(data)
        if not word:
            raise Broken(number, at, "it is no whole request that a repository enters")
        yield Entry(word, data)
        number, at = number + 1, at + 1 + LENGTH + len(data)
        gate = file.read(1)
        if not gate:
            raise Broken(number, at, "the file ends without a closed gate")


def _string(file: BinaryIO, number: int, at: int) -> bytes:
    """The string of an entry whose gate was open."""
    spelled = file.read(LENGTH)
    count = int.from_bytes(spelled, "big")
    if len(spelled) == LENGTH and not 1 <= count <= LONGEST:
        raise Broken(number, at, f"its length is {count:,}, and is from 1 to {LONGEST:,}")
    data = file.read(count) if len(spelled) == LENGTH else b""
    if len(spelled) < LENGTH or len(data) < count:
        raise Broken(number, at, "the file ends within it")
    return data


class Copied(NamedTuple):
    """What came into a copy."""

    requests: int
    size: int  # of the copy, in bytes
    broken: str  # why the file was not read further; empty where it was read to its end


def copy(source: BinaryIO, target: bytes) -> Copied:
    """Writes the whole entries of a file into a new one, and makes sure that they are on the disk.

    The copy is made beside its place, as `TARGET.new`, and gets its name once it is
    whole; `FileExistsError` where something stands at either. No more people may read
    it than the file.
    """
    beside = target + b".new"
    with disk.make_file(beside, os.fstat(source.fileno()).st_mode & 0o777) as file:
        try:
            done = _copy_entries(source, file)
            file.flush()
            os.fsync(file.fileno())
            disk.link(beside, target)
        finally:
            disk.remove(beside)
    return done


def _copy_entries(source: BinaryIO, target: BinaryIO) -> Copied:
    broken, count = "", 0
    target.write(HEADER)
    try:
        for count, entry in enumerate(entries(source), 1):
            target.write(OPEN + len(entry.data).to_bytes(LENGTH, "big") + entry.data)
    except Broken as fault:
        broken = str(fault)
    target.write(CLOSED)
    return Copied(count, target.tell(), broken)
