#!/usr/bin/env python3
"""Judges what sessions of one server were told, by the server's journal and nothing else of it.

It was written from docs/FORMATS.md and docs/MODEL.md alone and shares no code with the program.
Requests are read by `requests.py` and texts by `reader.py`. The changes that are applied are those
of a `pool`, whose prints and graphs can be said at once: each makes one file, empty or with one
insertion, or one directory, in the root or in the directory of another change.

`judged.py` alone tries the judge on histories that were made by hand.
"""
from __future__ import annotations

import random
import sys
from typing import Callable, Dict, Iterable, Iterator, List, NamedTuple, Optional, Tuple

import reader
import requests
from conversing import Session
from replay import change_name

# limits of the program
CHANGES, BYTES, CHANNELS, ENTRIES = 65_536, 1_073_741_824, 4_096, 4_194_304
WINDOW = 4_096  # bytes that are looked at first
WRITES = (b"put", b"new", b"fork", b"drop", b"apply", b"unrecord", b"uproot", b"pull")


# ---- changes


class Known(NamedTuple):
    """A change that makes one file or directory, or whose context never holds."""

    text: bytes
    name: bytes
    file: bytes
    content: Optional[bytes]  # None of a directory
    parent: Optional[bytes]  # the change of the directory in which it is; None for the root
    needs: Tuple[bytes, ...]
    holds: bool

    @property
    def spans(self) -> List[Tuple[int, int]]:
        """The positions that its inverse deletes, hunk by hunk."""
        length = len(self.content or b"")
        if not self.holds:
            return [(0, length)]
        return [(0, 1)] + ([(2, 2 + length)] if length else [])

    @property
    def inverse(self) -> bytes:
        """The text of its inverse."""
        by_and_at = self.text.splitlines()[2:4]
        lines = [b"pijul change 2", b"message inverse " + self.name, *by_and_at, b"needs " + self.name]
        lines += [b"delete 1.%d-%d by 1" % span for span in self.spans]
        return b"\n".join(lines) + b"\nend\n"


def made(file: bytes, content: Optional[bytes], parent: Optional[Known], others: Iterable[bytes] = ()) -> Known:
    """The change that makes this file, or, without content, this directory; it needs `others` too."""
    names = set(others) | ({parent.name} if parent else set())
    needs = tuple(sorted(names))
    where = b"%d.1" % (needs.index(parent.name) + 1) if parent else b"root"
    lines = [b"pijul change 1", b"message m", b"author ann", b"time 7", *(b"needs " + need for need in needs)]
    lines.append((b"dir %s %s" if content is None else b"file %s %s") % (where, file))
    if content:
        lines += [b"insert 0.1 after 0.1 before - %d" % len(content), content]
    text = b"\n".join(lines) + b"\nend\n"
    return Known(text, change_name(text), file, content, parent.name if parent else None, needs, True)


def broken(need: Known, content: bytes) -> Known:
    """A change that inserts behind a position that its need has not, so that no context holds."""
    text = (b"pijul change 1\nmessage m\nauthor ann\ntime 7\nneeds %s\ninsert 1.1 after 1.4000000 before - %d\n%s\nend\n"
            % (need.name, len(content), content))
    return Known(text, change_name(text), b"", content, None, (need.name,), False)


def pool(seed: int, count: int) -> List[Known]:
    """So many changes. Some files have one name, some directories are deep, some contexts do not hold."""
    draw = random.Random(seed)
    found = [made(b"d0", None, None)]
    while len(found) < count:
        kind = draw.randrange(10)
        parent = draw.choice([None] + [one for one in found if one.content is None])
        file = b"%c%d" % (b"fgh"[draw.randrange(3)], draw.randrange(count))
        others = [one.name for one in draw.sample(found, min(len(found), draw.choice([0, 0, 1, 2])))]
        content = bytes(draw.choice(b"ab \n\x00\xff") for _ in range(draw.randrange(40)))
        if kind == 0:
            found.append(broken(draw.choice([one for one in found if one.holds]), content or b"x"))
        else:
            found.append(made(file, None if kind < 4 else content, parent, others))
    return [one for number, one in enumerate(found) if one not in found[:number]]


# ---- a channel


def paths(changes: List[Known]) -> Iterator[Tuple[bytes, Known]]:
    """The path of each change, in the order of a print."""
    within: Dict[Optional[bytes], List[Known]] = {}
    for one in changes:
        within.setdefault(one.parent, []).append(one)

    def walk(parent: Optional[bytes], front: bytes) -> Iterator[Tuple[bytes, Known]]:
        children = sorted(within.get(parent, []), key=lambda one: (one.file, one.name))
        for one in children:
            twice = sum(other.file == one.file for other in children) > 1
            path = front + one.file + (b"~%s.1" % one.name if twice else b"")
            yield path, one
            yield from walk(one.name, path + b"/")

    return walk(None, b"")


def printed(changes: List[Known]) -> bytes:
    """The print."""
    entries = []
    for path, one in paths(changes):
        if one.content is None:
            entries.append(b"dir alive %s\n" % path)
        else:
            entries.append(b"file alive %d %s\n%s\n" % (len(one.content), path, one.content))
    return b"".join(entries)


def graph(changes: List[Known]) -> bytes:
    """The vertices, and the edges."""
    lines, edges = [], []
    for one in sorted(changes, key=lambda one: one.name):
        own = (one.name, 0), (one.name, 1), (one.name, 2)
        lines.append(b"vertex %s.0-1 name alive\n" % one.name)
        lines.append(b"vertex %s.1-2 %s alive\n" % (one.name, b"dir" if one.content is None else b"file"))
        edges.append(((one.parent, 1) if one.parent else (), own[0], b"folder", one.name))
        edges.append((own[0], own[1], b"folder", one.name))
        if one.content:
            lines.append(b"vertex %s.2-%d text alive\n" % (one.name, 2 + len(one.content)))
            edges.append((own[1], own[2], b"block", one.name))
    for source, target, label, change in sorted(edges):
        begin = b"%s.%d" % source if source else b"root"
        lines.append(b"edge %s %s.%d %s alive %s\n" % (begin, *target, label, change))
    return b"".join(lines)


# ---- the repository


class Refused(Exception):
    """A request is refused, with this reason."""


class Repository:
    """What is stored and in which channel, after the entries so far."""

    def __init__(self, known: Iterable[Known]):
        self.known = {one.name: one for one in known}
        self.store: Dict[bytes, bytes] = {}
        self.stored = 0
        self.channels: Dict[bytes, Tuple[bytes, ...]] = {b"main": ()}
        self.journal: List[bytes] = []
        self.memory: Dict[Tuple[bytes, Tuple[bytes, ...]], bytes] = {}

    @property
    def place(self) -> int:
        return len(self.journal)

    def answer(self, request: bytes, number: int, call: int) -> bytes:
        """The reply to a request that is this call of the pass of this number; it is entered where it can be."""
        line, _, text = request[:-1].partition(b"\n")
        words = line.split(b" ")
        try:
            if words[0] == b"put":
                return self.put(text, number, call)
            if words[0] in WRITES:
                return self.write(words, number, call)
            body = self.body(words)
        except Refused as reason:
            return b"no %d %s\n" % (self.place, reason.args[0])
        return b"ok %d %d\n%s\n" % (self.place, len(body), body)

    def enter(self, number: int, call: int, write: bytes) -> bytes:
        if self.place >= ENTRIES:
            raise Refused(b"full journal")
        self.journal.append(b"%d %d %d %s" % (self.place + 1, number, call, write))
        return b"ok %d" % self.place

    def put(self, text: bytes, number: int, call: int) -> bytes:
        if reader.answer(text)[1] != 0:
            raise Refused(b"malformed")
        name = change_name(text)
        if name in self.store:
            return b"ok %d already %s\n" % (self.place, name)
        if len(self.store) >= CHANGES or self.stored + len(text) > BYTES:
            raise Refused(b"full store")
        reply = self.enter(number, call, b"put " + name)
        self.store[name] = text
        self.stored += len(text)
        return b"%s %s\n" % (reply, name)

    def write(self, words: List[bytes], number: int, call: int) -> bytes:
        found = self.step(words)
        if found is None:
            return b"ok %d already\n" % self.place
        reply = self.enter(number, call, b" ".join(words)) + b"\n"
        self.channels = found
        return reply

    def changes(self, channel: bytes) -> Tuple[bytes, ...]:
        if channel not in self.channels:
            raise Refused(b"channel")
        return self.channels[channel]

    def change(self, name: bytes) -> Known:
        if name not in self.store:
            raise Refused(b"change")
        assert name in self.known, "a change is asked for that is none of the pool"
        return self.known[name]

    def step(self, words: List[bytes]) -> Optional[Dict[bytes, Tuple[bytes, ...]]]:
        """The channels after a write; `None` where the change is there already."""
        verb, channel = words[:2]
        if verb == b"new":
            return self.added(channel, ())
        if verb == b"fork":
            return self.added(words[2], self.changes(channel))
        listed = self.changes(channel)
        if verb == b"drop":
            return {name: other for name, other in self.channels.items() if name != channel}
        if verb == b"pull":
            there = set(listed)
            listed += tuple(name for name in self.changes(words[2]) if name not in there)
        else:
            one = self.change(words[2])
            if verb == b"apply" and one.name in listed:
                return None
            listed = {b"apply": self.applied, b"unrecord": self.unrecorded, b"uproot": self.uprooted}[verb](listed, one)
        return {**self.channels, channel: listed}

    def added(self, channel: bytes, listed: Tuple[bytes, ...]) -> Dict[bytes, Tuple[bytes, ...]]:
        if channel in self.channels:
            raise Refused(b"taken")
        if len(self.channels) >= CHANNELS:
            raise Refused(b"full channels")
        return {**self.channels, channel: listed}

    def applied(self, listed: Tuple[bytes, ...], one: Known) -> Tuple[bytes, ...]:
        for need in one.needs:
            if need not in listed:
                raise Refused(b"needs " + need)
        if not one.holds:
            raise Refused(b"context 0")
        return (*listed, one.name)

    def unrecorded(self, listed: Tuple[bytes, ...], one: Known) -> Tuple[bytes, ...]:
        if one.name not in listed:
            raise Refused(b"absent")
        holders = [name for name in listed if one.name in self.known[name].needs]
        if holders:
            raise Refused(b"held " + min(holders))
        return tuple(name for name in listed if name != one.name)

    def uprooted(self, listed: Tuple[bytes, ...], one: Known) -> Tuple[bytes, ...]:
        if one.name not in listed:
            raise Refused(b"absent")
        gone = {one.name}
        for name in listed:  # in which needs stand first
            if gone.intersection(self.known[name].needs):
                gone.add(name)
        return tuple(name for name in listed if name not in gone)

    def body(self, words: List[bytes]) -> bytes:
        verb = words[0]
        if verb == b"channels":
            return b"".join(b"%s %d\n" % (name, len(listed)) for name, listed in sorted(self.channels.items()))
        if verb == b"journal":
            return b"".join(line + b"\n" for line in self.journal)
        if verb == b"get":
            if words[1] not in self.store:
                raise Refused(b"change")
            return self.store[words[1]]
        if verb == b"inverse":
            return self.change(words[1]).inverse
        listed = self.changes(words[1])
        if verb == b"log":
            return b"".join(name + b"\n" for name in listed)
        return self.kept(printed if verb == b"print" else graph, listed)

    def kept(self, work: Callable[[List[Known]], bytes], listed: Tuple[bytes, ...]) -> bytes:
        """A print or a graph, which is worked out once."""
        key = work.__name__.encode(), listed
        if key not in self.memory:
            if len(self.memory) > 1_000:
                self.memory.clear()
            self.memory[key] = work([self.known[name] for name in listed])
        return self.memory[key]


# ---- what was told


class Call(NamedTuple):
    """A request, which call of which session it was, and the reply, where one came."""

    session: int
    call: int
    request: bytes
    reply: bytes

    @property
    def place(self) -> int:
        return int(self.reply.split(None, 2)[1])

    @property
    def entered(self) -> bool:
        """Whether the reply says that the request was entered."""
        words = self.reply.partition(b"\n")[0].split(b" ")
        return words[0] == b"ok" and words[2:3] != [b"already"] and not has_body(self.request)


def asked(sent: bytes) -> Tuple[List[bytes], str]:
    """The requests of a session, but for `quit`, and what comes behind them: `quit`, `idle`, `part` or `bad`."""
    found, at, most = [], 0, WINDOW
    while at < len(sent):
        line, count = requests.first(sent[at:at + most])
        if line == "part" and at + most < len(sent):
            most *= 2
            continue
        if count == 0 or line == "quit":
            return found, line
        found.append(sent[at:at + count])
        at, most = at + count, WINDOW
    return found, "idle"


def bytes_behind(sent: bytes) -> bool:
    """Whether a session ends before all its bytes are read: behind a `quit`, or at what is no request."""
    found, end = asked(sent)
    return end == "bad" or end == "quit" and sum(map(len, found)) + len(b"quit\n") < len(sent)


def has_body(request: bytes) -> bool:
    """Whether it is answered with a body, where it is not refused."""
    return request.partition(b"\n")[0].split(b" ")[0] not in WRITES


def calls_of(number: int, session: Session) -> Iterator[Call]:
    """The requests of a session, each with its reply; without one where the session was not read to its end."""
    found, at = asked(session.sent)[0], 0
    for call, request in enumerate(found, 1):
        end = session.came.find(b"\n", at) + 1
        if end == 0:
            assert not session.whole, f"{request[:80]!r} has no reply"
            yield Call(number, call, request, b"")
            continue
        words = session.came[at:end - 1].split(b" ")
        assert len(words) > 1 and words[0] in (b"ok", b"no") and words[1].isdigit(), f"no reply: {words}"
        if words[0] == b"ok" and has_body(request):
            end += int(words[2]) + 1
        yield Call(number, call, request, session.came[at:end] if end <= len(session.came) else b"")
        at = end
    assert not session.whole or at == len(session.came), "bytes behind the last reply"


class Judge:
    """Sees that all replies are those of one history, and that each entry was asked for."""

    def __init__(self, known: Iterable[Known], sessions: List[Session]):
        self.repository = Repository(known)
        self.passes: Dict[int, int] = {}  # the session of each pass
        self.calls = [list(calls_of(number, session)) for number, session in enumerate(sessions)]
        self.told: Dict[int, List[Call]] = {}
        self.made: Dict[int, Call] = {}
        self.unread: Dict[bytes, int] = {}  # the session that alone asks for a write, of those without replies
        for calls in self.calls:
            places = [one.place for one in calls if one.reply]
            assert places == sorted(places), "the places of a session fall"
            for one in calls:
                self.note(one)

    def note(self, one: Call) -> None:
        if not one.reply:
            self.unread[written(one.request)] = one.session
        elif one.entered:
            assert one.place not in self.made, "two sessions have one entry"
            self.made[one.place] = one
        else:
            self.told.setdefault(one.place, []).append(one)

    def asked_by(self, place: int, number: int, call: int, write: bytes) -> Call:
        """The call that was entered: the one that was told so, or one whose reply was not read."""
        one = self.made.pop(place, None)
        session = one.session if one else self.passes.get(number, self.unread.get(write))
        assert session is not None, f"an entry of nobody: {write!r}"
        assert self.passes.setdefault(number, session) == session, f"pass {number} has two sessions"
        assert call <= len(self.calls[session]), f"call {call} of pass {number} was not made"
        found = self.calls[session][call - 1]
        assert found is one or one is None and not found.reply, f"entry {place} is another call: {found}"
        assert written(found.request) == write, (found.request, write)
        return found

    def replies(self) -> None:
        """Sees that the replies of the place so far are right."""
        for one in self.told.pop(self.repository.place, []):
            wanted = self.repository.answer(one.request, 0, 0)
            assert one.reply == wanted, f"{one.request[:200]!r} is answered {one.reply[:200]!r} and not {wanted[:200]!r}"

    def judge(self, journal: bytes) -> None:
        """Goes through the body of a reply to `journal` that came behind all others."""
        self.replies()
        for place, line in enumerate(journal.splitlines(), 1):
            if place in self.made:
                self.passes.setdefault(int(line.split(b" ", 2)[1]), self.made[place].session)
        for place, line in enumerate(journal.splitlines(), 1):
            at, number, call, write = line.split(b" ", 3)
            assert int(at) == place, f"entry {place} is {line!r}"
            one = self.asked_by(place, int(number), int(call), write)
            wanted = self.repository.answer(one.request, int(number), int(call))
            assert self.repository.place == place, f"{one.request[:200]!r} is entered and not answered {wanted[:200]!r}"
            assert one.reply in (b"", wanted), f"{one.request[:200]!r} is answered {one.reply!r} and not {wanted!r}"
            self.replies()
        assert not self.made, f"entries are lost: {self.made}"
        assert not self.told, f"places behind the journal: {self.told}"
        assert len(set(self.passes.values())) == len(self.passes), "two passes have one session"
        assert b"".join(line + b"\n" for line in self.repository.journal) == journal


def written(request: bytes) -> bytes:
    """The write of an entry of this request."""
    line, _, text = request[:-1].partition(b"\n")
    return b"put " + change_name(text) if line.startswith(b"put ") else line


def judge(known: Iterable[Known], sessions: List[Session], journal: bytes) -> int:
    """Sees that all that sessions were told is one history; says how many requests were answered."""
    court = Judge(known, sessions)
    court.judge(journal)
    return sum(bool(one.reply) for calls in court.calls for one in calls)


# ---- histories that were made by hand

A = (b"pijul change 1\nmessage A\nauthor ann\ntime 1\nfile root a.txt\n"
     b"insert 0.1 after 0.1 before - 6\none\ntw\nend\n")
A_NAME = b"4fdb5ea24421e6566f44e8d89fdde3a1c382dbec6da2808f7c88bcaf8b62d12e"
A_INVERSE = (b"pijul change 2\nmessage inverse %s\nauthor ann\ntime 1\nneeds %s\n"
             b"delete 1.0-1 by 1\ndelete 1.2-8 by 1\nend\n" % (A_NAME, A_NAME))
A_GRAPH = """vertex A.0-1 name alive
vertex A.1-2 file alive
vertex A.2-8 text alive
edge root A.0 folder alive A
edge A.0 A.1 folder alive A
edge A.1 A.2 block alive A
""".replace("A", A_NAME.decode()).encode()
STORED = b"1 2 1 put %s\n" % A_NAME
JOURNAL = STORED + b"2 2 2 apply main %s\n3 3 2 new a\n" % A_NAME
ONE = Session(
    b"put 102\n%s\napply main %s\nprint main\ngraph main\ninverse %s\nquit\nlog main\n" % (A, A_NAME, A_NAME),
    b"ok 1 %s\nok 2\nok 2 26\nfile alive 6 a.txt\none\ntw\n\nok 2 %d\n%s\nok 3 225\n%s\n"
    % (A_NAME, len(A_GRAPH), A_GRAPH, A_INVERSE),
    True)
OTHER = Session(b"log main\nnew a\nnew a\nchan", b"ok 1 0\n\nok 3\nno 3 taken\n", True)
GOOD = [
    ([ONE, OTHER], JOURNAL),
    ([ONE._replace(sent=ONE.sent.replace(b"quit\n", b"x"), came=ONE.came.replace(b"ok 3 2", b"ok 2 2"))],
     JOURNAL[:-len(b"3 3 2 new a\n")]),
    ([ONE, OTHER._replace(came=b"ok 1 0\n\nok", whole=False)], JOURNAL),
    ([ONE, OTHER, Session(b"new b\nlog main\n", b"", False)], JOURNAL + b"4 9 1 new b\n"),
    ([ONE, OTHER, Session(b"new b\nlog main\n", b"", False)], JOURNAL),
]


def wrong_histories() -> Iterator[Tuple[List[Session], bytes]]:
    """Histories that no server may tell."""
    yield [ONE, OTHER], JOURNAL[:-len(b"3 3 2 new a\n")]  # an entry is lost
    yield [ONE], JOURNAL  # an entry of nobody
    yield [ONE, ONE, OTHER], JOURNAL  # one entry was told to two
    yield [ONE, OTHER], JOURNAL.replace(b"2 2 2", b"2 3 2")  # a session in two passes
    yield [ONE, OTHER], JOURNAL.replace(b"3 3 2", b"3 2 2")  # two sessions in one pass
    yield [ONE, OTHER], JOURNAL.replace(b"3 3 2", b"3 3 1")  # another call of the session
    yield [ONE, OTHER], JOURNAL.replace(b"3 3 2", b"4 3 2")
    yield [ONE, OTHER], JOURNAL.replace(b"new a", b"new b")
    for old, new in ((b"26\n", b"27\n"), (b"alive", b"zombie"), (b"ok 2 26", b"ok 1 26"), (b"ok 3 225", b"ok 4 225"),
                     (b"block", b"order"), (b"1.2-8", b"1.2-7"), (b"ok 2\n", b"ok 2 already\n"), (b"ok 1 4", b"ok 1 5"),
                     (b"ok 3 225\n" + A_INVERSE + b"\n", b"")):
        yield [ONE._replace(came=ONE.came.replace(old, new, 1)), OTHER], JOURNAL
    yield [ONE._replace(came=ONE.came + b"\n"), OTHER], JOURNAL
    for old, new in ((b"1 0", b"2 0"), (b"no 3 taken", b"no 3 channel"), (b"no 3 taken", b"no 2 taken"),
                     (b"no 3 taken", b"no memory")):
        yield [ONE, OTHER._replace(came=OTHER.came.replace(old, new))], JOURNAL
    yield [ONE, OTHER, Session(b"new b\nlog main\n", b"", False)], JOURNAL + b"4 9 2 new b\n"
    yield [ONE, OTHER, Session(b"new a\nlog main\n", b"", False)], JOURNAL + b"4 9 1 new a\n"


def try_judge() -> None:
    """The judge lets through what a server may tell, and nothing else."""
    known = [Known(A, A_NAME, b"a.txt", b"one\ntw", None, (), True)]
    for sessions, journal in GOOD:
        assert judge(known, sessions, journal) >= 5
    for sessions, journal in wrong_histories():
        try:
            judge(known, sessions, journal)
        except (AssertionError, ValueError):
            continue
        raise AssertionError(f"a wrong history was let through: {sessions}, {journal!r}")


if __name__ == "__main__":
    try_judge()
    print("the judge tells histories of one server")
    sys.exit(0)
