#!/usr/bin/env python3
"""Every cut, limit, fault and opening of small sessions over an office in memory.

    python3 tests/faults.py cases >crates/test_sessions/data/faults
    python3 tests/faults.py <crates/test_sessions/data/faults

The first writes cases as the program `test_sessions` plays them as `office`: a session that stores, applies and prints, cut to
each length, under each limit, and over a source and a sink of one byte a call of which each call fails in turn; the same of
two scripts and of three connections; and each opening of each command. The second answers such cases. It was written from
docs/FORMATS.md, docs/MODEL.md ("Sessions") and docs/PROMISES.md, and shares no code with the program.

Sessions that are at work at once only read, or one of them alone is answered, so that what they are told has one order.
"""
from __future__ import annotations

import sys
from typing import Dict, Iterator, List, NamedTuple, Optional, Tuple

import requests
from judged import A, A_NAME, Known, Repository

MOST = 4_096  # bytes that a session asks for at once
STATUS = {"done": 0, "read fault": 3, "write fault": 4, "cut": 6, "bad": 6, "spent": 6}
LIMITS = b"65536 1073741824 4096 4194304 16384 %d"
ROW = b"put 102\n%s\napply main %s\nprint main\nquit\n" % (A, A_NAME)
LISTING, CHANNELS = b"log main\nnew main\nquit\n", b"channels\nquit\n"
WRITING, NOTHING = b"new c\nnew c\nquit\n", b"quit\n"


class Case(NamedTuple):
    """The words of a call, what sources and sinks are like, and what comes from outside."""

    title: bytes
    words: bytes
    session: int = 1_073_741_824  # the limit of bytes of a session
    take: int = 0  # bytes that a source gives at once; 0 for no bound
    take_failing: int = 0  # the call of a source that fails, from 1; 0 for none
    give: int = 0  # the same of a sink
    give_failing: int = 0
    open_failing: int = 0
    input: bytes = b""
    scripts: Tuple[Tuple[bytes, bytes], ...] = ()
    connections: Optional[Tuple[bytes, ...]] = None  # of the address x; None where there is none
    accept_failing: int = 0


# ---- the cases


def ways(front: bytes, case: Case, bytes_in: int, bytes_out: int) -> Iterator[Case]:
    """A source and a sink of one byte a call, of which each call fails in turn, and each limit."""
    for call in range(1, bytes_in + 2):
        yield case._replace(title=front + b" and a source whose call %d fails" % call, take=1, take_failing=call)
    for call in range(1, bytes_out + 2):
        yield case._replace(title=front + b" and a sink whose call %d fails" % call, give=1, give_failing=call)
    for limit in range(1, bytes_in + 2):
        yield case._replace(title=front + b" under a limit of %d" % limit, session=limit)


def cases_of_one() -> Iterator[Case]:
    """One session."""
    one = Case(b"", b"one", input=ROW)
    for length in range(len(ROW) + 1):
        yield one._replace(title=b"a session cut to %d bytes" % length, input=ROW[:length])
    yield from ways(b"a session", one, len(ROW), 110)
    without_quit = one._replace(input=ROW[:198])
    yield without_quit._replace(title=b"a session without its end under a limit of its length", session=198)
    yield without_quit._replace(title=b"a session without its end under a limit above its length", session=199)
    for opening in range(1, 4):
        yield one._replace(title=b"a session and opening %d fails" % opening, open_failing=opening)


def scripts(first: bytes, second: bytes) -> Case:
    return Case(b"", b"run a b", scripts=((b"a", first), (b"b", second)))


def cases_of_run() -> Iterator[Case]:
    """Two scripts at once."""
    for length in range(len(LISTING)):
        yield scripts(LISTING[:length], CHANNELS)._replace(title=b"two scripts and the first cut to %d bytes" % length)
    for length in range(len(CHANNELS)):
        yield scripts(LISTING, CHANNELS[:length])._replace(title=b"two scripts and the second cut to %d bytes" % length)
    yield scripts(LISTING[:11], CHANNELS[:5])._replace(title=b"two scripts and both cut")
    yield from ways(b"two scripts", scripts(LISTING, CHANNELS), len(LISTING), 18)
    yield from ways(b"two scripts of which one writes", scripts(WRITING, NOTHING), len(WRITING), 16)
    yield from ways(b"two scripts of which the second writes", scripts(NOTHING, WRITING), len(WRITING), 16)
    for opening in range(1, 7):
        yield scripts(WRITING, NOTHING)._replace(title=b"two scripts and opening %d fails" % opening, open_failing=opening)


def cases_of_serve() -> Iterator[Case]:
    """Three connections shared by two workers."""
    whole = (CHANNELS, LISTING, CHANNELS)
    serve = Case(b"", b"serve x --sessions 3 --workers 2", connections=whole)
    for number, data in enumerate(whole):
        for length in range(len(data)):
            cut = (*whole[:number], data[:length], *whole[number + 1:])
            yield serve._replace(title=b"three connections and number %d cut to %d bytes" % (number + 1, length), connections=cut)
    yield from ways(b"three connections", serve, len(LISTING), 18)
    for call in range(1, 4):
        yield serve._replace(title=b"three connections and doors whose call %d fails" % call, accept_failing=call)
    for opening in range(1, 3):
        yield serve._replace(title=b"three connections and opening %d fails" % opening, open_failing=opening)


def all_cases() -> Iterator[Case]:
    yield from cases_of_one()
    yield from cases_of_run()
    yield from cases_of_serve()


def piece(data: bytes) -> bytes:
    return b"1\n%d 1\n%s\n" % (len(data), data) if data else b"0\n"


def line_of(case: Case) -> bytes:
    """The bytes of a case."""
    kind = b"shown" if case.connections is None else b"served"
    parts = [b"%s %s\n%s\n%s\n" % (kind, case.title, case.words, LIMITS % case.session)]
    numbers = case.take, case.take_failing, case.give, case.give_failing, case.open_failing
    parts.append(b"%d %d %d %d %d\n" % numbers)
    parts.append(piece(case.input))
    parts.append(b"%d\n" % len(case.scripts))
    parts += [path + b"\n" + piece(data) for path, data in case.scripts]
    if case.connections is not None:
        parts.append(b"%d\nx\n%d\n" % (case.accept_failing, len(case.connections)))
        parts += [piece(data) for data in case.connections]
    return b"".join(parts)


# ---- the reading of cases


class Lines:
    """The bytes of cases, read part by part."""

    def __init__(self, data: bytes):
        self.data = data
        self.at = 0

    def line(self) -> bytes:
        end = self.data.index(b"\n", self.at)
        line, self.at = self.data[self.at:end], end + 1
        return line

    def numbers(self) -> List[int]:
        return [int(word) for word in self.line().split()]

    def bytes(self) -> bytes:
        found = []
        for _ in range(self.numbers()[0]):
            length, times = self.numbers()
            found.append(self.data[self.at:self.at + length] * times)
            self.at += length
            assert self.line() == b""
        return b"".join(found)


def next_case(lines: Lines) -> Case:
    kind, _, title = lines.line().partition(b" ")
    words, limits, numbers = lines.line(), lines.numbers(), lines.numbers()
    case = Case(title, words, limits[5], *numbers, input=lines.bytes())
    case = case._replace(scripts=tuple((lines.line(), lines.bytes()) for _ in range(lines.numbers()[0])))
    if kind == b"served":
        failing, address, count = lines.numbers()[0], lines.line(), lines.numbers()[0]
        assert address == b"x"
        case = case._replace(accept_failing=failing, connections=tuple(lines.bytes() for _ in range(count)))
    return case


# ---- the answers


class Played(NamedTuple):
    """A session: its pass, how it ended, what is left of its source, and what its sink with this label was given."""

    number: int
    end: str
    left: int
    wrote: bytes
    label: bytes


class Outside:
    """A source and a sink, which fail as the case says."""

    def __init__(self, case: Case, data: bytes):
        self.case = case
        self.data = data
        self.taken = self.takes = 0
        self.wrote = b""

    def take(self) -> Optional[bytes]:
        """The next bytes; None at a fault."""
        self.takes += 1
        if self.takes == self.case.take_failing:
            return None
        most = min(MOST, self.case.session - self.taken, self.case.take or MOST)
        found = self.data[self.taken:self.taken + most]
        self.taken += len(found)
        return found

    def give(self, reply: bytes) -> bool:
        """Writes all of a reply, or, at a fault, what comes before it."""
        if self.case.give_failing == 0:
            self.wrote += reply
            return True
        assert self.case.give == 1, "how many calls a reply takes is not said"
        room = self.case.give_failing - 1 - len(self.wrote)
        self.wrote += reply[:room]
        return len(reply) <= room


def ended(repository: Repository, number: int, outside: Outside) -> str:
    """Answers the requests of a session, and says how it ended."""
    left, call = b"", 0
    while True:
        line, count = requests.first(left) if left else ("part", 0)
        if line == "bad":
            return "bad"
        if line == "quit":
            return "done"
        if count:
            call += 1
            if not outside.give(repository.answer(left[:count], number, call)):
                return "write fault"
            left = left[count:]
            continue
        if outside.taken == outside.case.session:
            return "spent"
        more = outside.take()
        if more is None:
            return "read fault"
        if more == b"":
            return "cut" if left else "done"
        left += more


def session(repository: Repository, case: Case, number: int, data: bytes, label: bytes) -> Played:
    outside = Outside(case, data)
    end = ended(repository, number, outside)
    return Played(number, end, len(data) - outside.taken, outside.wrote, label)


def status(ends: List[Tuple[int, str]]) -> int:
    """That of the first end other than `done`, by rising pass."""
    return next((STATUS[end] for _, end in sorted(ends) if end != "done"), 0)


def told(code: int, ends: List[Tuple[int, str]], repository: Repository, kept: List[Played]) -> List[bytes]:
    """What is shown of sessions."""
    parts = [b"status %d\n" % code]
    parts += [b"pass %d ended %s\n" % (number, end.encode()) for number, end in ends]
    parts += [line + b"\n" for line in repository.journal]
    for one in kept:
        parts.append(b"pass %d kept\nleft %d\n" % (one.number, one.left))
        parts.append(b"wrote %d to '%s'\n%s\n" % (len(one.wrote), one.label, one.wrote))
    return parts


def opened(case: Case, kinds: str) -> Optional[Tuple[int, int, int]]:
    """The status and how many openings to read and to write failed, where one of these kinds in turn did."""
    if not 1 <= case.open_failing <= len(kinds):
        return None
    return (3, 1, 0) if kinds[case.open_failing - 1] == "r" else (4, 0, 1)


def sources(case: Case) -> List[Tuple[bytes, bytes]]:
    """The bytes of each source of `one` or `run`, and the label of its sink."""
    if case.words == b"one":
        return [(case.input, b"")]
    paths = dict(case.scripts)
    return [(paths[path], path + b".out") for path in case.words.split()[1:]]


def answer_refused(case: Case, repository: Repository, code: int) -> List[bytes]:
    """What an opening that failed leaves: the pairs that were opened before it, and a source without its sink, all untouched."""
    if case.words.startswith(b"serve "):
        return told(code, [], repository, [])
    pairs, alone = divmod(case.open_failing - 1, 2)
    pairs_of = sources(case)
    kept = [Played(number, "", len(data), b"", label) for number, (data, label) in enumerate(pairs_of[:pairs], 1)]
    parts = told(code, [], repository, kept)
    if alone:
        parts.append(b"the input\nleft %d\n" % len(pairs_of[pairs][0]))
    return parts


def answer_sessions(case: Case, repository: Repository) -> List[bytes]:
    """`one` and `run`."""
    kept = [session(repository, case, number, data, label) for number, (data, label) in enumerate(sources(case), 1)]
    ends = [(one.number, one.end) for one in kept]
    if case.words == b"one":
        return told(status(ends), ends, repository, kept)
    out = Outside(case, b"")
    is_written = out.give(b"".join(line + b"\n" for line in repository.journal))
    parts = told(status(ends) or (0 if is_written else 4), ends, repository, kept)
    return [*parts, b"the output\nwrote %d to ''\n%s\n" % (len(out.wrote), out.wrote)]


def answer_serve(case: Case, repository: Repository) -> List[bytes]:
    """`serve`: the workers have the first passes, and the sessions those behind them."""
    words = case.words.split()
    count, workers = int(words[3]), int(words[5])
    shares = [count // workers + (number < count % workers) for number in range(workers)]
    assert count == len(case.connections)
    waiting, number = list(case.connections), workers
    kept, stopped, doors = [], [], []
    for worker, share in enumerate(shares, 1):
        given = share
        if 1 <= case.accept_failing <= share:
            given = case.accept_failing - 1
            stopped.append((worker, "read fault"))
        for at in range(given):
            kept.append(session(repository, case, number + at + 1, waiting[at], b"%d" % (at + 1)))
        waiting, number = waiting[share:], number + share
        doors.append((share - given, int(given < share)))
    ends = stopped + [(one.number, one.end) for one in kept]
    return told(status(ends), ends, repository, kept) + [b"door left %d failed %d\n" % door for door in doors]


# of one the input and the output; of two scripts each with its replies, and the output; of serve the address with all its doors
OPENINGS: Dict[bytes, str] = {b"one": "rw", b"run": "rwrww", b"serve": "r"}


def answer(case: Case) -> bytes:
    """What is shown of a case."""
    command = case.words.split()[0]
    repository = Repository([Known(A, A_NAME, b"a.txt", b"one\ntw", None, (), True)])
    refused = opened(case, OPENINGS[command])
    if refused:
        parts, failed = answer_refused(case, repository, refused[0]), refused[1:]
    else:
        parts, failed = (answer_serve if command == b"serve" else answer_sessions)(case, repository), (0, 0)
    return b"%s\n%sopenings that failed: %d to read, %d to write\n\n" % (case.title, b"".join(parts), *failed)


def main(words: List[str]) -> None:
    if words == ["cases"]:
        sys.stdout.buffer.writelines(line_of(case) for case in all_cases())
        return
    lines = Lines(sys.stdin.buffer.read())
    while lines.at < len(lines.data):
        sys.stdout.buffer.write(answer(next_case(lines)))


if __name__ == "__main__":
    main(sys.argv[1:])
