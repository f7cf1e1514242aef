#!/usr/bin/env python3
"""Refuses each allocation of the program in turn, and sees that it answers rightly nevertheless.

    refused.py PROGRAM [STEP]

`tests/refused.c`, which it builds with `cc`, is loaded into the program and refuses one call of `malloc` and its kin, and in a
second run that call and all behind it; each call, or each STEP-th, has its turn. A session is answered as docs/FORMATS.md says:
a request whose reply is `no memory` was not answered and changed nothing, and every other reply is that of the requests that
were. Or it ends with status 5 behind a whole reply. A large run writes its summary, or nothing and ends with status 5. It
prints how many calls were refused. Then sessions that store the longest texts have 64, 128 and 256 MB, and are judged alike.
"""
from __future__ import annotations

import os
import random
import resource
import subprocess
import sys
import tempfile
from typing import Callable, Dict, List, NamedTuple, Tuple

import hostile
import judged
from serve import put

HERE = os.path.dirname(os.path.abspath(__file__))
NO_MEMORY, ENDED = b"no memory\n", b"pijuld: memory\n"
LOAD = ["7", "200", "4"]
TEXT, TEXTS = 16_777_216, 24  # bytes of the longest text, and how many are stored


class Ran(NamedTuple):
    """What a run left: its status, what it wrote, and whether an allocation was refused."""

    status: int
    out: bytes
    error: bytes
    refused: bool


def run(words: List[str], library: str, refused: str, data: bytes) -> Ran:
    """Starts the program with these words; `N` or `N-` says what is refused."""
    reads, writes = os.pipe()
    environment = {**os.environ, "LD_PRELOAD": library, "REFUSED": refused, "TOLD": str(writes)}
    try:
        done = subprocess.run(words, input=data, capture_output=True, timeout=120, env=environment, pass_fds=[writes])
        os.close(writes)
        told = os.read(reads, 1)
    finally:
        os.close(reads)
    return Ran(done.returncode, done.stdout, done.stderr, told != b"")


# ---- sessions


def first_session() -> List[bytes]:
    """It stores, applies, prints, forks, and pulls both ways."""
    return [put(judged.A), b"apply main %s\n" % judged.A_NAME, b"print main\n", b"fork main a\n", b"new b\n", b"pull b a\n",
            b"pull a b\n", b"graph b\n", b"unrecord a %s\n" % judged.A_NAME, b"channels\n", b"inverse %s\n" % judged.A_NAME,
            b"uproot b %s\n" % judged.A_NAME, b"drop b\n", b"log main\n", b"get %s\n" % judged.A_NAME, b"journal\n"]


def drawn_session(seed: int) -> List[bytes]:
    """Requests for changes that need each other."""
    draw, known = random.Random(seed), judged.pool(seed, 20)
    stored = [put(one.text) for one in known] + [b"apply main %s\n" % one.name for one in known]
    return stored + [hostile.drawn_request(draw, known) for _ in range(40)]


def known_to(seed: int) -> List[judged.Known]:
    first = judged.Known(judged.A, judged.A_NAME, b"a.txt", b"one\ntw", None, (), True)
    return [first] + (judged.pool(seed, 20) if seed else [])


def is_right(requests: List[bytes], known: List[judged.Known], ran: Ran) -> bool:
    """Whether the replies are those of the requests that were answered."""
    repository, at = judged.Repository(known), 0
    for call, request in enumerate(requests, 1):
        if ran.out.startswith(NO_MEMORY, at):
            at += len(NO_MEMORY)
            continue
        if at == len(ran.out):  # it ended before its end
            return ran.status == 5 and ran.error == ENDED
        reply = repository.answer(request, 1, call)
        if not ran.out.startswith(reply, at):
            return False
        at += len(reply)
    return at == len(ran.out) and (ran.status, ran.error) in ((0, b""), (5, ENDED))


# ---- all refusals


def refuse_all(name: str, words: List[str], library: str, data: bytes, step: int, is_good: Callable[[Ran], bool]) -> int:
    """Refuses each call of a run, and then each with all behind it; says how many calls were refused alone."""
    whole = run(words, library, "0", data)
    assert is_good(whole) and whole.status == 0, f"{name} without a refusal: {whole}"
    count = 0
    kinds: Dict[int, int] = {}
    for mark in ("", "-"):
        call = 1
        while True:
            ran = run(words, library, f"{call}{mark}", data)
            if not ran.refused:
                break
            assert is_good(ran), f"{name}, call {call}{mark} refused: {ran.status}, {ran.error!r}, {ran.out[-2000:]!r}"
            kinds[ran.status] = kinds.get(ran.status, 0) + 1
            count += not mark
            call += step
    assert set(kinds) in ({5}, {0, 5}), f"{name}: the statuses are {kinds}"
    print(f"{name}: {count} calls refused, alone and with all behind them", flush=True)
    return count


def longest(number: int) -> judged.Known:
    """A change whose text is as long as a text may be."""
    short = judged.made(b"long%d" % number, b"x" * 10_000_000, None)
    length = 10_000_000 + TEXT - len(short.text)
    one = judged.made(b"long%d" % number, b"x" * length, None)
    text = one.text.replace(b"pijul change 1", b"pijul change 2", 1)
    assert len(text) == TEXT
    return one._replace(text=text, name=judged.change_name(text))


def limit_memory(program: str, megabytes: int) -> None:
    """A session that stores the longest texts, while the process has so much memory."""
    known = [longest(number) for number in range(TEXTS)]
    requests = [put(known[0].text), b"apply main %s\n" % known[0].name]
    for one in known:
        requests += [put(one.text), b"apply main %s\n" % one.name, b"get %s\n" % one.name, b"log main\n"]
    requests += [b"print main\n", b"fork main a\n", b"channels\n"]
    most = megabytes << 20
    done = subprocess.run([program, "one"], input=b"".join(requests) + b"quit\n", capture_output=True, timeout=120,
                          preexec_fn=lambda: resource.setrlimit(resource.RLIMIT_AS, (most, most)))
    ran = Ran(done.returncode, done.stdout, done.stderr, True)
    refusals = ran.out.count(b"\n" + NO_MEMORY)
    assert is_right(requests, known, ran), f"{megabytes} MB: {ran.status}, {ran.error!r}, {ran.out[-300:]!r}"
    assert refusals or ran.status == 5, f"{megabytes} MB were enough"
    print(f"{megabytes} MB: {refusals} replies of no memory, status {ran.status}", flush=True)


def summary() -> bytes:
    """What the large run writes, as it is worked out from the sets of changes alone."""
    words = [sys.executable, os.path.join(HERE, "large_run.py"), "summary", *LOAD]
    return subprocess.run(words, stdout=subprocess.PIPE, check=True).stdout


def main(words: List[str]) -> None:
    program, step = words[0], int(words[1]) if len(words) > 1 else 1
    with tempfile.TemporaryDirectory() as room:
        library = os.path.join(room, "refused.so")
        source = os.path.join(HERE, "refused.c")
        subprocess.run(["cc", "-O1", "-Wall", "-Wextra", "-shared", "-fPIC", "-o", library, source], check=True)
        sessions: List[Tuple[str, List[bytes], int]] = [("a session", first_session(), 0)]
        sessions += [(f"the drawn session {seed}", drawn_session(seed), seed) for seed in (1, 2)]
        for name, requests, seed in sessions:
            known, data = known_to(seed), b"".join(requests) + b"quit\n"
            refuse_all(name, [program, "one"], library, data, step if seed == 0 else 7 * step,
                       lambda ran, r=requests, k=known: is_right(r, k, ran))
        for megabytes in (64, 128, 256):
            limit_memory(program, megabytes)
        wanted = summary()
        refuse_all("a large run", [program, "load", *LOAD], library, b"", 701 * min(step, 3),
                   lambda ran: (ran.status, ran.out, ran.error) in ((0, wanted, b""), (5, b"", ENDED)))


if __name__ == "__main__":
    main(sys.argv[1:])
