#!/usr/bin/env python3
"""Runs `PROGRAM keep FILE` over real files, and compares what it does with the independent model of keep.py.

    kept.py PROGRAM [--long] [SEED]

It stops the program by SIGKILL at drawn moments while it writes, 30 times, with `--long` 200 times: then every request whose
reply came is in the file, in order, and at most one more. It fills disks, flips each bit of a stored file, opens what crashes
leave, closes standard streams, holds the file in another process, and hands it what is no file of a kept repository. A kill
loses nothing that the system was told to write, so that the program syncs is seen in its calls of the system, where `strace`
is there. Some parts need a right: to mount a small disk, and to be another user. Where it is missing, that is said.
"""
from __future__ import annotations

import concurrent.futures
import contextlib
import os
import random
import resource
import shutil
import signal
import subprocess
import sys
import tempfile
import threading
import time
from pathlib import Path
from typing import Callable, Iterator, List, NamedTuple, Optional, Sequence

import disk
import judged
import keep
from judged import Known
from keep import KNOWN_A, PRINT, ROW, ROW_FILE

PATIENCE = 120  # seconds
READ_FAULT, WRITE_FAULT, STORE_FAULT = 3, 4, 8
ASKING = b"journal\nchannels\nlog main\nprint main\ngraph main\n"
NOBODY = 65_534
TOLD = {3: "read fault", 4: "write fault", 6: "session", 7: "journal", 8: "store fault"}
LINES = {0: b"", **{status: f"pijuld: {told}\n".encode() for status, told in TOLD.items()}}


class Ended(NamedTuple):
    """How a run of the program ended."""

    status: int
    replies: bytes
    told: bytes  # on standard error


def run(program: str, file: Path, sent: bytes, before: Optional[Callable[[], None]] = None, room: Optional[Path] = None) -> Ended:
    """A session over the file; `before` is called in the new process, before the program is."""
    made = subprocess.run([program, "keep", str(file)], input=sent, stdout=subprocess.PIPE, stderr=subprocess.PIPE,
                          timeout=PATIENCE, preexec_fn=before, cwd=room or file.parent)
    return Ended(made.returncode, made.stdout, made.stderr)


def check(program: str, file: Path, known: List[Known], sent: bytes) -> Ended:
    """A session that has to do what the model does, to the last byte of the file. A file that is not there has no bytes."""
    old = file.read_bytes() if file.exists() else b""
    wanted = keep.kept(old, known, sent)
    ended = run(program, file, sent)
    assert ended == (wanted.status, wanted.replies, LINES[wanted.status]), f"{old!r} with {sent!r}: {ended} and not {wanted}"
    assert file.read_bytes() == wanted.file, f"{old!r} with {sent!r} becomes {file.read_bytes()!r} and not {wanted.file!r}"
    return ended


# ---- files as they are


def try_worked(program: str, room: Path) -> None:
    """The worked examples of the model."""
    for number, (file, sent, wanted) in enumerate(keep.WORKED):
        path = room / f"worked{number}"
        if file:
            path.write_bytes(file)
        ended = check(program, path, [KNOWN_A], sent)
        assert (ended.status, ended.replies, path.read_bytes()) == wanted


def try_flips(program: str, room: Path) -> str:
    """Each bit of a stored file is flipped in turn."""
    sent = b"new z\n" + ASKING + b"quit\n"

    def flipped(bit: int) -> int:
        path = room / f"flip{bit}"
        path.write_bytes(keep.changed(ROW_FILE, bit // 8, ROW_FILE[bit // 8] ^ 1 << bit % 8))
        status = check(program, path, [KNOWN_A], sent).status
        path.unlink()
        return status

    with concurrent.futures.ThreadPoolExecutor(os.cpu_count() or 1) as pool:
        statuses = list(pool.map(flipped, range(8 * len(ROW_FILE))))
    foreign = statuses.count(keep.JOURNAL)
    assert foreign + statuses.count(keep.DONE) == len(statuses)
    return f"of {len(statuses):,} files with a flipped bit {foreign:,} are foreign"


def torn(file: bytes, string: bytes, draw: random.Random) -> Iterator[bytes]:
    """What a crash may leave of a file while a string is appended, before its gate is opened."""
    written = keep.appended(file, [string])[len(file):]
    for count in range(len(written) + 1):
        yield file + written[:count]  # a part of the bytes
        yield file + bytes(count)  # the length alone
        yield file + bytes(draw.randrange(256) for _ in range(count))  # any bytes


def try_crashes(program: str, room: Path, draw: random.Random) -> str:
    """Each image that a crash may leave while a file is made and two strings are appended. The stored list has none, one or two
    of them, and the repository goes on from there."""
    sent = b"new z\n" + ASKING
    first, second = disk.reading(ROW_FILE)[0]
    empty = keep.appended(b"", [])
    one = keep.appended(b"", [first])
    images = [(empty[:count], []) for count in range(len(empty) + 1)] + [(bytes(count), []) for count in range(len(empty) + 1)]
    images += [(image, []) for image in torn(empty, first, draw)]
    images += [(image, [first]) for image in torn(one, second, draw)]
    images += [(one, [first]), (ROW_FILE, [first, second])]

    def crashed(number: int) -> None:
        image, strings = images[number]
        assert disk.reading(image) == (strings, "end"), f"{image!r} does not store {strings}"
        path = room / f"crash{number}"
        path.write_bytes(image)
        assert check(program, path, [KNOWN_A], sent).status == keep.DONE
        assert disk.reading(path.read_bytes()) == (strings + [b"new z\n"], "end")
        path.unlink()

    with concurrent.futures.ThreadPoolExecutor(os.cpu_count() or 1) as pool:
        list(pool.map(crashed, range(len(images))))
    return f"{len(images):,} images that a crash may leave are opened, each with its list"


def try_other_things(program: str, room: Path) -> None:
    """What is no regular file, or cannot be opened, is a store fault at once, and is not waited for."""
    os.mkfifo(room / "fifo")
    (room / "folder").mkdir()
    (room / "dangling").symlink_to(room / "nowhere" / "file")
    things = [room / name for name in ("fifo", "folder", "dangling")] + [room / "no folder" / "file"]
    for path in things + [Path("/dev/null"), Path("/dev/full"), Path("/dev/zero")]:
        ended = run(program, path, ROW, room=room)
        assert ended == (STORE_FAULT, b"", LINES[STORE_FAULT]), f"{path}: {ended}"
    text = b"This is the file of another program, and it is not to be touched.\n"
    other = room / "other"
    other.write_bytes(text)
    assert run(program, other, ROW) == (keep.JOURNAL, b"", LINES[keep.JOURNAL]) and other.read_bytes() == text


def try_read_only(program: str, room: Path) -> str:
    """A file that the user may only read is a store fault, and stays."""
    path = room / "read only"
    path.write_bytes(ROW_FILE)
    path.chmod(0o444)
    before: Optional[Callable[[], None]] = None
    if os.geteuid() == 0:
        copy = room / "program"
        shutil.copy(program, copy)
        copy.chmod(0o755)
        room.chmod(0o755)
        program, before = str(copy), lambda: os.setuid(NOBODY)
    ended = run(program, path, PRINT, before)
    assert ended == (STORE_FAULT, b"", LINES[STORE_FAULT]), f"a read-only file: {ended}"
    assert path.read_bytes() == ROW_FILE
    return "a read-only file is refused"


def try_words(program: str, room: Path) -> None:
    """Other words behind `keep` are no command, and touch nothing."""
    for words in (["keep"], ["keep", "j", "two"], ["keep", "j", "one", "one"]):
        made = subprocess.run([program, *words], input=ROW, stdout=subprocess.PIPE, stderr=subprocess.PIPE, timeout=PATIENCE, cwd=room)
        assert (made.returncode, made.stdout, made.stderr) == (2, b"", b"pijuld: words\n"), f"{words}: {made}"
    assert not (room / "j").exists()
    made = subprocess.run([program, "keep", "j", "one"], input=ROW, stdout=subprocess.PIPE, timeout=PATIENCE, cwd=room)
    assert (made.returncode, made.stdout, (room / "j").read_bytes()) == (0, keep.ROW_REPLIES, ROW_FILE)


def closed(streams: Sequence[int]) -> Callable[[], None]:
    """The standard streams of these numbers are closed before the program starts."""
    def before() -> None:
        for stream in streams:
            os.close(stream)
    return before


def try_closed_streams(program: str, room: Path) -> None:
    """A standard stream that is closed is a fault at its first use, and never the file."""
    path = room / "closed"
    for streams, sent, status, stored in [
        ([0], ROW, READ_FAULT, []),
        ([0, 1], ROW, READ_FAULT, []),
        ([0, 1, 2], ROW, READ_FAULT, []),
        ([1], PRINT, WRITE_FAULT, []),
        ([1], b"new y\nnew z\n", WRITE_FAULT, [b"new y\n"]),
        ([1, 2], PRINT, WRITE_FAULT, []),
        ([2], b"no request\n", keep.SESSION, []),
    ]:
        path.write_bytes(ROW_FILE)
        ended = run(program, path, sent, closed(streams))
        wanted = Ended(status, b"", b"" if 2 in streams else LINES[status])
        assert ended == wanted, f"without {streams}: {ended} and not {wanted}"
        assert path.read_bytes() == keep.appended(ROW_FILE, stored), f"without {streams} the file is {path.read_bytes()!r}"


def try_held(program: str, room: Path) -> None:
    """A second process is refused at once while the first goes on; when the first is killed, the file is free."""
    path = room / "held"
    first = subprocess.Popen([program, "keep", str(path)], stdin=subprocess.PIPE, stdout=subprocess.PIPE)
    assert first.stdin and first.stdout
    first.stdin.write(b"new a\n")
    first.stdin.flush()
    assert first.stdout.readline() == b"ok 1\n"
    assert run(program, path, ROW) == (STORE_FAULT, b"", LINES[STORE_FAULT])
    first.stdin.write(b"new b\n")
    first.stdin.flush()
    assert first.stdout.readline() == b"ok 2\n"
    first.kill()
    first.communicate()
    assert path.read_bytes() == keep.appended(b"", [b"new a\n", b"new b\n"])
    check(program, path, [], b"new c\n" + ASKING)


# ---- kills


def killed(program: str, path: Path, sent: bytes, count: int, pause: float) -> bytes:
    """The replies of a session that is killed some time after so many of them have come."""
    process = subprocess.Popen([program, "keep", str(path)], stdin=subprocess.PIPE, stdout=subprocess.PIPE)
    assert process.stdin and process.stdout
    stdin, stdout, came, enough = process.stdin, process.stdout, [], threading.Event()

    def write() -> None:
        with contextlib.suppress(BrokenPipeError):
            stdin.write(sent)
            stdin.flush()

    def read() -> None:
        lines = 0
        while piece := os.read(stdout.fileno(), 1 << 16):
            came.append(piece)
            lines += piece.count(b"\n")
            if lines >= count:
                enough.set()
        enough.set()

    workers = [threading.Thread(target=write), threading.Thread(target=read)]
    for worker in workers:
        worker.start()
    if count:
        assert enough.wait(PATIENCE), "no replies come"
    time.sleep(pause)
    process.kill()
    process.wait()
    for worker in workers:
        worker.join()
    with contextlib.suppress(BrokenPipeError):
        stdin.close()
    stdout.close()
    return b"".join(came)


def writes(draw: random.Random, known: List[Known], count: int) -> List[bytes]:
    """Requests that may be entered, each with a reply of one line."""
    drawn = keep.drawn_requests(draw, known, 2 * count)
    return [one for one in drawn if one.split(None, 1)[0] in judged.WRITES][:count]


def try_kill(program: str, path: Path, known: List[Known], draw: random.Random, longest: float) -> bool:
    """One session that is killed at most so many seconds after a drawn reply; says whether that came within it."""
    sent = writes(draw, known, 300)
    old = path.read_bytes() if path.exists() else b""
    before = keep.restored(old, known)
    told = list(keep.answered(before.repository, b"".join(sent)))
    came = killed(program, path, b"".join(sent), draw.choice([0, draw.randrange(100)]), draw.uniform(0, longest))
    assert b"".join(reply for _, reply, _ in told).startswith(came), f"the replies are {came!r}"
    answered = came.count(b"\n")
    acknowledged = [request for request, _, entered in told[:answered] if entered]
    one_more = [request for request, _, entered in told[answered:answered + 1] if entered]
    now = path.read_bytes() if path.exists() else b""
    strings, ending = disk.reading(now)
    assert ending == "end", f"the file has no reading: {now!r}"
    wanted = before.strings + acknowledged
    assert strings in (wanted, wanted + one_more), f"{len(wanted)} were acknowledged, and the file stores {len(strings)}"
    check(program, path, known, ASKING)
    return answered < len(sent)


def try_kills(program: str, room: Path, rounds: int, draw: random.Random) -> str:
    """One repository that is killed again and again. How fast a disk is tells how soon a kill has to come."""
    known, within, longest = judged.pool(draw.randrange(1 << 30), 40), 0, 0.1
    path = room / "killed"
    for number in range(rounds):
        if number % 10 == 9:
            path.unlink()
        if try_kill(program, path, known, draw, longest):
            within += 1
            longest *= 1.2
        else:
            longest /= 2
    assert within, "no kill came while requests waited"
    return f"{rounds} kills, {within} of them while requests waited: each acknowledged write is there, in order"


# ---- full disks


def limited(most: int) -> Callable[[], None]:
    """No file may become longer than this, which a write is told by a fault and not by a signal."""
    def before() -> None:
        signal.signal(signal.SIGXFSZ, signal.SIG_IGN)
        resource.setrlimit(resource.RLIMIT_FSIZE, (most, most))
    return before


def try_limit(program: str, path: Path, most: int) -> None:
    """The first request that finds no room ends the session; without the limit the repository goes on."""
    path.write_bytes(ROW_FILE)
    sent = [b"new a\n", b"new a\n", b"apply a %s\n" % judged.A_NAME, b"new b\n", b"fork a c\n", b"new d\n"]
    told = list(keep.answered(keep.restored(ROW_FILE, [KNOWN_A]).repository, b"".join(sent)))
    end, fit, stored = len(ROW_FILE), [], []
    for request, reply, entered in told:
        end += len(request) + 9 if entered else 0
        if end > most:
            break
        fit.append(reply)
        stored += [request] if entered else []
    ended = run(program, path, b"".join(sent), limited(most))
    status = STORE_FAULT if len(fit) < len(told) else keep.DONE
    assert ended == (status, b"".join(fit), LINES[status]), f"a limit of {most} bytes: {ended}"
    strings, ending = disk.reading(path.read_bytes())
    assert (strings, ending) == (disk.reading(ROW_FILE)[0] + stored, "end"), f"a limit of {most} bytes: {strings} {ending}"
    check(program, path, [KNOWN_A], b"".join(sent) + ASKING)


def try_limits(program: str, room: Path) -> None:
    """A bound on the length of a file, of each number of bytes that makes a difference."""
    for most in range(len(ROW_FILE), len(ROW_FILE) + 160, 3):
        try_limit(program, room / "limited", most)
    path = room / "no room"
    ended = run(program, path, ROW, limited(4))
    assert ended == (STORE_FAULT, b"", LINES[STORE_FAULT]), f"no room for a header: {ended}"
    check(program, path, [KNOWN_A], ROW)


@contextlib.contextmanager
def small_disk(room: Path) -> Iterator[Optional[Path]]:
    """A disk of 64 KiB; None where this user may not mount one."""
    place = room / "disk"
    place.mkdir()
    made = subprocess.run(["mount", "-t", "tmpfs", "-o", "size=64k,mode=755", "tmpfs", str(place)], stderr=subprocess.DEVNULL)
    try:
        yield None if made.returncode else place
    finally:
        if made.returncode == 0:
            subprocess.run(["umount", str(place)], check=True)


def try_full_disk(program: str, room: Path) -> str:
    """A disk becomes full; the file reads as before, and goes on when there is room."""
    with small_disk(room) as place:
        if place is None:
            return "LEFT OUT: a full disk, since this user may not mount one"
        (place / "filler").write_bytes(bytes(32_768))
        known = [judged.made(b"f%d" % number, b"%d\n" % number * 300, None) for number in range(40)]
        sent = b"".join(b"put %d\n%s\n" % (len(one.text), one.text) for one in known)
        told = [reply for _, reply, _ in keep.answered(keep.restored(b"", known).repository, sent)]
        path = place / "file"
        ended = run(program, path, sent)
        count = ended.replies.count(b"\n")
        assert 0 < count < len(told), f"the disk did not become full: {ended}"
        assert ended == (STORE_FAULT, b"".join(told[:count]), LINES[STORE_FAULT]), f"a full disk: {ended}"
        found = keep.restored(path.read_bytes(), known)
        assert (found.foreign, len(found.strings)) == (None, count), f"{len(found.strings)} of {count} puts are stored"
        (place / "filler").unlink()
        check(program, path, known, sent[:20_000].rpartition(b"put ")[0] + ASKING)
        return f"a disk that is full after {count} puts keeps them, and goes on when there is room"


# ---- calls of the system


def try_syncs(program: str, room: Path) -> str:
    """Two syncs of the file's data stand before each reply to a request that was accepted."""
    if not shutil.which("strace"):
        return "LEFT OUT: the calls of the system, since there is no strace here"
    trace, path = room / "trace", room / "traced"
    path.write_bytes(ROW_FILE)
    sent = b"new a\nnew a\nfork a b\nlog b\ndrop a\n"
    wanted = [reply for _, reply, _ in keep.answered(keep.restored(ROW_FILE, [KNOWN_A]).repository, sent)]
    words = ["strace", "-f", "-qq", "-e", "trace=fdatasync,fsync,write,pwrite64", "-o", str(trace), program, "keep", str(path)]
    made = subprocess.run(words, input=sent, stdout=subprocess.PIPE, stderr=subprocess.PIPE, timeout=PATIENCE)
    if made.returncode and b"ptrace" in made.stderr:
        return "LEFT OUT: the calls of the system, since strace may not follow a program here"
    assert (made.returncode, made.stdout) == (0, b"".join(wanted)), made
    syncs, before = 0, []
    for line in trace.read_text().splitlines():
        call = line.split(None, 1)[1]
        if call.startswith("fdatasync"):
            syncs += 1
        elif call.startswith("write(1,"):
            before.append(syncs)
    opening = before[0] - 2
    assert opening >= 1, "the file is not synced when it is opened"
    replies = len(wanted)
    assert len(before) >= replies, f"{len(before)} writes for {replies} replies"
    assert syncs == opening + 2 * 3, f"{syncs} syncs for three accepted requests"
    assert before[-1] == syncs, "a sync stands behind the last reply"
    return "two syncs stand before each reply to an accepted request"


def main() -> int:
    words = [word for word in sys.argv[1:] if word != "--long"]
    if not words:
        print(__doc__, file=sys.stderr)
        return 2
    program, rounds = os.path.abspath(words[0]), 200 if "--long" in sys.argv else 30
    draw = random.Random(int(words[1]) if len(words) > 1 else 1)
    with tempfile.TemporaryDirectory() as made:
        room = Path(made)
        try_words(program, room)
        try_worked(program, room)
        try_other_things(program, room)
        print(try_read_only(program, room))
        try_closed_streams(program, room)
        try_held(program, room)
        try_limits(program, room)
        print(try_full_disk(program, room))
        print(try_syncs(program, room))
        print(try_kills(program, room, rounds, draw))
        print(try_flips(program, room))
        print(try_crashes(program, room, draw))
    return 0


if __name__ == "__main__":
    sys.exit(main())
