#!/bin/bash
# Tells what a channel costs as it grows, through `pijuld one`, at 1,000, 4,000, 16,000 and 64,000
# changes on `main` and one fork. Each change makes a file of one line in one of a hundred folders,
# and has some 180 bytes.
#
#   memory    bytes of the program for each change, with the fork; beside them the bytes of the pack
#             that `git fast-import` makes of the same commits, and of the index of the last tree
#   time      of one `print`, `graph` and `log`, by the processor, also for each byte of the reply;
#             of a `pull` of all into a new channel, for each change; and of one `fork`, one
#             `unrecord` and one `uproot` of the last change
#
# It prints the medians of three repetitions, and how much more each takes with the most changes than
# with the fewest. A run of more than ten minutes is stopped.
#
# Targets: at most 3,072 bytes a change; a byte of a reply, and a change of a pull, take at most 2.5
# times as long with the most changes as with the fewest, and so do `unrecord` and `uproot`; `fork`
# takes at most 2.5 times as long. Other numbers of changes may be given as words, as in
# `bench/growth.sh 1000 4000`.
set -eu
cd "$(dirname "$0")/.."
if [ -z "${PIJULD-}" ]; then
    ./pijuld --version >/dev/null
    PIJULD="$PWD/crates/pijuld/out/pijuld"
fi
export GLIBC_TUNABLES="${GLIBC_TUNABLES-glibc.malloc.hugetlb=1}" # as ./pijuld starts the program
PYTHONDONTWRITEBYTECODE=1 PYTHONPATH="$PWD/tests" exec python3 - "$PIJULD" "$@" <<'PYTHON'
import os
import re
import statistics
import subprocess
import sys
import tempfile
import threading

from forks import name_of, text

PROGRAM = sys.argv[1]
COUNTS = [int(word) for word in sys.argv[2:]] or [1_000, 4_000, 16_000, 64_000]
FOLDERS, TIMES, LIMIT, BATCH = 100, 3, 600, 1_000
MOST_BYTES, GROWTH = 3_072, 2.5
COARSE = 0.1  # seconds from which on ticks of the system are fine enough


class Session:
    """A session of the program, which is stopped when its time is over."""

    def __init__(self):
        pipe = subprocess.PIPE
        self.process = subprocess.Popen([PROGRAM, "one"], stdin=pipe, stdout=pipe, stderr=subprocess.DEVNULL)
        self.stopper = threading.Timer(LIMIT, self.process.kill)
        self.stopper.start()
        self.asks(b"log main\n", True)

    def all_of(self, requests):
        for at in range(0, len(requests), BATCH):
            batch = requests[at:at + BATCH]
            self.process.stdin.write(b"".join(batch))
            self.process.stdin.flush()
            for _ in batch:
                reply = self.process.stdout.readline()
                assert reply.startswith(b"ok "), reply

    def asks(self, request, has_body=False):
        """How many bytes the body of the reply has."""
        self.process.stdin.write(request)
        self.process.stdin.flush()
        words = self.process.stdout.readline().split()
        assert words and words[0] == b"ok", words
        return len(self.process.stdout.read(int(words[2]) + 1)) - 1 if has_body else 0

    def seconds(self, request, has_body=False):
        """The processor time of all threads for the request, and the bytes of the body."""
        start = self.processor_times()
        size = self.asks(request, has_body)
        fine, coarse = (end - begin for end, begin in zip(self.processor_times(), start))
        return (coarse if coarse >= COARSE else fine), size

    def processor_times(self):
        """Of the threads that run, in nanoseconds as the system counts; and in its ticks of those that ended too."""
        with open(f"/proc/{self.process.pid}/stat") as it:
            words = it.read().rsplit(")", 1)[1].split()
        tasks, nanoseconds = f"/proc/{self.process.pid}/task", 0
        for task in os.listdir(tasks):
            with open(f"{tasks}/{task}/schedstat") as it:
                nanoseconds += int(it.read().split()[0])
        return nanoseconds / 1e9, (int(words[11]) + int(words[12])) / os.sysconf("SC_CLK_TCK")

    def memory(self):
        with open(f"/proc/{self.process.pid}/status") as it:
            return int(re.search(r"VmRSS:\s+(\d+)", it.read()).group(1)) * 1024

    def ends(self):
        self.process.communicate(b"quit\n")
        self.stopper.cancel()


def drawn(count):
    """The texts of changes, each with its path and its line. The first ones make the folders."""
    folders = [text([], [b"dir root d%02d" % number]) for number in range(FOLDERS)]
    made = [(folder, None, None) for folder in folders]
    for number in range(FOLDERS, count):
        line = b"line %d\n" % number
        folder = number % FOLDERS
        made.append((text([name_of(folders[folder])], [b"file 1.1 f%d" % number, b"insert 0.1 after 0.1 before - %d" % len(line), line]),
                     b"d%02d/f%d" % (folder, number), line))
    return made


def git_bytes(changes):
    """The bytes of git's pack, and of its index."""
    parts = []
    for number, (_, path, line) in enumerate(changes):
        parts.append(b"commit refs/heads/main\ncommitter ann <ann@example.org> %d +0000\ndata 5\nforks\n" % (number + 1))
        if path:
            parts.append(b"M 100644 inline %s\ndata %d\n%s\n" % (path, len(line), line))
    with tempfile.TemporaryDirectory() as folder:
        subprocess.run(["git", "init", "-q", folder], check=True)
        subprocess.run(["git", "-C", folder, "fast-import", "--quiet"], input=b"".join(parts), check=True)
        subprocess.run(["git", "-C", folder, "read-tree", "refs/heads/main"], check=True)
        packs = f"{folder}/.git/objects/pack"
        sizes = [os.path.getsize(f"{packs}/{name}") for name in os.listdir(packs) if name.endswith(".pack")]
        return sum(sizes), os.path.getsize(f"{folder}/.git/index")


def costs(changes):
    """The bytes for each change, and the seconds of each request, by its name."""
    session = Session()
    before = session.memory()
    names = [name_of(change).encode() for change, _, _ in changes]
    session.all_of([b"put %d\n%s\n" % (len(change), change) for change, _, _ in changes])
    session.all_of([b"apply main %s\n" % name for name in names] + [b"fork main other\n"])
    memory = (session.memory() - before) / len(changes)
    took = {}

    def note(word, seconds):
        took.setdefault(word, []).append(seconds)

    for _ in range(TIMES):
        for word in ("print", "graph", "log"):
            seconds, size = session.seconds(b"%s main\n" % word.encode(), True)
            note(word, seconds)
            note(f"{word}, a byte", seconds / size)
        session.asks(b"new c\n")
        note("pull, a change", session.seconds(b"pull c main\n")[0] / len(changes))
        session.asks(b"drop c\n")
        note("fork", session.seconds(b"fork main c\n")[0])
        session.asks(b"drop c\n")
        for word in ("unrecord", "uproot"):
            note(word, session.seconds(b"%s main %s\n" % (word.encode(), names[-1]))[0])
            session.asks(b"apply main %s\n" % names[-1])
    session.ends()
    return memory, {word: statistics.median(seconds) for word, seconds in took.items()}


def main():
    whole, found, met = drawn(max(COUNTS)), {}, []
    for count in COUNTS:
        memory, found[count] = costs(whole[:count])
        pack, index = git_bytes(whole[:count])
        met.append(memory <= MOST_BYTES)
        print(f"{count:6,} changes: {memory:,.0f} bytes a change (target {MOST_BYTES:,}); git: {pack / count:,.0f} in the pack,"
              f" {index / count:,.0f} in the index", flush=True)
        print(f"{count:6,} changes: " + "; ".join(f"{word} {seconds * 1e6:,.3f} µs" for word, seconds in found[count].items()), flush=True)
    few, most = min(COUNTS), max(COUNTS)
    for word in found[few]:
        times = found[most][word] / found[few][word]
        has_target = word not in ("print", "graph", "log")
        if has_target:
            met.append(times <= GROWTH)
        print(f"{word} takes {times:.2f} times as long at {most:,} as at {few:,}" + (f" (target {GROWTH})" if has_target else ""), flush=True)
    return 0 if all(met) else 1


sys.exit(main())
PYTHON
