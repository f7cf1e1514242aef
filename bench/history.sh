#!/bin/bash
# Times a drawn history of a source tree (bench/drawn_history.py): 500 commits over 300 files, 12.7 MB
# of texts in all. `pijuld one` gets each commit as a change, by a put and an application to `main`,
# and is timed until the last reply is read; `git fast-import` gets the same commits in one stream.
# Then the tree of the last commit is printed, which is timed beside `git archive` of it. All of
# them run in turns, five times, and the medians are printed. In a run apart the channel is printed
# after every fiftieth commit, and each print has to have just the files of the drawn tree. Git's
# files are in memory where the system has such a folder.
#
# Targets: changes come in at least 5 times as fast as `git fast-import` takes the commits, and a
# print takes less time than `git archive`. A number of commits may be given, for a trial:
# `bench/history.sh 50`.
set -eu
cd "$(dirname "$0")/.."
if [ -z "${PIJULD-}" ]; then
    ./pijuld --version >/dev/null
    PIJULD="$PWD/crates/pijuld/out/pijuld"
fi
export GLIBC_TUNABLES="${GLIBC_TUNABLES-glibc.malloc.hugetlb=1}" # as ./pijuld starts the program
PYTHONDONTWRITEBYTECODE=1 PYTHONPATH="$PWD/bench" exec python3 - "$PIJULD" "${1:-500}" <<'PYTHON'
import hashlib
import os
import re
import statistics
import subprocess
import sys
import tempfile
import threading
import time

from drawn_history import History, stream

PROGRAM, COMMITS = sys.argv[1], int(sys.argv[2])
SEED, FILES, SIZE = 7, max(COMMITS * 3 // 5, 1), COMMITS * 20_000
RUNS, EVERY = 5, 50
FASTER = 5.0
FOLDER = tempfile.TemporaryDirectory(dir="/dev/shm" if os.access("/dev/shm", os.W_OK) else None)


class Session:
    """A session of `pijuld one`, whose requests are written by a thread beside."""

    def __init__(self):
        pipe = subprocess.PIPE
        self.process = subprocess.Popen([PROGRAM, "one"], stdin=pipe, stdout=pipe, stderr=subprocess.DEVNULL)

    def asks(self, requests, bodies=False):
        """The bodies of the replies, each of which is `ok`."""
        writer = threading.Thread(target=self.writes, args=[b"".join(requests)])
        writer.start()
        found = []
        for _ in requests:
            words = self.process.stdout.readline().split()
            assert words and words[0] == b"ok", words
            if bodies:
                found.append(self.process.stdout.read(int(words[2]) + 1)[:-1])
        writer.join()
        return found

    def writes(self, requests):
        self.process.stdin.write(requests)
        self.process.stdin.flush()

    def peak(self):
        """The most memory that it had, in MB."""
        with open(f"/proc/{self.process.pid}/status") as it:
            return int(re.search(r"VmHWM:\s+(\d+)", it.read()).group(1)) * 1024 / 1e6

    def ends(self):
        self.process.communicate(b"quit\n")


def requests_of(commit):
    name = hashlib.sha256(commit.text).hexdigest().encode()
    return [b"put %d\n%s\n" % (len(commit.text), commit.text), b"apply main %s\n" % name]


def files_of(printed):
    """The files of a print, each alive."""
    found, at = {}, 0
    while at < len(printed):
        end = printed.index(b"\n", at)
        words = printed[at:end].split(b" ")
        at = end + 1
        assert words[1] == b"alive", words
        if words[0] == b"file":
            found[words[3].decode()] = printed[at:at + int(words[2])]
            at += int(words[2]) + 1
    return found


def taken(work):
    """What the work gives, and how long it takes."""
    start = time.perf_counter()
    given = work()
    return given, time.perf_counter() - start


def comes_in(requests):
    """How long the changes take, and then one print, and the memory at the end."""
    session = Session()
    session.asks([b"log main\n"], True)
    come = taken(lambda: session.asks(requests))[1]
    printed = taken(lambda: session.asks([b"print main\n"], True))[1]
    peak = session.peak()
    session.ends()
    return come, printed, peak


def git(*words, **how):
    return subprocess.run(["git", "-C", FOLDER.name, *words], check=True, **how)


def imports(commits):
    """How long git takes for the commits, and for an archive of the last tree."""
    subprocess.run(["rm", "-rf", f"{FOLDER.name}/.git"], check=True)
    subprocess.run(["git", "init", "-q", FOLDER.name], check=True)
    come = taken(lambda: git("fast-import", "--quiet", input=commits))[1]
    packed = taken(lambda: git("archive", "--format=tar", "refs/heads/main", stdout=subprocess.DEVNULL))[1]
    return come, packed


def main():
    history = History(SEED, COMMITS, FILES, SIZE)
    commits, trees = [], {}
    for number, commit in enumerate(history.drawn()):
        commits.append(commit)
        if (number + 1) % EVERY == 0 or number + 1 == COMMITS:
            trees[number + 1] = history.tree()
    texts, importing = sum(len(commit.text) for commit in commits), stream(commits)
    print(f"{len(commits)} commits, {len(history.files)} files, {texts / 1e6:.1f} MB of texts,"
          f" {sum(map(len, history.tree().values())) / 1e6:.1f} MB in the last tree", flush=True)

    session, prints = Session(), 0.0
    for number, commit in enumerate(commits):
        session.asks(requests_of(commit))
        if number + 1 in trees:
            (printed,), seconds = taken(lambda: session.asks([b"print main\n"], True))
            assert files_of(printed) == trees[number + 1], f"the print after {number + 1} commits is not the drawn tree"
            prints += seconds
    session.ends()
    print(f"{len(trees)} prints, each of the drawn tree, take {prints:.2f} s", flush=True)

    requests = [request for commit in commits for request in requests_of(commit)]
    ours, theirs = [], []
    for _ in range(RUNS):
        ours.append(comes_in(requests))
        theirs.append(imports(importing))
    come, printed, peak = (statistics.median(each) for each in zip(*ours))
    imported, packed = (statistics.median(each) for each in zip(*theirs))
    print(f"changes: {come:.3f} s, {peak:.0f} MB with one print; git fast-import: {imported:.3f} s;"
          f" {imported / come:.2f} times as fast (target {FASTER:.0f})", flush=True)
    print(f"a print: {printed:.3f} s; git archive: {packed:.3f} s; {printed / packed:.2f} times as long (target 1)", flush=True)
    return 0 if imported / come >= FASTER and printed < packed else 1


sys.exit(main())
PYTHON
