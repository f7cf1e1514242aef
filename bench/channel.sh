#!/bin/bash
# Times the channels of the program, through `pijuld one` and `pijuld load`:
#
# - applications a second of the large run's shape, at 1,000 and at 16,384 changes,
#   beside `git am` of 1,000 patches of one hunk, and beside `darcs apply` of a bundle of
#   the same patches where the system has it. Target: at least 50 times as many as `git am`.
# - the print of a file of 16,384 live vertices in one chain. Target: 2 seconds.
# - the print of eight files of 2,000 live vertices, on all processors and on one.
#   Target: at least 2.5 times as fast on four processors. Beside it, how many times as
#   many such prints processes that share nothing make, one on each processor, as one
#   alone, and how much faster a loop that shares nothing (bench/threads.c) is in threads
#   that last as long: more than that the machine has not to give.
# - an application in a history without contests, to a channel of 1,000 and to one of
#   16,384 changes: the last change comes and goes two thousand times. Target: at most
#   2.5 times as long.
# - the peak memory of `load 7 16384 8`. Target: below 1.5 GB.
#
# What a print takes is the median of those of some sessions, each from the request until
# its reply is whole; of eight files on one processor, of sessions on each in turn. What a
# change takes that comes and goes is the median of such requests by fifties. What an
# application of the large run costs is the difference of two sessions that differ in such
# requests alone, the better of three runs each. A run of more than five minutes is stopped.
#
# What was measured stands in bench/README.md.
set -eu
cd "$(dirname "$0")/.."
./pijuld --version >/dev/null
export GLIBC_TUNABLES="${GLIBC_TUNABLES-glibc.malloc.hugetlb=1}" # as ./pijuld starts the program
PYTHONDONTWRITEBYTECODE=1 PYTHONPATH="$PWD/tests" exec python3 - "$PWD/crates/pijuld/out/pijuld" "$PWD/tests/large_run.py" "$PWD/bench/threads.c" <<'PYTHON'
import concurrent.futures
import difflib
import os
import random
import shutil
import signal
import statistics
import subprocess
import sys
import tempfile
import threading
import time

from forks import changes as lines_of
from forks import name_of, put, text
from wide import channel

PROGRAM, SCRIPTS, LOOP = sys.argv[1:]
LIMIT = 300
RUNS = 3
BATCH = 100
RATE, WIDE_PRINT, IN_THREADS, GROWTH, MEMORY = 50, 2, 2.5, 2.5, 1.5e9  # the targets
met = []


def run(words, requests=b"", folder=None):
    """The seconds of a command that was given these bytes."""
    with tempfile.TemporaryFile() as source:
        source.write(requests)
        source.seek(0)
        start = time.perf_counter()
        process = subprocess.Popen(words, stdin=source, stdout=subprocess.DEVNULL, stderr=subprocess.DEVNULL, cwd=folder, start_new_session=True)
        stopper = threading.Timer(LIMIT, os.killpg, (process.pid, signal.SIGKILL))
        stopper.start()
        status = process.wait()
        seconds = time.perf_counter() - start
        stopper.cancel()
        if status != 0:
            sys.exit(f"{' '.join(words)} was stopped after {LIMIT} seconds" if seconds >= LIMIT else f"{' '.join(words)} failed")
        return seconds


def peak(words):
    """The seconds and the peak bytes of a command. `time` is small: the system counts what this script holds into the peak of what it starts itself."""
    with tempfile.NamedTemporaryFile() as most:
        seconds = run(["/usr/bin/time", "-q", "-f", "%M", "-o", most.name, *words])
        return seconds, int(most.read()) * 1024


def play(session):
    """The seconds of a session, the better of some runs."""
    return min(run([PROGRAM, "one"], b"".join(session) + b"quit\n") for _ in range(RUNS))


def cost(session, more):
    """The seconds that some requests take behind others."""
    return max(play(session + more) - play(session), 1e-9)


def timed(session, batch, times, before=(), has_body=False):
    """The seconds that each of so many batches of requests takes behind a session of others, from its first request until its last reply is whole."""
    process = subprocess.Popen([*before, PROGRAM, "one"], stdin=subprocess.PIPE, stdout=subprocess.PIPE, stderr=subprocess.DEVNULL)
    stopper = threading.Timer(LIMIT, process.kill)
    stopper.start()

    def answered(requests, has_body):
        process.stdin.write(b"".join(requests))
        process.stdin.flush()
        for _ in requests:
            words = process.stdout.readline().split()
            if words[:1] != [b"ok"]:
                sys.exit("a session that was timed failed")
            if has_body:
                process.stdout.read(int(words[2]) + 1)

    seconds = []
    for at in range(0, len(session), BATCH):
        answered(session[at:at + BATCH], False)
    for _ in range(times):
        start = time.perf_counter()
        answered(batch, has_body)
        seconds.append(time.perf_counter() - start)
    process.communicate(b"quit\n")
    stopper.cancel()
    return seconds


def timed_apart(session, request, times):
    """The same of prints in processes that share nothing, one on each processor, all at once."""
    count = os.cpu_count()
    with concurrent.futures.ThreadPoolExecutor(count) as pool:
        each = [pool.submit(timed, session, [request], times, ["taskset", "-c", str(it)], True) for it in range(count)]
        return [seconds for it in each for seconds in it.result()]


def apply(change):
    return b"apply main %s\n" % name_of(change).encode()


# ---- applications of the large run's shape

def large_run(count):
    """The requests of a large run up to its closing prints: those that store changes, and the others."""
    whole = subprocess.run(["python3", SCRIPTS, "session", "7", str(count)], stdout=subprocess.PIPE, check=True).stdout
    whole = whole[:whole.index(b"print l0\n")]
    stores, others, at = [], [], 0
    while at < len(whole):
        end = whole.index(b"\n", at) + 1
        if whole.startswith(b"put ", at):
            end += int(whole[at + 4:end]) + 1
            stores.append(whole[at:end])
        else:
            others.append(whole[at:end])
        at = end
    return stores, others


def patches(count, folder):
    """A repository with eight files, and patches of one hunk, each of a line more somewhere."""
    draw = random.Random(7)
    files = [[f"f{file} l{line} .\n" for line in range(8)] for file in range(8)]
    git = ["git", "-C", folder, "-c", "user.name=ann", "-c", "user.email=ann@example.org"]
    subprocess.run(["git", "init", "-q", folder], check=True)
    for number, lines in enumerate(files):
        with open(f"{folder}/f{number}", "w") as it:
            it.writelines(lines)
    subprocess.run([*git, "add", "."], check=True)
    subprocess.run([*git, "commit", "-qm", "first"], check=True)
    mail = []
    for number in range(count):
        file = draw.randrange(8)
        before = list(files[file])
        files[file].insert(draw.randrange(len(before) + 1), f"line {number}\n")
        hunk = "".join(difflib.unified_diff(before, files[file], f"a/f{file}", f"b/f{file}"))
        mail.append(f"From {number:040x} Mon Sep 17 00:00:00 2001\nFrom: ann <ann@example.org>\nDate: Mon, 1 Jan 2024 00:00:00 +0000\n"
                    f"Subject: [PATCH] {number}\n\n---\n{hunk}-- \n2\n\n")
    with open(f"{folder}/.git/mail", "w") as it:
        it.writelines(mail)
    return [*git, "am", "-q", ".git/mail"]


def git_am(count, folder):
    """Patches a second."""
    words = patches(count, folder)
    return count / run(words, folder=folder)


def darcs_apply(count, folder):
    """The same of the commits that `git am` made, as one bundle to a repository that has the first one."""
    whole, first, bundle = (f"{folder}/.git/{name}" for name in ("whole", "first", "bundle"))
    commits = subprocess.run(["git", "-C", folder, "fast-export", "HEAD"], stdout=subprocess.PIPE, check=True).stdout

    def darcs(*words, given=b""):
        subprocess.run(["darcs", *words], input=given, stdout=subprocess.DEVNULL, stderr=subprocess.DEVNULL, check=True)

    darcs("convert", "import", whole, given=commits)
    darcs("clone", "--to-patch", "^first$", whole, first)
    darcs("send", "--all", "--no-edit-description", "--output", bundle, "--repodir", whole, first)
    return count / run(["darcs", "apply", "--all", "--repodir", first, bundle])


def applications():
    with tempfile.TemporaryDirectory() as folder:
        reference = git_am(1000, folder)
        print(f"git am: {reference:.0f} patches a second", flush=True)
        if shutil.which("darcs"):
            print(f"darcs apply: {darcs_apply(1000, folder):.0f} patches a second", flush=True)
        else:
            print("darcs apply: left out, since there is no darcs here", flush=True)
    for count in (1000, 16384):
        stores, others = large_run(count)
        number = sum(it.startswith(b"apply ") for it in others)
        rate = number / cost(stores, others)
        met.append(rate / reference >= RATE)
        print(f"{count} changes: {rate:.0f} applications a second, {rate / reference:.0f} times git am (target {RATE})", flush=True)


# ---- prints

def eight_files(vertices):
    """A change with eight files, and for each of them a change whose orders make each byte a vertex."""
    hunks = []
    for file in range(8):
        hunks += [b"file root f%d" % file, b"insert 0.%d after 0.%d before - %d" % ((vertices + 2) * file + 1, (vertices + 2) * file + 1, vertices), b"x" * vertices]
    first = text([], hunks)
    made = [first]
    for file in range(8):
        begin = (vertices + 2) * file
        orders = [b"order 1.%d 1.%d 1.%d" % (begin + 1, begin + 2 + at, begin + 3 + at) for at in range(vertices - 1)]
        made.append(text([name_of(first)], orders))
    return made


def in_threads(seconds):
    """How much faster a loop that shares nothing is, which takes as many seconds alone, in threads like those of a print: of two parts, each cut into eight pieces, which threads take in turns."""
    with tempfile.TemporaryDirectory() as room:
        subprocess.run([os.environ.get("CC", "cc"), "-O2", "-o", f"{room}/threads", LOOP, "-lpthread"], check=True)
        words = [f"{room}/threads", str(round(seconds * 1e6)), "2", str(os.cpu_count()), "40", "8"]
        return float(subprocess.run(words, stdout=subprocess.PIPE, check=True).stdout)


def milliseconds(seconds):
    return f"{min(seconds) * 1e3:.1f} to {max(seconds) * 1e3:.1f} milliseconds"


def prints():
    request, median = b"print main\n", statistics.median
    made = channel(4095)
    session = [put(change) for change in made] + [apply(change) for change in made]
    seconds = median(timed(session, [request], 20, has_body=True))
    met.append(seconds <= WIDE_PRINT)
    print(f"a file of 16,384 live vertices: {seconds:.3f} s (target {WIDE_PRINT})", flush=True)
    made = eight_files(2000)
    session = [put(change) for change in made] + [apply(change) for change in made]
    ones, together, apart = [], [], []
    for processor in range(os.cpu_count()):
        ones.append(median(timed(session, [request], 20, ["taskset", "-c", str(processor)], True)))
        together.append(median(timed(session, [request], 40, has_body=True)))
        apart.append(median(timed_apart(session, request, 40)))
    one, apart = median(ones), os.cpu_count() * median(ones) / median(apart)
    # the target is for four processors or more
    met.append(one / median(together) >= IN_THREADS or os.cpu_count() < 4)
    print(f"eight files of 2,000 live vertices: {one / median(together):.2f} times as fast on {os.cpu_count()} processors as on one (target {IN_THREADS} on four): "
          f"{milliseconds(together)} on all, {milliseconds(ones)} on one, from one time to the next", flush=True)
    print(f"a loop that shares nothing, in threads that last as long: {in_threads(one):.2f} times as fast", flush=True)
    print(f"processes that share nothing, one on each processor: {apart:.2f} times as many such prints as one alone", flush=True)


# ---- one application more

def one_more():
    made, pairs, first = lines_of(16384), 50, None
    for count in (1000, 16384):
        name = name_of(made[count - 1])
        session = [put(change) for change in made[:count]] + [apply(change) for change in made[:count]]
        batch = [b"unrecord main %s\n" % name.encode(), apply(made[count - 1])] * pairs
        each = statistics.median(timed(session, batch, 40)) / pairs
        first = first or each
        met.append(each / first <= GROWTH)
        print(f"an application and its unrecord, of a channel of {count} changes: {each * 1e6:.0f} microseconds, {each / first:.2f} times as long as at 1000 (target {GROWTH})", flush=True)


def memory():
    seconds, most = peak([PROGRAM, "load", "7", "16384", "8"])
    met.append(most < MEMORY)
    print(f"load 7 16384 8: {seconds:.1f} s, {most / 1e6:.0f} MB (target {MEMORY / 1e6:.0f})")


applications()
prints()
one_more()
memory()
sys.exit(not all(met))
PYTHON
