#!/bin/bash
# Times large runs of 1,000, 4,000 and 16,384 changes. With one session over `pijuld
# one`: applications a second, how the cost of one application grows with the number
# of changes, the time of the closing prints apart, and the peak memory. Then with 1,
# 2, 4 and 8 sessions by `pijuld load`: the time of the whole run, closing prints
# included, as a ratio to one session, and the peak memory. The scripts are those of
# tests/large_run.py, and the summaries of the smaller runs are compared with those
# that it works out. A run of more than two minutes is stopped, and misses its target;
# one that fails ends the script. Both are told.
#
# Target: memory below 1.5 GB for 16,384 changes.
set -eu
cd "$(dirname "$0")/.."
./pijuld --version >/dev/null
export GLIBC_TUNABLES="${GLIBC_TUNABLES-glibc.malloc.hugetlb=1}" # as ./pijuld starts the program
exec python3 - "$PWD/crates/pijuld/out/pijuld" "$PWD/tests/large_run.py" <<'PYTHON'
import os
import signal
import subprocess
import sys
import tempfile
import threading
import time

PROGRAM, SCRIPTS = sys.argv[1], sys.argv[2]
NUMBER = "7"
LIMIT = 120
COMPARED = 4000
TARGET = 1.5e9
met = []


def script(changes):
    made = subprocess.run(["python3", "-B", SCRIPTS, "session", NUMBER, str(changes)], stdout=subprocess.PIPE, check=True)
    return made.stdout


def run(words, source, output):
    """The seconds and the peak bytes of the program, or None where it was stopped. One that fails ends the script."""
    with tempfile.NamedTemporaryFile() as peak:
        start = time.perf_counter()
        # `time` is small: the system counts what this script holds into the peak of what it starts itself
        timed = ["/usr/bin/time", "-q", "-f", "%M", "-o", peak.name, PROGRAM, *words]
        process = subprocess.Popen(timed, stdin=source, stdout=output, start_new_session=True)
        stopper = threading.Timer(LIMIT, os.killpg, (process.pid, signal.SIGKILL))
        stopper.start()
        status = process.wait()
        seconds = time.perf_counter() - start
        stopper.cancel()
        if status == 0:
            return seconds, int(peak.read()) * 1024
    if seconds < LIMIT:
        sys.exit(f"{' '.join(words)} failed with status {status} after {seconds:.1f} seconds")
    met.append(False)
    return None


def memory(peak):
    met.append(peak < TARGET)
    return f"memory {peak / 1e6:.0f} MB (target {TARGET / 1e6:.0f})"


def play(requests, replies):
    """The seconds and the peak bytes of a session, or None where it was stopped."""
    with tempfile.TemporaryFile() as source:
        source.write(requests)
        source.seek(0)
        return run(["one"], source, replies)


def told(command, changes, source=None):
    words = ["python3", "-B", SCRIPTS, command, NUMBER, str(changes)] + (["1"] if command == "summary" else [])
    return subprocess.run(words, stdin=source, stdout=subprocess.PIPE, check=True).stdout


def load(changes, sessions):
    """The seconds, the peak bytes and the summary of a large run, or None where it was stopped."""
    with tempfile.TemporaryFile() as output:
        ran = run(["load", NUMBER, str(changes), str(sessions)], subprocess.DEVNULL, output)
        output.seek(0)
        return ran and (*ran, output.read())


def compare(changes):
    """Prints the times of large runs with 1, 2, 4 and 8 sessions."""
    first = None
    for sessions in (1, 2, 4, 8):
        ran = load(changes, sessions)
        if ran is None:
            print(f"{changes} changes, {sessions} sessions: stopped after {LIMIT} seconds", flush=True)
            return
        seconds, peak, summary = ran
        if changes <= COMPARED and summary.split(b"\n")[1:] != told("summary", changes).split(b"\n")[1:]:
            sys.exit(f"{changes} changes, {sessions} sessions: the summary is not that of {SCRIPTS}")
        first = first or seconds
        print(f"{changes} changes, sessions {sessions}: {seconds:.2f} s with the closing prints "
              f"({seconds / first:.2f} times as long as with one), {memory(peak)}", flush=True)


def measure(changes):
    """The seconds of one application, or None where the run was stopped."""
    whole = script(changes)
    closing = whole.index(b"print l0\n")
    applications = whole[:closing].count(b"\napply ")
    applied = play(whole[:closing] + b"quit\n", subprocess.DEVNULL)
    if applied is None:
        print(f"{changes} changes: stopped after {LIMIT} seconds")
        return None
    cost = applied[0] / applications
    print(f"{changes} changes: {applications / applied[0]:.0f} applications a second ({cost * 1e6:.0f} microseconds each), "
          f"{memory(applied[1])}", flush=True)
    with tempfile.TemporaryFile() as replies:
        printed = play(whole, replies)
        if printed is None:
            print(f"{changes} changes: closing prints stopped after {LIMIT} seconds")
            return cost
        replies.seek(0)
        if changes <= COMPARED and told("replies", changes, replies) != told("summary", changes):
            sys.exit(f"{changes} changes: the prints are not those of {SCRIPTS}")
    prints = max(printed[0] - applied[0], 0)
    print(f"{changes} changes: closing prints {prints:.2f} s, {memory(printed[1])}", flush=True)
    compare(changes)
    return cost


first = None
for count in (1000, 4000, 16384):
    cost = measure(count)
    if cost is None:
        break
    if first is not None:
        print(f"one application costs {cost / first:.1f} times as much as at 1000 changes")
    first = first or cost
sys.exit(not all(met))
PYTHON
