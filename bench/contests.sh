#!/bin/bash
# Times `with` of the table of contests at 1,000, 4,000 and 16,384 changes of the large run: microseconds for each change, and for
# each pair of a contested deletion and a change that contests it which the change brings.
#
# The program holds so many changes, and then is told to try each of the next thousand: what is timed is that part. A change that is
# tried is not held, so each of them is added to the table of the same changes.
#
# What was measured stands in bench/README.md. Other numbers of changes may be given as words, as in `bench/contests.sh 100 1000`.
set -eu
cd "$(dirname "$0")/.."
(cd crates/test_tables && rt run </dev/null >/dev/null)
exec python3 - "$PWD/crates/test_tables/out/test_tables" "$PWD/tests" "$@" <<'PYTHON'
import statistics
import subprocess
import sys
import tempfile
import time

PROGRAM, TESTS = sys.argv[1:3]
COUNTS = [int(word) for word in sys.argv[3:]] or [1_000, 4_000, 16_384]
NUMBER, TRIES = 7, 1_000
RUNS = 5

sys.path.insert(0, TESTS)
from large_run import Deletion, change_zero, changes_of, name_of

ZERO = name_of(change_zero())


def line_of(change):
    """The first position of the line of change 0 that the change deletes or inserts into; none where it does neither."""
    if isinstance(change.hunk, Deletion):
        return change.hunk.start
    owner, at = change.hunk.up
    first = at // 66 * 66 + 2
    return first + (at - first) // 8 * 8 if owner == ZERO else None


def pairs(held, tried):
    """How many pairs the changes bring that are tried, each by itself: deletions are contested by insertions into their lines."""
    counts = {True: {}, False: {}}
    for change in held:
        lines = counts[isinstance(change.hunk, Deletion)]
        lines[line_of(change)] = lines.get(line_of(change), 0) + 1
    brought = [counts[not isinstance(change.hunk, Deletion)].get(line_of(change), 0) for change in tried]
    return sum(count for count, change in zip(brought, tried) if line_of(change) is not None)


def seconds(lines, count):
    """The seconds in which the last thousand lines are answered."""
    process = subprocess.Popen([PROGRAM, "contests", "/dev/stdin"], stdin=lines, stdout=subprocess.PIPE)
    stamps = []
    while line := process.stdout.readline():
        assert line == b"ok\n", line
        stamps.append(time.perf_counter())
    assert process.wait() == 0 and len(stamps) == 2 * count + 2 * TRIES, len(stamps)
    return stamps[-1] - stamps[-1 - TRIES]


changes = changes_of(NUMBER, max(COUNTS) + TRIES)
for count in COUNTS:
    held, tried = changes[: count - 1], changes[count - 1 : count - 1 + TRIES]
    texts = [change_zero(), *(change.text for change in held + tried)]
    with tempfile.TemporaryFile() as lines:
        for text in texts:
            lines.write(b"text %d\n" % len(text) + text + b"\n")
        lines.writelines(b"with %d\n" % number for number in range(count))
        lines.writelines(b"try %d\n" % number for number in range(count, count + TRIES))
        times = []
        for _ in range(RUNS):
            lines.seek(0)
            times.append(seconds(lines, count))
    taken, brought = statistics.median(times), pairs(held, tried)
    print(f"{count:6,} changes: {taken / TRIES * 1e6:8.1f} microseconds a change, which brings {brought / TRIES:6.1f} pairs; "
          f"{taken / brought * 1e6:.2f} a pair", flush=True)
PYTHON
