#!/bin/bash
# Times the applications and `unrecord` of a channel that holds 1,000, 4,000, 16,000 and 64,000
# changes, through `pijuld one`, by the time of the processor, as the system counts it for the
# process. Three ways:
#
#   consumed  the last quarter of the changes comes to a channel that each change consumes, as in
#             a pull: what a pull of all of them into a new channel takes, less what one of the
#             first three quarters takes
#   kept      the last thousand come, or the last quarter where that is fewer, each by a request:
#             the repository keeps a channel until the next one stands
#   removed   they go, the last first
#
# and three shapes:
#
#   edits     a file of 64 lines, and then 31 changes that each put a line in the place of one of
#             its lines, or of the line that a change before put there, which they need; then the
#             next file. No deletion is contested.
#   run       the large run. Each deletion is contested by each insertion into its line, so the
#             pairs of a deletion and a change that contests it, which a change brings, grow with
#             the channel.
#   one line  a file of three lines, and changes that each put a line in the place of the middle
#             one, so that its dead versions grow with the channel. At 400 and 1,600 changes.
#
# It prints the medians of some repetitions, for each change, and for each of m + c + 1, by which
# the steps of a call are bounded: m is how many hunks, references, needs and names under a `by`
# the change has, and c how many pairs it brings. Of a change that comes or goes by a request the
# reading of the request and the reply are timed too. A run of more than ten minutes is stopped,
# and misses its targets.
#
# Targets: with edits, a change at 64,000 takes at most 2.5 times as long as one at 1,000, each
# way, and at least 15,000 a second come at 16,000 to a channel that each consumes; in the large
# run each of m + c + 1 takes at most 2.5 times as long at 64,000 as at 1,000.
#
# What was measured stands in bench/README.md. Other numbers of changes may be given as words, as
# in `bench/apply.sh 1000 4000`.
set -eu
cd "$(dirname "$0")/.."
./pijuld --version >/dev/null
export GLIBC_TUNABLES="${GLIBC_TUNABLES-glibc.malloc.hugetlb=1}" # as ./pijuld starts the program
PYTHONDONTWRITEBYTECODE=1 PYTHONPATH="$PWD/tests" exec python3 - "$PWD/crates/pijuld/out/pijuld" "$@" <<'PYTHON'
import os
import statistics
import subprocess
import sys
import threading

from contests import Change
from forks import name_of, put, text
from large_run import Deletion, change_zero, changes_of

PROGRAM = sys.argv[1]
COUNTS = [int(word) for word in sys.argv[2:]] or [1_000, 4_000, 16_000, 64_000]
VERSIONS = [400, 1_600]
QUARTER = 4  # what part comes to a channel that each change consumes
LAST = 1_000  # how many come and go by requests at most
TIMES = 3
WAYS = "consumed", "kept", "removed"
LIMIT = 600
BATCH = 100
NUMBER = 7
ROUND, LINES, PLACES = 32, 64, 16
LINE = 8  # bytes
GROWTH_TARGET = 2.5
RATE_TARGET, RATE_AT = 15_000, 16_000


def file_of_lines(number, lines):
    """A change that makes a file."""
    content = b"".join(b"l%06d\n" % line for line in range(lines))
    return text([], [b"file root f%d" % number, b"insert 0.1 after 0.1 before - %d" % len(content), content])


def replacement(number, file, line, before):
    """A change that puts a line in the place of this one of the file, or of the line that the change before put there."""
    needs = sorted({name_of(file), name_of(before)})
    own, old = (needs.index(name_of(change)) + 1 for change in (file, before))
    start = 2 + LINE * line
    first = start if before is file else 0
    return text(needs, [b"insert %d.1 after %d.%d before %d.%d %d" % (own, own, start - 1, own, start + LINE, LINE), b"%07d\n" % number,
                        b"delete %d.%d-%d by %d" % (old, first, first + LINE, old)])


def edits(count):
    """The texts of changes, with the pairs that each brings."""
    made = []
    for number in range(count):
        place = number % ROUND
        if place == 0:
            file = file_of_lines(number // ROUND, LINES)
            last = [file] * PLACES
            made.append((file, 0))
        else:
            at = (place - 1) % PLACES
            last[at] = replacement(number, file, 1 + 2 * at, last[at])
            made.append((last[at], 0))
    return made


def one_line(count):
    file = last = file_of_lines(0, 3)
    made = [(file, 0)]
    for number in range(1, count):
        last = replacement(number, file, 1, last)
        made.append((last, 0))
    return made


def line_of(change):
    """The first position of the line of change 0 that the change deletes or inserts into; none where it does neither."""
    if isinstance(change.hunk, Deletion):
        return change.hunk.start
    owner, at = change.hunk.up
    return at - (at % 66 - 2) % LINE if owner == name_of(change_zero()) else None


def large_run(count):
    """Each insertion into a line and each deletion of it are a pair."""
    made, seen = [(change_zero(), 0)], {True: {}, False: {}}
    for change in changes_of(NUMBER, count):
        line, deletes = line_of(change), isinstance(change.hunk, Deletion)
        made.append((change.text, 0 if line is None else seen[not deletes].get(line, 0)))
        seen[deletes][line] = seen[deletes].get(line, 0) + 1
    return made


def hunk_weight(word, parts):
    """The hunk, its references, and the names under its `by`."""
    lists = {"insert": (0, 2, 4), "order": (0, 1, 2), "name": (0, 1), "name+x": (0, 1), "delete": (2,), "revive": (2,)}.get(word, (0,))
    return 1 + sum(len(parts[at].split(",")) for at in lists if parts[at] != "-")


def weight(change):
    told = Change(change)
    return len(told.needs) + sum(hunk_weight(word, parts) for word, _, parts in told.hunks)


class Session:
    """A session of the program, which is stopped when its time is over."""

    def __init__(self):
        pipe = subprocess.PIPE
        self.process = subprocess.Popen([PROGRAM, "one"], stdin=pipe, stdout=pipe, stderr=subprocess.DEVNULL)
        self.stopper = threading.Timer(LIMIT, self.process.kill)
        self.stopper.start()

    def asks(self, requests):
        """Makes the requests, and waits for their replies, all of them `ok` and without a body."""
        for at in range(0, len(requests), BATCH):
            batch = requests[at:at + BATCH]
            self.process.stdin.write(b"".join(batch))
            self.process.stdin.flush()
            for _ in batch:
                reply = self.process.stdout.readline()
                assert reply.startswith(b"ok "), reply

    def seconds(self, requests):
        """The processor time that the requests take."""
        start = self.processor_time()
        self.asks(requests)
        return self.processor_time() - start

    def processor_time(self):
        """That of all threads of the process."""
        tasks, nanoseconds = f"/proc/{self.process.pid}/task", 0
        for task in os.listdir(tasks):
            with open(f"{tasks}/{task}/schedstat") as it:
                nanoseconds += int(it.read().split()[0])
        return nanoseconds / 1e9

    def pull(self, channel):
        """The processor time of a pull of the channel into a new one, which is dropped again."""
        self.asks([b"new c\n"])
        taken = self.seconds([b"pull c %s\n" % channel])
        self.asks([b"drop c\n"])
        return taken

    def ends(self):
        self.process.communicate(b"quit\n")
        self.stopper.cancel()


def request(verb, change):
    return b"%s main %s\n" % (verb, name_of(change).encode())


def ways(texts, early, last):
    """How long each way takes for one change: the median of some times."""
    session = Session()
    session.asks([put(text) for text in texts])
    session.asks([request(b"apply", text) for text in texts[:early]] + [b"fork main early\n"])
    session.asks([request(b"apply", text) for text in texts[early:]])
    comes = [request(b"apply", text) for text in texts[-last:]]
    goes = [request(b"unrecord", text) for text in texts[:-last - 1:-1]]
    consumed, kept, removed = [], [], []
    for _ in range(TIMES):
        consumed.append((session.pull(b"main") - session.pull(b"early")) / (len(texts) - early))
        removed.append(session.seconds(goes) / last)
        kept.append(session.seconds(comes) / last)
    session.ends()
    return [statistics.median(times) for times in (consumed, kept, removed)]


def size(changes):
    """The mean of m + c + 1."""
    return statistics.mean(weight(change) + pairs + 1 for change, pairs in changes)


def measure(title, shape, counts):
    """Prints what the ways take, and gives the seconds for a change and for each of m + c + 1, of
    each way, by the number of changes."""
    took = {}
    whole = shape(max(counts))
    for count in counts:
        changes, early = whole[:count], count - count // QUARTER
        last = min(LAST, count - early)
        try:
            times = ways([text for text, _ in changes], early, last)
        except (AssertionError, OSError):
            print(f"{title:8} {count:6,} changes: failed, or stopped after {LIMIT} seconds", flush=True)
            continue
        quarter, few = size(changes[early:]), size(changes[-last:])
        took[count] = [(each, each / whose) for each, whose in zip(times, (quarter, few, few))]
        told = [f"{name} {1 / each:8,.0f} a second, {each * 1e9:9,.0f} ns each, {part * 1e9:7,.0f} ns of m + c + 1"
                for name, (each, part) in zip(WAYS, took[count])]
        print(f"{title:8} {count:6,} changes, m + c + 1 = {few:5.1f}: " + "; ".join(told), flush=True)
    return took


def growth(title, took, counts, column):
    """Prints how much longer it takes with the most changes than with the fewest. Whether it is known and at most the target."""
    few, many = min(counts), max(counts)
    if few not in took or many not in took:
        return False
    times = [most[column] / least[column] for most, least in zip(took[many], took[few])]
    print(f"{title} at {many:,} takes as long as at {few:,} " + ", ".join(f"{it:.2f} times ({name})" for name, it in zip(WAYS, times)), flush=True)
    return max(times) <= GROWTH_TARGET


print(f"{os.cpu_count()} processors, load {os.getloadavg()[0]:.1f}", flush=True)
took = measure("edits", edits, COUNTS)
met = [growth(f"edits (target {GROWTH_TARGET}): a change", took, COUNTS, 0)]
if RATE_AT in COUNTS:
    rate = 1 / took[RATE_AT][0][0] if RATE_AT in took else 0
    print(f"edits: {rate:,.0f} come a second at {RATE_AT:,}, consumed (target {RATE_TARGET:,})")
    met.append(rate >= RATE_TARGET)
took = measure("run", large_run, COUNTS)
met.append(growth(f"run (target {GROWTH_TARGET}): each of m + c + 1", took, COUNTS, 1))
growth("one line: a change", measure("one line", one_line, VERSIONS), VERSIONS, 0)
sys.exit(not all(met))
PYTHON
