#!/bin/bash
# Times requests a second of 1, 2 and 4 sessions on one repository, each in a thread of its own,
# through `pijuld run`, whose scripts are pipes, and whose replies are files in memory where the
# system has such a folder:
#
#   puts      of small texts, each of them new
#   apart     applications, each session on a channel of its own
#   together  applications, all sessions on one channel
#   prints    of one channel of 1,000 changes, while one session more applies a change to it and
#             takes it out, over and over
#
# Each session makes the same number of requests, however many there are, and each is accepted.
# What comes before, the texts and the channels, is made by a session of its own. The others are
# timed from the moment at which they get their requests, all of them at once, until the last of
# their replies is written. The session that applies beside prints lasts longer than they do, and
# is not counted. It prints the medians of alternating runs, and what they are times that of one
# session. A number divides the requests, for a trial: `bench/repo.sh 20`.
#
# Before them it prints the same of digests of 4 KiB, in programs that share nothing: what the
# machine itself has to give. Where others use its processors, as neighbours of a virtual machine
# do, that is far below 4 times with 4, and so is all else. Last it prints the same of a loop that
# shares nothing, in threads of one program that last as long as those of puts (bench/threads.c).
#
# Target: puts, apart and prints at least 2.5 times at 4 sessions, on 4 processors with no other
# work.
set -eu
cd "$(dirname "$0")/.."
./pijuld --version >/dev/null
export GLIBC_TUNABLES="${GLIBC_TUNABLES-glibc.malloc.hugetlb=1}" # as ./pijuld starts the program
work=$(if [ -w /dev/shm ]; then mktemp -d -p /dev/shm; else mktemp -d; fi)
trap 'rm -rf "$work"' EXIT
"${CC:-cc}" -O2 -o "$work/threads" bench/threads.c -lpthread
python3 - "$PWD/crates/pijuld/out/pijuld" "$work" "$work/threads" "${1:-1}" <<'PYTHON'
import fcntl
import hashlib
import math
import os
import statistics
import subprocess
import sys
import threading
import time

PROGRAM, FOLDER, LOOP, PART = *sys.argv[1:4], int(sys.argv[4])
RUNS = 5
PAUSE = 0.0005  # between two looks at the replies, in seconds
F_SETPIPE_SZ = 1031  # which fcntl has by name since 3.10
SESSIONS = (1, 2, 4)
TARGET = 2.5
PRINTED = max(1_000 // PART, 1)
# how many requests each session makes, and whether the target stands for them
KINDS = {"digests": (10_000, False), "puts": (15_000, True), "apart": (8_000, True), "together": (4_000, False), "prints": (40, True)}
# how often the session that applies beside so many sessions that print does it
again = dict.fromkeys(SESSIONS, 100)


def text(number):
    """A change that makes a file of one line, and needs no other."""
    line = b"line %d\n" % number
    return (b"pijul change 1\nmessage m\nauthor a\ntime 1\nfile root f%d\ninsert 0.1 after 0.1 before - %d\n%s\nend\n"
            % (number, len(line), line))


def put(number):
    return b"put %d\n%s\n" % (len(text(number)), text(number))


def name(number):
    return hashlib.sha256(text(number)).hexdigest().encode()


class Session:
    """A script of the program that is a pipe, and the file of its replies."""

    def __init__(self, number):
        self.path = f"{FOLDER}/{number}"
        os.mkfifo(self.path)

    def opens(self):
        """Waits until the program has opened the script and made the file of the replies."""
        self.script = open(self.path, "wb", buffering=0)
        fcntl.fcntl(self.script, F_SETPIPE_SZ, 1 << 20)
        while not os.path.exists(f"{self.path}.out"):
            time.sleep(PAUSE)
        self.replies = open(f"{self.path}.out", "rb", buffering=0)
        self.answered, self.end = 0, b"\n"

    def asks(self, requests):
        """Hands the requests to a thread that writes them to the pipe."""
        self.wanted = self.answered + len(requests)
        threading.Thread(target=self.script.write, args=[b"".join(requests)]).start()

    def is_answered(self):
        """Whether all replies are there. Each of them begins with `ok`, and no line of a print does."""
        while piece := self.replies.read(1 << 20):
            self.answered += (self.end + piece).count(b"\nok ")
            self.end = piece[-3:]
        return self.answered >= self.wanted

    def closes(self):
        self.script.close()
        self.replies.close()
        os.remove(self.path)
        os.remove(f"{self.path}.out")


def waits(sessions, start):
    """How long each of the sessions takes until its last reply is there."""
    ended = {}
    while len(ended) < len(sessions):
        for session in sessions:
            if session not in ended and session.is_answered():
                ended[session] = time.perf_counter() - start
        time.sleep(PAUSE)
    return [ended[session] for session in sessions]


def seconds(first, others):
    """How long each of the other sessions took, which begin after the first."""
    sessions = [Session(number) for number in range(1 + len(others))]
    program = subprocess.Popen([PROGRAM, "run", *(session.path for session in sessions)], stdout=subprocess.DEVNULL)
    for session in sessions:
        session.opens()
    sessions[0].asks(first)
    waits(sessions[:1], 0)
    start = time.perf_counter()
    for session, requests in zip(sessions[1:], others):
        session.asks(requests)
    taken = waits(sessions[1:], start)
    for session in sessions:
        session.closes()
    assert program.wait() == 0
    return taken


def puts(sessions, count):
    return max(seconds([], [[put(s * count + n) for n in range(count)] for s in range(sessions)]))


def applications(first, sessions, count, channel):
    """The applications of each session are of changes of its own."""
    first = first + [put(n) for n in range(sessions * count)]
    return max(seconds(first, [[b"apply %s %s\n" % (channel(s), name(s * count + n)) for n in range(count)]
                               for s in range(sessions)]))


def apart(sessions, count):
    return applications([b"new c%d\n" % s for s in range(sessions)], sessions, count, lambda s: b"c%d" % s)


def together(sessions, count):
    return applications([], sessions, count, lambda s: b"main")


def prints(sessions, count):
    first = [request for n in range(PRINTED) for request in (put(n), b"apply main %s\n" % name(n))] + [put(PRINTED)]
    pair = [b"apply main %s\n" % name(PRINTED), b"unrecord main %s\n" % name(PRINTED)]
    while True:
        *printing, applying = seconds(first, [[b"print main\n"] * count] * sessions + [pair * again[sessions]])
        if applying >= max(printing):
            return max(printing)
        again[sessions] = math.ceil(1.5 * again[sessions] * max(printing) / applying)


DIGESTS = '''
import hashlib, sys, time
sys.stdin.readline()
bytes, start = b"x" * 4_096, time.perf_counter()
for _ in range(int(sys.argv[1])):
    hashlib.sha256(bytes).digest()
print(time.perf_counter() - start)
'''


def digests(programs, count):
    """How long the last of so many programs took, which share nothing."""
    started = [subprocess.Popen([sys.executable, "-c", DIGESTS, str(count)], stdin=subprocess.PIPE, stdout=subprocess.PIPE)
               for _ in range(programs)]
    for program in started:
        program.stdin.write(b"\n")
        program.stdin.flush()
    return max(float(program.communicate()[0]) for program in started)


def rate(kind, sessions, count):
    """Requests a second."""
    return sessions * count / globals()[kind](sessions, count)


def loop(threads, seconds):
    """How many times as many turns of a loop so many threads make as one alone, where each lasts so long."""
    words = [LOOP, str(round(threads * seconds * 1e6)), "1", str(threads), "20"]
    return float(subprocess.run(words, stdout=subprocess.PIPE, check=True).stdout)


print(f"{os.cpu_count()} processors, load {os.getloadavg()[0]:.1f}")
worst = None
for kind, (requests, has_target) in KINDS.items():
    count = max(requests // PART, 1)
    runs = [[rate(kind, sessions, count) for sessions in SESSIONS] for _ in range(RUNS)]
    rates = [statistics.median(column) for column in zip(*runs)]
    if kind == "puts":
        lasts = count / rates[0]
    ratios = [r / rates[0] for r in rates]
    print(f"{kind:9} {rates[0]:9,.0f} a second with 1 {'program' if kind == 'digests' else 'session'}, "
          + ", ".join(f"{ratio:.2f} times with {sessions}" for sessions, ratio in zip(SESSIONS[1:], ratios[1:]))
          + (f" (target {TARGET})" if has_target else ""), flush=True)
    if has_target:
        worst = min(ratios[-1], worst or ratios[-1])
print("a loop in threads that last as long as those of puts: "
      + ", ".join(f"{loop(threads, lasts):.2f} times with {threads}" for threads in SESSIONS[1:]))
sys.exit(worst < TARGET and os.cpu_count() >= 4)
PYTHON
