#!/bin/bash
# Times the decoding of texts of 1 and 16 MiB, each in one `put`, and of 100,000 short requests, fed in pieces of 4,096 bytes,
# against a straight C program of the same grammar (bench/wire.c) and against `cat` of the same bytes, in alternating runs.
#
# Time is processor time, the program's own and the system's for it, so that other work on the machine counts little. A run
# decodes many times; one run that decodes once is taken from it, which leaves out the start and the making of the input. The
# allocator keeps what is freed, so that no decoding but the first takes new pages. Printed are medians. Both programs must give
# the same counts.
#
# How the time grows with a text is found over the same bytes in both sizes: sixteen streams of 1 MiB, each with its own
# decoder, all kept, against one stream of 16 MiB. So neither has the processor's cache to itself. 16 MiB may take 20 times as
# long as 1 MiB, which is 1.25 times as long as the sixteen streams. The C program's growth stands beside it. Where valgrind is
# there, the instructions of short requests are counted too.
#
# Targets: at most 3 times the time of the C program, and 16 MiB in at most 20 times that of 1 MiB.
set -eu
cd "$(dirname "$0")/.."
work=$(mktemp -d)
trap 'rm -rf "$work"' EXIT
(cd crates/bench && rt run -- wire short 1 1 1 >/dev/null)
"${CC:-cc}" -O3 -march=x86-64-v2 -o "$work/wire" bench/wire.c
python3 - "$PWD/crates/bench/out/bench" "$work/wire" "$work/bytes" <<'PYTHON'
import os
import shutil
import statistics
import subprocess
import sys

PROVED, STRAIGHT, BYTES = [sys.argv[1], "wire"], [sys.argv[2]], sys.argv[3]
# what is decoded, the programs' words for it, how often a run decodes it, and its bytes
CASES = [
    ("16 texts of 1 MiB", ["put", str(1 << 20), "16"], 24, 16 * ((1 << 20) + 13)),
    ("1 text of 16 MiB", ["put", str(1 << 24), "1"], 24, (1 << 24) + 14),
    ("100,000 short requests", ["short", "100000", "1"], 32, 3_540_000),
]
RUNS = 9
TARGET, GROWTH = 3, 20
# all memory from the heap, of which nothing is given back
KEPT = {**os.environ, "MALLOC_MMAP_MAX_": "0", "MALLOC_TRIM_THRESHOLD_": str(1 << 40)}


def seconds(words):
    """The processor time of a program, with that of those it waits for."""
    silent = [(os.POSIX_SPAWN_OPEN, 1, os.devnull, os.O_WRONLY, 0)]
    _, status, used = os.wait4(os.posix_spawnp(words[0], words, KEPT, file_actions=silent), 0)
    assert status == 0, words
    return used.ru_utime + used.ru_stime


def one_of(command, times):
    """The time of one decoding, where `command` gives the words of a run with so many."""
    return (seconds(command(times + 1)) - seconds(command(1))) / times


def decode(program, words):
    return lambda times: [*program, *words, str(times)]


def cat(times):
    return ["sh", "-c", 'cat "$@" | cat >/dev/null', "cat"] + [BYTES] * times


def printed(program, words):
    return subprocess.run([*program, *words, "1"], stdout=subprocess.PIPE, check=True).stdout


def instructions(program, words):
    """The instructions of one decoding: half of what a run with three has more than one with one."""
    counts = []
    for times in ("3", "1"):
        command = ["valgrind", "--tool=callgrind", "--callgrind-out-file=/dev/null", *program, *words, times]
        told = subprocess.run(command, stdout=subprocess.PIPE, stderr=subprocess.PIPE, check=True).stderr.decode()
        counts.append(int(told.split("Collected : ")[1].split()[0]))
    return (counts[0] - counts[1]) / 2


def growth(many, one):
    """How many times as long as 1 MiB a text of 16 MiB takes, by the times of sixteen texts of 1 MiB and of that one."""
    return 16 * one / many


proved, straight = [], []
for name, words, times, count in CASES:
    assert printed(PROVED, words) == printed(STRAIGHT, words), name
    with open(BYTES, "wb") as file:
        file.write(b"\n" * count)
    runs = [(one_of(decode(PROVED, words), times), one_of(decode(STRAIGHT, words), times), one_of(cat, times)) for _ in range(RUNS)]
    ours, theirs, copied = (statistics.median(column) for column in zip(*runs))
    ratios = sorted(run[0] / run[1] for run in runs)
    print(f"{name}: {ours * 1e3:.2f} ms, {count / ours / 1e6:.0f} MB a second, {ours / theirs:.2f} times the C program "
          f"({ratios[0]:.2f} to {ratios[-1]:.2f} in {RUNS} runs), {ours / copied:.2f} times cat", flush=True)
    proved.append(ours)
    straight.append(theirs)
worst = max(ours / theirs for ours, theirs in zip(proved, straight))
grown = growth(*proved[:2])
print(f"at most {worst:.2f} times the C program, and the target is {TARGET}")
print(f"16 MiB take {grown:.1f} times as long as 1 MiB, and the target is {GROWTH}; with the C program {growth(*straight[:2]):.1f} times")
if shutil.which("valgrind"):
    words = CASES[2][1]
    print(f"short requests take {instructions(PROVED, words) / instructions(STRAIGHT, words):.2f} times the instructions of the C program")
sys.exit(worst > TARGET or grown > GROWTH)
PYTHON
