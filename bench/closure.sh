#!/bin/bash
# Times the closure of four graphs on 16,384 numbers against a straight C program of the same
# algorithm (bench/closure.c), in alternating runs, and prints the seconds that one closure takes,
# the ratio to the C program and the peak memory.
#
#   chain     each number leads to the next, by four edges
#   cycle     one cycle through all numbers
#   random    65,536 edges drawn from a strict order
#   none      no edge
#
# Target: a ratio of at most 3.
set -eu
cd "$(dirname "$0")/.."
work=$(mktemp -d)
trap 'rm -rf "$work"' EXIT
(cd crates/bench && rt run -- closure none 1 >/dev/null)
"${CC:-cc}" -O2 -o "$work/closure" bench/closure.c
python3 - "$PWD/crates/bench/out/bench" "$work/closure" <<'PYTHON'
import statistics
import subprocess
import sys
import time

PROVED, STRAIGHT = [sys.argv[1], "closure"], sys.argv[2:]
GRAPHS = ["chain", "cycle", "random", "none"]
CLOSURES = 10
RUNS = 5


def seconds(program, graph, times):
    start = time.perf_counter()
    out = subprocess.run([*program, graph, str(times)], stdout=subprocess.PIPE, check=True).stdout
    return time.perf_counter() - start, out


def one_closure(program, graph):
    """The seconds of one closure: those of a run with more closures, less those of a run with one."""
    return (seconds(program, graph, CLOSURES + 1)[0] - seconds(program, graph, 1)[0]) / CLOSURES


def peak_bytes(program, graph):
    """The greatest resident size of the program, as the kernel counts it, by GNU time."""
    done = subprocess.run(["/usr/bin/time", "-f", "%M", *program, graph, "1"],
                          stdout=subprocess.DEVNULL, stderr=subprocess.PIPE, check=True)
    return int(done.stderr.split()[-1]) * 1024


worst = 0
for graph in GRAPHS:
    assert seconds(PROVED, graph, 1)[1] == seconds(STRAIGHT, graph, 1)[1], graph
    pairs = [(one_closure(PROVED, graph), one_closure(STRAIGHT, graph)) for _ in range(RUNS)]
    proved = statistics.median(pair[0] for pair in pairs)
    straight = statistics.median(pair[1] for pair in pairs)
    worst = max(worst, proved / straight)
    peak = peak_bytes(PROVED, graph) / 1e6
    print(f"{graph:7} {proved:.4f} s, {proved / straight:.2f} times the C program, {peak:.1f} MB at most")
print(f"the worst ratio is {worst:.2f}, and the target 3")
sys.exit(worst > 3)
PYTHON
