#!/bin/bash
# Times `refresh` of pseudo-edges where one vertex of a dead set is touched, in sets of 100, 10,000 and 100,000
# vertices of three shapes:
#
#   chain   each vertex leads to the next
#   comb    every second vertex leads to the next such one, and to a tooth between them
#   grid    rows of three, in which each vertex leads to the next of its row, and to the one below it
#
# and where a set of two vertices is touched that stands alone, or beside a chain of 100,000 with one live vertex between them.
#
# There is a live vertex at each end of a set and no other, so a set has one row, and the walk is what is timed: a set can have as
# many rows as the square of the number of live vertices around it, and each of them is a step of a map. The vertices are numbers,
# and their neighbours are computed, so a look-up takes next to nothing. Both views of a refresh are the same one, which is walked
# once for each of them.
#
# The program says when the first rows are made, and when the refreshes are done; it repeats them until a million dead vertices
# were walked. It prints the medians of alternating runs.
#
# Targets: a set of 100,000 takes at most 15 times as long as one of 10,000; one of two vertices takes at most 1.5 times as long
# beside a large one as alone.
#
# What was measured stands in bench/README.md.
set -eu
cd "$(dirname "$0")/.."
(cd crates/bench && rt run -- dead chain 100 0 10 >/dev/null)
exec python3 - "$PWD/crates/bench/out/bench" <<'PYTHON'
import os
import statistics
import subprocess
import sys
import time

PROGRAM = sys.argv[1]
WALKED = 1_000_000
RUNS = 3
SHAPES = ["chain", "comb", "grid"]
SIZES = [100, 10_000, 100_000]
SMALL = 2
GROWTH_TARGET = 15
BESIDE_TARGET = 1.5


def seconds(shape, size, beside):
    """The seconds that one refresh takes."""
    times = WALKED // size
    words = [PROGRAM, "dead", shape, str(size), str(beside), str(times)]
    process = subprocess.Popen(words, stdout=subprocess.PIPE)
    lines, moments = [], []
    while line := process.stdout.readline():
        moments.append(time.perf_counter())
        lines.append(line.decode().strip())
    assert process.wait() == 0
    rows = 2 if beside else 1
    assert lines == [f"{rows} rows"] * 2, lines
    return (moments[1] - moments[0]) / times


CASES = [(shape, size, 0) for shape in SHAPES for size in SIZES]
CASES += [("chain", SMALL, 0), ("chain", SMALL, SIZES[-1])]
print(f"{os.cpu_count()} processors, load {os.getloadavg()[0]:.1f}", flush=True)
runs = [[seconds(*case) for case in CASES] for _ in range(RUNS)]
took = dict(zip(CASES, map(statistics.median, zip(*runs))))
growths = []
for shape in SHAPES:
    small, middle, large = (took[shape, size, 0] for size in SIZES)
    growths.append(large / middle)
    print(f"{shape:5}  " + ", ".join(f"{size:,} in {took[shape, size, 0] * 1e3:.3f} ms" for size in SIZES)
          + f"; {middle / small:.1f} times from 100 to 10,000, and {large / middle:.1f} times from there to 100,000")
alone, beside = took["chain", SMALL, 0], took["chain", SMALL, SIZES[-1]]
print(f"two    {alone * 1e6:.2f} microseconds alone, {beside * 1e6:.2f} beside {SIZES[-1]:,}")
print(f"100,000 take at most {max(growths):.1f} times as long as 10,000 (target {GROWTH_TARGET})")
print(f"two take {beside / alone:.2f} times as long beside {SIZES[-1]:,} as alone (target {BESIDE_TARGET})")
sys.exit(max(growths) > GROWTH_TARGET or beside / alone > BESIDE_TARGET)
PYTHON
