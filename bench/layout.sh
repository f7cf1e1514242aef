#!/bin/bash
# Times the layout of four strict orders of 1,024, 4,096 and 16,384 classes against a straight C program of the
# same six rules (bench/layout.c), in alternating runs. It prints the seconds that one layout takes, the ratio to
# the C program, the peak memory of the program, and how both grow from each size to the next.
#
#   chain      each class is before all greater ones
#   antichain  no class is before another
#   nested     an even class is before all greater ones, and an odd one before none: 64 levels, and a tangle inside
#   random     what follows from four pairs for each class, drawn from a strict order
#
# Both programs must give the same layout. The peak is that of the whole program: the matrix of the order, the same
# turned round, and the layout.
#
# Target: a layout of 16,384 classes takes at most 4 seconds.
set -eu
cd "$(dirname "$0")/.."
work=$(mktemp -d)
trap 'rm -rf "$work"' EXIT
(cd crates/bench && rt run -- layout chain 1 1 >/dev/null)
"${CC:-cc}" -O3 -march=x86-64-v2 -o "$work/layout" bench/layout.c
python3 - "$PWD/crates/bench/out/bench" "$work/layout" <<'PYTHON'
import subprocess
import sys
import time

PROVED, STRAIGHT = [sys.argv[1], "layout"], sys.argv[2:]
ORDERS = ["chain", "antichain", "nested", "random"]
# how many classes, and how many layouts a run makes
SIZES = [(1024, 128), (4096, 8), (16384, 1)]
RUNS = 3
TARGET = 4


def seconds(program, order, size, times):
    start = time.perf_counter()
    out = subprocess.run([*program, order, str(size), str(times)], stdout=subprocess.PIPE, check=True).stdout
    return time.perf_counter() - start, out


def one_layout(program, order, size, times):
    """The seconds of one layout: those of a run with more layouts, less those of a run with one."""
    return (seconds(program, order, size, times + 1)[0] - seconds(program, order, size, 1)[0]) / times


def peak_bytes(program, order, size):
    """The greatest resident size of the program, as the kernel counts it, by GNU time."""
    done = subprocess.run(["/usr/bin/time", "-f", "%M", *program, order, str(size), "1"],
                          stdout=subprocess.DEVNULL, stderr=subprocess.PIPE, check=True)
    return int(done.stderr.split()[-1]) * 1024


longest = 0
for order in ORDERS:
    before = None
    for size, times in SIZES:
        assert seconds(PROVED, order, size, 1)[1] == seconds(STRAIGHT, order, size, 1)[1], (order, size)
        pairs = [(one_layout(PROVED, order, size, times), one_layout(STRAIGHT, order, size, times)) for _ in range(RUNS)]
        proved, straight = (min(column) for column in zip(*pairs))
        peak = peak_bytes(PROVED, order, size)
        line = f"{order:9} {size:5} {proved:.4f} s, {proved / straight:.2f} times the C program, {peak / 1e6:.1f} MB at most"
        if before:
            line += f"; {proved / before[0]:.1f} times the seconds and {peak / before[1]:.1f} times the memory"
        print(line, flush=True)
        before = proved, peak
    longest = max(longest, before[0])
print(f"the longest layout takes {longest:.2f} s, and the target is {TARGET}")
sys.exit(longest > TARGET)
PYTHON
