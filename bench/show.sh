#!/bin/bash
# Times `pijuld show` against `sha256sum` on the same two files, in alternating
# runs, and prints the ratio of the medians and the peak memory.
#
#   one insert     a version 2 text of 16,777,216 bytes with one large insertion
#   many hunks     4,096 hunks in a text of 1 MiB
#
# Targets: a ratio of at most 2.5 and 6, and memory of at most 4 times the text.
set -eu
cd "$(dirname "$0")/.."
./pijuld --version >/dev/null
exec python3 - "$PWD/crates/pijuld/out/pijuld" <<'PYTHON'
import os
import statistics
import subprocess
import sys
import tempfile
import time

PROGRAM = sys.argv[1]
RUNS = 15
MEMORY_TARGET = 4


def one_insert():
    count = 16_777_117
    head = b"pijul change 2\nmessage L\nauthor ann\ntime 1\nfile root a\n"
    return head + b"insert 0.1 after 0.1 before - %d\n" % count + b"x" * count + b"\nend\n"


def many_hunks():
    """An insertion after each earlier one, with bytes that fill the text to 1 MiB."""
    head = b"pijul change 1\nmessage many\nauthor ann\ntime 1\nfile root a\n"
    hunks, place, size = [], 1, 216
    for _ in range(4095):
        hunk = b"insert 0.1 after 0.%d before - %d\n%s\n" % (place, size, b"y" * size)
        hunks.append(hunk)
        place = place + size if place > 1 else 1 + size
    text = head + b"".join(hunks) + b"end\n"
    assert len(text) <= 1_048_576, len(text)
    return text


def seconds(command, path):
    with open(path, "rb") as file:
        start = time.perf_counter()
        subprocess.run(command, stdin=file, stdout=subprocess.DEVNULL, check=True)
        return time.perf_counter() - start


def peak_bytes(path):
    """The greatest resident size of the program, as the kernel counts it."""
    with open(path, "rb") as file:
        if os.path.exists("/usr/bin/time"):
            done = subprocess.run(["/usr/bin/time", "-f", "%M", PROGRAM, "show"], stdin=file,
                                  stdout=subprocess.DEVNULL, stderr=subprocess.PIPE, check=True)
            return int(done.stderr.split()[-1]) * 1024
        return polled_peak(subprocess.Popen([PROGRAM, "show"], stdin=file, stdout=subprocess.DEVNULL))


def polled_peak(process):
    """The last peak that /proc tells before the process ends."""
    peak = 0
    while process.poll() is None:
        try:
            if os.readlink(f"/proc/{process.pid}/exe") == PROGRAM:
                with open(f"/proc/{process.pid}/status") as status:
                    peak = max([peak] + [int(line.split()[1]) * 1024 for line in status if line.startswith("VmHWM")])
        except OSError:
            pass
    return peak


def measure(name, text, target):
    """Prints the ratio and the memory. Whether both are at most their targets."""
    with tempfile.NamedTemporaryFile() as file:
        file.write(text)
        file.flush()
        shown, hashed = [], []
        for _ in range(RUNS):
            hashed.append(seconds(["sha256sum"], file.name))
            shown.append(seconds([PROGRAM, "show"], file.name))
        show, digest = statistics.median(shown), statistics.median(hashed)
        memory = peak_bytes(file.name) / len(text)
        print(f"{name}: {len(text)} bytes, show {show * 1000:.2f} ms, sha256sum {digest * 1000:.2f} ms, "
              f"ratio {show / digest:.2f} (target {target}), "
              f"memory {memory:.2f} times the text (target {MEMORY_TARGET})", flush=True)
        return show / digest <= target and memory <= MEMORY_TARGET


met = [measure("one insert", one_insert(), 2.5), measure("many hunks", many_hunks(), 6)]
sys.exit(not all(met))
PYTHON
