#!/bin/bash
# Times commits on a counter behind the book against a plain `Mutex` with a
# `Vec` in the machine's Rust, in alternating runs, and prints for 1, 2 and 4
# threads the commits a second of each and the ratio of the medians.
#
# Target: a ratio of at least 0.5.
set -eu
cd "$(dirname "$0")/.."
(cd crates/bench && rt run -- book 1 1 >/dev/null)
folder=$(mktemp -d)
trap 'rm -rf "$folder"' EXIT
cat >"$folder/plain.rs" <<'RUST'
use std::sync::Mutex;

struct Entry {
    pass: u32,
    call: u64,
    content: u32,
}

struct Counter {
    count: u64,
    journal: Vec<Entry>,
}

fn main() {
    let words: Vec<u32> = std::env::args().skip(1).map(|word| word.parse().unwrap()).collect();
    let (threads, times) = (words[0], words[1]);
    let labels: Vec<u32> = (0..times).collect();
    let counter = Mutex::new(Counter { count: 0, journal: Vec::new() });
    std::thread::scope(|scope| {
        for pass in 1..=threads {
            let (counter, labels) = (&counter, &labels);
            scope.spawn(move || {
                let mut call = 0;
                for &content in labels {
                    call += 1;
                    let mut state = counter.lock().unwrap();
                    state.journal.push(Entry { pass, call, content });
                    state.count += 1;
                }
            });
        }
    });
    let state = counter.into_inner().unwrap();
    assert_eq!(state.count as usize, state.journal.len());
    let own = state.journal.iter().filter(|e| e.pass == 1 && e.call > 0 && e.content < times).count();
    assert_eq!(own as u32, times);
    println!("{}", state.journal.len());
}
RUST
rustc -O -o "$folder/plain" "$folder/plain.rs"
python3 - "$PWD/crates/bench/out/bench" "$folder/plain" <<'PYTHON'
import statistics
import subprocess
import sys
import time

BOOK, PLAIN = [sys.argv[1], "book"], sys.argv[2:3]
RUNS = 7
COMMITS = 4_000_000
TARGET = 0.5


def seconds(program, threads, times):
    """How long a run takes beyond one with no commits."""
    start = time.perf_counter()
    answer = subprocess.run([*program, str(threads), str(times)], stdout=subprocess.PIPE, check=True)
    taken = time.perf_counter() - start
    assert int(answer.stdout) == threads * times, answer.stdout
    return taken


ratios = []
for threads in (1, 2, 4):
    times = COMMITS // threads
    book, plain = [], []
    for _ in range(RUNS):
        plain.append(seconds(PLAIN, threads, times) - seconds(PLAIN, threads, 0))
        book.append(seconds(BOOK, threads, times) - seconds(BOOK, threads, 0))
    fast, slow = COMMITS / statistics.median(plain), COMMITS / statistics.median(book)
    ratios.append(slow / fast)
    print(f"{threads} threads: book {slow:,.0f} commits a second, plain Mutex {fast:,.0f}, "
          f"ratio {ratios[-1]:.2f} (target {TARGET})", flush=True)
sys.exit(min(ratios) < TARGET)
PYTHON
