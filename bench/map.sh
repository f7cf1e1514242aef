#!/bin/bash
# Times the persistent map with keys of 40 bytes against `BTreeMap` of the
# machine's Rust, in alternating runs: as it is changed in place, and as it is
# cloned before each change. At 1,000, 30,000 and 1,000,000 pairs it prints how
# many inserts, look-ups and removals a second each of them does, and the ratios.
#
# Each program works on as many maps as have a million pairs together, and puts
# a tenth as many more pairs in; it says when it has done each part. The clone is
# timed over as many changes as copy twenty million pairs, which take some tenths
# of a second at every size. A look-up clones nothing, so it has no such figure.
#
# Targets: a look-up takes at most 2 times as long as that of `BTreeMap`, and an
# insert at 1,000,000 pairs at most 3 times as long as one at 1,000.
#
# What was measured stands in bench/README.md.
set -eu
cd "$(dirname "$0")/.."
(cd crates/bench && rt run -- map 1 10 1 >/dev/null)
folder=$(mktemp -d)
trap 'rm -rf "$folder"' EXIT
cat >"$folder/plain.rs" <<'RUST'
use std::collections::BTreeMap;

type Key = [u64; 5];

fn key_of(number: u64) -> Key {
    let mut word = number.wrapping_mul(0x9E37_79B9_7F4A_7C15);
    word ^= word >> 32;
    word = word.wrapping_mul(0xD6E8_FEB8_6659_FD93);
    [word, number, word, number, word]
}

fn look_up(maps: &[BTreeMap<Key, u64>], start: u64, end: u64) -> u64 {
    let mut found = 0;
    for map in maps {
        for number in start..end {
            found += u64::from(map.get(&key_of(number)) == Some(&number));
        }
    }
    found
}

fn main() {
    let words: Vec<String> = std::env::args().skip(1).collect();
    let numbers: Vec<u64> = words[1..].iter().map(|word| word.parse().unwrap()).collect();
    let (count, pairs, end) = (numbers[0], numbers[1], numbers[1] + numbers[2]);
    let cloned = words[0] == "cloned";
    let mut maps = Vec::new();
    for _ in 0..count {
        let mut map = BTreeMap::new();
        for number in 0..pairs {
            map.insert(key_of(number), number);
        }
        maps.push(map);
    }
    println!("built");
    for map in &mut maps {
        for number in pairs..end {
            if cloned {
                *map = map.clone();
            }
            map.insert(key_of(number), number);
        }
    }
    println!("put");
    println!("found {}", look_up(&maps, pairs, end));
    for map in &mut maps {
        for number in pairs..end {
            if cloned {
                *map = map.clone();
            }
            map.remove(&key_of(number));
        }
    }
    println!("taken out");
    println!("found {}", look_up(&maps, pairs, end));
}
RUST
rustc -O -o "$folder/plain" "$folder/plain.rs"
python3 - "$PWD/crates/bench/out/bench" "$folder/plain" <<'PYTHON'
import statistics
import subprocess
import sys
import time

PROVED, PLAIN = sys.argv[1:]
PAIRS = 1_000_000
CLONED_PAIRS = 20_000_000
RUNS = 5
PARTS = ["inserts", "look-ups", "removals"]


def seconds(command, count, pairs, more):
    """The seconds that one insert, one look-up and one removal take."""
    process = subprocess.Popen([*command, str(count), str(pairs), str(more)], stdout=subprocess.PIPE)
    lines, times = [], []
    while line := process.stdout.readline():
        times.append(time.perf_counter())
        lines.append(line.decode().strip())
    assert process.wait() == 0
    changes = count * more
    assert lines == ["built", "put", f"found {changes}", "taken out", "found 0"], lines
    return [(later - earlier) / changes for earlier, later in zip(times, times[1:4])]


def medians(runs):
    return [statistics.median(column) for column in zip(*runs)]


proved_at = {}
lookup_ratios = []
for pairs in (1_000, 30_000, 1_000_000):
    count, more = PAIRS // pairs, pairs // 10
    clones = CLONED_PAIRS // pairs
    clones_a_map = min(clones, more)
    proved, plain, cloned = [], [], []
    for _ in range(RUNS):
        proved.append(seconds([PROVED, "map"], count, pairs, more))
        plain.append(seconds([PLAIN, "plain"], count, pairs, more))
        cloned.append(seconds([PLAIN, "cloned"], clones // clones_a_map, pairs, clones_a_map))
    proved_at[pairs] = medians(proved)
    print(f"{pairs:,} pairs, a second:")
    for part, ours, theirs, copied in zip(PARTS, medians(proved), medians(plain), medians(cloned)):
        line = f"  {part:9} {1 / ours:12,.0f}   BTreeMap in place {1 / theirs:12,.0f}, ratio of times {ours / theirs:6.2f}"
        if part != "look-ups":
            line += f";   cloned {1 / copied:12,.0f}, ratio {ours / copied:.4f}"
        print(line, flush=True)
    lookup_ratios.append(medians(proved)[1] / medians(plain)[1])
growth = proved_at[1_000_000][0] / proved_at[1_000][0]
print(f"a look-up takes at most {max(lookup_ratios):.2f} times as long (target 2)")
print(f"an insert at 1,000,000 pairs takes {growth:.2f} times as long as one at 1,000 (target 3)")
sys.exit(max(lookup_ratios) > 2 or growth > 3)
PYTHON
