#!/bin/bash
# Times the tables of a channel against `BTreeMap` of the machine's Rust, as it
# is changed in place, in alternating runs: cuts, rows of edges, needs and
# versions. At 1,000, 30,000 and 1,000,000 rows it prints how many adds and
# look-ups a second each of them does, and the ratios of times.
#
# Each program works on as many tables as have a million rows together, and adds
# a tenth as many more; it says when it has done each part. The Rust program has
# as many maps for a table as the table itself: two but for cuts. What is looked
# up is the count of a cut, a row by its source, the least change that needs
# another one, and the first version that survives at a point, where the Rust
# program looks up one key.
#
# Target: an add at 1,000,000 rows takes at most 4 times as long as one at 1,000.
#
# What was measured stands in bench/README.md.
set -eu
cd "$(dirname "$0")/.."
(cd crates/bench && rt run -- tables cuts 1 10 1 >/dev/null)
folder=$(mktemp -d)
trap 'rm -rf "$folder"' EXIT
cat >"$folder/plain.rs" <<'RUST'
use std::collections::BTreeMap;

type Name = [u8; 32];
type Point = (Name, u32);

fn name_of(number: u32) -> Name {
    let mut word = u64::from(number).wrapping_mul(0x9E37_79B9_7F4A_7C15);
    word ^= word >> 32;
    let word = word.wrapping_mul(0xD6E8_FEB8_6659_FD93).to_be_bytes();
    let number = number.to_be_bytes();
    let mut name = [0; 32];
    name[..8].copy_from_slice(&word);
    name[8..12].copy_from_slice(&number);
    name[12..16].copy_from_slice(&number);
    name[16..24].copy_from_slice(&word);
    name[24..28].copy_from_slice(&number);
    name[28..].copy_from_slice(&number);
    name
}

fn point_of(number: u32) -> Point {
    (name_of(number), number % 1_000)
}

trait Table {
    type Row;
    fn none() -> Self;
    fn row(number: u32) -> Self::Row;
    fn add(&mut self, row: &Self::Row);
    fn has(&self, row: &Self::Row) -> bool;
}

struct Cuts(BTreeMap<Point, u128>);

impl Table for Cuts {
    type Row = Point;
    fn none() -> Self {
        Cuts(BTreeMap::new())
    }
    fn row(number: u32) -> Point {
        point_of(number)
    }
    fn add(&mut self, row: &Point) {
        *self.0.entry(*row).or_insert(0) += 1;
    }
    fn has(&self, row: &Point) -> bool {
        self.0.get(row) == Some(&1)
    }
}

type Row = (Point, Point, u8, Name);

struct Edges {
    out: BTreeMap<Row, ()>,
    into: BTreeMap<Row, ()>,
}

impl Table for Edges {
    type Row = Row;
    fn none() -> Self {
        Edges { out: BTreeMap::new(), into: BTreeMap::new() }
    }
    fn row(number: u32) -> Row {
        (point_of(number), point_of(number.wrapping_mul(7)), 0, name_of(number))
    }
    fn add(&mut self, row: &Row) {
        let (source, target, label, introducer) = *row;
        self.out.insert(*row, ());
        self.into.insert((target, source, label, introducer), ());
    }
    fn has(&self, row: &Row) -> bool {
        self.out.contains_key(row)
    }
}

struct Deps {
    held: BTreeMap<Name, ()>,
    holders: BTreeMap<(Name, Name), ()>,
}

impl Table for Deps {
    type Row = (Name, Name);
    fn none() -> Self {
        Deps { held: BTreeMap::new(), holders: BTreeMap::new() }
    }
    fn row(number: u32) -> (Name, Name) {
        (name_of(number), name_of(!number))
    }
    fn add(&mut self, row: &(Name, Name)) {
        self.held.insert(row.1, ());
        self.holders.insert(*row, ());
    }
    fn has(&self, row: &(Name, Name)) -> bool {
        self.holders.contains_key(row)
    }
}

struct Deletion {
    owner: Name,
    start: u32,
    end: u32,
    by: Vec<Name>,
    alive: bool,
}

type Range = (Name, u32, u32, Name, u32);

struct Versions {
    hunks: BTreeMap<(Name, u32), Deletion>,
    ranges: BTreeMap<Range, u32>,
}

const OWNER: Name = [7; 32];

impl Table for Versions {
    type Row = u32;
    fn none() -> Self {
        Versions { hunks: BTreeMap::new(), ranges: BTreeMap::new() }
    }
    fn row(number: u32) -> u32 {
        number
    }
    fn add(&mut self, row: &u32) {
        let (change, start) = (name_of(*row), 2 * row);
        if self.hunks.contains_key(&(change, 0)) {
            return;
        }
        let deletion = Deletion { owner: OWNER, start, end: start + 2, by: vec![OWNER], alive: false };
        self.hunks.insert((change, 0), deletion);
        self.ranges.insert((OWNER, 1, start, change, 0), start + 2);
    }
    fn has(&self, row: &u32) -> bool {
        let found = self.hunks.get(&(name_of(*row), 0));
        found.is_some_and(|d| d.start <= 2 * row && 2 * row < d.end && !d.alive && d.owner == OWNER && d.by == [OWNER])
    }
}

fn work<T: Table>(count: u32, rows: u32, more: u32) {
    let mut tables: Vec<T> = Vec::new();
    for _ in 0..count {
        let mut table = T::none();
        for number in 0..rows {
            table.add(&T::row(number));
        }
        tables.push(table);
    }
    let others: Vec<T::Row> = (rows..rows + more).map(T::row).collect();
    println!("built");
    for table in &mut tables {
        for row in &others {
            table.add(row);
        }
    }
    println!("put");
    let mut found = 0u64;
    for table in &tables {
        for row in &others {
            found += u64::from(table.has(row));
        }
    }
    println!("found {found}");
}

fn main() {
    let words: Vec<String> = std::env::args().skip(1).collect();
    let numbers: Vec<u32> = words[1..].iter().map(|word| word.parse().unwrap()).collect();
    let (count, rows, more) = (numbers[0], numbers[1], numbers[2]);
    match words[0].as_str() {
        "cuts" => work::<Cuts>(count, rows, more),
        "edges" => work::<Edges>(count, rows, more),
        "deps" => work::<Deps>(count, rows, more),
        _ => work::<Versions>(count, rows, more),
    }
}
RUST
rustc -O -o "$folder/plain" "$folder/plain.rs"
python3 - "$PWD/crates/bench/out/bench" "$folder/plain" <<'PYTHON'
import statistics
import subprocess
import sys
import time

PROVED, PLAIN = [sys.argv[1], "tables"], sys.argv[2:]
ROWS = 1_000_000
RUNS = 3
PARTS = ["adds", "look-ups"]


def seconds(program, table, count, rows, more):
    """The seconds that one add and one look-up take."""
    process = subprocess.Popen([*program, table, str(count), str(rows), str(more)], stdout=subprocess.PIPE)
    lines, times = [], []
    while line := process.stdout.readline():
        times.append(time.perf_counter())
        lines.append(line.decode().strip())
    assert process.wait() == 0
    added = count * more
    assert lines == ["built", "put", f"found {added}"], lines
    return [(later - earlier) / added for earlier, later in zip(times, times[1:])]


def medians(runs):
    return [statistics.median(column) for column in zip(*runs)]


growths = {}
for table in ("cuts", "edges", "deps", "versions"):
    adds = {}
    for rows in (1_000, 30_000, 1_000_000):
        count, more = ROWS // rows, rows // 10
        proved, plain = [], []
        for _ in range(RUNS):
            proved.append(seconds(PROVED, table, count, rows, more))
            plain.append(seconds(PLAIN, table, count, rows, more))
        print(f"{table}, {rows:,} rows, a second:")
        for part, ours, theirs in zip(PARTS, medians(proved), medians(plain)):
            print(f"  {part:9} {1 / ours:12,.0f}   BTreeMap in place {1 / theirs:12,.0f}, ratio of times {ours / theirs:6.2f}", flush=True)
        adds[rows] = medians(proved)[0], medians(plain)[0]
    growths[table], plain_growth = (big / small for big, small in zip(adds[1_000_000], adds[1_000]))
    print(f"an add to {table} at 1,000,000 rows takes {growths[table]:.2f} times as long as one at 1,000 (target 4); BTreeMap {plain_growth:.2f} times")
sys.exit(max(growths.values()) > 4)
PYTHON
