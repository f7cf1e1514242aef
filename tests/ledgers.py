"""Sees that no crate counts steps in a ledger of its own.

  python3 tests/ledgers.py      over crates/pj_*/src of this repository

A bound on steps is said of the ledger that the caller hands in, so a function that opened
another one could take any number of steps and keep its contract. No contract can forbid
that: so the sources may name the ledger's `Blank`, from which one is opened, only in the
files below, and open as many as stand there. Programs open those that they hand in.
"""
from __future__ import annotations

import re
import sys
from pathlib import Path

TOP = Path(__file__).resolve().parent.parent

# The files that name a blank of the ledger, and how many each makes. None of these is counted for a caller: rows across
# dead text (said of `changed` and `refresh`), the tree of a plain channel, and the calls of the state behind the lock.
STANDING = {
    "pj_dead/src/pseudo.rt": 1,
    "pj_plain/src/names.rt": 0,
    "pj_plain/src/walk.rt": 1,
    "pj_pmap/src/steps.rt": 0,
    "pj_state/src/uncounted.rt": 4,
}
# `pj_book` has a type of this name too, which opens a book and no ledger.
OTHER_BLANK = re.compile(r"\buse\s+pj_book::(\w+|\{[\w\s,]*\})\s*;")
BRINGS_IN = re.compile(r"(?<!pub )\buse\s+std::sync::ledger::(\w+|\{[\w\s,]*\})\s*;")
IN_SCOPE = {"Blank", "Book", "Ledger", "Share"}


def code_of(text: str) -> str:
    """The text without comments, and without what strings hold."""
    return re.sub(r"//[^\n]*|'(?:\\.|[^'\\])'|\"(?:\\.|[^\"\\])*\"", "", text)


def faults(name: str, text: str) -> list[str]:
    """What is wrong with a source file, of which the name begins with that of its crate."""
    code = code_of(text)
    brought = [it for found in BRINGS_IN.findall(code) for it in re.findall(r"\w+", found)]
    rest = BRINGS_IN.sub("", code)
    if re.search(r"\bledger\b", rest) or not IN_SCOPE.issuperset(brought):
        return ["the ledger is brought in by a plain `use` of its names, and named nowhere else"]
    if "Blank" in brought:
        made, allowed = len(re.findall(r"\bBlank\s*::\s*new\b", rest)), STANDING.get(name)
        return [] if made == allowed else [f"{made} ledgers are opened here, where {allowed or 'none'} may be"]
    is_other = name.startswith("pj_book/") or any("Blank" in it for it in OTHER_BLANK.findall(code))
    return ["a `Blank` is named that does not come from pj_book"] if re.search(r"\bBlank\b", code) and not is_other else []


# Sources that have to be refused, and one that has not to be.
WRONG = (
    "use std::sync::ledger::Blank;\nfn f() { let b = Blank::new(1); }",
    "use std::sync::ledger::{Blank, Ledger};\nfn f(b: Blank) {}",
    "use std::sync::ledger::{Blank as B};\nfn f() { let b = B::new(1); }",
    "use std::sync::ledger::*;\nfn f() { let b = Blank::new(1); }",
    "use std::sync::ledger;\nfn f() { let b = ledger::Blank::new(1); }",
    "fn f() { let b = core::ledger::Blank::new(1); }",
    "use super::Blank;\nfn f() { let b = Blank::new(1); }",
    "fn f() { let c = b'\"'; let b = core::ledger::Blank::new(1); let d = b'\"'; }",
)
RIGHT = "use pj_book::{Blank, Keeps};\nuse std::sync::ledger::Ledger; // as the ledger of Blank::new\nfn f() { Blank::new(alloc) }"


def main() -> int:
    if not all(faults("pj_rows/src/counts.rt", it) for it in WRONG) or faults("pj_load/src/run.rt", RIGHT):
        print("FAILED: this check passes what it has to refuse, or refuses what is right")
        return 1
    found = sorted(TOP.glob("crates/pj_*/src/**/*.rt"))
    told = [(it, why) for it in found for why in faults(str(it.relative_to(TOP / "crates")), it.read_text())]
    for file, why in told:
        print(f"FAILED {file.relative_to(TOP)}: {why}")
    lost = [it for it in STANDING if not (TOP / "crates" / it).is_file()]
    for name in lost:
        print(f"FAILED crates/{name} is not there: take it out of tests/ledgers.py")
    print(f"ledgers: {len(found)} files, {len(told) + len(lost)} failed")
    return 1 if told or lost else 0


if __name__ == "__main__":
    sys.exit(main())
