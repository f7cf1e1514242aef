"""Sees that tools/minutes gives processor time to the right crate and part.

  python3 tests/minutes.py

Processes that look as those of `rt ci` do, but burn a known time, are started side by
side, one of them with a child of its own.
"""
from __future__ import annotations

import importlib.machinery
import importlib.util
import os
import subprocess
import sys
import tempfile
import time
from pathlib import Path

TOP = Path(__file__).resolve().parent.parent
BURN = "import sys, time\nwhile time.process_time() < float(sys.argv[1]): pass\ntime.sleep(1)"
WITH_CHILD = f"import subprocess, sys\nsubprocess.run([sys.executable, '-c', {BURN!r}, sys.argv[1]])"


def loaded():
    """The module of tools/minutes."""
    loader = importlib.machinery.SourceFileLoader("minutes", str(TOP / "tools" / "minutes"))
    module = importlib.util.module_from_spec(importlib.util.spec_from_loader("minutes", loader))
    sys.modules["minutes"] = module
    loader.exec_module(module)
    return module


def started(room: Path, folder: str, code: str, seconds: float, *words: str) -> subprocess.Popen:
    """Starts a process in this folder with these words behind its own, which burns the time."""
    (room / folder).mkdir(parents=True, exist_ok=True)
    return subprocess.Popen([sys.executable, "-c", code, str(seconds), *words], cwd=room / folder)


def main() -> int:
    minutes = loaded()
    with tempfile.TemporaryDirectory() as name:
        room = Path(name)
        running = [
            started(room, "crates/pj_a", BURN, 1.0, "check", "--crate-name", "pj_a", "src/lib.rt"),
            started(room, "crates/pj_a", BURN, 0.5, "build", "--crate-name", "pj_a", "--test"),
            started(room, "rt-edit-1-x", WITH_CHILD, 1.5, "check", "--crate-name", "pj_b", "--incremental", "seed"),
            started(room, "rt-edit-1-y", BURN, 0.5, "check", "--crate-name", "pj_b", "--incremental", "1"),
            started(room, "crates/pj_c", BURN, 0.5, "something", "else"),
        ]
        sampler = minutes.Sampler(os.getpid())
        while any(it.poll() is None for it in running):
            sampler.look()
            time.sleep(0.1)
    found = sampler.seconds()
    wanted = {"pj_a": {"Proof": 1.0, "Tests": 0.5}, "pj_b": {"Edits": 2.0}}
    is_near = {it: sorted(found.get(it, {})) == sorted(parts) for it, parts in wanted.items()}
    for crate, parts in wanted.items():
        for part, seconds in parts.items():
            is_near[f"{crate} {part}"] = seconds - 0.1 <= found.get(crate, {}).get(part, 0) <= seconds + 0.5
    is_near["no other"] = set(found) == set(wanted)
    odd = minutes.process("7 (a) b (c) S 3 1 1 0 -1 0 0 0 0 0 100 200 300 400 20 0 1 0 55 0")
    is_near["stat"] = odd == minutes.Process(3, "55", 1000 / minutes.TICKS)
    failed = [it for it, well in is_near.items() if not well]
    if failed:
        print(f"FAILED {', '.join(failed)}: {found}")
    return 1 if failed else 0


if __name__ == "__main__":
    sys.exit(main())
