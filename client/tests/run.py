#!/usr/bin/env python3
"""Runs all tests of the client; with `--long` many more drawn histories.

`PIJULD` names the program, else it is the one that is built in this repository;
where none is built, a model of it stands in, and that is said.
"""

from __future__ import annotations

import os
import sys
import unittest
from typing import List

HERE = os.path.dirname(os.path.abspath(__file__))


def main(words: List[str]) -> int:
    """Runs the tests; 0 where all passed. Those whose packages are missing are left out."""
    if words not in ([], ["--long"]):
        print(__doc__, file=sys.stderr)
        return 2
    if words:
        os.environ["PJ_LONG"] = "1"
    sys.path.insert(0, HERE)
    from support import MODEL, PROGRAM

    if PROGRAM == MODEL:
        print("the program is not built: these tests run over a model of it", file=sys.stderr)
    found = unittest.defaultTestLoader.discover(HERE)
    done = unittest.TextTestRunner(stream=sys.stderr, verbosity=1).run(found)
    for reason in sorted({why for _, why in done.skipped}):
        print(f"left out: {reason}", file=sys.stderr)
    return 0 if done.wasSuccessful() and done.testsRun else 1


if __name__ == "__main__":
    sys.exit(main(sys.argv[1:]))
