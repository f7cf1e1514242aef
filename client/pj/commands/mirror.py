"""The command that keeps one server up to another one: mirror."""

from __future__ import annotations

import time
from argparse import Namespace
from typing import Dict

from ..addresses import FORMS, is_address
from ..mirror import go_round, pause
from ..say import Stop, many, note
from ..wire import Connection, Lost, Refused


def run_mirror(given: Namespace) -> int:
    """Brings the channels of one server to another one, again and again."""
    for word in (given.source, given.target):
        if not is_address(word):
            raise Stop(f"{word} is no address: give {FORMS}", status=2)
    faults = 0
    while True:
        well = _round(given)
        if given.once:
            return 0 if well else 1
        faults = 0 if well else faults + 1
        time.sleep(pause(given.every, faults))


def _round(given: Namespace) -> bool:
    """One round; whether all went well."""
    try:
        source = Connection(given.source)
        try:
            target = Connection(given.target)
            try:
                done = go_round(source, target, given.take)
            finally:
                target.close()
        finally:
            source.close()
    except (Lost, Refused) as fault:
        note(f"pj: {fault}")
        return False
    _tell(done.gave, given.target)
    _tell(done.took, given.source)
    for refusal in done.refused:
        note(f"pj: {refusal}")
    return not done.refused


def _tell(came: Dict[str, int], address: str) -> None:
    for channel, count in came.items():
        note(f"{many(count, 'change')} came to {channel} of {address}")
