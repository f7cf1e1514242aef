#!/usr/bin/env python3
"""Drawn histories of three people in three folders on the disk, by the commands alone.

    folders.py [--seeds A-B] [--rounds N]

Each person has a folder of a channel of their own on one server, which
`PIJULD` names or is the built one. They edit, move and delete files, record all
or some of them, take what the others have, take changes out and undo them, and
resolve conflicts or leave them, in drawn order; folders stay behind where edits
hinder. What must hold:

  - a record makes the folder what was wanted, and nothing more is to be recorded;
  - no command loses an edit that is not recorded;
  - after all have exchanged with all, the three folders are equal, byte for byte;
  - the regions of a shared file, each edited by one person, are never in conflict;
  - what one person resolved in one record is in conflict in no folder.
"""

from __future__ import annotations

import argparse
import os
import shutil
import sys
import tempfile
import time
import traceback
from collections import Counter
from random import Random
from typing import Dict, List, Set

import support
from draw import SHARED, Conflicts
from draw import Person as Drawn
from draw import resolve
from pj.folder import WorkingFolder
from pj.paths import Folder, Node, depth
from pj.view import View
from pj.workspace import Workspace

NAMES = ["ann", "bob", "eve"]


def lay(root: str, old: Folder, new: Folder) -> None:
    """Makes what stands on the disk from one folder another one, as a person would."""
    top = os.fsencode(root)
    for path in sorted(old, key=depth, reverse=True):
        if path not in new or new[path].kind != old[path].kind:
            full = os.path.join(top, path)
            os.rmdir(full) if old[path].kind == "dir" else os.unlink(full)
    for path in sorted(new, key=depth):
        node, full = new[path], os.path.join(top, path)
        if old.get(path) != node:
            if node.kind == "dir":
                os.makedirs(full, exist_ok=True)
                continue
            with open(full, "wb") as file:
                file.write(node.data)
            os.chmod(full, 0o755 if node.executable else 0o644)


class Player:
    """A drawn person with a folder on the disk."""

    def __init__(self, place: str, server: support.Server, drawn: Drawn):
        self.drawn, self.name = drawn, drawn.name
        self.person = support.Person(drawn.name, os.path.join(place, drawn.name))
        told = support.run(
            self.name, place, "clone", "--thin", server.address, self.name, self.person.folder
        )
        assert told.status == 0, told
        self.read()

    def read(self) -> None:
        """The drawn person sees what stands on the disk."""
        self.drawn.folder = self.person.files()
        self.drawn.told = {}

    def view(self) -> View:
        """The set that the folder shows."""
        with Workspace(WorkingFolder(os.fsencode(self.person.folder))) as workspace:
            return workspace.view(workspace.folder.shown)

    def lay(self, keep: Set[bytes] = frozenset()) -> None:  # type: ignore[assignment]
        """Writes what the drawn person did, and tells of moves and names that are kept."""
        lay(self.person.folder, self.person.files(), self.drawn.folder)
        for old, new in self.drawn.told.items():
            if old not in self.drawn.folder and new in self.drawn.folder:
                self.person.tell("move", os.fsdecode(old), os.fsdecode(new))
        for path in keep:
            if path in self.drawn.folder:
                self.person.tell("keep", os.fsdecode(path))


class History:
    """One drawn history."""

    def __init__(self, place: str, server: support.Server, seed: int, rounds: int):
        self.draw, self.server, self.count = Random(seed), server, Counter()  # type: ignore
        session = server.session()
        for name in NAMES:
            if name in session.channels():
                session.ask("drop", name)
            session.ask("new", name)
        session.close()
        drawn = [Drawn(name, number, self.draw) for number, name in enumerate(NAMES)]
        for person in drawn:
            person.dense = seed % 4 == 1
        self.taking_out = seed % 2 == 1  # then regions may come into conflict
        self.players = [Player(place, server, person) for person in drawn]
        ann = self.players[0]
        ann.drawn.folder[SHARED] = Node("file", False, Drawn.first_shared())
        ann.drawn.folder[b"a"] = Node("file", False, b"one\ntwo\nthree\n")
        self.record(ann)
        for player in self.players[1:]:
            self.merge(player, ann)
        for number in range(rounds):
            self.round()
            if number % 25 == 24:
                self.settle()

    def round(self) -> None:
        """One drawn thing that one person does."""
        player, kind = self.draw.choice(self.players), self.draw.random()
        if kind < 0.25:
            self.merge(player, self.draw.choice(self.players))
        elif kind < 0.32:
            self.merge_over_edits(player, self.draw.choice(self.players))
        elif kind < 0.37 and self.taking_out:
            self.take_out(player)
        else:
            self.work(player)

    # What a person does.

    def command(self, player: Player, *words: str) -> int:
        """A command that may find conflicts, and has no other cause to end with 1."""
        told = player.person.tell(*words)
        conflicts = b"in conflict now" in told.out and not told.error
        assert told.status == 0 or told.status == 1 and conflicts, (words, told)
        self.count[words[0]] += 1
        return told.status

    def merge(self, player: Player, other: Player) -> None:
        """Takes what another one has; nothing is unrecorded here."""
        if player is not other:
            self.command(player, "merge", other.name)
            player.read()

    def merge_over_edits(self, player: Player, other: Player) -> None:
        """Takes what another one has while edits stand; they stay, and are recorded then."""
        held = Conflicts(player.view()).paths()
        player.drawn.edit(held)
        player.lay()
        before, shown = player.person.files(), dict(player.view().folder)
        told = player.person.tell("merge", other.name)
        now = player.person.files()
        if told.status == 1 and "not recorded" in told.error:
            assert now == before, "a folder that stays behind was written"
            self.count["behind"] += 1
        else:
            for path, node in before.items():
                assert shown.get(path) == node or now.get(path) == node, "an edit was lost"
        told = player.person.tell("record", "-m", "over edits")
        if told.status and "nothing to record" not in told.error:
            assert b"in conflict now" in told.out or self.refused(told), told
            if self.refused(told):
                self.give_up(player)
        player.person.tell("pull")
        player.read()

    def take_out(self, player: Player) -> None:
        """Unrecords a drawn change, or undoes one."""
        with Workspace(WorkingFolder(os.fsencode(player.person.folder))) as workspace:
            changes = workspace.changes(workspace.folder.shown)
        if self.draw.random() < 0.5:
            free = [c for c in changes if not any(c.name in other.needs for other in changes)]
            self.command(player, "unrecord", self.draw.choice(free).name)
        else:
            told = player.person.tell("undo", self.draw.choice(changes).name)
            known = ("undone already", "need it", "nothing to undo", "one name", "one file")
            assert told.status == 0 or b"in conflict now" in told.out or any(
                word in told.error for word in known
            ), told
            self.count["undo"] += 1
        player.read()

    def work(self, player: Player) -> None:
        """Drawn edits or resolutions, and a record of them."""
        drawn, found = player.drawn, Conflicts(player.view())
        keep: Set[bytes] = set()
        leave = False
        if found.kinds and self.draw.random() < 0.4:
            leave = self.draw.random() < 0.4
            keep = resolve(drawn, found, leave)
            again = {entry.inode for entry in found.again}
            held = {path for path in drawn.folder if path.startswith(b"~")}
            held |= {entry.path for entry in found.entries if entry.inode in again}
            if leave:
                held |= {e.path for e in found.texts} | {*drawn.told, *drawn.told.values()}
        else:
            held = found.paths()
        for _ in range(self.draw.randrange(0 if keep else 1, 4)):
            drawn.edit(held)
        player.lay(keep)
        self.record(player, leave)

    @staticmethod
    def refused(told: support.Told) -> bool:
        """Whether a record was refused for a cause that drawn edits may give."""
        known = ("are one file", "would have one name", "marker line of a conflict")
        return any(word in told.error for word in known)

    def give_up(self, player: Player) -> None:
        """Takes all that is not recorded back."""
        shown = dict(player.view().folder)
        lay(player.person.folder, player.person.files(), shown)
        self.count["refused"] += 1

    def record(self, player: Player, leave: bool = False) -> None:
        """Records all, or first some paths and then the rest."""
        lay(player.person.folder, player.person.files(), player.drawn.folder)
        wanted = player.person.files()
        more = ["--leave"] if leave else []
        if self.draw.random() < 0.2 and wanted:
            path = os.fsdecode(self.draw.choice(sorted(wanted)))
            told = player.person.tell("record", *more, "-m", "some", "--", path)
            self.count["some"] += told.status == 0
            now = player.person.files()
            if told.status == 0 and not any(b"~" in p for p in {*wanted, *now}) and not leave:
                for p, node in wanted.items():
                    assert now.get(p) == node, ("an edit was lost", p)
        told = player.person.tell("record", *more, "-m", "drawn")
        if self.refused(told):
            self.give_up(player)
        elif told.status and "nothing to record" not in told.error:
            assert b"in conflict now" in told.out, told
        self.count["records"] += told.status == 0
        after = player.person.files()
        view = player.view()
        assert after == view.folder, "the folder is not what its set prints"
        marked = leave or any(b"~" in path for path in {*wanted, *after})
        plain = not marked and not Conflicts(view).again
        if told.status == 0 and plain and not Conflicts(view).zombies:
            assert after == wanted, "the folder is not what was wanted"
            self.count["exact"] += 1
        player.read()

    def settle(self) -> None:
        """All exchange with all; one resolves what is in conflict; all have it."""
        everyone = [(a, b) for a in self.players for b in self.players if a is not b]
        regions = [Drawn.regions(p.drawn.folder[SHARED].data)[p.drawn.number]
                   for p in self.players] if not self.taking_out else []
        for _ in range(2):
            self.draw.shuffle(everyone)
            for a, b in everyone:
                self.merge(a, b)
        self.equal()
        if regions:
            found_regions = Drawn.regions(self.players[0].drawn.folder[SHARED].data)
            assert found_regions == regions, "regions are in conflict"
        player = self.draw.choice(self.players)
        for _ in range(4):
            found = Conflicts(player.view())
            if not found.kinds:
                break
            keep = resolve(player.drawn, found)
            player.lay(keep)
            self.record(player)
            self.count["resolutions"] += 1
        assert not Conflicts(player.view()).kinds, "conflicts are left"
        for other in self.players:
            self.merge(other, player)
        self.equal()

    def equal(self) -> None:
        """The folders and what the server prints are equal."""
        folders = [player.person.files() for player in self.players]
        assert folders[0] == folders[1] == folders[2], "the folders differ"
        session = self.server.session()
        assert len({session.ask("print", name).body for name in NAMES}) == 1, "the prints differ"
        session.close()


def play(seed: int, rounds: int, server: support.Server) -> Dict[str, int]:
    """Plays one history; what it counted."""
    place = tempfile.mkdtemp(prefix="pj-history-")
    try:
        return dict(History(place, server, seed, rounds).count)
    finally:
        shutil.rmtree(place, ignore_errors=True)


def main(words: List[str]) -> int:
    """Plays the histories of some seeds."""
    parser = argparse.ArgumentParser()
    parser.add_argument("--seeds", default="0-3")
    parser.add_argument("--rounds", type=int, default=200)
    given = parser.parse_args(words)
    first, last = map(int, given.seeds.split("-"))
    failed, server = [], support.Server()
    try:
        for seed in range(first, last + 1):
            began = time.time()
            try:
                told = str(play(seed, given.rounds, server))
            except Exception:
                failed.append(seed)
                told = traceback.format_exc(limit=-4)
            print(f"seed {seed}: {told} {time.time() - began:.0f} s", flush=True)
    finally:
        server.end()
    print(f"seeds {given.seeds}, {given.rounds} rounds: failed {failed}")
    return bool(failed)


if __name__ == "__main__":
    sys.exit(main(sys.argv[1:]))
