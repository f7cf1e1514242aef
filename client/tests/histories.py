#!/usr/bin/env python3
"""Drawn histories of three people, played through the client in one session with a server.

    histories.py [--command "pijuld one"] [--seeds A-B] [--rounds N] [--stop]

The folders are in memory here; `folders.py` plays on the disk. What must hold:

  - after a record the server's print is what the client said, and that is the folder;
  - after all have exchanged with all, the prints are equal;
  - the regions of the shared file, each edited by one person, are never in conflict;
  - after all that was in conflict was resolved by one person in one record, nothing
    is in conflict for any;
  - no request is refused.
"""

from __future__ import annotations

import argparse
import shlex
import sys
import time
import traceback
from collections import Counter
from random import Random

from draw import SHARED, Conflicts, Person, resolve
from pj.paths import Node
from pj.record import Refusal, Told, record
from pj.text import BYTES, About, Change
from pj.tree import read_print
from pj.view import View
from pj.wire import Child, Refused
from pj.writer import Limits, Unattainable

NAMES = ["ann", "bob", "eve"]


class Tee:
    """A stream whose bytes go to a file too."""

    def __init__(self, stream, path):
        self.stream, self.file = stream, open(path, "wb")

    def write(self, data):
        self.file.write(data)
        return self.stream.write(data)

    def readline(self):
        return self._seen(self.stream.readline())

    def read(self, count):
        return self._seen(self.stream.read(count))

    def _seen(self, data):
        self.file.write(data)
        return data

    def flush(self):
        self.file.flush()
        self.stream.flush()


class Trial:
    def __init__(
        self, command, seed, rounds,
        unrecords=False, inverses=False, small=0, dense=False, keep=None,
    ):
        self.draw = Random(seed)
        self.session = Child(command)
        if keep:
            self.session.to = Tee(self.session.to, f"{keep}-{seed}.session")
            self.session.back = Tee(self.session.back, f"{keep}-{seed}.replies")
        self.changes, self.shown = {}, {}
        self.people = [Person(name, k, self.draw) for k, name in enumerate(NAMES)]
        self.count = Counter()
        self.kinds, self.after = Counter(), Counter()
        self.unrecords, self.inverses, self.small = unrecords, inverses, small
        for person in self.people:
            person.dense = dense
        for person in self.people:
            self.session.ask("new", person.name)
            self.shown[person.name] = []
        ann = self.people[0]
        ann.folder[SHARED] = Node("file", False, Person.first_shared())
        ann.folder[b"a"] = Node("file", False, b"one\ntwo\nthree\n")
        self.record(ann, set())
        for person in self.people[1:]:
            self.exchange(person, ann)
        for number in range(rounds):
            self.round()
            if number % 50 == 49:
                self.settle()
        self.session.close()

    # What a client does.

    def log(self, person):
        """The changes of a channel; what is lacked is asked for."""
        names = self.session.log(person.name)
        lacking = [name for name in names if name not in self.changes]
        self.changes.update((change.name, change) for change in self.session.get(lacking))
        return [self.changes[name] for name in names]

    def held(self, person):
        """What the folder shows; the channel may hold more."""
        return [self.changes[name] for name in self.shown[person.name]]

    def check_print(self, person, view):
        """The server's print is what the client reads off the changes."""
        rows = []
        for e in view.tree.entries:
            kind = "same" if e.again else "exec" if e.executable and e.kind == "file" else e.kind
            text = view.text(e.inode) if kind in ("file", "exec") else b""
            rows.append((kind, e.word, e.path, text))
        body = self.session.ask("print", person.name).body
        found = [tuple(row) for row in read_print(body)]
        assert found == rows, "the server prints otherwise than the client reads"

    def write(self, person):
        """The folder shows all that the channel holds."""
        changes = self.log(person)
        self.shown[person.name] = [change.name for change in changes]
        view = View(changes)
        self.check_print(person, view)
        person.folder = dict(view.folder)
        person.told = {}
        return view

    def record(self, person, keep, leave=False):
        before = self.held(person)
        about = About(b"m", person.name.encode(), 7)
        limits = (Limits(), Limits(hunks=3), Limits(2000, 5, 8, 6))[self.small]
        told = Told(person.told, frozenset(keep), leave)
        try:
            done = record(lambda: View(before), person.folder, about, told, limits)
        except Unattainable:
            if self.small < 2:
                raise
            self.count["unattainable"] += 1  # with limits as small as these
            return self.write(person)
        except Refusal as refusal:
            # Both paths of a file with two were edited; a name was given that a twin has;
            # a line was added that looks like a marker line of a conflict in the file.
            known = ("are one file", "would have one name")
            looks = "a marker line" in str(refusal) and any(
                b">>>>>>> 1\n" in node.data for node in person.folder.values()
            )
            if not looks and not any(x in str(refusal) for x in known):
                raise
            self.count["refused"] += 1
            return self.write(person)
        for change in done.changes:
            assert len(change.text) <= BYTES[change.version]
            told = self.session.put_and_apply(person.name, [(change.name, change.text)])
            assert told == 1, "the channel had the change"
        self.count["records"] += bool(done.changes)
        self.count["changes"] += len(done.changes)
        self.count["parts"] = max(self.count["parts"], len(done.changes))
        self.count["whole"] += done.whole
        wanted = dict(person.folder)
        behind = set(self.log(person)) - set(before) - {self.changes[c.name] for c in done.changes}
        view = self.write(person)
        if behind:
            self.count["behind"] += 1
            return view
        assert person.folder == done.view.folder, "the print is not what was foretold"
        marked = leave or any(b"~" in path for path in {*wanted, *person.folder})
        marked = marked or any(e.word == "zombie" for e in view.tree.entries)
        if not marked and not Conflicts(view).again:
            assert person.folder == wanted, "the print is not the folder"
            self.count["exact"] += 1
        return view

    def exchange(self, into, other):
        self.session.ask("pull", into.name, other.name)
        return self.write(into)

    # Rounds.

    def round(self):
        person = self.draw.choice(self.people)
        kind = self.draw.random()
        if kind < 0.08:  # changes come, and the folder stays behind
            self.session.ask("pull", person.name, self.draw.choice(NAMES))
        elif kind < 0.3:
            self.exchange(person, self.draw.choice(self.people))
        elif kind < 0.33 and self.inverses:
            change = self.draw.choice(self.log(person))
            try:
                text = self.session.ask("inverse", change.name).body
            except Refused:
                return
            self.session.put_and_apply(person.name, [(Change(text).name, text)])
            self.count["inverses"] += 1
            self.write(person)
        elif kind < 0.33 and self.unrecords:
            log = self.log(person)
            free = [c for c in log if not any(c.name in d.needs for d in log)]
            self.session.ask("unrecord", person.name, self.draw.choice(free).name)
            self.write(person)
        else:
            found = Conflicts(View(self.held(person)))
            self.kinds.update(found.kinds)
            keep, leave = set(), False
            if found.kinds and self.draw.random() < 0.4:
                leave = self.draw.random() < 0.4
                keep = resolve(person, found, leave)
                again = {e.inode for e in found.again}
                held = {p for p in person.folder if p.startswith(b"~")}
                held |= {e.path for e in found.entries if e.inode in again}
                if leave:
                    held |= {e.path for e in found.texts} | {*person.told, *person.told.values()}
                    self.count["left"] += 1
            else:
                held = found.paths()
            for _ in range(self.draw.randrange(0 if keep else 1, 4)):
                person.edit(held)
            self.record(person, keep, leave)

    def settle(self):
        """All exchange with all; one resolves what is in conflict; all have it."""
        order = [(a, b) for a in self.people for b in self.people if a is not b]
        plain = not self.unrecords and not self.inverses
        regions = [Person.regions(p.folder[SHARED].data)[p.number] for p in self.people if plain]
        for _ in range(2):
            self.draw.shuffle(order)
            for a, b in order:
                self.session.ask("pull", a.name, b.name)
        prints = {self.session.ask("print", p.name).body for p in self.people}
        assert len(prints) == 1, "the prints differ"
        for person in self.people:
            view = self.write(person)
        if plain:
            found = Person.regions(self.people[0].folder[SHARED].data)
            assert found == regions, "regions are in conflict"
        person = self.draw.choice(self.people)
        for number in range(4):
            found = Conflicts(view)
            self.kinds.update(found.kinds)
            if not found.kinds:
                break
            keep = resolve(person, found)
            view = self.record(person, keep)
            self.count["resolutions"] += 1
            left = Conflicts(view)
            texts_left = {e.inode for e in left.texts} & {e.inode for e in found.texts}
            left_rows = {row.at for e in left.zombies for row in e.rows}
            names_left = left_rows & {row.at for e in found.zombies for row in e.rows}
            resolved = not texts_left and not names_left
            assert self.small > 1 or resolved, "a conflict was resolved and is there"
            if self.small < 2:
                self.after.update(left.kinds)
        self.count["most resolutions"] = max(self.count["most resolutions"], number)
        assert self.small > 1 or not Conflicts(view).kinds, "conflicts are left"
        for other in self.people:
            if other is not person:
                self.exchange(other, person)
        assert len({self.session.ask("print", p.name).body for p in self.people}) == 1


def mode(seed):
    """What a seed draws besides: unrecords, inverses, small limits, conflicts in few files."""
    small = {5: 1, 6: 2}.get(seed % 8, 0)
    more = {"unrecords": seed % 4 == 3, "inverses": seed % 8 == 2, "dense": seed % 4 == 1}
    return {"small": small, **more}


def main():
    parser = argparse.ArgumentParser()
    parser.add_argument("--command", default="pijuld one")
    parser.add_argument("--seeds", default="0-3")
    parser.add_argument("--rounds", type=int, default=200)
    parser.add_argument("--stop", action="store_true", help="stop at the first failure")
    parser.add_argument("--keep", help="keep each session and its replies, in files of this name")
    given = parser.parse_args()
    first, last = map(int, given.seeds.split("-"))
    total, kinds, after, failed, began = Counter(), Counter(), Counter(), [], time.time()
    for seed in range(first, last + 1):
        trial = Trial.__new__(Trial)
        try:
            command = shlex.split(given.command)
            trial.__init__(command, seed, given.rounds, keep=given.keep, **mode(seed))
        except Exception:
            failed.append(seed)
            print(f"seed {seed}:", traceback.format_exc(limit=-3), flush=True)
            if given.stop:
                break
        for key, n in trial.count.items():
            most = key in ("parts", "most resolutions")
            total[key] = max(total[key], n) if most else total[key] + n
        kinds.update(trial.kinds)
        after.update(trial.after)
        print(f"seed {seed} {dict(trial.count)} {time.time() - began:.0f} s", flush=True)
    print(f"seeds {first}-{last} rounds {given.rounds} failed {failed}\n{dict(total)}")
    print(f"conflicts seen {dict(kinds)}\nafter a record that resolved all {dict(after)}")
    sys.exit(bool(failed))


if __name__ == "__main__":
    main()
