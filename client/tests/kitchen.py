"""A small history of three people who cook, with conflicts, for the browser and for pictures.

Its times are fixed. Ann's folder shows all of it: two who replaced one line, one
who deleted a line that another worked on, three who wrote at one place, a file
that one deleted and another edited, and a moved file, which is no conflict.
"""

from __future__ import annotations

import os
from unittest import mock

from support import Person, Server, run

START, HOURS = 1_790_000_000, 7  # when it begins, and the hours between two changes

PASTA = '''"""Cooks pasta."""

import time

MINUTES = 9  # until it is done


def cook(water, pasta):
    """Cooks pasta in water that boils."""
    water.heat()
    water.salt()
    water.take(pasta)
    time.sleep(60 * MINUTES)
    return water.drain()
'''
MENU = "Spaghetti\nPenne\n{}Fusilli\n"
SCRIPT = "#!/bin/sh\nexec python3 src/pasta.py\n"


class Kitchen:
    """The history on a server, and the folders of three people: `main` is Ann's channel."""

    def __init__(self, server: Server, place: str):
        self.server, self.place = server, place
        self._times = iter(range(START, START + 10**9, HOURS * 3600))
        self.ann = self._person("Ann Keller <ann@example.org>", "main")
        self._begin(self.ann)
        session = server.session()
        for name in ("bea", "cyril"):
            session.ask("fork", "main", name)
        session.close()
        self.bea = self._person("Bea Lund <bea@example.org>", "bea")
        self.cyril = self._person("Cyril Ito", "cyril")
        self._go_on()
        for channel in ("bea", "cyril"):
            self.ann.pj("merge", channel, status=1)

    def _person(self, author: str, channel: str) -> Person:
        found = Person(author, os.path.join(self.place, channel))
        words = ("clone", "--thin", self.server.address, channel, found.folder)
        told = run(author, self.place, *words)
        assert told.status == 0, told
        return found

    def record(self, who: Person, message: str) -> None:
        """Records at the next of the fixed times."""
        with mock.patch.dict(os.environ, {"SOURCE_DATE_EPOCH": str(next(self._times))}):
            who.pj("record", "-m", message)

    def _begin(self, ann: Person) -> None:
        ann.write("src/pasta.py", PASTA)
        ann.write("README.md", "# Pasta\n\nA program that cooks.\n\nRun it in a kitchen.\n")
        ann.write("doc/menu.txt", MENU.format(""))
        ann.write("run.sh", SCRIPT, executable=True)
        self.record(ann, "A program that cooks pasta")
        ann.write("src/pasta.py", PASTA.replace("9  # until it is done", "8  # al dente"))
        self.record(ann, "Cook it al dente")

    def _go_on(self) -> None:
        """What the three do, each not knowing of the others."""
        text = self.ann.read("src/pasta.py")
        soft = text.replace("8  # al dente", "11  # soft, for children")
        self.bea.write("src/pasta.py", soft.replace("    water.salt()\n", ""))
        self.bea.write("doc/menu.txt", MENU.format("Tagliatelle\n"))
        self.record(self.bea, "Softer, and without salt, for children")
        self.bea.write("doc/allergies.txt", "Wheat\nEggs\n")
        self.record(self.bea, "Say what is in it")
        stirred = text.replace("8  # al dente", "10")
        stirred = stirred.replace("    water.salt()\n", "    water.salt()\n    water.stir()\n")
        self.cyril.write("src/pasta.py", stirred)
        self.cyril.write("doc/menu.txt", MENU.format("Rigatoni\n"))
        self.cyril.pj("move", "README.md", "doc/README.md")
        self.record(self.cyril, "Stir it; ten minutes are enough")
        self.ann.write("doc/menu.txt", MENU.format("Lasagne\n"))
        os.remove(self.ann.path("run.sh"))
        self.record(self.ann, "Lasagne; no script any more")
        self.cyril.write("run.sh", SCRIPT.replace("\n", "\nset -e\n", 1), executable=True)
        self.record(self.cyril, "Stop at the first fault")
