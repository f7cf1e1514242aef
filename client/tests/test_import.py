"""Imports of git: this repository's own history, and drawn ones with moves, modes and merges."""

from __future__ import annotations

import os
import shutil
import subprocess
import unittest
from random import Random
from typing import Dict, List

from draw import Person as Drawn
from support import TOP, Case
from pj.folder import WorkingFolder
from pj.gitimport import Repository
from pj.paths import Folder, above
from pj.workspace import Workspace


def git(folder: str, *words: str, data: bytes = b"") -> str:
    """What a program of git writes."""
    done = subprocess.run(["git", "-C", folder, *words], input=data, stdout=subprocess.PIPE,
                          stderr=subprocess.DEVNULL, check=True)
    return done.stdout.decode(errors="replace")


def without_empty(folder: Folder) -> Folder:
    """What git can have of a folder: files, and the directories above them."""
    files = {path: node for path, node in folder.items() if node.kind == "file"}
    kept = {parent for path in files for parent in above(path)}
    return {path: node for path, node in folder.items() if path in files or path in kept}


def drawn_repository(place: str, seed: int, commits: int) -> List[str]:
    """A git repository with a drawn graph of commits; their names, parents first."""
    draw = Random(seed)
    person = Drawn("ann", 0, draw)
    states: List[Folder] = []
    out: List[bytes] = []
    for number in range(commits):
        recent = list(range(max(0, number - 6), number))
        parents = draw.sample(recent, min(len(recent), 2 if draw.random() < 0.3 else 1))
        folder: Folder = {}
        for parent in parents[::-1]:
            folder.update(states[parent])
        clash = [path for path in folder
                 if any(p in folder and folder[p].kind == "file" for p in above(path))]
        person.folder = {path: node for path, node in folder.items() if path not in clash}
        for _ in range(draw.randrange(1, 5)):
            person.edit(set())
        states.append(without_empty(person.folder))
        message = b"commit %d" % number
        out.append(b"commit refs/heads/main\nmark :%d\n" % (number + 1))
        out.append(b"committer Ann <ann@example.org> %d +0000\n" % (1700000000 + number))
        out.append(b"data %d\n%s\n" % (len(message), message))
        for word, parent in zip((b"from", b"merge"), parents):
            out.append(b"%s :%d\n" % (word, parent + 1))
        out.append(b"deleteall\n")
        for path, node in states[-1].items():
            if node.kind == "file":
                mode = b"100755" if node.executable else b"100644"
                out.append(b"M %s inline %s\ndata %d\n" % (mode, path, len(node.data)))
                out.append(node.data + b"\n")
    git(place, "init", "-q")
    git(place, "fast-import", "--quiet", "--force", data=b"".join(out))
    return git(place, "rev-list", "--topo-order", "--reverse", "main").split()


@unittest.skipUnless(shutil.which("git"), "there is no git")
class Imports(Case):
    def read(self, path: str, commit: str) -> Folder:
        """The tree of a commit."""
        repository = Repository(path)
        try:
            return repository.tree(commit)
        finally:
            repository.close()

    def test_this_repository_step_by_step(self) -> None:
        if not os.path.exists(os.path.join(TOP, ".git")):
            self.skipTest("this is no repository of git")
        commits = git(TOP, "rev-list", "--first-parent", "--reverse", "HEAD").split()[:60]
        ann = self.person("ann")
        for commit in [*commits[4::5], commits[-1]] if commits else []:
            ann.pj("import-git", TOP, "--rev", commit)
            self.assertEqual(ann.files(), self.read(TOP, commit), commit)
        self.assertIn("0 commits", ann.pj("import-git", TOP, "--rev", commits[-1]))

    def test_a_drawn_row(self) -> None:
        place = os.path.join(self.place, "git")
        os.makedirs(place)
        drawn_repository(place, 5, 60)
        commits = git(place, "rev-list", "--first-parent", "--reverse", "main").split()
        ann = self.person("ann")
        for number, commit in enumerate(commits):
            if number % 5 == 4 or number == len(commits) - 1:
                ann.pj("import-git", place, "--rev", commit)
                self.assertEqual(ann.files(), self.read(place, commit), (number, commit))

    def test_drawn_graphs(self) -> None:
        for seed in range(3):
            with self.subTest(seed=seed):
                place = os.path.join(self.place, f"git{seed}")
                os.makedirs(place)
                commits = drawn_repository(place, seed, 60)
                session = self.server.session()
                channel = f"{self.channel}-{seed}"
                session.ask("new", channel)
                session.close()
                ann = self.person(f"ann{seed}", channel)
                ann.pj("import-git", place, "--rev", "main", "--graph", status=None)
                self.check_graph(ann.folder, place, commits)
                self.assertEqual(ann.files(), self.read(place, commits[-1]))

    def check_graph(self, folder: str, place: str, commits: List[str]) -> None:
        """The set of every fifth commit prints its tree."""
        parents = {row.split()[0]: row.split()[1:]
                   for row in git(place, "rev-list", "--parents", "main").splitlines()}
        from pj.gitimport import Made

        with Workspace(WorkingFolder(os.fsencode(folder))) as workspace:
            made = Made(workspace, True).by_commit
            sets: Dict[str, Dict[str, None]] = {}
            for number, commit in enumerate(commits):
                found: Dict[str, None] = {}
                for parent in parents[commit]:
                    found.update(sets[parent])
                found.update(dict.fromkeys(made[commit]))
                sets[commit] = found
                if number % 5 == 4:
                    view = workspace.view(found)
                    self.assertEqual(dict(view.folder), self.read(place, commit), number)

    def test_what_git_has_and_changes_have_not(self) -> None:
        place = os.path.join(self.place, "git")
        os.makedirs(place)
        git(place, "init", "-q")
        with open(os.path.join(place, "f"), "w", encoding="utf-8") as file:
            file.write("f\n")
        os.symlink("f", os.path.join(place, "link"))
        git(place, "add", ".")
        git(place, "-c", "user.name=Ann", "-c", "user.email=a@b", "commit", "-qm", "first\n\nmore")
        ann = self.person("ann")
        self.assertIn("left out: link", ann.pj("import-git", place))
        self.assertIn("Ann <a@b>  first\n", ann.pj("log"))
        self.assertEqual(sorted(ann.files()), [b"f"])
        self.assertIn("by first parents", ann.pj("import-git", "--graph", place, status=1))
        self.assertIn("git:", ann.pj("import-git", self.place, status=1))


if __name__ == "__main__":
    unittest.main()
