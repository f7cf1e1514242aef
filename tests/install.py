#!/usr/bin/env python3
"""What tools/install puts where: the program, the client, manual pages, completions, and a Debian package.

  install.py PROGRAM     PROGRAM is the built program

The package is installed in a root of the test's own, used there, and removed. A case whose programs
are missing is left out, and that is said; tests/setup installs them.
"""
from __future__ import annotations

import gzip
import os
import subprocess
import sys
import tempfile
from pathlib import Path
from typing import List

from deploy import PATIENCE, TOP, LeftOut, find, play


def told(*words: object, **environment: object) -> str:
    """What a command writes; it has to do its work."""
    known = {name: str(value) for name, value in environment.items()}
    done = subprocess.run(
        [str(word) for word in words], env={**os.environ, **known}, timeout=PATIENCE, text=True,
        stdin=subprocess.DEVNULL, stdout=subprocess.PIPE, stderr=subprocess.PIPE, check=False,
    )
    assert done.returncode == 0, (words, done)
    return done.stdout


def works(root: Path, program: str) -> None:
    """The program and the client that stand below a root do their work, and find each other."""
    assert told(root / "bin" / "pijuld", "--version") == told(program, "--version")
    with tempfile.TemporaryDirectory(prefix="pj-") as place:
        (Path(place) / "a.txt").write_text("one\n")
        script = 'cd "$2" && "$1" init && "$1" record -m first && "$1" log'
        alone = {"PATH": "/usr/bin:/bin", "PJ_AUTHOR": "ann", "HOME": place, "PIJULD": ""}
        log = told("sh", "-c", script, "sh", root / "bin" / "pj", place, **alone)
        assert "first" in log and "ann" in log, log


def commands_of_client() -> List[str]:
    """The commands that the client has, as its own parser says them."""
    sys.path.insert(0, str(TOP / "client"))
    from pj import cli

    return cli.names(cli.parser())


def case_install(program: str) -> None:
    """Below DESTDIR and a prefix all stands where it should, and works; a second time nothing else does."""
    find("pandoc")
    with tempfile.TemporaryDirectory(prefix="pj-") as place:
        for _ in range(2):
            told(TOP / "tools" / "install", "/opt/own", DESTDIR=place, PIJULD=program)
        assert [path.name for path in Path(place).iterdir()] == ["opt"]
        root = Path(place) / "opt" / "own"
        works(root, program)
        files = {str(path.relative_to(root)) for path in root.rglob("*") if not path.is_dir()}
        for name in ("pijuld", "pj"):
            assert f"share/man/man1/{name}.1.gz" in files and f"bin/{name}" in files, files
            assert f"share/bash-completion/completions/{name}" in files, files
            assert f"share/zsh/site-functions/_{name}" in files, files
        for path in (TOP / "deploy").iterdir():
            assert f"share/doc/pijuld/deploy/{path.name}" in files, files
        assert not [name for name in files if "__pycache__" in name or name.endswith(".new")], files


def case_manual_pages(program: str) -> None:
    """The page of the client has each command; that of the program each word and status."""
    find("pandoc", "man")
    with tempfile.TemporaryDirectory(prefix="pj-") as place:
        for name, wanted in (
            ("pj", [*commands_of_client(), "ssh://", "--with-markers"]),
            ("pijuld", ["keep PATH", "serve ADDRESS", "STATUSES", "pijuld: store fault"]),
        ):
            page = Path(place) / f"{name}.1"
            page.write_text(told(TOP / "tools" / "manual", f"{name}.1"))
            text = told("man", "-E", "UTF-8", "-l", page, MANWIDTH="400", MANPAGER="cat", GROFF_NO_SGR="", TERM="dumb")
            plain = " ".join("".join(_unstruck(text)).split())
            for word in ["NAME", f"{name} - ", *wanted]:
                assert word in plain, (name, word)


def _unstruck(text: str) -> List[str]:
    """The letters of a page, each of which may be struck twice."""
    found: List[str] = []
    for letter in text:
        if letter == "\b":
            found.pop()
        else:
            found.append(letter)
    return found


def case_completions_of_bash(program: str) -> None:
    """bash offers the commands, and the options of each."""
    find("bash")
    with tempfile.TemporaryDirectory(prefix="pj-") as place:
        for words, wanted in (
            (["pj", "im"], ["import-git"]),
            (["pj", ""], commands_of_client()),
            (["pj", "record", "--a"], ["--author"]),
            (["pj", "record", "file"], []),
            (["pijuld", "s"], ["show", "serve"]),
            (["pijuld", "serve", "--"], ["--sessions", "--workers"]),
        ):
            name = words[0]
            made = Path(place) / name
            made.write_text(told(TOP / "tools" / "manual", f"{name}.bash"))
            script = f'source "$0"; COMP_WORDS=("$@"); COMP_CWORD=$(($# - 1)); _{name}; printf "%s\\n" "${{COMPREPLY[@]}}"'
            found = told("bash", "-c", script, made, *words).split()
            assert set(wanted) <= set(found) and (wanted or not found), (words, found)
            assert all(word.startswith(words[-1]) for word in found), (words, found)


def case_completions_of_zsh(program: str) -> None:
    """zsh reads both, and knows what each belongs to."""
    find("zsh")
    with tempfile.TemporaryDirectory(prefix="pj-") as place:
        for name in ("pj", "pijuld"):
            made = Path(place) / f"_{name}"
            made.write_text(told(TOP / "tools" / "manual", f"{name}.zsh"))
            told("zsh", "-n", made)
        script = 'fpath=("$0" $fpath); autoload -Uz compinit; compinit -u -d "$0/dump"; print $_comps[pj] $_comps[pijuld]'
        assert told("zsh", "-fc", script, place) == "_pj _pijuld\n"


def case_package(program: str) -> None:
    """The package is installed, works, and is removed without a trace; lintian finds no error."""
    find("dpkg", "dpkg-deb", "pandoc")
    with tempfile.TemporaryDirectory(prefix="pj-") as place:
        package = Path(place) / "pijuld.deb"
        told(TOP / "tools" / "install", "--deb", package, PIJULD=program)
        root = Path(place) / "root"
        (root / "var/lib/dpkg/info").mkdir(parents=True)
        for name in ("updates", "triggers"):
            (root / "var/lib/dpkg" / name).mkdir()
        for name in ("status", "available"):
            (root / "var/lib/dpkg" / name).touch()
        own = ["dpkg", f"--root={root}", "--force-depends", "--force-not-root", "--log=/dev/null"]
        told(*own, "--install", package)
        assert "Status: install ok installed" in told(*own, "--status", "pijuld")
        works(root / "usr", program)
        with gzip.open(root / "usr/share/man/man1/pj.1.gz", "rt") as page:
            assert ".TH" in page.read()
        told(*own, "--purge", "pijuld")
        left = [path for path in root.rglob("*") if "var/lib/dpkg" not in str(path) and not path.is_dir()]
        assert not left, left
        try:
            find("lintian")
        except LeftOut as reason:
            raise LeftOut(f"its last part, {reason}") from None
        told("lintian", "--allow-root", "--fail-on", "error", package)


if __name__ == "__main__":
    sys.exit(play(globals(), str(Path(sys.argv[1]).resolve())))
