"""The command that makes changes of the history of git: import-git."""

from __future__ import annotations

import os
from argparse import Namespace

from ..gitimport import import_git, told_end
from ..say import line
from ..workspace import Workspace
from .common import check_within
from .exchange import write_files


def run_import(workspace: Workspace, given: Namespace) -> int:
    """Makes a change of each commit, and writes what came of it into the files."""
    check_within(workspace, workspace.log())
    path = os.path.abspath(given.repository)
    line(told_end(*import_git(workspace, path, given.rev, given.graph)))
    names = workspace.log()
    if set(names) == set(workspace.folder.shown):
        return 0
    return write_files(workspace, names)
