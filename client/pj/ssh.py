"""Addresses `ssh://[USER@]HOST[:PORT]/PATH`: a socket of another machine, through OpenSSH.

`ssh` finds out who is there, as it does elsewhere, and carries the bytes. It listens at a
socket in a folder that this user alone may enter, and hands what comes there to the socket
at PATH of HOST. No program of ours runs on the other side, and no shell.

`PJ_SSH` has the program where it is another one, with options, as `ssh -F FILE`.
"""

from __future__ import annotations

import os
import re
import shlex
import shutil
import socket
import subprocess
import tempfile
import time
from typing import List, NamedTuple, Optional

from .sockets import Carried, reach

# What stands in a path needs no quoting by ssh; no host begins with a dash, as an option does.
FORM = re.compile(
    r"ssh://(?:(?P<user>\w[\w.-]*)@)?(?P<host>\w[\w.-]*|\[[0-9A-Fa-f:]+\])(?::(?P<port>\d{1,5}))?"
    r"(?P<path>/[\w.+@/-]+)",
    re.ASCII,
)
LAST = 2.0  # seconds for ssh to end
OPTIONS = [
    "-N", "-T", "-a", "-x",  # no command, no terminal, and neither keys nor windows go along
    "-o", "ExitOnForwardFailure=yes",
    "-o", "ControlMaster=no", "-o", "ControlPath=none",  # its connection ends with it
]


class Target(NamedTuple):
    """A socket of another machine."""

    host: str
    user: Optional[str]
    port: Optional[str]
    path: str


def read(word: str) -> Optional[Target]:
    """The parts of an address; None where it is none."""
    found = FORM.fullmatch(word)
    if not found or int(found["port"] or 0) > 65535:
        return None
    return Target(found["host"].strip("[]"), found["user"], found["port"], found["path"])


def command(target: Target, local: str) -> List[str]:
    """The words that start ssh, to listen at a socket of this machine."""
    words = shlex.split(os.environ.get("PJ_SSH") or "ssh") + OPTIONS
    if target.user:
        words += ["-l", target.user]
    if target.port:
        words += ["-p", target.port]
    return [*words, "-L", f"{local}:{target.path}", "--", target.host]


def open_ssh(target: Target) -> socket.socket:
    """A connection to a socket of another machine."""
    folder = tempfile.mkdtemp(prefix="pj-")
    local = os.path.join(folder, "socket")
    words = command(target, local)
    try:
        child = subprocess.Popen(words, stdin=subprocess.DEVNULL, stdout=subprocess.DEVNULL)
    except OSError:
        shutil.rmtree(folder)
        raise
    try:
        found = _reach(local, child)
    except BaseException:
        _end(child, folder)
        raise
    found.ends_with(lambda: _end(child, folder))
    return found


def _reach(local: str, child: "subprocess.Popen[bytes]") -> Carried:
    """A connection to the socket at which ssh listens, once it has found out who is there."""
    while True:
        ended = child.poll() is not None
        try:
            found = Carried(socket.AF_UNIX)
            reach(found, local)
            return found
        except (ConnectionRefusedError, FileNotFoundError):
            if ended:
                raise OSError(f"ssh ended with status {child.returncode}") from None
            time.sleep(0.05)


def _end(child: "subprocess.Popen[bytes]", folder: str) -> None:
    """Ends ssh, and takes its folder away."""
    child.terminate()
    try:
        child.wait(LAST)
    except subprocess.TimeoutExpired:  # it may miss a signal that comes just before it waits
        child.kill()
        child.wait()
    shutil.rmtree(folder, ignore_errors=True)
