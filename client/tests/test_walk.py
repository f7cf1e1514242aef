"""The walk of examples/README.md, played as it stands there.

A block that is marked `console` has commands behind `$ `, and under each what
it writes, on both streams. All run in one shell at the top of the repository.
The port is another one here, and the clock stands still, so that the names of
the changes are those of the page.
"""

from __future__ import annotations

import os
import re
import signal
import socket
import subprocess
import unittest
from typing import List, Tuple

from support import PROGRAM, TOP

PAGE = os.path.join(TOP, "examples", "README.md")
ADDRESS = "127.0.0.1:7777"
MARK = "-- end of a command --"


def steps(page: str) -> List[Tuple[str, str]]:
    """The commands of a page, each with what it is to write."""
    found: List[Tuple[str, str]] = []
    for block in re.findall(r"^```console\n(.*?)^```$", page, re.M | re.S):
        for part in re.split(r"^\$ ", block, flags=re.M)[1:]:
            command, _, wanted = part.partition("\n")
            found.append((command, wanted))
    return found


class Shell:
    """A shell that runs commands one after the other."""

    def __init__(self) -> None:
        environment = {**os.environ, "SOURCE_DATE_EPOCH": "1767225600", "TZ": "UTC", "PS1": ""}
        environment.pop("PJ_AUTHOR", None)
        self.process = subprocess.Popen(
            ["bash", "--norc"], cwd=TOP, stdin=subprocess.PIPE, stdout=subprocess.PIPE,
            stderr=subprocess.STDOUT, env=environment, start_new_session=True,
        )

    def run(self, command: str, lines: int = 0) -> str:
        """Runs a command; what it wrote. One that goes on behind the next prompt has to write as many lines."""
        assert self.process.stdin and self.process.stdout
        self.process.stdin.write(f"{command}\necho '{MARK}'\n".encode())
        self.process.stdin.flush()
        found: List[str] = []
        ended = False
        for row in self.process.stdout:
            if row.decode() == MARK + "\n":
                ended = True
            else:
                found.append(row.decode())
            if ended and len(found) >= lines:
                return "".join(found)
        raise AssertionError(f"the shell ended in: {command}")

    def end(self) -> None:
        """Ends the shell, and what it left running."""
        assert self.process.stdin and self.process.stdout
        os.killpg(self.process.pid, signal.SIGKILL)
        self.process.stdin.close()
        self.process.stdout.close()
        self.process.wait()


class Walk(unittest.TestCase):
    def test_the_page_is_what_is_written(self) -> None:
        with open(PAGE, encoding="utf-8") as file:
            rows = steps(file.read())
        self.assertGreater(len(rows), 15)
        with socket.socket() as probe:
            probe.bind(("127.0.0.1", 0))
            address = "127.0.0.1:%d" % probe.getsockname()[1]
        shell = Shell()
        self.addCleanup(shell.end)
        for command, wanted in rows:
            typed = command.replace(ADDRESS, address).replace("./pijuld ", PROGRAM + " ")
            lines = wanted.count("\n") if command.endswith("&") else 0
            wrote = shell.run(typed, lines).replace(address, ADDRESS)
            self.assertEqual(wrote, wanted, f"$ {command}")


if __name__ == "__main__":
    unittest.main()
