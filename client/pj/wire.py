"""Requests and replies of a session with a server (docs/FORMATS.md)."""

from __future__ import annotations

import subprocess
from typing import BinaryIO, Callable, Dict, List, NamedTuple, Optional, Sequence, Tuple, Union

from .addresses import Lost, connect
from .sockets import PATIENCE
from .stops import ARMED, step
from .text import BYTES, Change, Malformed, short

WINDOW = 64  # requests that are sent before the first of their replies is read
LONGEST = 1 << 34  # bytes of a body that no server goes beyond
SILENCE = 300.0  # seconds in which a server takes or gives no byte, before it is given up
BODIED = {"get", "inverse", "graph", "print", "log", "channels", "journal"}
READING = BODIED | {"quit"}


HINTS = {  # what to do where a program that keeps a repository ended with a status
    5: "it was out of memory: end other programs, and try again",
    7: "its file is no repository, or bytes of it were changed: put a copy in its place",
    8: "its file could not be opened or written, or another program holds it: see to that",
}


class Refused(Exception):
    """A reply `no`; `words` are those of its reason."""

    def __init__(self, request: Sequence[str], words: Sequence[str]):
        self.request, self.words = list(request), list(words)
        super().__init__(f"the server refused `{' '.join(request)}`: {' '.join(words)}")

    @property
    def reason(self) -> str:
        """The first word of the reason."""
        return self.words[0]


class Reply(NamedTuple):
    """A reply that is no refusal."""

    place: int
    words: List[str]  # what stands behind the place
    body: bytes


Asked = Tuple[Sequence[str], Optional[bytes]]  # the words of a request, and the text of a `put`


class Session:
    """A session over two streams."""

    def __init__(self, to: BinaryIO, back: BinaryIO):
        self.to, self.back = to, back

    def ask(self, *words: str, text: Optional[bytes] = None) -> Reply:
        """Sends one request and reads its reply."""
        self._send(words, text)
        self._flush()
        return self._read(words)

    def ask_all(
        self, asked: Sequence[Asked], told: Optional[Callable[[int], None]] = None
    ) -> List[Union[Reply, Refused]]:
        """Sends requests by windows, and gives the replies in order; `told` hears how many came."""
        found: List[Union[Reply, Refused]] = []
        for first in range(0, len(asked), WINDOW):
            some = asked[first : first + WINDOW]
            for words, text in some:
                self._send(words, text)
            self._flush()
            for words, _ in some:
                try:
                    found.append(self._read(words))
                except Refused as refusal:
                    found.append(refusal)
            if told:
                told(len(found))
        return found

    def _send(self, words: Sequence[str], text: Optional[bytes]) -> None:
        if words[0] not in READING:
            if ARMED:
                self._flush()
            step()
        try:
            self.to.write(" ".join(words).encode() + b"\n")
            if text is not None:
                self.to.write(text + b"\n")
        except OSError as fault:
            raise self.ended(str(fault)) from None

    def _flush(self) -> None:
        try:
            self.to.flush()
        except OSError as fault:
            raise self.ended(str(fault)) from None

    def _read(self, request: Sequence[str]) -> Reply:
        try:
            line = self.back.readline(4096)
            if not line.endswith(b"\n"):
                raise self.ended("no reply came")
            head, *words = line.decode("ascii").split()
            if head == "no" and words:
                raise Refused(request, words if words[0] == "memory" else words[1:])
            place = _number(words[0])
            if head != "ok":
                raise ValueError
            if request[0] not in BODIED:
                return Reply(place, words[1:], b"")
            count = _number(words[1])
            if count > (BYTES[2] if request[0] in ("get", "inverse") else LONGEST):
                raise ValueError
            body = self.back.read(count + 1)
        except (ValueError, IndexError):
            raise Lost("what answers does not speak as a server of this kind does") from None
        except OSError as fault:
            raise self.ended(str(fault)) from None
        if len(body) != count + 1:
            raise self.ended("a reply was cut")
        return Reply(place, [], body[:-1])

    def ended(self, why: str) -> Lost:
        """What to raise where the session ended."""
        return Lost(f"the session ended: {why}")

    # The requests of a client.

    def log(self, channel: str) -> List[str]:
        """The names of the changes of a channel, in its order."""
        return self.ask("log", channel).body.decode("ascii").split()

    def channels(self) -> Dict[str, int]:
        """How many changes each channel has."""
        rows = (line.split() for line in self.ask("channels").body.decode("ascii").splitlines())
        return {name: int(count) for name, count in rows}

    def get(
        self, names: Sequence[str], told: Optional[Callable[[int], None]] = None
    ) -> List[Change]:
        """The changes of these names; each is tested by its name."""
        found = []
        asked: List[Asked] = [(("get", name), None) for name in names]
        for name, reply in zip(names, self.ask_all(asked, told)):
            if isinstance(reply, Refused):
                raise reply
            change = _read_change(reply.body)
            if change.name != name:
                raise Lost(f"the server gave another text for change {short(name)}")
            found.append(change)
        return found

    def put_and_apply(
        self,
        channel: str,
        texts: Sequence[Tuple[str, bytes]],
        told: Optional[Callable[[int], None]] = None,
    ) -> int:
        """Stores changes and applies them, in order; how many the channel lacked."""
        asked: List[Asked] = []
        for name, text in texts:
            asked += [(("put", str(len(text))), text), (("apply", channel, name), None)]
        count = 0
        heard = (lambda done: told(done // 2)) if told else None
        for (words, _), reply in zip(asked, self.ask_all(asked, heard)):
            if isinstance(reply, Refused):
                raise reply
            count += words[0] == "apply" and reply.words != ["already"]
        return count

    def close(self) -> None:
        """Ends the session."""
        try:
            self._send(("quit",), None)
            self._flush()
        except Lost:
            pass


def _number(word: str) -> int:
    """A number of a reply, which has no sign."""
    if not word.isdigit():
        raise ValueError
    return int(word)


def _read_change(text: bytes) -> Change:
    try:
        return Change(text)
    except Malformed as fault:
        raise Lost(str(fault)) from None


class Child(Session):
    """A session with a program that is run as a child, over its streams."""

    def __init__(self, words: Sequence[str]):
        try:
            self.child = subprocess.Popen(
                list(words), stdin=subprocess.PIPE, stdout=subprocess.PIPE, stderr=subprocess.PIPE
            )
        except OSError as fault:
            raise Lost(
                f"{words[0]} cannot be started: {fault.strerror}", "PIJULD names the program"
            ) from None
        assert self.child.stdin and self.child.stdout
        self.words = list(words)
        self.status: Optional[int] = None
        super().__init__(self.child.stdin, self.child.stdout)

    def ended(self, why: str) -> Lost:
        """What to raise where the session ended: the status and the last line of the child."""
        command = " ".join(self.words)
        try:
            self.status = self.child.wait(PATIENCE)
        except subprocess.TimeoutExpired:
            return Lost(f"{command} does not answer: {why}", "end it, and try again")
        assert self.child.stderr
        lines = self.child.stderr.read().decode(errors="replace").strip().splitlines()
        told = f"{lines[-1] if lines else 'it ended'} (status {self.status})"
        return Lost(
            f"{command}: {told}", HINTS.get(self.status or 0, "docs/COMMANDS.md has its statuses")
        )

    def close(self) -> None:
        """Ends the session, and waits for the child."""
        super().close()
        for stream in (self.child.stdin, self.child.stdout):
            if stream:
                try:
                    stream.close()
                except OSError:
                    pass
        self.child.wait()
        if self.child.stderr:
            self.child.stderr.close()


class Connection(Session):
    """A session over a connection to an address."""

    def __init__(self, address: str):
        self.address = address
        self.socket = connect(address)
        self.socket.settimeout(SILENCE)
        super().__init__(
            self.socket.makefile("wb", 1 << 16),  # type: ignore[arg-type]
            self.socket.makefile("rb", 1 << 16),  # type: ignore[arg-type]
        )

    def close(self) -> None:
        """Ends the session."""
        super().close()
        for stream in (self.to, self.back, self.socket):
            try:
                stream.close()
            except OSError:
                pass
