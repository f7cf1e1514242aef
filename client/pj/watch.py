"""How a server is: what it answers to a few requests, for people and for Prometheus."""

from __future__ import annotations

import os
import threading
import time
from contextlib import contextmanager
from socketserver import ThreadingMixIn
from typing import Any, Callable, Dict, Iterator, List, NamedTuple, Optional, Tuple
from wsgiref.simple_server import WSGIRequestHandler, WSGIServer, make_server

from .addresses import Lost
from .mirror import behind
from .say import many
from .wire import Connection, Refused, Session

LIMIT = 60.0  # seconds of silence after which a server counts as down


class File(NamedTuple):
    """The file of a kept repository: its size, and how much room is left beside it, in bytes."""

    size: int
    room: int


class State(NamedTuple):
    """What was found; where the server does not answer, why, and nothing of it but the file."""

    address: str
    channel: str
    why: Optional[str] = None
    place: int = 0
    channels: Dict[str, int] = {}
    seconds: Dict[str, float] = {}  # that a request took, of the channel
    file: Optional[File] = None
    source: Optional[str] = None  # of which the server is a mirror
    behind: Optional[Dict[str, int]] = None  # what it lacks; none where the source does not answer


def look(
    address: str, channel: str, path: Optional[str] = None, of: Optional[str] = None
) -> State:
    """Asks a server, and the one of which it is a mirror, and looks at the file."""
    found = State(address, channel, file=_file(path) if path else None, source=of)
    try:
        with _session(address) as session:
            found = _asked(session, found)
            return found._replace(behind=_lag(of, session)) if of else found
    except (Lost, Refused) as fault:
        return found._replace(why=str(fault))


@contextmanager
def _session(address: str) -> Iterator[Session]:
    """A session that waits no longer than the limit."""
    session = Connection(address)
    session.socket.settimeout(LIMIT)
    try:
        yield session
    finally:
        session.close()


def _lag(source: str, mirror: Session) -> Optional[Dict[str, int]]:
    try:
        with _session(source) as session:
            return behind(session, mirror)
    except (Lost, Refused):
        return None


def _asked(session: Session, found: State) -> State:
    reply = session.ask("channels")
    rows = [line.split() for line in reply.body.decode("ascii").splitlines()]
    channels = {name: int(count) for name, count in rows}
    seconds = {}
    for request in ("log", "print") if found.channel in channels else ():
        began = time.monotonic()
        session.ask(request, found.channel)
        seconds[request] = time.monotonic() - began
    return found._replace(place=reply.place, channels=channels, seconds=seconds)


def _file(path: str) -> Optional[File]:
    try:
        size, system = os.stat(path).st_size, os.statvfs(path)
    except OSError:
        return None
    return File(size, system.f_bavail * system.f_frsize)


def told(state: State) -> List[str]:
    """What is said to people."""
    if state.why:
        lines = [f"{state.address} does not answer: {state.why}"]
    else:
        counts = f"{many(state.place, 'accepted request')}, {many(len(state.channels), 'channel')}"
        lines = [f"{state.address} answers: {counts}"]
        lines += [f"  {name}: {many(count, 'change')}" for name, count in state.channels.items()]
        lines += [
            f"{request} of {state.channel} took {taken:.3f} seconds"
            for request, taken in state.seconds.items()
        ]
        if state.behind is not None:
            lines += [
                f"  {name} lacks {many(count, 'change')} of {state.source}"
                for name, count in state.behind.items()
            ]
        elif state.source:
            lines.append(f"{state.source} does not answer, so nobody knows what is lacking")
    if state.file:
        lines.append(f"the file has {state.file.size:,} bytes, with room for {state.file.room:,}")
    return lines


class Watch:
    """The state of a server as metrics; it is asked at most every so many seconds."""

    def __init__(self, ask: Callable[[], State], every: float):
        self.ask, self.every = ask, every
        self.lock = threading.Lock()
        self.asked: Optional[Tuple[float, State]] = None

    def state(self) -> State:
        """The state, asked anew where the last answer is older."""
        with self.lock:
            now = time.monotonic()
            if self.asked is None or now - self.asked[0] >= self.every:
                self.asked = (now, self.ask())
            return self.asked[1]

    def collect(self) -> Iterator[Any]:
        """The metrics, in the types of the client library of Prometheus."""
        from prometheus_client.core import GaugeMetricFamily

        def gauge(name: str, help_: str, value: float) -> Any:
            return GaugeMetricFamily(f"pijuld_{name}", help_, value=value)

        state = self.state()
        yield gauge("up", "Whether the server answers.", 0 if state.why else 1)
        if state.file:
            yield gauge("file_bytes", "The size of the kept file.", state.file.size)
            yield gauge("file_room_bytes", "The room that is left beside it.", state.file.room)
        if state.why:
            return
        yield gauge("journal_entries", "The entries of the journal.", state.place)
        yield gauge("channels", "How many channels there are.", len(state.channels))
        changes = GaugeMetricFamily(
            "pijuld_changes", "How many changes a channel has.", labels=["channel"]
        )
        for name, count in state.channels.items():
            changes.add_metric([name], count)
        yield changes
        seconds = GaugeMetricFamily(
            "pijuld_request_seconds", "How long a request took.", labels=["request", "channel"]
        )
        for request, taken in state.seconds.items():
            seconds.add_metric([request, state.channel], taken)
        yield seconds
        if state.behind is not None:
            lacking = GaugeMetricFamily(
                "pijuld_behind_changes", "How many changes a mirror lacks.", labels=["channel"]
            )
            for name, count in state.behind.items():
                lacking.add_metric([name], count)
            yield lacking


class _Listener(ThreadingMixIn, WSGIServer):
    daemon_threads = True


class _Quiet(WSGIRequestHandler):
    def log_message(self, format: str, *args: Any) -> None:  # its name in the base class
        """Says nothing of a request."""


def listener(watch: Watch, host: str, port: int) -> WSGIServer:
    """What answers at an address with the metrics, once it is told to serve."""
    from prometheus_client import CollectorRegistry, make_wsgi_app

    registry = CollectorRegistry()
    registry.register(watch)
    return make_server(host, port, make_wsgi_app(registry), _Listener, _Quiet)
