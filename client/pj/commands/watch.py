"""The command that tells how a server is: watch."""

from __future__ import annotations

from argparse import Namespace
from importlib.util import find_spec

from ..addresses import FORMS, host_and_port, is_address
from ..say import Stop, line, note
from ..watch import Watch, listener, look, told

LISTEN = "127.0.0.1:9717"


def run_watch(given: Namespace) -> int:
    """Says once how a server is, or serves it as metrics for Prometheus."""
    for word in (given.address, given.of or given.address):
        if not is_address(word):
            raise Stop(f"{word} is no address: give {FORMS}", status=2)
    if given.once:
        state = look(given.address, given.channel, given.file, given.of)
        (note if state.why else line)(*told(state))
        return 1 if state.why else 0
    place = host_and_port(given.listen)
    if place is None:
        raise Stop(f"{given.listen} is no HOST:PORT to listen at", status=2)
    if find_spec("prometheus_client") is None:
        raise Stop(
            "pj watch needs prometheus_client, which this Python does not have",
            "apt install python3-prometheus-client, or pip install prometheus-client;"
            " pj watch --once does without",
        )
    watch = Watch(lambda: look(given.address, given.channel, given.file, given.of), given.every)
    with listener(watch, *place) as server:
        where = f"http://{place[0]}:{server.server_port}/metrics"
        note(f"the metrics of {given.address} are at {where}")
        server.serve_forever()
    return 0
