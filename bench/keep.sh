#!/bin/bash
# Times a repository that is kept in a file. First durable writes a second of one session of `pijuld keep`: puts of small texts, each
# of which waits for its reply. They are timed in turns with as many INSERTs of the same texts into SQLite, each a transaction of
# its own with `synchronous` FULL, and, where the system has redis-server, with SETs of the same texts with `appendfsync always`. All
# three write to the folder of the program, so that they have one disk. Then the seconds of a restart: the file stores 1,000,
# 16,384 and 65,536 changes, each put and applied to one channel, and the session that follows asks for nothing.
#
# Targets: at least 0.9 times the writes of SQLite; at most 15 s for 65,536 changes on an idle machine.
set -eu
cd "$(dirname "$0")/.."
./pijuld --version >/dev/null
export GLIBC_TUNABLES="${GLIBC_TUNABLES-glibc.malloc.hugetlb=1}" # as ./pijuld starts the program
exec python3 - "$PWD/crates/pijuld/out/pijuld" <<'PYTHON'
import hashlib
import os
import shutil
import socket
import sqlite3
import statistics
import subprocess
import sys
import tempfile
import time

PROGRAM = sys.argv[1]
FOLDER = os.path.dirname(PROGRAM)
WRITES = 1_000  # of a turn
TURNS = 3
LIMIT = 300  # seconds
LEAST, MOST = 0.9, 15.0
met = []


def change(number):
    content = b"text %d\n" % number
    return (b"pijul change 1\nmessage m\nauthor a\ntime 1\nfile root f%d\ninsert 0.1 after 0.1 before - %d\n%s\nend\n"
            % (number, len(content), content))


def put(text):
    return b"put %d\n%s\n" % (len(text), text)


# ---- durable writes


def rate(write, texts):
    """Writes a second."""
    start = time.perf_counter()
    for text in texts:
        write(text)
    return len(texts) / (time.perf_counter() - start)


def kept(folder, texts):
    """Puts a second of one session."""
    process = subprocess.Popen([PROGRAM, "keep", os.path.join(folder, "kept")], stdin=subprocess.PIPE, stdout=subprocess.PIPE, bufsize=0)
    replies = process.stdout

    def write(text):
        process.stdin.write(put(text))
        reply = replies.readline()
        assert reply.startswith(b"ok ") and b"already" not in reply, reply

    found = rate(write, texts)
    process.stdin.close()
    if process.wait(LIMIT) != 0:
        sys.exit(f"the session failed with status {process.returncode}")
    return found


def sqlite(folder, texts):
    """INSERTs a second, each a transaction."""
    base = sqlite3.connect(os.path.join(folder, "base"), isolation_level=None)
    base.execute("PRAGMA synchronous = FULL")
    base.execute("CREATE TABLE IF NOT EXISTS changes (name TEXT PRIMARY KEY, text BLOB)")
    found = rate(lambda text: base.execute("INSERT INTO changes VALUES (?, ?)", (hashlib.sha256(text).hexdigest(), text)), texts)
    base.close()
    return found


def redis(folder, texts):
    """SETs a second of one connection."""
    with socket.socket() as probe:
        probe.bind(("127.0.0.1", 0))
        port = probe.getsockname()[1]
    words = ["redis-server", "--port", str(port), "--dir", folder, "--save", "", "--appendonly", "yes", "--appendfsync", "always"]
    server = subprocess.Popen(words, stdout=subprocess.DEVNULL)
    try:
        connection = connected(port)
        stream = connection.makefile("rb")

        def write(text):
            name = hashlib.sha256(text).hexdigest().encode()
            connection.sendall(b"*3\r\n$3\r\nSET\r\n$64\r\n%s\r\n$%d\r\n%s\r\n" % (name, len(text), text))
            assert stream.readline() == b"+OK\r\n"

        return rate(write, texts)
    finally:
        server.kill()
        server.wait()


def connected(port):
    for _ in range(200):
        try:
            connection = socket.create_connection(("127.0.0.1", port), timeout=LIMIT)
            connection.setsockopt(socket.IPPROTO_TCP, socket.TCP_NODELAY, 1)
            return connection
        except ConnectionRefusedError:
            time.sleep(0.05)
    raise SystemExit("no server")


def durable():
    """Prints the medians of some turns, and the ratios."""
    ways = {"keep": kept, "sqlite3": sqlite}
    if shutil.which("redis-server"):
        ways["redis"] = redis
    else:
        print("redis: left out, since there is no redis-server here", flush=True)
    rates = {way: [] for way in ways}
    with tempfile.TemporaryDirectory(dir=FOLDER) as folder:
        for turn in range(TURNS):
            texts = [change(number) for number in range(turn * WRITES, (turn + 1) * WRITES)]
            for way, run in ways.items():
                rates[way].append(run(folder, texts))
    own = statistics.median(rates["keep"])
    print(f"keep: {own:.0f} durable writes a second")
    for way in list(ways)[1:]:
        other = statistics.median(rates[way])
        print(f"{way}: {other:.0f} durable writes a second; keep has {own / other:.2f} times as many", flush=True)
    met.append(own / statistics.median(rates["sqlite3"]) >= LEAST)


# ---- restarts


def stored(count):
    """The bytes of the file of so many changes, each put and applied."""
    parts = [b"pijulj1\n"]
    for number in range(count):
        text = change(number)
        for request in put(text), b"apply main %s\n" % hashlib.sha256(text).hexdigest().encode():
            parts += [b"\1", len(request).to_bytes(8, "big"), request]
    return b"".join(parts) + b"\0"


def restart(count):
    """Prints the seconds of a restart."""
    with tempfile.TemporaryDirectory(dir=FOLDER) as folder:
        path = os.path.join(folder, "kept")
        with open(path, "wb") as file:
            file.write(stored(count))
        start = time.perf_counter()
        try:
            status = subprocess.run([PROGRAM, "keep", path], stdin=subprocess.DEVNULL, timeout=LIMIT).returncode
        except subprocess.TimeoutExpired:
            met.append(False)
            print(f"a restart of {count} changes was stopped after {LIMIT} s", flush=True)
            return
        seconds = time.perf_counter() - start
    if status != 0:
        sys.exit(f"a restart of {count} changes failed with status {status}")
    print(f"a restart of {count} changes takes {seconds:.2f} s", flush=True)
    met.append(count < 65_536 or seconds <= MOST)


durable()
for count in (1_000, 16_384, 65_536):
    restart(count)
sys.exit(not all(met))
PYTHON
