#!/bin/bash
# Times requests a second over loopback: small puts, applications and prints of a small channel, with 1, 4 and 16 connections at
# once and 4 workers, each connection waiting for a reply before it asks again. Where the system has redis-server and
# redis-benchmark, SETs of as many bytes are timed in the same run, with as many connections, and the ratio is printed.
#
# The clients are Python processes, one for each connection, so the numbers are those of whole exchanges. Where one of them fails,
# or nothing is heard of them for two minutes, the script ends with 1.
set -eu
cd "$(dirname "$0")/.."
./pijuld --version >/dev/null
export GLIBC_TUNABLES="${GLIBC_TUNABLES-glibc.malloc.hugetlb=1}" # as ./pijuld starts the program
python3 - "$PWD/crates/pijuld/out/pijuld" <<'PYTHON'
import multiprocessing
import queue
import shutil
import socket
import subprocess
import sys
import time

PROGRAM = sys.argv[1]
REQUESTS = 1_000
WORKERS = 4
LIMIT = 120
HAS_REDIS = shutil.which("redis-server") and shutil.which("redis-benchmark")


def free_port():
    with socket.socket() as probe:
        probe.bind(("127.0.0.1", 0))
        return probe.getsockname()[1]


def connect(port):
    for _ in range(200):
        try:
            connection = socket.create_connection(("127.0.0.1", port), timeout=60)
            connection.setsockopt(socket.IPPROTO_TCP, socket.TCP_NODELAY, 1)
            return connection
        except ConnectionRefusedError:
            time.sleep(0.05)
    raise SystemExit("no server")


def change(client, number):
    content = b"text %d of %d\n" % (number, client)
    return (b"pijul change 1\nmessage m\nauthor a\ntime 1\nfile root %d.%d\ninsert 0.1 after 0.1 before - %d\n%s\nend\n"
            % (client, number, len(content), content))


def exchange(connection, stream, request):
    connection.sendall(request)
    words = stream.readline().split()
    assert words and words[0] == b"ok", words
    if len(words) == 3 and words[2].isdigit():
        stream.read(int(words[2]) + 1)
    return words


def client(port, number, kind, ready, go, times):
    connection = connect(port)
    stream = connection.makefile("rb")
    channel = b"c%d" % number
    exchange(connection, stream, b"new %s\n" % channel)
    names = []
    texts = [change(number, n) for n in range(REQUESTS)]
    if kind == "apply":
        names = [exchange(connection, stream, b"put %d\n%s\n" % (len(t), t))[2] for t in texts]
    if kind == "print":
        name = exchange(connection, stream, b"put %d\n%s\n" % (len(texts[0]), texts[0]))[2]
        exchange(connection, stream, b"apply %s %s\n" % (channel, name))
    requests = {"put": lambda n: b"put %d\n%s\n" % (len(texts[n]), texts[n]),
                "apply": lambda n: b"apply %s %s\n" % (channel, names[n]),
                "print": lambda n: b"print %s\n" % channel}[kind]
    count = REQUESTS if kind != "apply" else REQUESTS // 4
    ready.release()
    go.wait()
    start = time.perf_counter()
    for n in range(count):
        exchange(connection, stream, requests(n))
    times.put((count, start, time.perf_counter()))
    connection.sendall(b"quit\n")
    connection.close()


def heard(take, clients):
    """What `take` gives as soon as it gives something; each try waits for a second. A client that failed ends the script."""
    end = time.monotonic() + LIMIT
    while True:
        try:
            if told := take():
                return told
        except queue.Empty:
            pass
        if any(process.exitcode for process in clients):
            sys.exit("a client failed")
        if time.monotonic() > end:
            sys.exit(f"nothing was heard of the clients for {LIMIT} seconds")


def rate(connections, kind):
    """Requests a second. A worker serves one connection at a time, so there are as many workers as connections, at least 4."""
    port = free_port()
    workers = max(WORKERS, connections)
    server = subprocess.Popen([PROGRAM, "serve", f"127.0.0.1:{port}", "--sessions", str(workers), "--workers", str(workers)])
    ready, go, times = multiprocessing.Semaphore(0), multiprocessing.Event(), multiprocessing.Queue()
    try:
        # a process that is a daemon is ended with the script
        clients = [multiprocessing.Process(target=client, args=(port, n, kind, ready, go, times), daemon=True) for n in range(connections)]
        for process in clients:
            process.start()
        for _ in clients:
            heard(lambda: ready.acquire(timeout=1), clients)
        go.set()
        told = [heard(lambda: times.get(timeout=1), clients) for _ in clients]
        for process in clients:
            process.join(LIMIT)
        if any(process.exitcode != 0 for process in clients):
            sys.exit("a client failed")
        return sum(t[0] for t in told) / (max(t[2] for t in told) - min(t[1] for t in told))
    finally:
        server.kill()
        server.wait()


def redis(connections, size):
    """SETs a second of redis."""
    port = free_port()
    server = subprocess.Popen(["redis-server", "--port", str(port), "--save", "", "--appendonly", "no"], stdout=subprocess.DEVNULL)
    try:
        connect(port).close()
        out = subprocess.run(["redis-benchmark", "-p", str(port), "-t", "set", "-c", str(connections), "-n", str(REQUESTS * connections),
                              "-d", str(size), "--csv"], stdout=subprocess.PIPE, check=True, timeout=LIMIT).stdout.decode()
        return float(out.strip().splitlines()[-1].split(",")[1].strip('"'))
    finally:
        server.kill()
        server.wait()


if not HAS_REDIS:
    print("redis: left out, since there is no redis-server or no redis-benchmark here", flush=True)
for connections in (1, 4, 16):
    for kind in ("put", "apply", "print"):
        print(f"{connections} connections, {kind}: {rate(connections, kind):.0f} requests a second", flush=True)
    if HAS_REDIS:
        other = redis(connections, len(change(0, 0)))
        puts = rate(connections, "put")
        print(f"{connections} connections: put {puts:.0f}, redis SET {other:.0f} a second, ratio {other / puts:.2f}")
PYTHON
