#!/usr/bin/env python3
"""What deploy/ has, each for real on this machine: the ways in by ssh, stunnel and haproxy, and alarms.

  deploy.py PROGRAM     PROGRAM is the built program

A case runs the program that reads the configuration, with paths and ports of the test in it, and the
client. Who has the right key comes in; who has a wrong one, none, or an expired one does not, nor does
a client reach a host that it does not know; and the journal of the server is as it was. A case whose
programs are missing is left out, and that is said; tests/setup installs them.
"""
from __future__ import annotations

import concurrent.futures
import contextlib
import getpass
import os
import shutil
import socket
import ssl
import subprocess
import sys
import tempfile
import time
from pathlib import Path
from typing import Any, Dict, Iterator, List, NamedTuple, Optional, Sequence, Union

TOP = Path(__file__).resolve().parent.parent
PATIENCE = 600  # seconds, on a machine with much other work
CHANGE = TOP / "examples" / "file.change"
NAME = b"e69e421f851c554236dee86233c9edc78fe83c54d32c9014d482651ba50ad008"
LOOPBACK = "127.0.0.1"
Where = Union[int, Path]  # a port of this machine, or the path of a socket


class LeftOut(Exception):
    """A program that the case needs is not installed."""


def find(*names: str) -> List[str]:
    """Where these programs are, those for the system's administrator too."""
    path = os.environ.get("PATH", "") + ":/usr/sbin:/sbin"
    found = [shutil.which(name, path=path) for name in names]
    lacking = [name for name, place in zip(names, found) if place is None]
    if lacking:
        raise LeftOut(f"without {', '.join(lacking)}")
    return [place for place in found if place]


def free_port() -> int:
    """A port of this machine that nobody uses."""
    with socket.socket() as probe:
        probe.bind((LOOPBACK, 0))
        port: int = probe.getsockname()[1]
        return port


def reach(where: Where) -> None:
    """Connects to a port of this machine, or to a socket at a path."""
    if isinstance(where, int):
        socket.create_connection((LOOPBACK, where)).close()
        return
    with socket.socket(socket.AF_UNIX) as probe:
        probe.connect(str(where))


def wait_for(where: Where, process: "subprocess.Popen[bytes]") -> None:
    """Waits until a process listens."""
    end = time.monotonic() + PATIENCE
    while True:
        with contextlib.suppress(OSError):
            reach(where)
            return
        assert process.poll() is None, f"{process.args!r} ended"
        assert time.monotonic() < end, f"{process.args!r} does not listen"
        time.sleep(0.05)


@contextlib.contextmanager
def running(words: Sequence[object], log: Path, where: Where) -> Iterator["subprocess.Popen[bytes]"]:
    """A process that listens somewhere, and that is ended at the end."""
    with log.open("ab") as told:
        how = {"stdin": subprocess.DEVNULL, "stdout": told, "stderr": told}
        process = subprocess.Popen([str(word) for word in words], **how)
        try:
            wait_for(where, process)
            yield process
        except BaseException:
            sys.stdout.write(log.read_text(errors="replace")[-3000:])
            raise
        finally:
            process.terminate()
            process.wait(PATIENCE)


class Told(NamedTuple):
    """What the client came to."""

    status: int
    out: bytes
    error: bytes


class Place(NamedTuple):
    """A folder for a case, and the port or the socket of a server of the program."""

    room: Path
    where: Where
    program: str

    @property
    def direct(self) -> str:
        """The address of the server itself."""
        return f"{LOOPBACK}:{self.where}" if isinstance(self.where, int) else f"unix:{self.where}"

    def pj(self, address: str, *words: str, given: bytes = b"", **environment: object) -> Told:
        """Runs the client, whose own files are in a folder of the case."""
        own = self.room / "own"
        own.mkdir(exist_ok=True)
        known = {name: str(value) for name, value in environment.items()}
        known = {"TMPDIR": str(own), "XDG_CONFIG_HOME": str(own), "PJ_AUTHOR": "ann", "PIJULD": self.program, **known}
        rest = {name: it for name, it in os.environ.items() if name not in ("SSH_AUTH_SOCK", "PJ_SSH", "PJ_TLS")}
        done = subprocess.run(
            [sys.executable, str(TOP / "tools" / "pj"), address, *words], input=given, timeout=PATIENCE,
            stdout=subprocess.PIPE, stderr=subprocess.PIPE, env={**rest, **known}, cwd=self.room, check=False,
        )
        return Told(done.returncode, done.stdout, done.stderr)

    def journal(self) -> bytes:
        """The journal of the server, asked past all doors."""
        told = self.pj(self.direct, "journal")
        assert told.status == 0, told
        return told.out


@contextlib.contextmanager
def served(program: str, at_socket: bool = False) -> Iterator[Place]:
    """A server of the program that serves eight at once, at a port or at a socket."""
    with tempfile.TemporaryDirectory(prefix="pj-") as room:
        where: Where = Path(room) / "main.sock" if at_socket else free_port()
        place = Place(Path(room), where, program)
        words = [program, "serve", place.direct, "--sessions", 5000, "--workers", 8]
        with running(words, Path(room) / "server.log", where):
            yield place


def is_served(place: Place, address: str, **environment: object) -> None:
    """Who is let in can do all that a client does: a request, a session of many, and a working folder."""
    told = place.pj(address, "put", str(CHANGE), **environment)
    assert (told.status, told.out) == (0, b"ok 1 " + NAME + b"\n"), told
    # a session of standard input, whose end the server has to hear of: no `quit` stands behind it
    large = b"x" * 200_000
    text = b"pijul change 2\nmessage L\nauthor ann\ntime 1\nfile root a\ninsert 0.1 after 0.1 before - %d\n" % len(large)
    text += large + b"\nend\n"
    told = place.pj(address, given=b"put %d\n%s\nnew a\nchannels\n" % (len(text), text), **environment)
    assert told.status == 0 and told.out.endswith(b"ok 3\nok 3 11\na 0\nmain 0\n\n"), told
    name = told.out.split()[2].decode()
    told = place.pj(address, "get", name, **environment)
    assert told.out == b"ok 3 %d\n%s\n" % (len(text), text), (told.status, told.out[:99], told.error)
    for words in (["apply", "main", NAME.decode()], ["print", "main"]):
        told = place.pj(address, *words, **environment)
        assert told.status == 0, told
    told = place.pj("clone", address, "main", "folder", **environment)
    assert told.status == 0 and (place.room / "folder" / "recipe.txt").exists(), told
    shutil.rmtree(place.room / "folder")


def is_kept_out(place: Place, address: str, *wanted: bytes, **environment: object) -> None:
    """Who is not let in changes nothing, and is told why where that is known."""
    for words in (["new", "b"], ["apply", "a", NAME.decode()], ["drop", "main"]):
        told = place.pj(address, *words, **environment)
        assert told.status in (1, 2) and told.out == b"" and told.error, told
        assert not wanted or any(word in told.error for word in wanted), (wanted, told)


# ---- ssh


class Keys(NamedTuple):
    """A server of ssh, and how the client is told of it."""

    room: Path
    port: int

    def ssh(self, key: str = "right", known: str = "known") -> str:
        """What PJ_SSH has for a key and a list of hosts."""
        options = [
            f"IdentityFile={self.room / key}", "IdentitiesOnly=yes", "IdentityAgent=none", "BatchMode=yes",
            f"UserKnownHostsFile={self.room / known}", "GlobalKnownHostsFile=/dev/null", "StrictHostKeyChecking=yes",
        ]
        return " ".join(["ssh", "-F", "none", *(f"-o {option}" for option in options)])


def public(key: Path) -> str:
    """The public half of a key."""
    return key.with_suffix(".pub").read_text().strip()


def make_keys(room: Path, port: int) -> None:
    """Keys of a host and of clients, and the lists of them."""
    for name in ("host", "other-host", "right", "wrong", "expired"):
        made = ["ssh-keygen", "-q", "-t", "ed25519", "-N", "", "-f", str(room / name)]
        subprocess.run(made, check=True, stdin=subprocess.DEVNULL)
    (room / "keys").write_text(f'{public(room / "right")}\nexpiry-time="20200101" {public(room / "expired")}\n')
    (room / "known").write_text(f"[{LOOPBACK}]:{port} {public(room / 'host')}\n")
    (room / "changed").write_text(f"[{LOOPBACK}]:{port} {public(room / 'other-host')}\n")
    (room / "empty").write_text("")


@contextlib.contextmanager
def sshd(room: Path) -> Iterator[Keys]:
    """A server of ssh with keys of the test's own, for this user, with what deploy/sshd.conf says of a group."""
    (program,) = find("sshd")
    find("ssh", "ssh-keygen")
    if os.geteuid() == 0:
        Path("/run/sshd").mkdir(mode=0o755, exist_ok=True)
    port = free_port()
    make_keys(room, port)
    user = getpass.getuser()
    rules = (TOP / "deploy" / "sshd.conf").read_text()
    assert rules.count("Match Group pijuld\n") == 1
    lines = [
        f"ListenAddress {LOOPBACK}:{port}", f"HostKey {room / 'host'}", f"PidFile {room / 'sshd.pid'}",
        f"AuthorizedKeysFile {room / 'keys'}", "StrictModes no", "UsePAM no", "PasswordAuthentication no",
        "KbdInteractiveAuthentication no", "PermitRootLogin prohibit-password", "MaxStartups 100",
        rules.replace("Match Group pijuld", f"Match User {user}"),
    ]
    (room / "sshd.conf").write_text("\n".join(lines))
    with running([program, "-f", room / "sshd.conf", "-D", "-e"], room / "sshd.log", port):
        yield Keys(room, port)


def case_ssh(program: str) -> None:
    """A socket through ssh: the key decides, and the host's own key has to be known."""
    with served(program, at_socket=True) as place, sshd(place.room) as keys:
        address = f"ssh://{getpass.getuser()}@{LOOPBACK}:{keys.port}{place.where}"
        is_served(place, address, PJ_SSH=keys.ssh())
        before = place.journal()
        denied, unknown = b"Permission denied", b"Host key verification failed"
        for key in ("wrong", "expired", "missing"):
            is_kept_out(place, address, denied, PJ_SSH=keys.ssh(key))
        for known in ("empty", "changed"):
            is_kept_out(place, address, unknown, PJ_SSH=keys.ssh(known=known))
        is_kept_out(place, address + ".none", b"open failed", PJ_SSH=keys.ssh())
        is_kept_out(place, address, b"cannot be reached", PJ_SSH="/no/such/program")
        assert place.journal() == before
        left = list((place.room / "own").iterdir())
        assert not left, left


def case_ssh_gives_no_command(program: str) -> None:
    """By the rules of deploy/sshd.conf a member gets no command, no shell, no terminal and no files."""
    with tempfile.TemporaryDirectory(prefix="pj-") as room, sshd(Path(room)) as keys:
        words, target = [*keys.ssh().split(), "-p", str(keys.port)], f"{getpass.getuser()}@{LOOPBACK}"
        for more in ([target, "echo", "in"], [target], ["-tt", target], ["-s", target, "sftp"]):
            done = subprocess.run(
                [*words, *more], input=b"echo in\n", timeout=PATIENCE,
                stdout=subprocess.PIPE, stderr=subprocess.PIPE, check=False,
            )
            assert done.returncode == 255 and done.stdout == b"", (more, done)


# ---- alarms


def case_alarms(program: str) -> None:
    """deploy/alarms.yml has rules, and they raise what tests/alarms.yml wants of made histories."""
    (promtool,) = find("promtool")
    for words in (["check", "rules", "deploy/alarms.yml"], ["test", "rules", "tests/alarms.yml"]):
        done = subprocess.run(
            [promtool, *words], cwd=TOP, timeout=PATIENCE, stdout=subprocess.PIPE,
            stderr=subprocess.STDOUT, check=False,
        )
        assert done.returncode == 0 and b"SUCCESS" in done.stdout, done.stdout.decode()


# ---- TLS


def make_certificates(room: Path) -> Path:
    """Two authorities with deploy/certificates, and what clients show: a folder for each client."""
    maker = TOP / "deploy" / "certificates"

    def make(folder: str, *words: str, days: int = 2) -> None:
        environment = {**os.environ, "DAYS": str(days)}
        subprocess.run([str(maker), str(room / folder), *words], check=True, env=environment, stdout=subprocess.DEVNULL)

    for folder in ("ours", "theirs"):
        make(folder, "authority")
        make(folder, "client", "ann")
    make("ours", "server", LOOPBACK)
    make("ours", "server", "elsewhere.example")
    make("ours", "client", "bea")
    make("ours", "client", "old", days=-1)

    def client(name: str, trusts: str, shows: str = "") -> None:
        folder = room / "clients" / name
        folder.mkdir(parents=True)
        shutil.copy(room / trusts / "authority.pem", folder / "authority.pem")
        if shows:
            shutil.copy(room / shows, folder / "certificate.pem")

    client("right", "ours", "ours/ann.client.pem")
    client("unlisted", "ours", "ours/bea.client.pem")
    client("wrong", "ours", "theirs/ann.client.pem")
    client("none", "ours")
    client("expired", "ours", "ours/old.client.pem")
    client("a-servers", "ours", "ours/elsewhere.example.server.pem")
    client("trusts-others", "theirs", "ours/ann.client.pem")
    return room / "clients"


def configured(name: str, to: Path, changes: Dict[str, object]) -> Path:
    """A configuration of deploy/ with other values in it, each of which stands there once."""
    text = (TOP / "deploy" / name).read_text()
    for old, new in changes.items():
        assert text.count(old) == 1, (name, old)
        text = text.replace(old, str(new))
    to.write_text(text)
    return to


def gate_words(kind: str, place: Place, port: int, host: str, **changes: str) -> List[object]:
    """The words that start stunnel or haproxy with the configuration of deploy/, and what a case changes in it."""
    room = place.room
    server, authority = room / f"ours/{host}.server.pem", room / "ours" / "authority.pem"
    places: Dict[str, object] = {
        "/etc/pijuld/tls/server.pem": server, "/etc/pijuld/tls/authority.pem": authority,
    }
    if kind == "stunnel":
        (program,) = find("stunnel")
        places["accept = 7778"] = f"accept = {LOOPBACK}:{port}"
        places["connect = 127.0.0.1:7777"] = f"connect = {place.direct}"
        return [program, configured("stunnel.conf", room / f"stunnel-{port}.conf", {**places, **changes})]
    (program,) = find("haproxy")
    (room / "people").write_text("ann\nold\nelsewhere.example\n")
    places["pijuld 127.0.0.1:7777"] = f"pijuld {place.direct}"
    places["/etc/pijuld/tls/people"] = room / "people"
    places["bind :7778"] = f"bind {LOOPBACK}:{port}"
    return [program, "-db", "-f", configured("haproxy.cfg", room / f"haproxy-{port}.cfg", {**places, **changes})]


@contextlib.contextmanager
def gate(kind: str, place: Place, host: str = LOOPBACK, **changes: str) -> Iterator[int]:
    """stunnel or haproxy before the server; gives its port."""
    port = free_port()
    with running(gate_words(kind, place, port, host, **changes), place.room / f"{kind}.log", port):
        yield port


def asks_for_certificates(kind: str, program: str) -> None:
    """A certificate of the authority comes in, and nothing else; a client knows its server by one too."""
    find("openssl")
    with served(program) as place:
        clients = make_certificates(place.room)
        with gate(kind, place) as port, gate(kind, place, "elsewhere.example") as elsewhere:
            address = f"tls://{LOOPBACK}:{port}"
            is_served(place, address, PJ_TLS=clients / "right")
            before = place.journal()
            for name in ["wrong", "none", "expired", "a-servers"] + ["unlisted"] * (kind == "haproxy"):
                is_kept_out(place, address, PJ_TLS=clients / name)
            is_kept_out(place, address, b"certificate verify failed", PJ_TLS=clients / "trusts-others")
            unknown = f"tls://{LOOPBACK}:{elsewhere}"
            is_kept_out(place, unknown, b"certificate verify failed", PJ_TLS=clients / "right")
            is_kept_out(place, f"{LOOPBACK}:{port}")  # no TLS at all
            assert place.journal() == before
            told = place.pj(address, "new", "c", PJ_TLS=clients / "right")
            assert told.status == 0, told


def case_stunnel(program: str) -> None:
    """deploy/stunnel.conf."""
    asks_for_certificates("stunnel", program)


def case_haproxy(program: str) -> None:
    """deploy/haproxy.cfg."""
    asks_for_certificates("haproxy", program)


def connection(port: int, folder: Path) -> ssl.SSLSocket:
    """A client that the test drives itself."""
    trust = ssl.create_default_context(cafile=str(folder / "authority.pem"))
    trust.load_cert_chain(folder / "certificate.pem")
    plain = socket.create_connection((LOOPBACK, port), timeout=PATIENCE)
    return trust.wrap_socket(plain, server_hostname=LOOPBACK)


def answers(client: ssl.SSLSocket) -> bool:
    """Whether a session goes on."""
    try:
        client.sendall(b"channels\n")
        return client.recv(2) == b"ok"
    except OSError:
        return False


def is_ended(client: ssl.SSLSocket) -> bool:
    """Whether the other side ends the session of a client that says nothing, within the patience."""
    try:
        return client.recv(1) == b""
    except (ssl.SSLEOFError, ConnectionResetError):
        return True


def is_let_in(port: int, folder: Path) -> Optional[ssl.SSLSocket]:
    """A client that was let in and has had an answer; none where it was not."""
    with contextlib.suppress(OSError):
        client = connection(port, folder)
        if answers(client):
            return client
        client.close()
    return None


def case_silence_is_ended(program: str) -> None:
    """Both end a connection on which nothing comes for as long as their configurations say."""
    with served(program) as place:
        folder = make_certificates(place.room) / "right"
        silences = {
            "stunnel": {"TIMEOUTidle = 300": "TIMEOUTidle = 1"},
            "haproxy": {"timeout client 5m": "timeout client 1s", "timeout server 5m": "timeout server 1s"},
        }
        for kind, changes in silences.items():
            with gate(kind, place, **changes) as port:
                with connection(port, folder) as client:
                    assert is_ended(client), kind


def case_connections_at_once(program: str) -> None:
    """haproxy lets an address have six connections at once, and another one when one has ended."""
    with served(program) as place:
        folder = make_certificates(place.room) / "right"
        with gate("haproxy", place, **{"sc0_conn_rate gt 60": "sc0_conn_rate gt 1000000"}) as port:
            found: List[ssl.SSLSocket] = []
            fill(found, port, folder)
            assert [is_let_in(port, folder) for _ in range(3)] == [None] * 3
            found.pop().close()
            fill(found, port, folder)
            assert is_let_in(port, folder) is None
            for client in found:
                client.close()


def fill(found: List[ssl.SSLSocket], port: int, folder: Path) -> None:
    """Opens connections until there are six; haproxy may hear a little later that others have ended."""
    end = time.monotonic() + PATIENCE
    while len(found) < 6:
        client = is_let_in(port, folder)
        found += [client] if client else []
        assert time.monotonic() < end, len(found)


def case_connections_in_a_time(program: str) -> None:
    """haproxy lets an address have sixty connections in a time, here an hour, so that none is forgotten."""
    with served(program) as place:
        folder = make_certificates(place.room) / "right"
        changes = {
            "conn_rate(10s)": "conn_rate(1h)", "expire 10m": "expire 2h",
            "sc0_conn_cur gt 6": "sc0_conn_cur gt 1000000",
        }
        with gate("haproxy", place, **changes) as port:
            count = 1  # the test's own wait for the port
            while True:
                client = is_let_in(port, folder)
                if client is None:
                    break
                client.close()
                count += 1
                assert count <= 60, count
            assert count == 60, count


def play(names: Dict[str, Any], program: str) -> int:
    """Runs the cases among these names, two at once; tells what failed and what was left out."""
    passed = failed = 0
    cases = {name: case for name, case in sorted(names.items()) if name.startswith("case_")}
    with concurrent.futures.ThreadPoolExecutor(2) as pool:
        begun = {name: pool.submit(case, program) for name, case in cases.items()}
        for name, done in begun.items():
            try:
                done.result()
                passed += 1
            except LeftOut as reason:
                print(f"LEFT OUT: {name} of {Path(sys.argv[0]).name}, {reason}: tests/setup installs it")
            except Exception as fault:  # each case is told, whatever went wrong in it
                failed += 1
                print(f"FAILED {name}: {type(fault).__name__}: {fault}")
    print(f"{passed} passed, {failed} failed")
    return failed != 0


if __name__ == "__main__":
    sys.exit(play(globals(), str(Path(sys.argv[1]).resolve())))
