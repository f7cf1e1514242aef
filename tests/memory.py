"""Pipes 100,000 requests into `pijuld one`, and checks that it holds memory in proportion to what is stored.

    memory.py PROGRAM

Requests that store nothing must not make it grow, and five times as many stored texts must take at most six times the memory.
It prints the peaks, and its exit status says whether both hold.
"""
import hashlib
import subprocess
import sys
import threading

PROGRAM = sys.argv[1]
REQUESTS = 100_000
# what a run may differ by, in KiB
SLACK = 1_024


def text(number):
    return f"pijul change 1\nmessage {number}\nauthor ann\ntime 1\nfile root f{number}\nend\n".encode()


def requests(stored, asked):
    """So many texts, and then requests that store nothing: `asked` together. The last one is refused."""
    for number in range(stored):
        change = text(number)
        yield b"put %d\n%s\n" % (len(change), change)
    name = hashlib.sha256(text(0)).hexdigest().encode()
    for _ in range(stored, asked - 1):
        yield b"get " + name + b"\n"
    yield b"get " + b"0" * 64 + b"\n"


def read_all(replies, refused):
    """Reads the replies, and tells of the refusal, which is the last one."""
    tail = b""
    while piece := replies.read1(1 << 16):
        tail = (tail + piece)[-64:]
        if tail.endswith(b" change\n") and b"no " in tail:
            refused.set()


def peak(stored, asked):
    """The most memory that the program held, in KiB."""
    run = subprocess.Popen([PROGRAM, "one"], stdin=subprocess.PIPE, stdout=subprocess.PIPE)
    refused = threading.Event()
    reader = threading.Thread(target=read_all, args=(run.stdout, refused))
    reader.start()
    for request in requests(stored, asked):
        run.stdin.write(request)
    run.stdin.flush()
    if not refused.wait(120):
        run.kill()
        sys.exit("the last reply did not come")
    with open(f"/proc/{run.pid}/status") as lines:
        most = next(int(line.split()[1]) for line in lines if line.startswith("VmHWM"))
    run.stdin.close()
    reader.join()
    if run.wait() != 0:
        sys.exit(f"the status is {run.returncode}")
    return most


# a text is there from the first request on, so that each `get` is answered with it
empty = peak(1, 1_000)
asked = peak(1, REQUESTS)
few = peak(10_000, REQUESTS)
many = peak(50_000, REQUESTS)
print(f"{empty} KiB for 1,000 requests, {asked} for {REQUESTS:,}, {few} with 10,000 texts among them, {many} with 50,000")
grows = asked > empty + SLACK
is_more = many - asked > 6 * (few - asked) + SLACK
sys.exit(grows or is_more)
