#!/usr/bin/env python3
"""Compares the program with the independent reader on mutated texts.

`differential.py PROGRAM COUNT` takes the texts of examples/ and of the
transcripts, cuts and changes them by a fixed sequence of random numbers, and
compares what `PROGRAM show` writes and its status with reader.py. The exit
status is 0 where all answers agree.
"""
import glob
import os
import random
import subprocess
import sys

import reader

HERE = os.path.dirname(os.path.abspath(__file__))
BYTES = b"\x00\n\r -.,/0159:az\xff"
PIECES = [b"0", b"00", b"01", b"4294967295", b"4294967296", b"9" * 40, b"root", b"0.0", b"-", b",", b" ", b"\n",
          b"end\n", b"file+x root x\n", b"revive 1.2-3 by 1\n", b"delete 1.2-8 by 1\n", b"order 1.2 1.3 1.4\n",
          b"name root 0.1 n\n", b"dir root d\n", b"insert 0.1 after 0.1 before - 1\nx\n", b"knows " + b"a" * 64 + b"\n",
          b"needs " + b"f" * 64 + b"\n"]


def mutate(text, draw):
    for _ in range(draw.choice((1, 1, 1, 2, 3))):
        at = draw.randrange(len(text) + 1)
        kind = draw.randrange(6)
        if kind == 0:
            text = text[:at]
        elif kind == 1:
            text = text[:at] + bytes([draw.choice(BYTES)]) + text[at + 1:]
        elif kind == 2:
            text = text[:at] + draw.choice(PIECES) + text[at:]
        elif kind == 3:
            text = text[:at] + text[at + draw.randrange(1, 4):]
        else:
            lines = text.split(b"\n")
            line = draw.randrange(len(lines))
            if kind == 4:
                lines.insert(line, draw.choice(lines))
            else:
                words = lines[line].split(b" ")
                words[draw.randrange(len(words))] = draw.choice(PIECES).strip(b"\n")
                lines[line] = b" ".join(words)
            text = b"\n".join(lines)
    return text


def main():
    program, count = sys.argv[1], int(sys.argv[2])
    paths = glob.glob(HERE + "/../examples/*.change") + glob.glob(HERE + "/transcripts/show-*/in")
    texts = []
    for path in sorted(paths):
        with open(path, "rb") as file:
            texts.append(file.read())
    texts = [text for text in texts if len(text) < 5000]
    draw = random.Random(20261127)
    read = 0
    for number in range(count):
        text = mutate(draw.choice(texts), draw)
        wanted, status = reader.answer(text)
        read += status == 0
        done = subprocess.run([program, "show"], input=text, capture_output=True, timeout=20)
        if (done.stdout, done.returncode) != (wanted.encode(), status):
            print(f"text {number}: {text!r}\nprogram: {done.returncode} {done.stdout!r}\nreader: {status} {wanted!r}")
            return 1
    print(f"{count} texts, of which {read} are read")
    return 0


if __name__ == "__main__":
    sys.exit(main())
