#!/usr/bin/env python3
"""An independent replay of a journal over changes that each add one file.

It was written from docs/FORMATS.md alone and shares no code with the program.
`Replay` takes the body of `journal` and the texts that were stored, and says
what each reply at each place must have been: which changes the store has, what
`log` and `print` of a channel give. Only changes that add a file to the root
and fill it are printed, so no file of theirs is in conflict.
"""
import hashlib
import re


def change_text(name, content, author="ann"):
    """A change that adds the file `name` with this content to the root."""
    return (b"pijul change 1\nmessage add %s\nauthor %s\ntime 1767225600\nfile root %s\n"
            b"insert 0.1 after 0.1 before - %d\n%s\nend\n"
            % (name, author.encode(), name, len(content), content))


def change_name(text):
    return hashlib.sha256(text).hexdigest().encode()


class Replay:
    def __init__(self, journal, files):
        """`journal` is the body of the reply; `files` has (name, content) for the name of each change."""
        self.files = files
        self.entries = []
        self.states = [(frozenset(), {b"main": ()})]
        for number, line in enumerate(journal.splitlines(), 1):
            match = re.fullmatch(rb"(\d+) (\d+) (\d+) (.*)", line)
            assert match and int(match[1]) == number, f"entry {number} is {line!r}"
            entry = (int(match[2]), int(match[3]), match[4])
            self.entries.append(entry)
            self.states.append(self.step(*self.states[-1], entry[2].split(b" ")))

    def step(self, store, channels, write):
        verb, rest = write[0], write[1:]
        channels = dict(channels)
        if verb == b"put":
            assert rest[0] not in store, "a change is stored twice"
            return store | {rest[0]}, channels
        if verb == b"new":
            assert rest[0] not in channels
            channels[rest[0]] = ()
        elif verb == b"fork":
            assert rest[1] not in channels
            channels[rest[1]] = channels[rest[0]]
        elif verb == b"drop":
            del channels[rest[0]]
        elif verb == b"apply":
            assert rest[1] in store, "a change is applied before it is stored"
            assert rest[1] not in channels[rest[0]], "a change is applied twice"
            channels[rest[0]] += (rest[1],)
        elif verb == b"unrecord":
            assert rest[1] in channels[rest[0]]
            channels[rest[0]] = tuple(x for x in channels[rest[0]] if x != rest[1])
        elif verb == b"pull":
            channels[rest[0]] += tuple(x for x in channels[rest[1]] if x not in channels[rest[0]])
        else:
            raise AssertionError(f"entry {write!r}")
        return store, channels

    def entry(self, place):
        return self.entries[place - 1]

    def log(self, place, channel):
        return b"".join(name + b"\n" for name in self.states[place][1][channel])

    def printed(self, place, channel):
        """The files of the channel, by the bytes of their paths."""
        files = sorted(self.files[name] for name in self.states[place][1][channel])
        return b"".join(b"file alive %d %s\n%s\n" % (len(text), name, text) for name, text in files)
