#!/usr/bin/env python3
"""The requests of a session as lines for the program `test_tables` to play as `lists`, channel by channel.

    python3 tests/large_run.py session NUMBER CHANGES | python3 tests/session_rows.py >LINES
    python3 tests/table_rows.py <LINES

The first writes the lines, the second what they have to be answered by. A channel is a row, which ends where the channel is dropped.
What a request changes comes and goes, change by change, and behind each request that changes a channel stands `graph`. A fork
begins with the changes of its source, a pull is the changes that are lacking, an uproot the change and all that need it, the last
first. At the end of a row stand the questions on the list as a whole. Requests that change no channel are left out.
"""
import sys

from contests import Change, Lines, name_of

WHOLE = ("cuts", "rows", "pairs")
CHANGING = ("new", "fork", "drop", "apply", "pull", "unrecord", "uproot")


class Channel:
    """The changes of a channel in their order, by name, and the lines that made it so."""

    def __init__(self, title):
        self.title, self.held, self.steps = title, {}, []

    def adds(self, texts):
        for text in texts:
            self.held[name_of(text)] = text
            self.steps.append(("with", text))

    def takes(self, names):
        for name in names:
            self.steps.append(("without", self.held.pop(name)))

    def lacks(self, other):
        return [text for name, text in other.held.items() if name not in self.held]

    def roots(self, name):
        """The change and all that reach it by needs, the last first."""
        reached = {name}
        for other, text in self.held.items():
            if reached.intersection(Change(text).needs):
                reached.add(other)
        return [other for other in reversed(self.held) if other in reached]

    def graph(self):
        self.steps.append(("graph", None))


class Session:
    def __init__(self):
        self.texts, self.channels, self.all = {}, {}, []
        self.begin("main")

    def begin(self, name):
        self.channels[name] = Channel(name)
        self.all.append(self.channels[name])
        return self.channels[name]

    def request(self, verb, words):
        """Takes a request that changes a channel, and gives the channel, if it is there afterwards."""
        if verb == "fork":
            channel = self.begin(words[1])
            channel.adds(self.channels[words[0]].held.values())
            return channel
        if verb == "new":
            return self.begin(words[0])
        if verb == "drop":
            del self.channels[words[0]]
            return None
        channel = self.channels[words[0]]
        if verb == "apply":
            channel.adds([self.texts[words[1]]])
        elif verb == "pull":
            channel.adds(channel.lacks(self.channels[words[1]]))
        elif verb == "unrecord":
            channel.takes([words[1]])
        else:
            channel.takes(channel.roots(words[1]))
        return channel

    def play(self, stream):
        while line := stream.readline():
            verb, *words = line.decode().split()
            if verb == "put":
                text = stream.read(int(words[0]))
                stream.readline()
                self.texts[name_of(text)] = text
            elif verb in CHANGING and (channel := self.request(verb, words)):
                channel.graph()


def lines_of(session):
    lines = Lines()
    for channel in session.all:
        lines.line(f"row channel {channel.title}")
        for word, text in channel.steps:
            lines.line(word if text is None else f"{word} {lines.number(text)}")
        for word in WHOLE:
            lines.line(word)
    return lines.out


def main():
    session = Session()
    session.play(sys.stdin.buffer)
    sys.stdout.buffer.write(b"".join(lines_of(session)))


if __name__ == "__main__":
    main()
