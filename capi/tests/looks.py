#!/usr/bin/env python3
"""looks.py FOLDER: whether each look that FOLDER/looks has is of one moment of the run that FOLDER/journal has.

The counts of each port after each step are those that tools/model.py leads to. What a thread's looks show has to be the counts after
steps that never go back; and where the thread asked before the look and after it how many steps were made, after one of these.
"""
import os
import sys

sys.dont_write_bytecode = True
sys.path.insert(0, os.path.join(os.path.dirname(os.path.abspath(__file__)), '..', '..', 'tools'))
from model import Hub, step  # noqa: E402


class Counting(Hub):
    """A hub that counts what each port has carried."""

    def __init__(self, edition, procs):
        super().__init__(edition, procs)
        self.sent, self.received = {}, {}

    def add(self, counts, port, more):
        counts[port] = counts.get(port, 0) + more

    def send(self, pid, index, port, value):
        is_sent = not self.channel(port)['closed']
        self.add(self.sent, port, is_sent)
        self.add(self.received, port, is_sent and self.oldest('r', port) is not None)
        super().send(pid, index, port, value)

    def receive(self, pid, index, port):
        meets = self.oldest('s', port) is not None
        self.add(self.sent, port, meets)
        self.add(self.received, port, meets or bool(self.channel(port)['buffer']))
        super().receive(pid, index, port)

    def counts(self, port):
        """What a look shows: whether it is made and closed, its capacity, how many were sent and received."""
        if port > len(self.ports):
            return 0, 0, 0, 0, 0
        channel = self.channel(port)
        return 1, int(channel['closed']), channel['cap'], self.sent.get(port, 0), self.received.get(port, 0)


def moments(path, ports):
    """The counts of these ports at first, and after each step that is no exit."""
    with open(path, encoding='ascii') as file:
        lines = file.read().splitlines()
    hub = Counting(int(lines[0].split()[2]), int(lines[1].split()[1]))
    found = [{port: hub.counts(port) for port in ports}]
    for line in lines[2:]:
        pid, word, said = int(line.split()[0]), *step(line.split()[1:])
        hub.step(pid, word, said)
        if word != 'exit':
            found.append({port: hub.counts(port) for port in ports})
    return found


def first_wrong(looks, moments):
    """The first of one thread's looks that is of no moment that is late enough, or None."""
    at = 0
    for port, since, until, *counts in looks:
        at = max(at, since)
        last = until if until >= 0 else len(moments) - 1
        while at <= last and moments[at][port] != tuple(counts):
            at += 1
        if at > last:
            return port, since, until, *counts
    return None


def main():
    folder = sys.argv[1]
    with open(os.path.join(folder, 'looks'), encoding='ascii') as file:
        lines = [[int(field) for field in line.split()] for line in file]
    found = moments(os.path.join(folder, 'journal'), {line[1] for line in lines})
    wrong = [first_wrong([line[1:] for line in lines if line[0] == looker], found) for looker in sorted({line[0] for line in lines})]
    changes = len({(line[1], *line[4:]) for line in lines})
    print(f'{len(lines)} looks, which show {changes} different counts; wrong: {wrong}')
    sys.exit(0 if lines and not any(wrong) else 1)


if __name__ == '__main__':
    main()
