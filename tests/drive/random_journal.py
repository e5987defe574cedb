#!/usr/bin/env python3
"""Random journals, each the same for its seed wherever it is made.

    random_journal.py [--third] SEED [LINES]           prints one
    random_journal.py [--third] FIRST LAST FOLDER      writes FOLDER/journal_SEED for each seed from FIRST to LAST

Each is well formed, of the second edition where its seed is even, after --third of the third, and asks for all that a
hub can answer: every word, selects of 0 to 9 cases, but for the first edition to 16, with and without a default, choice
words from 0 to the greatest, closes, exits, but for the first edition cancels and values of 0 to 32 bytes, in the third
starts and reopens, port 0, ports that are not made, capacities that are too large, processes that are busy, gone or
unknown. In the third most entries are of processes that can act, and half of the starts and reopens or more are done:
the journal follows what model.py makes of it. LINES counts the entries; where it is not said there are 60 to 300.
"""
import os
import pathlib
import random
import sys

sys.dont_write_bytecode = True
sys.path.insert(0, str(pathlib.Path(__file__).resolve().parents[2] / 'tools'))
import model

GREATEST = {'process': 255, 'capacity': 4294967295, 'port': 65535, 'value': 18446744073709551615}


class Numbers:
    """Numbers from `random()` alone, which gives the same sequence in every version of Python."""

    def __init__(self, seed):
        self.random = random.Random(seed).random

    def below(self, n):
        return int(self.random() * n)

    def one_in(self, n):
        return self.below(n) == 0

    def among(self, choices):
        return choices[self.below(len(choices))]

    def word(self):
        if self.one_in(4):
            return 0
        if self.one_in(4):
            return self.among([1, 2, 7, GREATEST['value']])
        return self.below(1 << 32) << 32 | self.below(1 << 32)


class Journal:
    """The entries so far, and what the next ones are drawn from."""

    def __init__(self, seed, entries, third=False):
        self.numbers = Numbers(seed)
        self.edition = 3 if third else 1 if seed % 2 else 2
        self.entries = entries or 60 + self.numbers.below(241)
        self.procs = self.numbers.among([1, 2, 2, 3, 3, 4, 5, 8, 16, 64])
        self.capacities = self.numbers.among([[0], [0, 1], [0, 1, 2, 3], [1, 2], [0, 4, 1024]])
        # a few journals make more ports than there can be
        self.first_ports = 62 + self.numbers.below(8) if self.numbers.one_in(20) else 1 + self.numbers.below(6)
        # so many processes exit, early or late
        self.exits_left = min(self.numbers.below(self.procs + 1), self.numbers.below(self.procs + 1))
        # of a hundred steps so many are closes; in most journals few are, so that ports stay open
        self.closes = self.numbers.among([0, 1, 1, 5])
        # all communications stand on few ports, so that they meet
        self.ports = 1 + self.numbers.below(min(self.first_ports, 4))
        self.value = 0
        # what the third edition's steps so far have come to
        self.hub = model.Hub(self.edition, self.procs)

    def actor(self):
        """Who makes a step; in the third edition for the most part a process that can."""
        if self.edition < 3:
            return self.process()
        return self.mostly([pid for pid in range(self.procs) if self.hub.refusal(pid) is None], self.process)

    def mostly(self, able, anyone):
        """One of those that are able, but now and then, and where there is none, anyone."""
        return self.numbers.among(able) if able and not self.numbers.one_in(5) else anyone()

    def process(self):
        if self.numbers.one_in(60):
            return self.numbers.among([self.procs, GREATEST['process'], self.numbers.below(256)])
        return self.numbers.below(self.procs)

    def port(self):
        if self.numbers.one_in(25):
            return 0
        if self.numbers.one_in(40):
            return self.numbers.among([self.first_ports + 1, 65, GREATEST['port']])
        if self.numbers.one_in(10):
            return 1 + self.numbers.below(self.first_ports)
        return 1 + self.numbers.below(self.ports)

    def next_value(self):
        """The next number, now and then the greatest; but for the first edition half of the values are bytes."""
        self.value += 1
        if self.edition > 1 and self.numbers.one_in(2):
            return self.bytes()
        return '%d' % (GREATEST['value'] if self.numbers.one_in(50) else self.value)

    def bytes(self):
        length = self.numbers.among([0, 1, 2, 8, 31, 32, 32, self.numbers.below(33)])
        return '#' + ''.join('%02x' % self.numbers.below(256) for _ in range(length))

    def case(self):
        if self.numbers.one_in(2):
            return 's%d:%s' % (self.port(), self.next_value())
        return 'r%d' % self.port()

    def select(self):
        counts = [0, 1, 2, 2, 2, 3, 3, 4, 5, 6, 7, 8, 8, 9]
        count = self.numbers.among(counts if self.edition == 1 else counts + [12, 15, 16, 16])
        cases = [self.case() for _ in range(count)]
        default = self.numbers.one_in(3)
        word = self.numbers.word()
        # such a call is spelled as a send or a receive
        if count == 1 and not default and word == 0:
            word = 1
        return ' '.join(['select', str(word)] + cases + ['default'] * default)

    def capacity(self):
        if self.numbers.one_in(10):
            return self.numbers.among([1024, 1025, GREATEST['capacity']])
        return self.numbers.among(self.capacities)

    def make(self):
        return 'make %d' % self.capacity()

    def life(self):
        """A process starts again, or a port opens again. Where none can, for the most part one exits or is closed instead."""
        gone = sorted(self.hub.gone)
        drained = [port for port, channel in enumerate(self.hub.ports, 1) if channel['closed'] and not channel['buffer']]
        in_vain = self.numbers.one_in(4)
        if self.numbers.one_in(2):
            return 'start %d' % self.mostly(gone, self.process) if gone or in_vain or not self.may_exit() else 'exit'
        if not drained and not in_vain:
            return 'close %d' % self.port()
        return 'reopen %d %d' % (self.mostly(drained, self.port), self.capacity())

    def may_exit(self):
        """In the third edition any number of processes may, but the last of those that are there for the most part stays."""
        if self.edition == 3:
            return len(self.hub.gone) < self.procs - 1 or self.numbers.one_in(20)
        return self.exits_left > 0

    def step(self):
        if self.edition == 3 and self.numbers.one_in(8):
            return self.life()
        drawn = self.numbers.below(100)
        if drawn < self.closes:
            return 'close %d' % self.port()
        if drawn < 7:
            return self.make()
        if self.edition > 1 and drawn < 10 and self.numbers.one_in(2):
            return 'cancel %d' % self.process()
        if drawn < 10 and self.may_exit():
            self.exits_left -= 1
            return 'exit'
        if drawn < 40:
            return 'send %d %s' % (self.port(), self.next_value())
        if drawn < 70:
            return 'recv %d' % self.port()
        return self.select()

    def text(self):
        lines = ['chanhub journal %d' % self.edition, 'procs %d' % self.procs]
        for place in range(self.entries):
            step = self.make() if place < self.first_ports else self.step()
            pid = self.actor()
            lines.append('%d %s' % (pid, step))
            if self.edition == 3:
                self.hub.step(pid, *model.step(step.split()))
        return ''.join(line + '\n' for line in lines)


def main(words):
    third = words[:1] == ['--third']
    words = words[third:]
    if len(words) in (1, 2):
        print(Journal(int(words[0]), int(words[1]) if len(words) == 2 else 0, third).text(), end='')
    elif len(words) == 3:
        os.makedirs(words[2], exist_ok=True)
        for seed in range(int(words[0]), int(words[1]) + 1):
            with open(os.path.join(words[2], 'journal_%d' % seed), 'w') as file:
                file.write(Journal(seed, 0, third).text())
    else:
        sys.exit(__doc__.strip())


if __name__ == '__main__':
    main(sys.argv[1:])
