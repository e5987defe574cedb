#!/usr/bin/env python3
"""cuts.py PROGRAM TOOL [RUNS [SEED]]: cuts random journals at random places, and compares what the built chanhub (PROGRAM) tells
behind each cut with what it tells there of the journal that was not cut.

Such a journal has selects, closes, faults and stalls, in the later editions cancels, and in the third starts and reopens
(random_journal.py). At a cut the journal goes on from a checkpoint, which is made here from what model.py says of the state, and
no definition is read: the ports in order, each made, filled and closed; the exits by number; the open calls in order of arrival.
A journal is cut one to three times, each time in the chapter that the last cut began. RUNS journals of the first two editions are
cut (100), from SEED on (1), and as many of the third. Wrong checkpoints are tried as well, until the comparison notices each. The
chapters of the admitted lines are checked as a chain by the built chanhub_tool (TOOL): all of them, and with each one left out,
which is whole only where the states on both sides have one checkpoint. The last line counts: 'N passed, M failed'.
"""
import os
import pathlib
import random
import subprocess
import sys
import tempfile

sys.dont_write_bytecode = True
from programs import MINUTE, Count, said
from random_journal import Journal
import model

RUNS = 100
# a checkpoint has at most so many lines of ports
MOST_OF_PORTS = 64 * (1024 + 2)
MOST_CUTS = 3


def call_line(pid, cases):
    spelled = [f's{case[1]}:{case[2]}' if case[0] == 's' else f'r{case[1]}' for case in cases]
    if len(cases) != 1:
        return ' '.join([f'{pid} select 0', *spelled])
    return f'{pid} send {cases[0][1]} {cases[0][2]}' if cases[0][0] == 's' else f'{pid} recv {cases[0][1]}'


class Checkpoint:
    """What a state leaves to be made again, in parts, so that a wrong one is easily made of it."""

    def __init__(self, hub):
        self.ports = [(port['cap'], list(port['buffer']), port['closed']) for port in hub.ports]
        self.exits = sorted(hub.gone)
        self.calls = list(hub.waiting)

    def lines(self):
        made = []
        for number, (cap, values, closed) in enumerate(self.ports, 1):
            made += [f'0 make {cap}', *(f'0 send {number} {value}' for value in values), *[f'0 close {number}'] * closed]
        return made + [f'{pid} exit' for pid in self.exits] + [call_line(pid, cases) for pid, cases in self.calls]


def with_ports(change):
    """Changes each port by its values and whether it is closed."""
    def changes(checkpoint):
        checkpoint.ports = [(cap, *change(values, closed)) for cap, values, closed in checkpoint.ports]
    return changes


def drop_oldest_exit(checkpoint):
    del checkpoint.exits[:1]


def drop_oldest_call(checkpoint):
    del checkpoint.calls[:1]


def turn_calls(checkpoint):
    checkpoint.calls.reverse()


WRONG = {
    'a buffered value is left out': with_ports(lambda values, closed: (values[1:], closed)),
    'values come in another order': with_ports(lambda values, closed: (values[::-1], closed)),
    'a closed port is left open': with_ports(lambda values, closed: (values, False)),
    'an exit is left out': drop_oldest_exit,
    'an open call is left out': drop_oldest_call,
    'open calls come in another order': turn_calls,
}


class Cutter:
    def __init__(self, program):
        self.program = program
        self.unnoticed = dict(WRONG)

    def events(self, head, lines):
        """What the program tells of the journal."""
        text = ''.join(line + '\n' for line in head + lines)
        status, told, errors = said([self.program, 'replay'], text.encode())
        if status != 0:
            raise ValueError(f'status {status}, {errors.decode().strip()}')
        return told.decode().splitlines()

    def behind(self, head, first, later):
        """What the first lines tell, and what those behind them do."""
        told, all_told = self.events(head, first), self.events(head, first + later)
        if all_told[:len(told)] != told:
            raise ValueError('a journal tells something else where it goes on')
        return told, all_told[len(told):]

    def is_well(self, hub, lines, told, steps):
        """Whether each line of a checkpoint is admitted and does something, nobody stalls, and it is short."""
        few = sum(not line.endswith(' exit') for line in lines)
        return (few <= steps and few <= MOST_OF_PORTS + hub.procs and len(lines) <= few + hub.procs
                and not any(' fault ' in event or event.endswith(' stalled') for event in told))

    def try_wrong(self, head, hub, later, wanted):
        for name, change in list(self.unnoticed.items()):
            wrong = Checkpoint(hub)
            change(wrong)
            if self.behind(head, wrong.lines(), later)[1] != wanted:
                del self.unnoticed[name]

    def what_fails(self, seed, third):
        """What is wrong with the cuts of this journal, or nothing."""
        head, lines = journal_of(seed, third)
        places = places_of(seed, lines)
        hub = new_hub(head)
        chapter, chapter_hub, place = [], new_hub(head), 0
        for cut in places:
            make(hub, lines[place:cut])
            make(chapter_hub, lines[place:cut])
            chapter, place = chapter + lines[place:cut], cut
            checkpoint = Checkpoint(hub).lines()
            if Checkpoint(chapter_hub).lines() != checkpoint:
                return f'cut before line {cut + 1}: the chapter has another checkpoint'
            wanted = self.behind(head, lines[:cut], lines[cut:])[1]
            told, found = self.behind(head, checkpoint, lines[cut:])
            if found != wanted:
                return f'cut before line {cut + 1}: {first_difference(wanted, found)}'
            if not self.is_well(hub, checkpoint, told, chapter_hub.steps):
                return f'cut before line {cut + 1}: a checkpoint of {len(checkpoint)} lines that tells {told}'
            self.try_wrong(head, hub, lines[cut:], wanted)
            chapter, chapter_hub = checkpoint, new_hub(head)
            make(chapter_hub, checkpoint)
        return None


class Chainer:
    """Checks chains by the program, and by the model."""

    def __init__(self, tool, work):
        self.tool = tool
        self.work = pathlib.Path(work)
        self.broken = 0

    def what_fails(self, seed, third):
        """What is wrong with the chains of this journal's chapters, or nothing."""
        head, lines = journal_of(seed, third)
        lines = admitted(head, lines)
        chapters = dict(enumerate(chapters_of(head, lines, places_of(seed, lines))))
        for number, chapter in chapters.items():
            (self.work / str(number)).write_text(''.join(line + '\n' for line in head + chapter))
        for left_out in (None, *chapters):
            names = [number for number in chapters if number != left_out]
            wanted = verdict(head, {number: chapters[number] for number in names})
            words = [self.tool, 'chain', *map(str, names)]
            done = subprocess.run(words, cwd=self.work, capture_output=True, text=True, timeout=MINUTE)
            if (done.returncode, done.stdout) != wanted or left_out is None and wanted[0] != 0:
                return f'without chapter {left_out}: {wanted}, told as {done}'
            self.broken += wanted[0] != 0
        return None


def journal_of(seed, third):
    """The head of a random journal, and its steps."""
    lines = Journal(seed, 0, third).text().splitlines()
    return lines[:2], lines[2:]


def places_of(seed, lines):
    """Where it is cut."""
    draw = random.Random(seed)
    return sorted(draw.randint(0, len(lines)) for _ in range(draw.randint(1, MOST_CUTS)))


def admitted(head, lines):
    """Those lines that are admitted."""
    hub, kept = new_hub(head), []
    for line in lines:
        if hub.refusal(int(line.split()[0])) is None:
            kept.append(line)
        make(hub, [line])
    return kept


def checkpoint_of(head, lines):
    hub = new_hub(head)
    make(hub, lines)
    return Checkpoint(hub).lines()


def chapters_of(head, lines, places):
    """The chapters of a journal that is cut at these places."""
    begin, place = [], 0
    for cut in (*places, len(lines)):
        chapter = begin + lines[place:cut]
        yield chapter
        begin, place = checkpoint_of(head, chapter), cut


def verdict(head, chapters):
    """The status and what is printed for a chain of these chapters, by their names."""
    begin = []
    for name, chapter in chapters.items():
        for place, line in enumerate(begin):
            if chapter[place:place + 1] != [line]:
                return 3, f'{name} breaks the chain at line {place + 3}: not the checkpoint of the chapter before\n'
        begin = checkpoint_of(head, chapter)
    return 0, 'whole\n'


def first_difference(wanted, found):
    return next((f'{a} told as {b}' for a, b in zip(wanted, found) if a != b), f'{len(wanted)} events, told as {len(found)}')


def new_hub(head):
    hub = model.Hub(int(head[0].split()[2]), int(head[1].split()[1]))
    hub.steps = 0
    return hub


def make(hub, lines):
    """Makes these steps, and counts those that are admitted and no exits."""
    for line in lines:
        fields = line.split()
        pid, step = int(fields[0]), model.step(fields[1:])
        hub.steps += hub.refusal(pid) is None and step[0] != 'exit'
        hub.step(pid, *step)


def main(words):
    if not 2 <= len(words) <= 4:
        sys.exit(__doc__.strip())
    runs, first = (int(words[place]) if place < len(words) else usual for place, usual in ((2, RUNS), (3, 1)))
    cutter = Cutter(os.path.abspath(words[0]))
    count = Count()
    journals = [(seed, third) for third in (False, True) for seed in range(first, first + runs)]
    for seed, third in journals:
        wrong = cutter.what_fails(seed, third)
        count.test(f'the journal of seed {seed}{" --third" * third}', not wrong, wrong)
    with tempfile.TemporaryDirectory() as work:
        chainer = Chainer(os.path.abspath(words[1]), work)
        for seed, third in journals:
            wrong = chainer.what_fails(seed, third)
            count.test(f'the chain of seed {seed}{" --third" * third}', not wrong, wrong)
    count.test('chains without a chapter', chainer.broken, 'none was broken')
    for name in WRONG:
        count.test(f'a wrong checkpoint, {name}', name not in cutter.unnoticed, 'nobody noticed')
    return count.end()


if __name__ == '__main__':
    sys.exit(main(sys.argv[1:]))
