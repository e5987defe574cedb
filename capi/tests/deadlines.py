#!/usr/bin/env python3
"""deadlines.py FOLDER PROGRAM [TOOL]: whether the threads of deadlines.c were told what a replay tells, and the clock made its steps.

FOLDER/told has what each process was told, in order, each line behind its kind: t for a call with a deadline, p for any other. The
journal is FOLDER/journal, or the history of the chapters FOLDER/journal.0, .1, ... PROGRAM is the built chanhub. If the built
chanhub_tool (TOOL) is named, the chapters have to be whole to it as well.

A call with a deadline begins with a select with a default, where the clock waits or the deadline has passed. If that has to
wait and the deadline has not passed, two steps follow: a cancel of the clock, and a send or a receive. Where the clock does not
wait and the deadline has not passed, the call is that send or receive alone. It is told 'timed out' if, and only if, the clock
cancels it, or it was that select and took the default. While such a call waits the clock does not. Once none does, it waits: in
the next step, if there is one journal.
"""
import os
import subprocess
import sys

sys.dont_write_bytecode = True
from chapters import Chapters, printed, read_lines  # noqa: E402


class Entry:
    """An entry of a journal, with the answer of its process, and how the call ended if it waited."""

    def __init__(self, line):
        pid, self.step = line.split(' ', 1)
        self.pid = int(pid)
        self.words = self.step.split()
        self.answer = self.end = self.ended_by = None


def entries_of(lines, events):
    """The entries of a journal, each with its events. Gives them with those whose calls each entry ended."""
    entries, waiting, place = [], {}, 0
    for line in lines:
        entry, ended = Entry(line), []
        pid, entry.answer = events[place].split(' ', 1)
        assert int(pid) == entry.pid, f'{events[place]} answers {line}'
        place += 1
        if entry.answer == 'parked':
            waiting[entry.pid] = entry
        while place < len(events) and int(events[place].split(' ', 1)[0]) in waiting:
            pid, end = events[place].split(' ', 1)
            call = waiting.pop(int(pid))
            call.end, call.ended_by = end, entry
            ended.append(call)
            place += 1
        entries.append((entry, ended))
    assert place == len(events), f'{len(events) - place} events are left'
    return entries


def is_try(entry):
    """Whether this is how a call with a deadline begins: a select of word 0 with a default."""
    return entry.words[:2] == ['select', '0'] and entry.words[-1] == 'default'


def is_wait(entry):
    """Whether this is how it goes on: a send or a receive."""
    return entry.words[0] in ('send', 'recv')


def end_of(entry, clock):
    """How the send or the receive of a call with a deadline ended."""
    if entry.answer != 'parked':
        return entry.answer
    return 'timed out' if entry.end == 'cancelled' and entry.ended_by.pid == clock else entry.end


def told_by(own, place, clock, is_one):
    """What the entry at this place of a process tells it of a call, in each way that it can be meant: a line as in FOLDER/told,
    without the process, or None if the call goes on."""
    entry, wakes = own[place], f'cancel {clock}'
    after = own[place + 1] if place + 1 < len(own) else None
    if entry.step == wakes:
        assert entry.answer == 'done' and is_try(own[place - 1]) and is_wait(after), f'{entry.pid} {entry.step}'
        return [None]
    if is_wait(entry):
        return [('t', end_of(entry, clock))]
    if not is_try(entry):
        return [('p', entry.answer)]
    if entry.answer != 'default':
        return [('t', entry.answer)]
    if after and after.step == wakes:
        return [None]
    # While a chapter is handed out, another process may wake the clock.
    return [('t', 'timed out')] + ([None] if after and is_wait(after) and not is_one else [])


def first_unlike(own, clock, is_one, answers):
    """How many of the answers of a process its entries tell, or None if they tell all of them."""
    told = {0}
    for place in range(len(own)):
        ways = told_by(own, place, clock, is_one)
        after = {at + (way is not None) for at in told for way in ways if way is None or answers[at:at + 1] == [way]}
        if not after:
            return max(told)
        told = after
    return None if len(answers) in told else max(told)


def faults_of_clock(entries, clock, at_once):
    """Where the clock waits and must not, or does not wait and must."""
    timed, clock_waits = set(), False
    for number, (entry, ended) in enumerate(entries):
        if entry.pid != clock and is_wait(entry) and entry.answer == 'parked':
            timed.add(entry.pid)
        if entry.pid == clock and entry.answer == 'parked':
            clock_waits = True
        for call in ended:
            timed.discard(call.pid)
            clock_waits = clock_waits and call.pid != clock
        if clock_waits and timed:
            yield f'entry {number}: the clock waits, as does {timed}'
        if at_once and not clock_waits and not timed and number + 1 < len(entries):
            following = entries[number + 1][0]
            if following.pid != clock and not (entry.step == f'cancel {clock}' and following.pid == entry.pid):
                yield f'entry {number + 1}: the clock is to wait'
    if entries and entries[-1][0].step != 'exit' or entries[-1][0].pid != clock:
        yield 'the clock has not exited at the end'


def main(words):
    folder, program = words[:2]
    journal = os.path.join(folder, 'journal')
    is_one = os.path.exists(journal)
    if is_one:
        lines = read_lines(journal)
        head, lines = lines[:2], lines[2:]
        with open(journal, 'rb') as file:
            events = subprocess.run([program, 'replay'], stdin=file, stdout=subprocess.PIPE, check=True).stdout.decode().splitlines()
    else:
        chapters = Chapters(program, journal)
        chapters.verify()
        head, lines, events = chapters.head, chapters.history, chapters.events
        if len(words) > 2:
            printed([words[2], 'chain', *chapters.paths])
    clock = int(head[1].split()[1]) - 1
    entries = entries_of(lines, events)
    own = {}
    for entry, _ in entries:
        own.setdefault(entry.pid, []).append(entry)
    told, wrong = {}, list(faults_of_clock(entries, clock, is_one))
    for line in read_lines(os.path.join(folder, 'told')):
        kind, pid, what = line.split(' ', 2)
        told.setdefault(int(pid), []).append((kind, what))
    for pid, answers in told.items():
        unlike = first_unlike(own.get(pid, []), clock, is_one, answers)
        if unlike is not None:
            wrong.append(f'process {pid}: its answer {unlike}, {answers[unlike:unlike + 1]}')
    kinds = [what for answers in told.values() for kind, what in answers if kind == 't']
    waits = sum(1 for entry, _ in entries if entry.pid != clock and is_wait(entry) and entry.answer == 'parked')
    print(f'{len(kinds)} calls with deadlines, of which {waits} waited and {kinds.count("timed out")} timed out; {len(wrong)} wrong')
    print(*wrong[:5], sep='\n', end='\n' if wrong else '')
    return 1 if wrong or not waits or set(told) != set(own) - {clock} else 0


if __name__ == '__main__':
    sys.exit(main(sys.argv[1:]))
