#!/usr/bin/env python3
"""Journals in which much waits, or has waited: what a replay takes for a line must not grow with it.

    make_growth.py FOLDER     writes FOLDER/NAME for each NAME below, the same wherever they are made

    open_calls      60 processes wait with selects of 16 cases on 64 ports; each send ends one of these calls, and it is made anew
    dead_entries    62 processes wait for ever on 15 ports; a select of 16 cases that is served elsewhere leaves an entry on each
    stalls          64 processes wait with selects of 16 cases, and all are stalled, again and again
    one_busy        63 processes wait for ever, and one sends and receives
    worst_close     a port has some 2,000 dead entries and 61 receivers when it is closed; so 62 ports, one after the other
    faults          steps that are refused or faulty, and nothing else
    idle_workers    60 processes wait for ever, and then two wait in turn, each until a value comes
    renewed_workers 62 processes wait for one port, and who gets a value, the one that waited longest, waits anew
    cancels         63 processes wait for one port each; the calls of random ones are cancelled and made anew
    many_cancels    the same with selects of 16 cases
    lives           a process exits and is started again, a port is closed and opened again, by 62 processes in turn

All have 64 processes but for `faults`, which has 4. Each has some 40,000 lines, `worst_close` 19,657. `lives` is of the third edition,
those with cancels or with selects of more than 8 cases are of the second, the others of the first.
"""
import collections
import itertools
import os
import sys

from make_journals import numbers

LINES = 40000
PROCESSES = 64


def receives(ports):
    return ' '.join('r%d' % port for port in ports)


def open_calls():
    """Who is woken waits again at once. The waiting calls of each port are kept here, oldest first, so that each send meets one."""
    below = numbers(21)
    ports, waiting, cases = 64, 60, 16
    yield from ['63 make 0'] * ports
    queues = {port: collections.deque() for port in range(1, ports + 1)}
    newest = {}
    tickets = itertools.count()

    def wait(process):
        newest[process] = next(tickets)
        asked = [1 + below(ports) for _ in range(cases)]
        for port in asked:
            queues[port].append((newest[process], process))
        return '%d select %d %s' % (process, below(1000), receives(asked))

    yield from map(wait, range(waiting))
    while True:
        port = 1 + below(ports)
        queue = queues[port]
        while queue and newest[queue[0][1]] != queue[0][0]:
            queue.popleft()
        if queue:
            _, woken = queue.popleft()
            newest[woken] = None
            yield '%d send %d %d' % (waiting + below(PROCESSES - waiting), port, below(1000000))
            yield wait(woken)


def dead_entries():
    """The calls that wait for ever stand in front of the entries that die."""
    others = range(2, 17)
    yield from ['63 make 0'] * 16
    for process in range(1, 63):
        yield '%d select 1 %s' % (process, receives(others))
    for value in itertools.count():
        yield '0 select 1 %s' % receives([1, *others])
        yield '63 send 1 %d' % value


def stalls():
    below = numbers(22)
    yield from ['0 make 0'] * 64
    for process in itertools.cycle(range(PROCESSES)):
        yield '%d select %d %s' % (process, below(10), receives(1 + below(64) for _ in range(16)))


def one_busy():
    yield from ['63 make 64', '63 make 0']
    yield from ('%d recv 2' % process for process in range(63))
    for value in itertools.count():
        yield '63 send 1 %d' % value
        yield '63 recv 1'


def worst_close():
    """A select's sends die together, since it is served by port 1; then come the receivers, which meet no sender."""
    ports = range(2, 64)
    yield from ['63 make 0'] * 63
    for port in ports:
        for _ in range(127):
            yield '62 select 1 s1:1 %s' % ' '.join('s%d:%d' % (port, value) for value in range(15))
            yield '63 recv 1'
        for process in range(61):
            yield '%d recv %d' % (process, port)
        yield '63 close %d' % port


def faults():
    """No process, busy, no port, too large a capacity, a close of port 0, no port in a select."""
    below = numbers(23)
    yield from ['0 make 0', '1 recv 1']
    while True:
        yield (
            '%d send 1 1' % (4 + below(200)),
            '1 recv 1',
            '%d recv %d' % (2 * below(2), 2 + below(60000)),
            '0 make %d' % (1025 + below(1000000)),
            '2 close 0',
            '3 select 7 %s' % receives([1] * 7 + [9]),
        )[below(6)]


def idle_workers():
    """Who waits is newer than all that wait for ever, and ends before the other that came with it."""
    yield from ['63 make 0', '63 make 0', '63 make 0']
    yield from ('%d recv 3' % process for process in range(60))
    yield '60 recv 1'
    for value in itertools.count():
        for own, other in ((60, 61), (61, 60)):
            yield '%d recv %d' % (other, other - 59)
            yield '63 send %d %d' % (own - 59, value)


def renewed_workers():
    yield '63 make 0'
    yield from ('%d recv 1' % process for process in range(62))
    for value in itertools.count():
        yield '63 send 1 %d' % value
        yield '%d recv 1' % (value % 62)


def cancelled(seed, cases):
    """One process's calls each time: cancelled, and made anew."""
    below = numbers(seed)
    ports = 62 if cases > 1 else 63
    waits = '%d recv %d' if cases == 1 else '%d select 1 %s'

    def wait(process):
        asked = process + 1 if cases == 1 else receives(1 + below(ports) for _ in range(cases))
        return waits % (process, asked)

    yield from ['63 make 0'] * ports
    yield from map(wait, range(63))
    while True:
        process = below(63)
        yield '63 cancel %d' % process
        yield wait(process)


def lives():
    """Process 63 makes all that is said of others."""
    yield from ['63 make 4'] * 62
    for number in itertools.cycle(range(62)):
        port = number + 1
        yield '%d send %d 7' % (number, port)
        yield '63 recv %d' % port
        yield '%d close %d' % (number, port)
        yield '%d exit' % number
        yield '63 reopen %d 4' % port
        yield '63 start %d' % number


# of each the edition, how many processes it has, and its entries
JOURNALS = {
    'open_calls': (2, PROCESSES, open_calls),
    'dead_entries': (2, PROCESSES, dead_entries),
    'stalls': (2, PROCESSES, stalls),
    'one_busy': (1, PROCESSES, one_busy),
    'worst_close': (2, PROCESSES, worst_close),
    'faults': (1, 4, faults),
    'idle_workers': (1, PROCESSES, idle_workers),
    'renewed_workers': (1, PROCESSES, renewed_workers),
    'cancels': (2, PROCESSES, lambda: cancelled(24, 1)),
    'many_cancels': (2, PROCESSES, lambda: cancelled(25, 16)),
    'lives': (3, PROCESSES, lives),
}


def lines_of(edition, processes, entries):
    yield 'chanhub journal %d' % edition
    yield 'procs %d' % processes
    yield from itertools.islice(entries(), LINES)


def main(words):
    if len(words) != 1:
        sys.exit(__doc__.strip())
    os.makedirs(words[0], exist_ok=True)
    for name, journal in JOURNALS.items():
        with open(os.path.join(words[0], name), 'w') as file:
            file.writelines(line + '\n' for line in lines_of(*journal))


if __name__ == '__main__':
    main(sys.argv[1:])
