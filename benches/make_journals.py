#!/usr/bin/env python3
"""Four big journals to time a replay with, the same wherever they are made.

    make_journals.py FOLDER [LINES]     writes FOLDER/hand_overs, FOLDER/bursts, FOLDER/selects and FOLDER/bytes

The last is of the second edition, and the others are of the first. Each has 1,000,000 entries that are no exits and then the exit of each process, and is below 67,108,864 bytes; or it
is the first LINES lines of these.
"""
import collections
import itertools
import os
import random
import sys

STEPS = 1000000


def numbers(seed):
    """A function that draws a number below another, from `random()` alone: the same in every Python."""
    draw = random.Random(seed).random
    return lambda n: int(draw() * n)


def hand_overs():
    """Eight pairs of processes on unbuffered ports: each exchange parks one of a pair, and wakes it."""
    below = numbers(11)
    ports = 16
    yield from ['0 make 0'] * ports
    for made in range(ports, STEPS, 2):
        pair = below(8)
        port = 2 * pair + 1 + below(2)
        value = below(1 << 32) << 32 | below(1 << 32) if below(4) == 0 else made
        exchange = ['%d send %d %d' % (2 * pair, port, value), '%d recv %d' % (2 * pair + 1, port)]
        if below(2):
            exchange.reverse()
        yield from exchange


def bursts():
    """Four full-size buffers that are filled and emptied in bursts; at a full one a sender waits."""
    below = numbers(12)
    held = [0] * 4
    yield from ['0 make 1024'] * len(held)
    made = len(held)
    while made < STEPS:
        port = below(4)
        fills = held[port] < 1024 and (held[port] == 0 or below(2))
        count = min(STEPS - made, 1 + below(1024 - held[port] if fills else held[port]))
        for value in range(made, made + count):
            yield '%d send %d %d' % (below(4), port + 1, value) if fills else '%d recv %d' % (4 + below(4), port + 1)
        made += count
        held[port] += count if fills else -count
        if fills and held[port] == 1024 and made + 2 <= STEPS:
            yield from ['4 send %d %d' % (port + 1, made), '5 recv %d' % (port + 1)]
            made += 2


def selects():
    """Calls of eight cases, on 52 ports, by 48 processes.

    Processes 0 to 15 send and receive on ports 1 to 40, of capacities 0 to 8; half of these calls have a
    default, and those that have none may wait for one another. Of these ports each second one up to 32 is
    closed in the course. On ports 41 to 52, which have no buffer, a process from 16 to 31 waits for one of
    32 to 47, which has a default and sometimes comes alone. What a process asks while it waits is refused.
    """
    below = numbers(13)
    sends = [['s%d:%d' % (port, value) for value in range(100)] for port in range(53)]
    receives = ['r%d' % port for port in range(53)]

    def send(port):
        return sends[port][below(100)]

    def receive(port):
        return receives[port]

    def call(process, cases, default):
        return '%d select %d %s%s' % (process, below(100), ' '.join(cases), ' default' if default else '')

    def alike():
        cases = [(send if below(2) else receive)(1 + below(40)) for _ in range(8)]
        return [call(below(16), cases, below(2))]

    def served():
        member, first, second = below(16), below(12), below(12)
        waits, serves = (send, receive) if below(2) else (receive, send)
        calls = []
        if below(3):
            calls.append(call(16 + member, [waits(41 + (first + 5 * n) % 12) for n in range(8)], False))
        return calls + [call(32 + member, [serves(41 + (second + 7 * n) % 12) for n in range(8)], True)]

    makes = ['0 make %d' % (port % 9) for port in range(1, 41)] + ['0 make 0'] * 12
    yield from makes
    made = len(makes)
    to_close = list(range(2, 33, 2))
    spacing = STEPS // (len(to_close) + 2)
    while made < STEPS:
        if to_close and made >= spacing * (17 - len(to_close)):
            lines = ['47 close %d' % to_close.pop(0)]
        elif below(4):
            lines = alike()
        else:
            lines = served() if made + 2 <= STEPS else []
        yield from lines
        made += len(lines)


def byte_values():
    """Eight processes in a row, of which each but the last sends on the port of its number and one more what it got.

    Three of four values are 0 to 32 bytes, the others are numbers. Of the ports 1 to 7 that lie between them four have
    no buffer, and the others hold 4, 16 and 64 values. On ports 8 to 19, which have no buffer, now and then a process
    waits with twelve cases and another one meets it with twelve. In every fifty entries one waiting call is cancelled,
    and mostly one call of twelve cases takes its default.
    """
    below = numbers(14)
    capacities = [0, 4, 0, 16, 0, 64, 0]
    buffers = [collections.deque() for _ in capacities]
    hands = [None] * 8

    def value():
        if below(4) == 0:
            return '%d' % (below(1 << 32) << 32 | below(1 << 32) if below(4) == 0 else below(1000))
        return '#' + ''.join('%08x' % below(1 << 32) for _ in range(8))[:2 * below(33)]

    def select(sends, ending=''):
        """A call on each of the ports 8 to 19, of which the first so many cases send."""
        first, spacing = below(12), (1, 5, 7, 11)[below(4)]
        ports = [8 + (first + spacing * n) % 12 for n in range(12)]
        cases = ['s%d:%s' % (port, value()) if n < sends else 'r%d' % port for n, port in enumerate(ports)]
        return 'select %d %s%s' % (below(1000), ' '.join(cases), ending)

    def waiting():
        kind = below(4)
        if kind == 0:
            return select(2)
        port = 8 + below(12)
        return 'send %d %s' % (port, value()) if kind == 1 else 'recv %d' % port

    def moved(giver):
        """What brings a value from this process to the next, or to or from the buffer between them, if anything can."""
        taker, buffer, capacity = giver + 1, buffers[giver], capacities[giver]
        if giver == 0 and hands[0] is None:
            hands[0] = value()
        if taker == 7:
            hands[7] = None
        send, receive = '%d send %d %s' % (giver, giver + 1, hands[giver]), '%d recv %d' % (taker, giver + 1)
        has, takes = hands[giver] is not None, hands[taker] is None
        if capacity == 0 and has and takes:
            hands[taker], hands[giver] = hands[giver], None
            return [send, receive] if below(2) else [receive, send]
        if capacity > 0 and buffer and takes and below(2):
            hands[taker] = buffer.popleft()
            return [receive]
        if has and len(buffer) < capacity:
            buffer.append(hands[giver])
            hands[giver] = None
            return [send]
        return []

    makes = ['0 make %d' % capacity for capacity in capacities + [0] * 12]
    yield from makes
    made = len(makes)
    while made < STEPS:
        one = below(8)
        other = (one + 1 + below(7)) % 8
        if made % 50 == 47 or made + 2 > STEPS:
            lines = ['%d %s' % (one, select(2, ' default'))]
        elif made % 50 == 48:
            lines = ['%d %s' % (one, waiting()), '%d cancel %d' % (other, one)]
        elif below(40) == 0:
            # of twelve ports the first receives on ten and the second sends on three or more, so they meet
            lines = ['%d %s' % (one, select(2)), '%d %s' % (other, select(3 + below(8)))]
        else:
            lines = moved(below(7))
        yield from lines
        made += len(lines)


def lines_of(edition, processes, entries):
    yield 'chanhub journal %d' % edition
    yield 'procs %d' % processes
    yield from entries()
    for process in range(processes):
        yield '%d exit' % process


JOURNALS = {
    'hand_overs': (1, 16, hand_overs),
    'bursts': (1, 8, bursts),
    'selects': (1, 48, selects),
    'bytes': (2, 8, byte_values),
}


def main(words):
    if len(words) not in (1, 2):
        sys.exit(__doc__.strip())
    count = int(words[1]) if len(words) == 2 else None
    os.makedirs(words[0], exist_ok=True)
    for name, journal in JOURNALS.items():
        lines = itertools.islice(lines_of(*journal), count)
        with open(os.path.join(words[0], name), 'w') as file:
            size = sum(file.write(line + '\n') for line in lines)
        assert size < 67108864
        print('%s: %d bytes' % (name, size))


if __name__ == '__main__':
    main(sys.argv[1:])
