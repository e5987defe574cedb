#!/usr/bin/env python3
"""rigs.py PROGRAM [COUNT]: random threads on hubs of both editions, of which every third never ends. What each was told is compared
with what `PROGRAM replay` of the journal, or of the chapters, tells its process. Prints the seed of each rig that differs, and how
many were the same.
"""
import os
import random
import subprocess
import sys
import tempfile
import threading

sys.path.insert(0, os.path.join(os.path.dirname(os.path.abspath(__file__)), '..', 'python'))
from chanhub import Cancelled, Closed, Drained, Ended, Fault, Hub, Recv, Send, Stalled  # noqa: E402
from chapters import Chapters  # noqa: E402

PROCS, TURNS = 6, 120
NOT_IN_JOURNAL = (1, 2, 3, 10, 11, 13)
WORDS = {Closed: 'case %d closed', Drained: 'case %d drained', Stalled: 'stalled', Cancelled: 'cancelled'}


def spelled(value):
    return '#' + value.hex() if isinstance(value, bytes) else str(value)


def answer(call):
    """What a call came to, as its event says it."""
    try:
        return call()
    except Fault as fault:
        return None if fault.number in NOT_IN_JOURNAL else 'fault %d' % fault.number
    except Ended as ended:
        words = WORDS[type(ended)]
        return words % ended.index if '%' in words else words


def fired(told):
    if told is None:
        return 'default'
    return 'case %d sent' % told.index if told.value is None else 'case %d got %s' % (told.index, spelled(told.value))


def done(nothing):
    return 'done'


class Worker:
    def __init__(self, hub, edition, pid, seed):
        self.seat, self.edition, self.random, self.told = hub.seat(pid), edition, random.Random(seed), []

    def value(self):
        if self.edition == 2 and self.random.random() < 0.5:
            return bytes(self.random.choices(range(256), k=self.random.randrange(33)))
        return self.random.getrandbits(64)

    def case(self):
        port = self.random.randrange(4)
        return Send(port, self.value()) if self.random.random() < 0.5 else Recv(port)

    def select(self):
        cases = [self.case() for _ in range(self.random.randrange(17))]
        return fired(self.seat.select(cases, self.random.random() < 0.4, self.random.getrandbits(64)))

    def send(self, port):
        self.seat.send(port, self.value())
        return 'case 0 sent'

    def turn(self):
        port, dice = self.random.randrange(1, 5), self.random.random()
        if dice < 0.35:
            return self.send(port)
        if dice < 0.7:
            return 'case 0 got ' + spelled(self.seat.recv(port))
        if dice < 0.9:
            return self.select()
        if dice < 0.93:
            return 'made %d' % self.seat.make(self.random.choice([0, 1, 5, 2000]))
        if dice < 0.99:
            return done(self.seat.cancel(self.random.randrange(8)))
        return done(self.seat.close(port))

    def run(self):
        for _ in range(TURNS):
            self.told.append(answer(self.turn))
        self.seat.exit()
        self.told.append('done')


def ran(hub, edition, seed):
    """The workers of a hub, after they have run."""
    workers = [Worker(hub, edition, pid, seed * 100 + pid) for pid in range(PROCS)]
    workers[0].told += ['made %d' % workers[0].seat.make(cap) for cap in (0, 1, 5)]
    threads = [threading.Thread(target=worker.run) for worker in workers]
    for thread in threads:
        thread.start()
    for thread in threads:
        thread.join()
    return workers


def replay(program, journal):
    return subprocess.run([program, 'replay'], input=journal, stdout=subprocess.PIPE, check=True).stdout.decode().splitlines()


def run(program, edition, seed):
    """The workers of a hub, and what the replay of its journal tells them."""
    if seed % 3:
        hub = Hub(PROCS, edition, 1_000_000 if seed % 5 else 300)
        workers = ran(hub, edition, seed)
        return workers, replay(program, hub.journal())
    with tempfile.TemporaryDirectory() as folder:
        name = os.path.join(folder, 'chapter')
        with Hub(PROCS, edition, keep=1 + seed % 100, chapters=name) as hub:
            workers = ran(hub, edition, seed)
        chapters = Chapters(program, name)
        chapters.verify()
        return workers, chapters.events


def differing(program, seed):
    """The processes that were told another thing than the replay tells them."""
    workers, replayed = run(program, 1 + seed % 2, seed)
    events = [line.split(' ', 1) for line in replayed]
    return [pid for pid, worker in enumerate(workers)
            if [what for who, what in events if who == str(pid) and what != 'parked'] != [t for t in worker.told if t is not None]]


def main():
    program, count = sys.argv[1], int(sys.argv[2]) if len(sys.argv) > 2 else 20
    wrong = [seed for seed in range(count) if differing(program, seed)]
    for seed in wrong:
        print('another: rig', seed)
    print(count - len(wrong), 'the same')
    sys.exit(1 if wrong else 0)


if __name__ == '__main__':
    main()
