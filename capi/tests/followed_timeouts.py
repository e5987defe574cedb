#!/usr/bin/env python3
"""followed_timeouts.py [COUNT]: random threads on hubs whose calls take timeouts, some of which pass. Their journals are
followed, with other timeouts. Each thread must be told the same again, and the journal must be the same. In every fourth rig one
process also asks for something else. Then all must be told so, with the number of the step; or it alone, and then all goes on,
with timeouts that pass. Prints the seed of each rig that differs, and how many were the same.
"""
import sys
import threading

import following
import rigs
from chanhub import Diverged, Hub, Recv, Send, TimedOut

rigs.WORDS[TimedOut] = 'timed out'

CLOCK = rigs.PROCS
DRAWN, LONG = None, 1000


class Timed(rigs.Worker):
    """A worker whose calls mostly have timeouts: drawn ones, or all this one. It makes a further port at its turn `odd`."""

    def __init__(self, hub, pid, seed, timeout, odd=None):
        super().__init__(hub, 2, pid, seed)
        self.timeout, self.odd, self.diverged, self.goes_on = timeout, odd, None, False

    def limit(self):
        dice, drawn = self.random.random(), self.random.random() / 2000
        if dice < 0.2:
            return None
        return (0 if dice < 0.3 else drawn) if self.timeout is DRAWN else self.timeout

    def turn(self):
        port, dice, limit = self.random.randrange(1, 5), self.random.random(), self.limit()
        if dice < 0.35:
            self.seat.send(port, self.value(), limit)
            return 'case 0 sent'
        if dice < 0.7:
            return 'case 0 got ' + rigs.spelled(self.seat.recv(port, limit))
        if dice < 0.9:
            cases = [self.case() for _ in range(self.random.randrange(17))]
            return rigs.fired(self.seat.select(cases, self.random.random() < 0.2, self.random.getrandbits(64), limit))
        if dice < 0.93:
            return 'made %d' % self.seat.make(self.random.choice([0, 1, 5, 2000]))
        if dice < 0.99:
            return rigs.done(self.seat.cancel(self.random.randrange(8)))
        return rigs.done(self.seat.close(port))

    def ask_for_more(self):
        """The further call. If the hub goes on, so does this process."""
        try:
            self.seat.make(77)
        except Diverged as diverged:
            if not self.goes_on:
                raise
            self.diverged = diverged.step

    def run(self):
        try:
            for turn in range(rigs.TURNS):
                if turn == self.odd:
                    self.ask_for_more()
                self.told.append(rigs.answer(self.turn))
            self.seat.exit()
            self.told.append('done')
        except Diverged as diverged:
            self.diverged = diverged.step


def ran(hub, seed, timeout, other=None, odd=None, goes_on=False):
    """The workers of a hub, after they have run."""
    workers = [Timed(hub, pid, seed * 100 + pid, timeout, odd if pid == other else None) for pid in range(rigs.PROCS)]
    workers[0].told += ['made %d' % workers[0].seat.make(cap) for cap in (0, 1, 5)]
    for worker in workers:
        worker.goes_on = goes_on
    threads = [threading.Thread(target=worker.run) for worker in workers]
    for thread in threads:
        thread.start()
    for thread in threads:
        thread.join()
    return workers


def answers(workers):
    return [worker.told for worker in workers]


def is_same(journal, workers, seed, timeout):
    """Whether a run is the same when its journal is followed."""
    hub = Hub.follow(journal)
    return answers(ran(hub, seed, timeout)) == answers(workers) and hub.journal() == journal


def steps_of_calls(journal, pid):
    """The numbers of the steps with which the calls of a process begin: not those by which it wakes the clock, and then waits."""
    steps, wakes = [], False
    for number, line in enumerate(journal.decode().splitlines()[2:], 1):
        if line.split()[0] == str(pid):
            has_woken, wakes = wakes, line == f'{pid} cancel {CLOCK}'
            if not wakes and not has_woken:
                steps.append(number)
    return steps


def is_told(journal, workers, seed):
    """Whether all are told that a run diverges from its journal, and where."""
    hub = Hub.follow(journal)
    other, odd = seed % rigs.PROCS, seed * 7 % rigs.TURNS
    again = ran(hub, seed, LONG, other, odd)
    step = steps_of_calls(journal, other)[following.journaled(again[other].told)]
    return (journal.startswith(hub.journal()) and len(again[other].told) == odd + (0 if other else 3)
            and all(it.told == was.told if it.diverged is None else (it.diverged, it.told) == (step, was.told[:len(it.told)])
                    for was, it in zip(workers, again)))


def goes_on(journal, workers, seed):
    """Whether one is told that a run diverges from its journal, and where, and the run that goes on then can be followed too."""
    hub = Hub.follow(journal, goes_on=True)
    other, odd = seed % rigs.PROCS, seed * 7 % rigs.TURNS
    again = ran(hub, seed, DRAWN, other, odd, goes_on=True)
    before = odd + (0 if other else 3)
    step = steps_of_calls(journal, other)[following.journaled(again[other].told[:before])]
    return ([it.diverged for it in again] == [step if pid == other else None for pid in range(rigs.PROCS)]
            and again[other].told[:before] == workers[other].told[:before]
            and is_same(hub.journal(), again, seed, LONG))


def is_right(seed):
    """Whether the rig of this seed is the same, and how many calls timed out in it, without a wait and after one."""
    hub = Hub(rigs.PROCS, timeouts=True)
    workers = ran(hub, seed, DRAWN)
    journal = hub.journal()
    timed_out = sum(told.count('timed out') for told in answers(workers))
    waited = journal.decode().count(f'\n{CLOCK} cancel ')
    right = is_same(journal, workers, seed, (DRAWN, 0, LONG)[seed % 3])
    if seed % 4 == 0:
        right = right and (is_told if seed % 8 else goes_on)(journal, workers, seed)
    return right, timed_out - waited, waited


def main():
    count = int(sys.argv[1]) if len(sys.argv) > 1 else 20
    came = [is_right(seed) for seed in range(count)]
    wrong = [seed for seed, (right, _, _) in enumerate(came) if not right]
    for seed in wrong:
        print('another: rig', seed)
    at_once, waited = (sum(it[place] for it in came) for place in (1, 2))
    print(f'{count - len(wrong)} the same; {at_once} calls timed out at once, and {waited} after a wait')
    sys.exit(1 if wrong or at_once < count or waited < count else 0)


if __name__ == '__main__':
    main()
