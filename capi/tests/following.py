#!/usr/bin/env python3
"""following.py [COUNT]: random threads on hubs of both editions, whose journals are then followed. Each thread must be told the same
again, and the journal must be the same. Then one process asks for something else, and all must be told so, with the number of the step.
Prints the seed of each rig that differs, and how many were the same.
"""
import sys
import threading

import rigs
from chanhub import Diverged, Hub


class Odd(rigs.Worker):
    """A worker that makes a further port at its turn `odd`, if it has one."""

    def __init__(self, hub, edition, pid, seed, odd=None):
        super().__init__(hub, edition, pid, seed)
        self.odd, self.diverged = odd, None

    def run(self):
        try:
            for turn in range(rigs.TURNS):
                if turn == self.odd:
                    self.seat.make(77)
                self.told.append(rigs.answer(self.turn))
            self.seat.exit()
            self.told.append('done')
        except Diverged as diverged:
            self.diverged = diverged.step


def asked(call):
    """What a call came to, as its event says it; a divergence ends the thread."""
    try:
        return call()
    except Diverged:
        raise
    except rigs.Fault as fault:
        return None if fault.number in rigs.NOT_IN_JOURNAL else 'fault %d' % fault.number
    except rigs.Ended as ended:
        words = rigs.WORDS[type(ended)]
        return words % ended.index if '%' in words else words


rigs.answer = asked


def ran(hub, edition, seed, other=None, odd=None):
    """The workers of a hub, after they have run."""
    workers = [Odd(hub, edition, pid, seed * 100 + pid, odd if pid == other else None) for pid in range(rigs.PROCS)]
    workers[0].told += ['made %d' % workers[0].seat.make(cap) for cap in (0, 1, 5)]
    threads = [threading.Thread(target=worker.run) for worker in workers]
    for thread in threads:
        thread.start()
    for thread in threads:
        thread.join()
    return workers


def own_steps(journal, pid):
    """The numbers of the steps of a process."""
    return [number for number, line in enumerate(journal.decode().splitlines()[2:], 1) if line.split()[0] == str(pid)]


def journaled(told):
    """How many of these answers belong to an entry."""
    return sum(each is not None for each in told)


def is_same(edition, seed):
    """Whether a run is the same when its journal is followed."""
    recorded = Hub(rigs.PROCS, edition)
    first = ran(recorded, edition, seed)
    followed = Hub.follow(recorded.journal())
    second = ran(followed, edition, seed)
    return followed.journal() == recorded.journal() and [it.told for it in first] == [it.told for it in second]


def is_told(edition, seed):
    """Whether a run that diverges from its journal is told where."""
    recorded = Hub(rigs.PROCS, edition)
    first = ran(recorded, edition, seed)
    followed = Hub.follow(recorded.journal())
    other, odd = seed % rigs.PROCS, seed * 7 % rigs.TURNS
    second = ran(followed, edition, seed, other, odd)
    step = own_steps(recorded.journal(), other)[journaled(second[other].told)]
    return (recorded.journal().startswith(followed.journal()) and len(second[other].told) == odd + (0 if other else 3)
            and all(it.told == was.told if it.diverged is None else (it.diverged, it.told) == (step, was.told[:len(it.told)])
                    for was, it in zip(first, second)))


def main():
    count = int(sys.argv[1]) if len(sys.argv) > 1 else 20
    wrong = [seed for seed in range(count) if not (is_same if seed % 4 else is_told)(1 + seed % 2, seed)]
    for seed in wrong:
        print('another: rig', seed)
    print(count - len(wrong), 'the same')
    sys.exit(1 if wrong else 0)


if __name__ == '__main__':
    main()
