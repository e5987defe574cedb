#!/usr/bin/env python3
"""Proves and builds programs or static libraries, with the libraries that they stand on.

    build.py CRATE..

What is current, as `current.py` says, is left as it is. The rest is proved from nothing: each crate as soon as those below it are
built, as many side by side as there are processors and memory. The crate with the longest chain behind it has the processors to
itself, and the others take what it leaves idle. A library keeps its statements alone, and no check keeps anything for the next
one, which is quicker than `rt lib` and `rt run`; the price is that after an edit a crate is proved whole, with all crates above
it. Prints a line for each crate that is built, with how many are left and how long they may take, all that was said of one that
is not, and for which other build it waits; status 0 where all are built. Ctrl-C or a kill ends the checks too; what is built by
then stays, and the next build goes on from there.
"""
import fcntl
import math
import os
import re
import shutil
import subprocess
import sys
import tempfile
import time
from concurrent.futures import FIRST_COMPLETED, ThreadPoolExecutor, wait

sys.dont_write_bytecode = True
import ending
from crates import ROOT, below, folder, is_program, kit, read_crates, rlib, words_of
from current import note, output, sources, stale

# how many lines of code take as long as all else that a check does, roughly
REST = 600
# what each process of a check may take of the memory
BYTES = 2_000_000_000


def length(crate):
    """How long a crate takes, in lines of code."""
    lines = 0
    for path in sources(crate):
        if path.endswith('.rt'):
            with open(path, 'rb') as file:
                lines += sum(1 for _ in file)
    return REST + lines


def chains(lengths, crates):
    """By crate, how long it and what stands on it take, one after the other."""
    found = {}

    def chain(crate):
        if crate not in found:
            found[crate] = lengths[crate] + max((chain(it) for it in lengths if crate in crates[it]), default=0)
        return found[crate]

    return {it: chain(it) for it in lengths}


class Clock:
    """Tells how long a build may take, by what its crates took that are built."""

    def __init__(self, lengths, behind):
        self.lengths = lengths
        self.behind = behind
        self.began = time.monotonic()
        self.begun = {}
        self.took = {}

    def begin(self, crate):
        self.begun[crate] = time.monotonic()

    def end(self, crate):
        """What the crate took, and what is left."""
        self.took[crate] = time.monotonic() - self.begun[crate]
        return f'{self.took[crate]:.0f} s; {self.left()}'

    def left(self):
        """How many crates are left, and how many minutes: by the longest chain of them, or by all of them, whichever takes
        longer."""
        now = time.monotonic()
        waiting = self.lengths.keys() - self.took.keys()
        if not waiting:
            return 'none left'
        done = sum(self.lengths[it] for it in self.took)
        rate = sum(self.took.values()) / done
        chain = max(rate * self.behind[it] - (now - self.begun.get(it, now)) for it in waiting)
        rest = (now - self.began) * sum(self.lengths[it] for it in waiting) / done
        return f'{len(waiting)} left, some {math.ceil(max(chain, rest) / 60)} min'


def processes():
    """How many processes of checks there is memory for."""
    with open('/proc/meminfo') as file:
        available = 1024 * int(re.search(r'MemAvailable: *(\d+)', file.read())[1])
    return max(1, available // BYTES)


def call(words, crate, log, room):
    """Whether a command, which has this room for what it keeps for a while, does well."""
    how = {'cwd': folder(ROOT, crate), 'stdin': subprocess.DEVNULL, 'stdout': log, 'stderr': subprocess.STDOUT}
    return ending.run(words, env={**os.environ, 'TMPDIR': room}, **how).returncode == 0


def link(crate, made, log, room):
    at = kit()
    words = ['--target', 'x86_64-unknown-linux-gnu', '--toolchain', f'{at}/toolchain', '-o', made, f'{made}.o']
    return call([f'{at}/bin/rattle-link', *words, f'{at}/c/libos_c.a', f'{at}/c/liblibc_c.a'], crate, log, room)


def remove(path):
    if os.path.isdir(path):
        shutil.rmtree(path)
    elif os.path.exists(path):
        os.remove(path)


def make(crate, made, jobs, niceness, log, room):
    """Whether the crate is proved and built, there."""
    at = ['--statements', '-o', made] if output(crate) == rlib(crate) else ['--toolchain', f'{kit()}/toolchain', '-o', f'{made}.o' if is_program(crate) else made]
    words = ['nice', '-n', str(niceness), *words_of(crate, 'build'), '--jobs', str(jobs), *at]
    return call(words, crate, log, room) and (not is_program(crate) or link(crate, made, log, room))


def put_in_place(crate, made, began):
    """Puts what was built where it belongs, so that nobody meets half of it."""
    place = output(crate)
    os.makedirs(os.path.dirname(place), exist_ok=True)
    # An edit that came meanwhile is newer.
    os.utime(made, ns=(began, began))
    if os.path.isdir(made):
        # Else `rt` would take it for the library that it built before.
        remove(os.path.join(os.path.dirname(place), 'stamp'))
        # A folder takes the place of none.
        remove(place)
    os.replace(made, place)
    note(crate)


def build(crate, jobs, niceness, began):
    """Whether the crate is proved and built, and what was said of it."""
    # Beside its place, so that it can be moved there whole; what a killed build left goes.
    room = os.path.join(folder(ROOT, crate), 'out', 'building')
    remove(room)
    os.makedirs(room)
    try:
        made = os.path.join(room, os.path.basename(output(crate)))
        with tempfile.TemporaryFile('w+', errors='replace', dir=room) as log:
            well = make(crate, made, jobs, niceness, log, room)
            log.seek(0)
            said = log.read()
        if well:
            put_in_place(crate, made, began)
    finally:
        shutil.rmtree(room, ignore_errors=True)
    verdict = re.findall(r'^logic=.*', said, re.M)
    return well, verdict[-1] if well and verdict else said


def build_all(wanted, crates):
    """Builds each wanted crate once those below it are built."""
    processors = len(os.sched_getaffinity(0))
    memory = processes()
    lengths = {it: length(it) for it in wanted}
    behind = chains(lengths, crates)
    clock = Clock(lengths, behind)
    left = sorted(wanted, key=lambda it: -behind[it])
    running = {}
    began = time.time_ns()
    with ThreadPoolExecutor(processors) as pool:
        while left or running:
            waiting = {*left, *(it for it, _ in running.values())}
            longest = max(behind[it] for it in waiting)
            for crate in [it for it in left if not below(it, crates) & waiting]:
                free = memory - sum(jobs for _, jobs in running.values())
                if len(running) == processors or running and free < 1:
                    break
                # The shorter the chain behind a crate, the more of a processor it leaves to the others.
                share = behind[crate] / longest
                jobs = max(1, min(free, processors if share > 0.8 else max(2, processors // 2)))
                left.remove(crate)
                clock.begin(crate)
                running[pool.submit(build, crate, jobs, round(19 - 19 * share), began)] = crate, jobs
            for done in wait(running, return_when=FIRST_COMPLETED).done:
                crate, _ = running.pop(done)
                well, said = done.result()
                print(f'{crate}: {clock.end(crate)}; {said}' if well else f'{said}\n{crate}: not built', file=sys.stderr, flush=True)
                if not well:
                    left.clear()
                    return False
    return True


def hold(folders, who):
    """Keeps other builds out of these folders, as `rt` does, and says where it has to wait for one to end."""
    for it in folders:
        held = os.open(it, os.O_RDONLY)
        try:
            fcntl.flock(held, fcntl.LOCK_EX | fcntl.LOCK_NB)
        except BlockingIOError:
            print(f'{who}: waiting for another build to end, which works in {it}', file=sys.stderr, flush=True)
            fcntl.flock(held, fcntl.LOCK_EX)
        except OSError:
            # Some file systems have no locks.
            pass


def has_rt(crate):
    """Whether there is the command `rt`; if not, it says so."""
    if shutil.which('rt') is None:
        print(f'{crate}: it has to be built, and there is no command rt on the path: put the folder on it that has the toolchain\'s rt', file=sys.stderr)
        return False
    return True


def bring_up_to_date(wanted, crates):
    """Whether all is built, in the end."""
    def left():
        return set().union(*(stale(it, crates) for it in wanted))

    # Where nothing is to be built there is nothing to wait for.
    if not left():
        return True
    if not has_rt(' and '.join(wanted)):
        return False
    ending.end_by_signals()
    hold([folder(ROOT, it) for it in sorted(set(wanted).union(*(below(it, crates) for it in wanted)))], wanted[0])
    return build_all(left(), crates)


def main():
    words = sys.argv[1:]
    if words in (['-h'], ['--help']):
        print(__doc__, end='')
        return 0
    crates = read_crates()
    if not words or not set(words) <= crates.keys():
        print('usage: build.py CRATE.., which crates.txt lists', file=sys.stderr)
        return 2
    return 0 if bring_up_to_date(words, crates) else 1


if __name__ == '__main__':
    sys.exit(main())
