#!/usr/bin/env python3
"""refusals.py [PROGRAM [HUB_TESTS [LIVE_TESTS]]]: has allocations refused, and starts of threads, the first, then the second, and
so on until a run meets no refusal.

The built chanhub (PROGRAM) replays the examples, compares one, and runs scenarios, for reports and for journals. Each run must
print all that it prints else, with status 0, or nothing but `chanhub: out of memory` on standard error, with status 1; a journal
of several processes, which is another one under another schedule, must be replayed, and have the entries of each process in their
order. The tests of refused memory of hub_tests and hub_live_tests, as `./test` builds them (HUB_TESTS, LIVE_TESTS), must pass,
with the allocations after their mark refused so; a run of steps tells at which it was refused memory, and those that take none
pass with all of them refused. It needs a C compiler (CC, or cc). The last line counts: 'N passed, M failed'.
"""
import functools
import os
import pathlib
import re
import subprocess
import sys
import tempfile
from concurrent.futures import ThreadPoolExecutor

sys.dont_write_bytecode = True
from programs import JOURNALS as EXAMPLES, ROOT, Count, build_library, said

MOST_REFUSALS = 10000
NO_MEMORY = 1, b'', b'chanhub: out of memory\n'
# A test asks for so many bytes where its refusals begin.
MARK = '7777777'
AT_ONCE = 3

HUB_TESTS = ('refusals::refused_opening_and_steps_are_made_again', 'refusals::refused_steps_leave_the_buffer',
             'refusals::refused_run_is_made_again', 'refusals::refused_reservation_is_made_again', 'cuts::refused_chapters_are_begun_again')
HUB_TESTS_WITHOUT = ('refusals::reserved_steps_take_no_memory', 'refusals::three_reserved_steps_take_no_memory')
LIVE_TESTS = ('opening_is_whole_or_refused', 'refused_step_is_made_again', 'refused_crew_makes_no_step')
LIVE_TESTS_OF_STARTS = ('refused_crew_makes_no_step',)
LIVE_TESTS_WITHOUT = ('last_calls_take_no_memory', 'end_takes_no_memory', 'end_without_seats_takes_no_memory')

# By scenario, the journal of each run, process by process, the head lines before those of process 0.
JOURNALS = {
    'alone': '1;0 make 1;0 send 1 7;0 close 1;0 recv 1;0 recv 1;0 exit',
    # The range is two receives of a value, and a third that finds the port closed.
    'hand_over': '2;0 make 0;0 send 1 4;0 send 1 5;0 close 1;0 exit;1 recv 1;1 recv 1;1 recv 1;1 exit',
    'two_senders': '3;0 make 3;0 send 1 1;0 send 1 2;0 exit;1 send 1 10;1 exit;2 recv 1;2 recv 1;2 recv 1;2 exit',
}
ALONE = 'ports = [1]\n[[process]]\nsteps = ["send 1 7", "close 1", "range 1"]\n'


class Wrong(Exception):
    pass


class Refuser:
    """Stands before a program's allocator and its starts of threads, by refuse.c, and refuses."""

    def __init__(self, work):
        self.work = work
        self.library = build_library(work, 'refuse', '-fno-builtin')

    def run(self, words, number, which='REFUSE', given=b'', after='0'):
        """The status of a run with this one refused of what `which` counts, and what it wrote; and whether one was refused."""
        with tempfile.TemporaryDirectory(dir=self.work) as room:
            trace = os.path.join(room, 'refused')
            refuses = {'LD_PRELOAD': self.library, which: str(number), 'REFUSE_AFTER': after, 'REFUSED': trace}
            return said(words, given, env={**os.environ, **refuses}), os.path.exists(trace)

    def each(self, words, **how):
        """What it does with the first refused, then with the second, and so on, and last where nothing was refused."""
        for number in range(1, MOST_REFUSALS):
            told, was_refused = self.run(words, number, **how)
            yield told
            if not was_refused:
                return

    def survives(self, words, given=b''):
        """Whether it does the same with each allocation refused in turn, or tells that memory is wanting and nothing else."""
        wanted = said(words, given)
        *answers, last = self.each(words, given=given)
        return answers != [] and last == wanted and all(it in (wanted, NO_MEMORY) for it in answers)


def survive(refuser, words, is_whole, **how):
    """How many were refused; raises Wrong where a run prints neither what is whole nor that memory is wanting."""
    *answers, last = refuser.each(words, **how)
    for number, told in enumerate([*answers, last], 1):
        status, output, errors = told
        if (status, errors) != (0, b'') or not is_whole(output):
            if told != NO_MEMORY or number > len(answers):
                raise Wrong(f'{number} refused: {told}')
    if not answers:
        raise Wrong('nothing was refused, so nothing is shown')
    return len(answers)


def pass_each(refuser, tests, name, which='REFUSE'):
    """How many were refused; raises Wrong where the test fails, or tells that an earlier step was refused a later allocation."""
    answers = list(refuser.each([tests, name], which=which, after=MARK))
    for number, (status, output, errors) in enumerate(answers, 1):
        if status != 0:
            raise Wrong(f'{number} refused: status {status}: {(output + errors)[-1000:]}')
    places = [int(place) for _, output, _ in answers for place in re.findall(rb'^refused at (\d+)$', output, re.M)]
    if places != sorted(places) or 'refused_run' in name and len(set(places)) < 2:
        raise Wrong(f'these places of refused steps: {places}')
    if len(answers) == 1:
        raise Wrong('nothing was refused, so nothing is shown')
    return len(answers) - 1


def pass_without(refuser, tests, name):
    """None is needed, though one is asked for; raises Wrong where the test fails."""
    told, was_refused = refuser.run([tests, name], 'all', after=MARK)
    if told[0] != 0 or not was_refused:
        raise Wrong(f'all refused: {told}' if was_refused else 'nothing was refused, so nothing is shown')
    return 0


def is_journal(program, lines, output):
    """Whether this is a journal that is replayed without a fault, and has these lines, process by process."""
    status, events, errors = said([program, 'replay'], output)
    by_process = sorted(output.decode().splitlines(), key=lambda line: int(line.split()[0]) if line[0].isdigit() else -1)
    return by_process == lines and (status, errors) == (0, b'') and b'fault' not in events


def replays(program):
    """By name, the words, how they are refused, and what is whole."""
    for path in sorted(EXAMPLES.glob('*.args')):
        journal = path.with_suffix('')
        events = journal.with_suffix('.stdout').read_bytes()
        yield f'replay {journal.name}', [program, 'replay'], events.__eq__, {'given': journal.read_bytes()}
    # The same with a third process, which does nothing.
    text = (EXAMPLES / 'waiting_on_several_ports').read_bytes().replace(b'\nprocs 2\n', b'\nprocs 3\n')
    events = EXAMPLES / 'waiting_on_several_ports.stdout'
    yield 'replay among three', [program, 'replay'], events.read_bytes().__eq__, {'given': text}
    yield 'verify', [program, 'verify', '/dev/stdin', events], b'same\n'.__eq__, {'given': text}


def runs(program, work):
    """The same of runs of scenarios. The report of each is the same under every schedule."""
    alone = pathlib.Path(work) / 'alone'
    alone.write_text(ALONE)
    for which in ('REFUSE', 'REFUSE_START'):
        for name, text in JOURNALS.items():
            path = alone if name == 'alone' else ROOT / 'examples' / 'scenarios' / name
            lines = f'chanhub journal 1;procs {text}'.split(';')
            yield f'run --journal {name}, {which}', [program, 'run', '--journal', path], functools.partial(is_journal, program, lines), {'which': which}
            if name != 'alone':
                yield f'run {name}, {which}', [program, 'run', path], path.with_suffix('.stdout').read_bytes().__eq__, {'which': which}


def checks(refuser, program, hub_tests, live_tests):
    """By name, what is to be done."""
    for name, words, is_whole, how in [*replays(program), *runs(program, refuser.work)]:
        yield name, functools.partial(survive, refuser, words, is_whole, **how)
    for tests, folder, each, starts, without in ((hub_tests, 'steps::', HUB_TESTS, (), HUB_TESTS_WITHOUT),
                                                 (live_tests, 'live::refusals::', LIVE_TESTS, LIVE_TESTS_OF_STARTS, LIVE_TESTS_WITHOUT)):
        for name in each:
            yield name, functools.partial(pass_each, refuser, tests, folder + name)
        for name in starts:
            yield f'{name}, REFUSE_START', functools.partial(pass_each, refuser, tests, folder + name, 'REFUSE_START')
        for name in without:
            yield name, functools.partial(pass_without, refuser, tests, folder + name)


def main():
    built = [ROOT / 'crates' / crate / 'out' / name for crate, name in (
        ('chanhub', 'chanhub'), ('hub_tests', 'hub_tests_tests'), ('hub_live_tests', 'hub_live_tests_tests'))]
    programs = [*(pathlib.Path(it).resolve() for it in sys.argv[1:]), *built[len(sys.argv) - 1:]]
    count = Count()
    total = 0
    with tempfile.TemporaryDirectory() as work, ThreadPoolExecutor(AT_ONCE) as pool:
        begun = [(name, pool.submit(check)) for name, check in checks(Refuser(work), *programs)]
        for name, done in begun:
            try:
                total += done.result()
                count.test(name, True)
            except (Wrong, OSError, subprocess.TimeoutExpired) as fault:
                count.test(name, False, fault)
    print(f'refusals: {total}, each answered as it must be' if count.failed == 0 else f'refusals: {total}')
    return count.end()


if __name__ == '__main__':
    sys.exit(main())
