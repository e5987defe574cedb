#!/usr/bin/env python3
"""explorations.py PROGRAM TOOL [RUNS [SEED]]: has the built chanhub_tool (TOOL) go through all schedules of random scenarios, and
of the examples, for each thing that can be asked, and compares what it says with the search of explore.py, which shares no code
with the proofs.

A scenario has two to four processes of up to four steps, and up to three ports. Where a run does what is asked for, the journal
that the tool writes is as short as the search's shortest; each of its lines is the next one of its process, and the last alone
does it, by model.py. What none does, so many runs by threads (THREADS), by the built chanhub (PROGRAM), do not do either. RUNS
scenarios are tried (60), from SEED on (1). Among so many each thing is found for some, and for some not. And a search that takes
seconds shows how far it has come, on a terminal alone. The last line counts: 'N passed, M failed'.
"""
import collections
import os
import pathlib
import pty
import random
import re
import subprocess
import sys
import tempfile

sys.dont_write_bytecode = True
from programs import MINUTE, ROOT, SCENARIOS, Count, all_of, examples
from explore import SUBJECTS, Scenario, answer, leaves, tells
import model

RUNS = 60
THREADS = 3
FOUND = 4  # the status where some run does what is asked for, and of a run that stalls
EXAMPLES = ROOT / 'examples'
THAT_STALL = ('philosophers', 'starving_select', 'stall_against_go/pool')  # under some schedules


class Draw:
    """A random scenario, the same for each seed."""

    def __init__(self, seed):
        self.random = random.Random(seed)
        self.edition = self.random.choice((1, 2))
        self.ports = self.random.choices((0, 0, 1, 2), k=self.random.randint(1, 3))

    def port(self):
        """Mostly one that is made, seldom the nil port or one that was not made."""
        return self.random.choice([*range(1, len(self.ports) + 1)] * 8 + [0, len(self.ports) + 1])

    def value(self):
        return self.random.choice(('7', '8')) if self.edition == 1 else self.random.choice(('7', '#', '#ab'))

    def case(self):
        return f's{self.port()}:{self.value()}' if self.random.random() < 0.5 else f'r{self.port()}'

    def step(self):
        word = self.random.choice(('send', 'send', 'recv', 'recv', 'select', 'close', 'range'))
        if word == 'send':
            return f'send {self.port()} {self.value()}'
        if word == 'select':
            cases = [self.case() for _ in range(self.random.randint(1, 3))]
            return ' '.join(['select', *cases, *['default'] * (self.random.random() < 0.3)])
        return f'{word} {self.port()}'

    def alone(self, procs):
        """Steps that each process draws for itself: most such scenarios stall."""
        return [[self.step() for _ in range(self.random.randint(0, 4))] for _ in range(procs)]

    def together(self, procs):
        """Values that one process sends and another receives, and a close of some port: many do not."""
        processes = [[] for _ in range(procs)]
        for _ in range(self.random.randint(1, 5)):
            sender, receiver = self.random.sample(range(procs), 2)
            port = self.random.randint(1, len(self.ports))
            processes[sender].append(f'send {port} {self.value()}')
            processes[receiver].append(self.random.choice((f'recv {port}', f'select r{port} r{self.port()}', f'range {port}')))
        self.random.choice(processes).append(f'close {self.port()}')
        return processes

    def text(self):
        processes = self.random.choice((self.alone, self.together, self.together))(self.random.randint(2, 4))
        lines = [f'journal = {self.edition}', f'ports = {self.ports}']
        return '\n'.join(lines + [f'[[process]]\nsteps = {steps}' for steps in processes]) + '\n'


def told_by(tool, path, ask, journal):
    """What the tool says, its status, and the lines of the journal that it wrote."""
    if os.path.exists(journal):
        os.remove(journal)
    done = subprocess.run([tool, 'explore', path, '--ask', ask, '--journal', journal], capture_output=True, text=True, timeout=MINUTE)
    lines = pathlib.Path(journal).read_text().splitlines() if os.path.exists(journal) else None
    return done.stdout.rstrip('\n'), done.returncode, lines


def does(scenario, ask, state, events):
    """Whether a run does what is asked for by a step that told these events, and led to this state."""
    return leaves(scenario, state) if ask == 'left' else tells(ask, events)


def steps_behind_makes(scenario, lines):
    """The steps of a journal of the scenario's head behind the makes of its ports; none where it does not begin so."""
    head = [f'chanhub journal {scenario.edition}', f'procs {len(scenario.scripts)}', *(f'0 make {cap}' for cap in scenario.ports)]
    if lines[:len(head)] != head:
        return None
    fields = [line.split() for line in lines[len(head):]]
    return [(int(pid), model.step(step)) for pid, *step in fields]


def is_run(scenario, ask, lines):
    """Whether these lines are a run of the scenario in which the last line does what is asked for, and no other."""
    steps = steps_behind_makes(scenario, lines)
    if not steps:
        return False
    state = scenario.beginning()
    for place, (pid, step) in enumerate(steps, 1):
        if (pid, step) not in list(scenario.moves(state)):
            return False
        state, events = scenario.after(state, pid, step)
        if does(scenario, ask, state, events) != (place == len(steps)):
            return False
    return True


def what_differs(tool, path, scenario, ask, wanted, journal):
    """What is wrong with the tool's answer, or nothing."""
    told, status, lines = told_by(tool, path, ask, journal)
    if told != wanted:
        return f'says {told!r}, and not {wanted!r}'
    is_found = not wanted.startswith('no ')
    if status != (FOUND if is_found else 0) or (lines is None) == is_found:
        return f'status {status}, and {"no" if lines is None else "a"} journal'
    if not is_found:
        return None
    steps = len(lines) - 2 - len(scenario.ports)
    return None if wanted == f'{SUBJECTS[ask]} after {steps} steps' and is_run(scenario, ask, lines) else f'the journal is {lines}'


def done_by_threads(program, path, scenario):
    """All that can be asked for and a run by threads does."""
    done = subprocess.run([program, 'run', path, '--journal'], capture_output=True, text=True, timeout=MINUTE)
    found = {'stall'} if done.returncode == FOUND else set()
    state = scenario.beginning()
    for pid, step in steps_behind_makes(scenario, done.stdout.splitlines()):
        state, events = scenario.after(state, pid, step)
        found |= {ask for ask in SUBJECTS if does(scenario, ask, state, events)}
    return found


def what_fails(program, tool, path, folder, runs):
    """What is wrong with the tool's answers for this scenario, or nothing; and what is found."""
    scenario = Scenario(pathlib.Path(path).read_text())
    wanted = {ask: answer(scenario, ask) for ask in SUBJECTS}
    found = {ask for ask, line in wanted.items() if not line.startswith('no ')}
    for ask, line in wanted.items():
        why = what_differs(tool, path, scenario, ask, line, os.path.join(folder, 'journal'))
        if why is not None:
            return f'{ask}: {why}', found
    for _ in range(runs):
        others = done_by_threads(program, path, scenario) - found
        if others:
            return f'a run by threads does {sorted(others)}', found
    return None, found


def independent(procs):
    """A scenario of processes with a port each: it has five states to the power of their number."""
    lines = [f'ports = {[1] * procs}']
    return '\n'.join(lines + [f"[[process]]\nsteps = ['send {it} 7', 'recv {it}', 'send {it} 8']" for it in range(1, procs + 1)]) + '\n'


def shown_by(tool, path, states):
    """What the tool shows on a terminal while it goes through so many states, and what it prints."""
    terminal, errors = pty.openpty()
    with subprocess.Popen([tool, 'explore', path, '--states', str(states)], stdout=subprocess.PIPE, stderr=errors, text=True) as child:
        os.close(errors)
        return all_of(terminal).decode(), child.stdout.read()


def tells_progress(tool, path, states=80_000):
    """Whether a long search shows lines in which both numbers grow, each over the one before, and clears the last."""
    with open(path, 'w') as file:
        file.write(independent(10))
    shown, printed = shown_by(tool, path, states)
    lines = [tuple(map(int, it)) for it in re.findall(r'\r\x1b\[K(\d+) states found, (\d+) gone through', shown)]
    quiet = subprocess.run([tool, 'explore', path, '--states', str(states)], capture_output=True, text=True, timeout=MINUTE)
    grow = all(a < b and c < d for (a, c), (b, d) in zip(lines, lines[1:])) and all(gone < found <= states for found, gone in lines)
    gave_up = f'gave up after {states} states\n'
    return len(lines) > 0 and grow and shown.endswith('\r\x1b[K') and printed == gave_up == quiet.stdout and quiet.stderr == ''


def main(program, tool, runs=RUNS, seed=1, threads=THREADS):
    count = Count()
    with tempfile.TemporaryDirectory() as folder:
        for path in [*examples(SCENARIOS), *(EXAMPLES / it for it in THAT_STALL)]:
            why, _ = what_fails(program, tool, path, folder, 0)
            count.test(f'all schedules of {path.name}', why is None, why or '')
        path = os.path.join(folder, 'scenario')
        times = collections.Counter()
        for number in range(seed, seed + runs):
            with open(path, 'w') as file:
                file.write(Draw(number).text())
            why, found = what_fails(program, tool, path, folder, threads)
            times.update(found)
            count.test(f'all schedules of the random scenario {number}', why is None, why or '')
        if runs >= RUNS:
            count.test('each thing is found, and not found', all(0 < times[ask] < runs for ask in SUBJECTS), str(times))
        count.test('a long search on a terminal', tells_progress(tool, path))
    return count.end()


if __name__ == '__main__':
    sys.exit(main(sys.argv[1], sys.argv[2], *map(int, sys.argv[3:])))
