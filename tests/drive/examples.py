#!/usr/bin/env python3
"""examples.py PROGRAM: runs the built chanhub (PROGRAM) on the journals and scenarios of examples/, on scenarios of 64 processes,
and on random journals beside the events that model.py makes of them; and counts how often the pool stalls that can. The last line
counts: 'N passed, M failed'."""
import os
import pathlib
import re
import sys
import tempfile

sys.dont_write_bytecode = True
from programs import ROOT, Count, said as run
from random_journal import Journal

EXAMPLES = ROOT / 'examples'
RANDOM_JOURNALS = 20
PROCESSES = range(1, 65)
STALLED = 4


def model(journal):
    return run([ROOT / 'tools' / 'model.py'], journal)


class Examples(Count):
    def __init__(self, program, work):
        super().__init__()
        self.program = program
        self.work = pathlib.Path(work)

    def journals(self):
        for path in sorted((EXAMPLES / 'journals').glob('*.stdout')):
            journal, wanted = path.with_suffix(''), (0, path.read_bytes(), b'')
            self.test(f'example {path.stem}', run([self.program, 'replay'], journal.read_bytes()) == wanted)
            self.test(f'the comparison of example {path.stem}', run([self.program, 'verify', journal, path]) == (0, b'same\n', b''))
            self.test(f'model.py on example {path.stem}', model(journal.read_bytes()) == wanted)

    def runs(self, scenario, report):
        """Whether the program prints this report, with its status, and names a full journal where there is none."""
        status = 1 if not report else STALLED if re.search(rb'^stalled ', report, re.M) else 0
        return run([self.program, 'run', scenario]) == (status, report, b'' if report else b'chanhub: journal full\n')

    def is_replayed(self, scenario):
        """Whether the journal of a run replays, and its events verify."""
        status, journal, _ = run([self.program, 'run', scenario, '--journal'])
        replayed, events, errors = run([self.program, 'replay'], journal)
        (self.work / 'events').write_bytes(events)
        verified = run([self.program, 'verify', '/dev/stdin', self.work / 'events'], journal)
        return status in (0, STALLED) and (replayed, errors) == (0, b'') and verified == (0, b'same\n', b'')

    def scenario(self, name, scenario, report):
        self.test(f'scenario {name}', self.runs(scenario, report))
        if report:
            self.test(f'the journal of scenario {name}', self.is_replayed(scenario))

    def scenarios(self):
        for path in sorted((EXAMPLES / 'scenarios').glob('*.stdout')):
            self.scenario(path.stem, path.with_suffix(''), path.read_bytes())

    def many_processes(self):
        """Each sends on a port without a buffer, and nobody receives; each sends to a port with a place and receives from the
        next."""
        for name, room, steps, end in (
            ('stalled', 0, '"send {0} {0}"', 'sent 0 received 0 left 0 sum 0 open\n'),
            ('ring', 1, '"send {0} {0}", "recv {1}"', 'sent 1 received 1 left 0 sum {0} open\n'),
        ):
            scripts = ''.join('[[process]]\nsteps = [%s]\n' % steps.format(it, it % len(PROCESSES) + 1) for it in PROCESSES)
            report = ''.join(f'port {it} cap {room} {end.format(it)}' for it in PROCESSES) + 'stalled 64\n' * (name == 'stalled')
            (self.work / name).write_text(f'ports = {[room] * len(PROCESSES)}\n{scripts}')
            self.scenario(f'of 64 processes: {name}', self.work / name, report.encode())

    def random_journals(self):
        for third in (False, True):
            for seed in range(1, RANDOM_JOURNALS + 1):
                journal = Journal(seed, 0, third).text().encode()
                wanted = model(journal)
                self.test(f'random journal of seed {seed} {"--third" * third}', wanted[1] and run([self.program, 'replay'], journal) == wanted)

    def pool(self):
        status, told, errors = run([EXAMPLES / 'stall_against_go' / 'count.sh', '3', '3'], env={**os.environ, 'CHANHUB': self.program})
        if status == 77:
            self.skip('the pool that stalls on Go: ' + told.decode().splitlines()[-1])
        else:
            found = re.findall(rb'^[a-zG]*: [0-3] of 3 runs stalled$', told, re.M)
            self.test('the pool that stalls', status == 0 and len(found) == 2, (told, errors))


def main():
    with tempfile.TemporaryDirectory() as work:
        examples = Examples(os.path.abspath(sys.argv[1]), work)
        for part in (examples.journals, examples.scenarios, examples.many_processes, examples.random_journals, examples.pool):
            part()
    return examples.end()


if __name__ == '__main__':
    sys.exit(main())
