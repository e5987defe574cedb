#!/usr/bin/env python3
"""rows.py [PROGRAM]: runs each row of tests/ by the built program, and compares what it prints and its status.

The last line counts: 'N passed, M failed'.
"""
import os
import sys
import tempfile

sys.dont_write_bytecode = True
import programs
from programs import ROOT, build_library, count_checks, refused, said, said_into, said_limited, table
from theorems import theorems

PROGRAM = os.path.abspath(sys.argv[1] if len(sys.argv) > 1 else os.path.join(ROOT, 'crates', 'chanhub', 'out', 'chanhub'))


def run(words, text, name='chanhub', folder=None):
    """The status, what was written to standard output, and to standard error, of the program under this name."""
    return said([name, *words], text, executable=PROGRAM, cwd=folder)


def run_unasked(words, text, folder):
    """The same of words that ask for no standard input, and None where some of it was read all the same."""
    with tempfile.TemporaryFile() as file:
        file.write(text)
        file.flush()
        os.lseek(file.fileno(), 0, os.SEEK_SET)
        told = said(['chanhub', *words], executable=PROGRAM, cwd=folder, stdin=file)
        return told if os.lseek(file.fileno(), 0, os.SEEK_CUR) == 0 else None


def write(folder, name, text):
    with open(os.path.join(folder, name), 'wb') as file:
        file.write(text.encode())


def compare(folder, journal, events):
    """What `verify` answers for these two texts."""
    write(folder, 'journal', journal)
    write(folder, 'events', events)
    return run(['verify', 'journal', 'events'], b'', folder=folder)


def text_of(edition, row):
    """The journal of a row, in this edition."""
    return 'chanhub journal %d\nprocs %d\n%s' % (edition, row['procs'], row['steps'])


def journals(folder):
    known = dict(theorems())
    rows = table('journals')['journal']
    yield 'each theorem has a row', set(known) <= {row['name'] for row in rows} | set(long_rows())
    for row in rows:
        edition = row.get('edition', 1)
        journal = text_of(edition, row)
        yield row['name'] + ' is a theorem', known.get(row['name']) == (edition, row['procs'], row['steps'], row['events'])
        yield row['name'], run(['replay'], journal.encode()) == (0, row['events'].encode(), b'')
        yield row['name'] + ' compared', compare(folder, journal, row['events']) == (0, b'same\n', b'')
        # A journal means the same in a later edition, unless a call has too many cases for the first.
        for later in range(edition + 1, 4):
            if 'fault 4\n' not in row['events']:
                again = run(['replay'], text_of(later, row).encode())
                yield '%s in edition %d' % (row['name'], later), again == (0, row['events'].encode(), b'')


def each(text, values):
    """The text for each of these values, which stands for N."""
    return ''.join(text.replace('N', str(value)) for value in values)


def long_rows():
    """Journals that are made here, each by its name: of so many processes, the steps and the events."""
    makes, made = '0 make 0\n' * 64, each('0 made N\n', range(1, 65))
    everyone, others, values = range(64), range(63, 0, -1), range(1, 101)
    return {
        'sixty_four_ports_at_most': (1, makes + '0 make 0\n', made + '0 fault 7\n'),
        # Each select ends at its second case, and leaves nothing behind at the port of its first.
        'hundred_selects_end_once': (
            2, '0 make 0\n' * 2 + each('1 select 0 r1 r2\n0 send 2 N\n', values) + '1 select 0 r1 r2\n0 send 1 7\n',
            '0 made 1\n0 made 2\n' + each('1 parked\n0 case 0 sent\n1 case 1 got N\n', values)
            + '1 parked\n0 case 0 sent\n1 case 0 got 7\n',
        ),
        # The last of 64 senders parks, and all stall: 65 events of one step.
        'sixty_four_stall_at_once': (
            64, makes + ''.join(f'{pid} send {pid + 1} {pid + 1}\n' for pid in everyone),
            made + each('N parked\n', everyone) + each('N stalled\n', everyone),
        ),
        # All others are told, in the order in which they came.
        'sixty_three_receive_and_one_closes': (
            64, '0 make 0\n' + each('N recv 1\n', others) + '0 close 1\n',
            '0 made 1\n' + each('N parked\n', others) + '0 done\n' + each('N case 0 drained\n', others),
        ),
        'greatest_capacity_at_the_last_port': (
            1, '0 make 0\n' * 63 + '0 make 1024\n' + each('0 send 64 N\n', range(1025)),
            made + '0 case 0 sent\n' * 1024 + '0 parked\n0 stalled\n',
        ),
    }


def long_journals(_):
    known = dict(theorems())
    for name, (procs, steps, events) in long_rows().items():
        if name in known:
            yield name + ' is a theorem', known[name] == (1, procs, steps, events)
        journal = 'chanhub journal 1\nprocs %d\n%s' % (procs, steps)
        yield name, run(['replay'], journal.encode()) == (0, events.encode(), b'')


def faulty_journals(folder):
    for name, journal, fault in programs.faulty_journals():
        yield name, run(['replay'], journal.encode()) == refused(fault)
        yield name + ' compared', compare(folder, journal, '') == refused(fault)


def beginnings(_):
    """Each beginning of a text, cut behind a line or within one; and lines up to the limit of bytes, and one past it."""
    lines = (
        ('chanhub journal 1', ''),
        ('procs 3', ''),
        ('0 make 0', '0 made 1\n'),
        ('0 make 0', '0 made 2\n'),
        ('1 select 0 r1 r2', '1 parked\n'),
        ('0 send 2 8', '0 case 0 sent\n1 case 1 got 8\n'),
        ('0 send 1 9', '0 parked\n'),
        ('1 recv 1', '1 case 0 got 9\n0 case 0 sent\n'),
    )
    text = ''.join(line + '\n' for line, _ in lines).encode()
    events = [told for _, told in lines]
    behind = {0: refused('line 1: bad header'), 1: refused('line 2: bad procs')}
    for size in range(len(text) + 1):
        whole = text[:size].count(b'\n')
        answer = run(['replay'], text[:size])
        if size > 0 and not text[:size].endswith(b'\n'):
            is_well = answer == refused('line %d: cut line' % (whole + 1))
        else:
            is_well = answer == behind.get(whole, (0, ''.join(events[:whole]).encode(), b''))
        yield 'beginning of %d bytes' % size, is_well
    most = 67108864
    head = b'chanhub journal 1\nprocs 1\n0 recv '
    for name, size, end, kind in (
        ('most_bytes', most, b'\n', 'bad number'),
        ('one_too_many', most + 1, b'\n', 'too long'),
        ('most_bytes_cut', most, b'0', 'cut line'),
        ('one_too_many_cut', most + 1, b'0', 'too long'),
    ):
        yield name, run(['replay'], head + b'0' * (size - 1 - len(head)) + end) == refused('line 3: ' + kind)


def longest_journals(folder):
    """Journals of the most bytes, lines and steps, and of one more: replayed, and compared with events."""
    most_bytes, most_steps = 67108864, 1000000

    # Port 9 is not made, so each call is fault 5.
    head = 'chanhub journal 1\nprocs 1\n'
    line = '0 select 0' + 3 * ' s9:18446744073709551615' + '\n'
    times, rest = divmod(most_bytes - len(head), len(line))
    last = '0 send 9 '.ljust(rest - 1, '1')
    text = head + times * line + last
    journal = text + '\n'
    events = (times + 1) * '0 fault 5\n'
    yield 'most bytes: the rest is a line', len(journal) == most_bytes and len(last) > len('0 send 9 ')
    yield 'most bytes', run(['replay'], journal.encode()) == (0, events.encode(), b'')
    yield 'most bytes: same', compare(folder, journal, events) == (0, b'same\n', b'')
    for name, wrong, differs in (
        ('last event', events[:-2] + '6\n', times + 1),
        ('no last byte', events[:-1], times + 1),
        ('an event more', events + '0 fault 5\n', times + 2),
    ):
        yield 'most bytes: ' + name, compare(folder, journal, wrong) == (3, b'differs at line %d\n' % differs, b'')
    # The two head lines come before the lines of the steps. A fault of the journal decides, whatever the events are.
    for name, longer, place in (('a longer last line', text + '1\n', times + 3), ('a byte more', journal + '0', times + 4)):
        fault = refused('line %d: too long' % place)
        yield name, run(['replay'], longer.encode()) == compare(folder, longer, events) == fault
        yield name + ', without events', compare(folder, longer, '') == fault

    # An exit is the shortest line.
    exits = (most_bytes - len(head)) // len('0 exit\n')
    journal = head + exits * '0 exit\n'
    events = '0 done\n' + (exits - 1) * '0 fault 2\n'
    yield 'most lines', (exits, compare(folder, journal, events)) == (9586976, (0, b'same\n', b''))

    # Exits are not counted, and the second is fault 2.
    journal = head + most_steps * '0 make 1025\n'
    events = most_steps * '0 fault 6\n'
    for name, exits, answers in (('', '', ''), (', exits', 2 * '0 exit\n', '0 done\n0 fault 2\n')):
        text, told = journal + exits, events + answers
        lines = 2 + most_steps + exits.count('\n')
        yield 'most steps' + name, run(['replay'], text.encode()) == (0, told.encode(), b'')
        yield 'most steps: same' + name, compare(folder, text, told) == (0, b'same\n', b'')
        wrong = events[:-2] + '5\n' + answers
        yield 'most steps: last' + name, compare(folder, text, wrong) == (3, b'differs at line %d\n' % most_steps, b'')
        longer, fault = text + '0 make 1025\n', refused('line %d: too long' % (lines + 1))
        yield 'a step more' + name, run(['replay'], longer.encode()) == compare(folder, longer, told) == fault
        yield 'a step more, without events' + name, compare(folder, longer, '') == fault


def comparisons(folder):
    for group in table('comparisons')['group']:
        for row in group['comparisons']:
            wanted = (3, b'differs at line %d\n' % row['line'], b'') if row['line'] else (0, b'same\n', b'')
            yield row['name'], compare(folder, group['journal'], row['events']) == wanted


def runs(_):
    for row in table('runs')['run']:
        words = ['run', '--journal'] if 'journal' in row else ['run']
        printed = row.get('journal', row.get('report', ''))
        told = 'chanhub: %s\n' % row['fault'] if 'fault' in row else ''
        yield row['name'], run(words, row['scenario'].encode()) == (row['status'], printed.encode(), told.encode())


def scenarios(_):
    rows = table('scenarios')
    for group in rows['group']:
        for name, text in group['texts'].items():
            yield name, run(['run'], text.encode()) == refused(group['fault'])
        for name, text in group.get('hexadecimal', {}).items():
            yield name, run(['run'], bytes.fromhex(text)) == refused(group['fault'])
    for group in rows['steps']:
        for value in group['values']:
            text = group['text'].replace('STEP', value)
            yield 'step ' + value, run(['run'], text.encode()) == refused(group['fault'])


def run_both(folder, text):
    """What `run` answers for a scenario on standard input, and in a file."""
    write(folder, 'scenario', text)
    return [run(['run'], text.encode()), run(['run', 'scenario'], b'', folder=folder)]


def long_scenarios(folder):
    """Scenarios up to each limit, and one past it, on standard input and in a file."""

    ports = lambda times: 'ports = [%s]\nprocess = [{steps = []}]\n' % ('0,' * times)
    processes = lambda times: 'ports = []\nprocess = [%s]\n' % ('{steps = []},' * times)
    steps = lambda times: 'ports = []\nprocess = [{steps = []}, {steps = [%s]}]\n' % ("'recv 1'," * times)

    def comment(size):
        text = 'ports = []\nprocess = [{steps = []}]\n#'
        return text + 'x' * (size - len(text))

    # There is no port 65.
    last = "ports = %s\nprocess = [{steps = ['send 64 9', 'recv 64', 'send 65 1']}]\n" % list(range(1, 65))
    port = 'port %d cap %d sent 0 received 0 left 0 sum 0 open\n'
    told = ''.join(port % (number, number) for number in range(1, 64))
    told += 'port 64 cap 64 sent 1 received 1 left 0 sum 9 open\nfaults 1\n'
    reported = lambda report: (0, report.encode(), b'')
    for name, text, wanted in (
        ('no_port', ports(0), reported('')),
        ('all_ports', last, reported(told)),
        ('all_processes', processes(64), reported('')),
        ('no_step', steps(0), reported('')),
        # There is no port 1.
        ('all_steps', steps(10000), reported('faults 10000\n')),
        ('longest_file', comment(1048576), reported('')),
        ('one_port_more', ports(65), refused('scenario: bad ports')),
        ('no_process', processes(0), refused('scenario: bad processes')),
        ('one_process_more', processes(65), refused('scenario: bad processes')),
        ('one_step_more', steps(10001), refused('scenario: bad script: process 1 step 10000')),
        ('one_byte_more', comment(1048577), refused('scenario: too long')),
        ('one_byte_more_is_no_toml', '=' * 1048577, refused('scenario: too long')),
    ):
        yield name, run_both(folder, text) == 2 * [wanted]


def one_port(capacity):
    """A scenario that makes one port, and the report and the journal of its run."""
    return (
        'ports = [%d]\nprocess = [{ steps = [] }]\n' % capacity,
        'port 1 cap %d sent 0 received 0 left 0 sum 0 open\n' % capacity,
        'chanhub journal 1\nprocs 1\n0 make %d\n0 exit\n' % capacity,
    )


def arguments(folder):
    rows = table('arguments')
    for name, capacity in rows['scenarios'].items():
        write(folder, name, one_port(capacity)[0])
    for name, text in rows['files'].items():
        write(folder, name, text)
    journal, scenario = rows['files']['steps'].encode(), one_port(7)[0].encode()

    for row in rows['replays']:
        yield row['name'] + ' replay', run(row['words'], journal, row['name'], folder) == (0, b'', b'')
    for prints, kind in enumerate(('reports', 'journals'), 1):
        for row in rows['runs'][kind]:
            wanted = (0, one_port(row['capacity'])[prints].encode(), b'')
            asks = run if row['capacity'] == 7 else run_unasked
            yield ' '.join(row['words']), asks(row['words'], scenario, folder=folder) == wanted

    answers = {
        'same': (0, b'same\n', b''),
        'different': (3, b'differs at line 1\n', b''),
        'malformed': refused('line 1: bad header'),
    }
    for kind, answer in answers.items():
        for words in rows['verifies'][kind]:
            yield ' '.join(words), run_unasked(words, journal, folder) == answer
    for words in rows['unread']['words']:
        yield ' '.join(words), run_unasked(words, scenario, folder) == (1, b'', b'chanhub: read failed\n')
    for words in rows['bad']['words']:
        yield ' '.join(words), run_unasked(words, journal, folder) == refused('bad arguments')


JOURNAL = b'chanhub journal 1\nprocs 2\n0 make 2\n0 send 1 10\n0 send 1 11\n1 recv 1\n'
EVENTS = b'0 made 1\n0 case 0 sent\n0 case 0 sent\n1 case 0 got 10\n'
FAILED_WRITE = b'chanhub: write failed\n'


def run_by_devices(library, at_most, text, **wrong):
    """The status and what was written, of a replay of this text by devices that give and take so many bytes a call."""
    how = {'LD_PRELOAD': library, 'AT_MOST': str(at_most), **{name: str(number) for name, number in wrong.items()}}
    return said(['chanhub', 'replay'], text, executable=PROGRAM, env={**os.environ, **how})


def small_devices(folder):
    """Each read fails in turn, and each write fails, or takes nothing: the last calls that are made."""
    library = build_library(folder, 'devices')
    for most in (1, 7, 1000):
        yield '%d bytes a call' % most, run_by_devices(library, most, JOURNAL) == (0, EVENTS, b'')
    # One more finds the end.
    reads = -(-len(JOURNAL) // 7) + 1
    for k in range(1, reads + 1):
        told = run_by_devices(library, 7, JOURNAL, WRONG_READ=k)
        yield 'read %d fails' % k, told == (1, b'', b'chanhub: read failed\n')
    yield 'no read behind the end', run_by_devices(library, 7, JOURNAL, WRONG_READ=reads + 1) == (0, EVENTS, b'')
    writes = -(-len(EVENTS) // 4)
    for kind in ({}, {'TAKES_NOTHING': 1}):
        for k in range(1, writes + 1):
            told = run_by_devices(library, 4, JOURNAL, WRONG_WRITE=k, **kind)
            yield 'write %d goes wrong' % k, told == (1, EVENTS[:4 * (k - 1)], FAILED_WRITE)
        told = run_by_devices(library, 4, JOURNAL, WRONG_WRITE=writes + 1, **kind)
        yield 'no write behind the last', told == (0, EVENTS, b'')


def devices(folder):
    stalls = b'ports = [0]\n[[process]]\nsteps = ["send 1 1"]\n[[process]]\nsteps = ["send 1 2"]\n'
    bad_header = b'chanhub: line 1: bad header\n'
    for room in range(len(EVENTS)):
        told = said_limited('stdout', room, ['chanhub', 'replay'], JOURNAL, executable=PROGRAM)
        yield 'an output with room for %d bytes' % room, told == (1, FAILED_WRITE, EVENTS[:room])
    for room in range(len(bad_header)):
        told = said_limited('stderr', room, ['chanhub', 'replay'], executable=PROGRAM)
        yield 'standard error with room for %d bytes' % room, told == (2, b'', bad_header[:room])
    with open('/dev/full', 'wb') as full:
        for words, text in ((['replay'], JOURNAL), (['run'], stalls), (['run', '--journal'], stalls)):
            told = said_into('stdout', full, ['chanhub', *words], text, executable=PROGRAM)
            yield ' '.join(words) + ' to a full device', told == (1, FAILED_WRITE)
        yield 'a fault line to a full device', said_into('stderr', full, ['chanhub', 'replay'], executable=PROGRAM) == (2, b'')
    for words in (['replay'], ['run']):
        unreadable = os.open(folder, os.O_RDONLY)
        answer = said(['chanhub', *words], executable=PROGRAM, stdin=unreadable)
        os.close(unreadable)
        yield ' '.join(words) + ' from a directory', answer == (1, b'', b'chanhub: read failed\n')


def main():
    return count_checks((
        journals, long_journals, longest_journals, faulty_journals, beginnings, comparisons, runs, scenarios,
        long_scenarios, arguments, devices, small_devices,
    ))


if __name__ == '__main__':
    sys.exit(main())
