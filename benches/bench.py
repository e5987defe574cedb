#!/usr/bin/env python3
"""Measures the built programs beside others, and prints a table of each part.

replay      `chanhub replay` beside OTHER, the command of another program that reads a journal and writes its events
growth      the same on the journals of make_growth.py, in which much waits or has waited: instructions alone
verify      `chanhub verify` beside `chanhub replay`
live        `hub_trials` beside the plain hubs of live_peer, and beside channels without a journal, of crossbeam and of Go; and how
            many instructions one of its calls takes
scenarios   `hub_trials` beside `chanhub run`
capi        the C library beside the plain hub of live_peer, called from C: c_times.c, linked with each; and called from Rust
costs       the instructions of a call of the C library in hubs of each kind: c_costs.c

live_peer, crossbeam_peer, go_peer and rust_peer are built, each where its tools are. Journals and scenarios are made in FOLDER, where
they are not there. RUNS (10, or what the environment says) is how often each program runs, in turn with the others. A replay
runs REPEATS times as often (8), and its user time is the least of the means of REPEATS runs, since a kernel tells user from
system time by ticks, of which one run has few. What can't be measured is said to be skipped.
"""
import argparse
import collections
import glob
import hashlib
import os
import re
import shlex
import shutil
import statistics
import subprocess
import sys
import tempfile
import time

HERE = os.path.dirname(os.path.abspath(__file__))
ROOT = os.path.dirname(HERE)
sys.path.append(os.path.join(ROOT, 'tools', 'gate'))
sys.dont_write_bytecode = True
from instructions import LINES, has_valgrind, instructions, make_beginnings, make_growth

CHANHUB = os.path.join(ROOT, 'crates', 'chanhub', 'out', 'chanhub')
TRIALS = os.path.join(ROOT, 'crates', 'hub_trials', 'out', 'hub_trials')
LIBRARY = os.path.join(ROOT, 'capi', 'out', 'libchanhub.a')
C_TIMES = os.path.join(HERE, 'c_times.c')
C_COSTS = os.path.join(HERE, 'c_costs.c')
PEER_LIBRARY = os.path.join(HERE, 'live_peer', 'target', 'release', 'liblive_peer.a')
PEER_BYTES_LIBRARY = os.path.join(HERE, 'live_peer', 'target', 'bytes', 'release', 'liblive_peer.a')
RUNS = int(os.environ.get('RUNS', '10'))
REPEATS = int(os.environ.get('REPEATS', '8'))
SETS = 3
JOURNALS = ('hand_overs', 'bursts', 'selects', 'bytes')
GROWTH = ('open_calls', 'dead_entries', 'stalls', 'one_busy', 'worst_close', 'faults', 'idle_workers', 'renewed_workers', 'cancels',
          'many_cancels', 'lives')
# those of the third edition, which the other program need not read
THIRD = ('lives',)
WORKLOADS = ('alone', 'ping_pong', 'one_to_one', 'four_to_four', 'select_over_four', 'looks_1', 'looks_2', 'looks_4')
# of c_times.c: what is timed, and of what one thread does also the instructions of a call
C_WORKLOADS = ('hand_overs', 'buffered', 'one_to_one', 'four_to_four', 'select_over_four', 'alone', 'alone_select', 'look', 'journal')
C_COUNTED = ('alone', 'alone_select', 'look')
C_CALLS = 200000
# of c_costs.c, and between how many calls it is counted: these are whole rounds of each kind
C_KINDS = ('single', 'many', 'endless', 'chapters', 'deep', 'empty', 'text', 'followed', 'early', 'late', 'reopen')
C_MARGIN = (128000, 256000)
# what each workload of hub_trials begins with, `alone` first; and between how many calls it is counted
BEGINNING = 'hub_trials::beginning::hold_with_ports*'
COUNTED = (40000, 80000)
# the calls and closes of each scenario
SCENARIOS = {'pool': 99994, 'pipeline': 69994}

# the words of a program, and the path of its standard input
Job = collections.namedtuple('Job', 'words input')
# in milliseconds, and in megabytes; `processor` is user and system time together
Usage = collections.namedtuple('Usage', 'user processor wall peak')
# a value of each program that stands in a table, or of the first alone; None where a program has none
Row = collections.namedtuple('Row', 'name values')
# a program to compare with: in which folder and by which words it is built, and a pattern of what that takes beside the tool
Peer = collections.namedtuple('Peer', 'name folder program build sources', defaults=[''])

CARGO = ['cargo', 'build', '--release', '--offline', '--quiet', '--target-dir']
NUMBERS = Peer('live_peer', 'live_peer', 'target/release/live_peer', [*CARGO, 'target'])
BYTES = Peer('live_peer with bytes', 'live_peer', 'target/bytes/release/live_peer', [*CARGO, 'target/bytes', '--features', 'bytes'])
COMPACT = Peer('compact live_peer', 'live_peer', 'target/compact/release/live_peer',
               [*CARGO, 'target/compact', '--features', 'compact'])
# of Debian's package librust-crossbeam-channel-dev, where crossbeam_peer/.cargo/config.toml looks for it too
CROSSBEAM = Peer('crossbeam_peer', 'crossbeam_peer', 'target/release/crossbeam_peer', [*CARGO, 'target'],
                 '/usr/share/cargo/registry/crossbeam-channel-*')
# go would ask git for the state of the repository, which git may refuse to tell
GO = Peer('go_peer', 'go_peer', 'out/go_peer', ['go', 'build', '-buildvcs=false', '-o', 'out/go_peer', '.'])
PEERS = (NUMBERS, BYTES, COMPACT, CROSSBEAM, GO)
# the package for Rust
RUST = Peer('rust_peer', 'rust_peer', 'target/release/rust_peer', [*CARGO, 'target'])


def skip(what):
    print('skipped: ' + what, flush=True)


def shown(number):
    return format(number, ',.0f' if number >= 1000 else '.1f')


def cells(row):
    ratio = '%.2f' % (row.values[0] / row.values[1]) if len(row.values) == 2 else '-'
    return [row.name, *[shown(value) for value in row.values], '-'][:3] + [ratio]


def cell_beside(own, value):
    """What another program's cell says: its value, and the ratio of ours to it."""
    return '-' if value is None else '%s (%.2f)' % (shown(value), own / value)


def print_lines(title, lines):
    """A table of these cells, of which the first line has the headings."""
    widths = [max(map(len, column)) for column in zip(*lines)]
    lines.insert(1, ['-' * widths[0]] + ['-' * (width - 1) + ':' for width in widths[1:]])
    print('\n%s\n' % title)
    for name, *values in lines:
        padded = [name.ljust(widths[0])] + [value.rjust(width) for value, width in zip(values, widths[1:])]
        print('| %s |' % ' | '.join(padded), flush=True)
    print()


def print_table(title, ours, other, rows):
    print_lines(title, [['', ours, other, 'Ratio']] + [cells(row) for row in rows])


def print_beside(title, ours, others, rows):
    """A table in which several programs stand beside ours."""
    lines = [['', ours, *others]]
    for row in rows:
        own, *values = row.values
        values += [None] * (len(others) - len(values))
        lines.append([row.name, shown(own), *[cell_beside(own, value) for value in values]])
    print_lines('%s, with the ratio of %s to each' % (title, ours), lines)


def run(job, status=0):
    """What one run takes. A peak below some 20 MB may be this script's own, which a new process starts from."""
    with open(job.input, 'rb') as file:
        start = time.perf_counter()
        child = subprocess.Popen(job.words, stdin=file, stdout=subprocess.DEVNULL, stderr=subprocess.DEVNULL)
        _, told, usage = os.wait4(child.pid, 0)
        wall = time.perf_counter() - start
    child.returncode = os.waitstatus_to_exitcode(told)
    if child.returncode != status:
        sys.exit('bench: %s: status %d' % (shlex.join(job.words), child.returncode))
    processor = usage.ru_utime + usage.ru_stime
    return Usage(usage.ru_utime * 1000, processor * 1000, wall * 1000, usage.ru_maxrss / 1024)


def digest(job):
    with open(job.input, 'rb') as file, subprocess.Popen(job.words, stdin=file, stdout=subprocess.PIPE) as child:
        return hashlib.file_digest(child.stdout, 'sha256').digest()


def in_turns(times, makers):
    """What each of these makes, so many times."""
    return zip(*[[make() for make in makers] for _ in range(times)])


def least_mean(times):
    """The least of the means of so many times in a row."""
    return min(statistics.mean(times[i:i + REPEATS]) for i in range(0, len(times), REPEATS))


def costs(name, beginnings, wholes):
    """Rows of what jobs take: instructions on the first lines of a journal, time and memory on the whole of it."""
    usages = [Usage(*zip(*runs)) for runs in in_turns(RUNS * REPEATS, [lambda job=job: run(job) for job in wholes])]
    if has_valgrind():
        yield Row(name + ', million instructions', [instructions(*job) / 1000000 for job in beginnings])
    yield Row(name + ', user time in ms', [least_mean(usage.user) for usage in usages])
    yield Row(name + ', processor time in ms', [min(usage.processor) for usage in usages])
    yield Row(name + ', peak memory in MB', [max(usage.peak) for usage in usages])


def journal_costs(folder, jobs_of):
    """Rows of the jobs that are made of each journal."""
    heads = os.path.join(folder, 'first_%d_lines' % LINES)
    if not os.path.exists(os.path.join(folder, JOURNALS[-1])):
        subprocess.run([os.path.join(HERE, 'make_journals.py'), folder], check=True)
    make_beginnings(heads)
    if not has_valgrind():
        skip('instructions: valgrind is not there')
    for name in JOURNALS:
        yield from costs(name, jobs_of(os.path.join(heads, name)), jobs_of(os.path.join(folder, name)))


def replay(folder, other):
    programs = [[CHANHUB, 'replay']]
    if other is None:
        skip('another program that replays: none is named')
    else:
        programs.append(shlex.split(other))

    def jobs_of(journal):
        jobs = [Job(words, journal) for words in programs]
        if len(set(map(digest, jobs))) != 1:
            sys.exit('bench: the programs write different events of ' + journal)
        return jobs

    print_table('Replays', 'chanhub replay', 'the other', journal_costs(folder, jobs_of))


def growth(folder, other):
    programs = [[CHANHUB, 'replay']] + ([] if other is None else [shlex.split(other)])
    if other is None:
        skip('another program that replays: none is named')
    if not has_valgrind():
        skip('growth: valgrind is not there')
        return
    make_growth(folder)
    rows = []
    for name in GROWTH:
        jobs = [Job(words, os.path.join(folder, name)) for words in programs[:1 if name in THIRD else None]]
        if len(set(map(digest, jobs))) != 1:
            sys.exit('bench: the programs write different events of ' + name)
        rows.append(Row(name, [instructions(job.words, job.input) / 1000000 for job in jobs]))
    print_table('Replays in which much waits, in million instructions', 'chanhub replay', 'the other', rows)


def verify(folder, _):
    def jobs_of(journal):
        events = journal + '.events'
        with open(journal, 'rb') as file, open(events, 'wb') as written:
            subprocess.run([CHANHUB, 'replay'], stdin=file, stdout=written, check=True)
        return [Job([CHANHUB, 'verify', journal, events], os.devnull), Job([CHANHUB, 'replay'], journal)]

    print_table('Comparisons', 'chanhub verify', 'chanhub replay', journal_costs(folder, jobs_of))


def median_rate(name, sets):
    """The median of what these sets of rates have under this name, in thousands, or None where they have nothing."""
    rates = [rates[name] for rates in sets if name in rates]
    return statistics.median(rates) / 1000 if rates else None


def rate_rows(names, makers):
    """For each name the medians of sets of rates, in thousands."""
    sets = list(in_turns(SETS, makers))
    for name in names:
        yield Row(name, [median_rate(name, of_one) for of_one in sets])


def rates_of(program):
    """The median rate of each workload, of RUNS runs; none where there is no program."""
    if program is None:
        return {}
    done = subprocess.run([program, 'times', '200000', str(RUNS)], stdout=subprocess.PIPE, text=True, check=True)
    fields = [line.split() for line in done.stdout.splitlines()]
    return {name: int(median) for name, _, _, _, median in fields}


def missing_of(peer):
    """What is not there of what a peer is built with, or None."""
    tool = peer.build[0]
    if not shutil.which(tool):
        return tool
    return peer.sources if peer.sources and not glob.glob(peer.sources) else None


def build(peer):
    """The path of a peer, which is built, or None where it can't be."""
    missing = missing_of(peer)
    if missing:
        skip('%s: %s is not there' % (peer.name, missing))
        return None
    folder = os.path.join(HERE, peer.folder)
    subprocess.run(peer.build, cwd=folder, check=True)
    return os.path.join(folder, peer.program)


def alone_part(calls):
    """The instructions of hub_trials from where the hub of `alone` is open to where the next one is."""
    with tempfile.TemporaryDirectory() as folder:
        counts = os.path.join(folder, 'counts')
        counted = ['valgrind', '--tool=callgrind', '--callgrind-out-file=' + counts, '--dump-before=' + BEGINNING]
        subprocess.run([*counted, TRIALS, 'times', str(calls), '1'], stdout=subprocess.DEVNULL, stderr=subprocess.DEVNULL, check=True)
        with open(counts + '.2') as part:
            return int(re.search(r'^totals: (\d+)', part.read(), re.MULTILINE)[1])


def live(*_):
    # all are built before the first is timed
    programs = [TRIALS, *[build(peer) for peer in PEERS]]
    makers = [lambda program=program: rates_of(program) for program in programs]
    title = 'The live hub, in thousands a second'
    print_beside(title, 'hub_trials', [peer.name for peer in PEERS], rate_rows(WORKLOADS, makers))
    if has_valgrind():
        few, many = [alone_part(calls) for calls in COUNTED]
        print('alone, instructions of a call: %s' % shown((many - few) / (COUNTED[1] - COUNTED[0])))
    else:
        skip('instructions: valgrind is not there')


def rates_of_runs(folder):
    """The calls a second of each scenario: those of a median run, beside the time of reading it."""
    rates = {}
    for name, calls in SCENARIOS.items():
        whole, bad = [Job([CHANHUB, 'run', os.path.join(folder, name + end)], os.devnull) for end in ('', '_read')]
        reading = min(run(bad, 2).wall for _ in range(RUNS))
        rates[name] = 1000 * calls / (statistics.median(run(whole).wall for _ in range(RUNS)) - reading)
    return rates


def scenarios(folder, _):
    subprocess.run([os.path.join(HERE, 'make_scenarios.py'), folder], check=True)
    rows = rate_rows(SCENARIOS, [lambda: rates_of(TRIALS), lambda: rates_of_runs(folder)])
    print_table('Scenarios, in thousands a second', 'hub_trials', 'chanhub run', rows)


def linked(source, name, library, folder):
    """A program of this source, linked with this library."""
    program = os.path.join(folder, name)
    words = ['cc', '-O2', '-std=c11', '-D_POSIX_C_SOURCE=200809L', '-I' + os.path.join(ROOT, 'capi'), source, library]
    subprocess.run([*words, '-lpthread', '-ldl', '-lm', '-o', program], check=True)
    return program


def c_rates(program):
    """The best and the median rate of each workload, of RUNS runs."""
    done = subprocess.run([program, str(C_CALLS), str(RUNS)], stdout=subprocess.PIPE, text=True, check=True)
    fields = [line.split() for line in done.stdout.splitlines()]
    return {name: {'best': int(best), 'median': int(median)} for name, _, best, _, median in fields}


def call_instructions(program, *more):
    """The instructions of one call: what 100,000 more of them take."""
    few, many = [instructions([program, str(calls), *more], os.devnull) for calls in (C_CALLS // 2, C_CALLS)]
    return (many - few) / (C_CALLS // 2)


def c_rows(programs):
    """Rows of what each program takes, all in turns."""
    sets = list(in_turns(SETS, [lambda program=program: c_rates(program) for program in programs]))
    for name in C_WORKLOADS:
        yield Row(name + ', best', [max(rates[name]['best'] for rates in of_one) / 1000 for of_one in sets])
        yield Row(name + ', median', [statistics.median(rates[name]['median'] for rates in of_one) / 1000 for of_one in sets])
    if has_valgrind():
        for name in C_COUNTED:
            yield Row(name + ', instructions of a call', [call_instructions(program, '1', name) for program in programs])
        yield Row('alone_bytes, instructions of a call', [call_instructions(programs[0], '1', 'alone_bytes')])
    else:
        skip('instructions: valgrind is not there')


def capi(folder, _):
    os.makedirs(folder, exist_ok=True)
    programs = [linked(C_TIMES, 'c_times_chanhub', LIBRARY, folder)]
    if build(NUMBERS) and build(BYTES):
        programs += [linked(C_TIMES, 'c_times_numbers', PEER_LIBRARY, folder), linked(C_TIMES, 'c_times_bytes', PEER_BYTES_LIBRARY, folder)]
    title = 'The C library, in thousands of calls a second, and of bytes of the journal a second'
    print_beside(title, 'libchanhub', [NUMBERS.name, BYTES.name], c_rows(programs))
    from_rust = build(RUST) if has_valgrind() else None
    if from_rust:
        from_c = call_instructions(programs[0], '1', 'alone')
        row = Row('alone, instructions of a call', [call_instructions(from_rust), from_c])
        print_table('The package for Rust', 'from Rust', 'from C', [row])


def c_costs(folder, _):
    if not has_valgrind():
        skip('costs: valgrind is not there')
        return
    os.makedirs(folder, exist_ok=True)
    program = linked(C_COSTS, 'c_costs', LIBRARY, folder)
    rows = []
    for kind in C_KINDS:
        few, many = [instructions([program, kind, str(calls)], os.devnull) for calls in C_MARGIN]
        rows.append(Row(kind, [(many - few) / (C_MARGIN[1] - C_MARGIN[0])]))
    single = rows[0].values[0]
    print_lines('Instructions of a call of the C library', [['', 'libchanhub', 'To single']] + [
        [row.name, shown(row.values[0]), '%.2f' % (row.values[0] / single)] for row in rows])


# each part, and what has to be built for it
PARTS = {
    'replay': (replay, [CHANHUB]),
    'growth': (growth, [CHANHUB]),
    'verify': (verify, [CHANHUB]),
    'live': (live, [TRIALS]),
    'scenarios': (scenarios, [TRIALS, CHANHUB]),
    'capi': (capi, [LIBRARY]),
    'costs': (c_costs, [LIBRARY]),
}


def main():
    parser = argparse.ArgumentParser(description=__doc__, formatter_class=argparse.RawDescriptionHelpFormatter)
    parser.add_argument('folder', metavar='FOLDER')
    parser.add_argument('other', metavar='OTHER', nargs='?')
    parser.add_argument('--only', metavar='PART', choices=PARTS)
    said = parser.parse_args()
    for name in [said.only] if said.only else PARTS:
        part, programs = PARTS[name]
        missing = [os.path.relpath(program, ROOT) for program in programs if not os.path.exists(program)]
        if missing:
            skip('%s: not built: %s' % (name, ' '.join(missing)))
        else:
            part(said.folder, said.other)


if __name__ == '__main__':
    main()
