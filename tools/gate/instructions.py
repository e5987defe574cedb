#!/usr/bin/env python3
"""instructions.py [PROGRAM]: counts the instructions of `chanhub replay` on the first 100,000 lines of journals
that benches/make_journals.py makes, and on some that benches/make_growth.py makes, and compares them with those that are
written here.

A count fails where it is more than 5 percent above. One as far below passes, and is told, so that what is written is
lowered. Where valgrind is not there nothing is counted, and the status is 77.
"""
import os
import re
import shutil
import subprocess
import sys
import tempfile

ROOT = os.path.join(os.path.dirname(os.path.abspath(__file__)), '..', '..')
LINES = 100000
SKIPPED = 77

# Date: 2026-12-01. Toolchain (`rt version`): `rattle-kit-13f logic dac8208d650f15bf`. Counted by valgrind 3.19.0.
WRITTEN = {
    'hand_overs': 38_315_555,
    'bursts': 25_350_740,
    'selects': 111_824_656,
    'bytes': 68_393_944,
    'open_calls': 77_404_044,
    'worst_close': 33_318_303,
    'idle_workers': 15_390_469,
    'renewed_workers': 15_109_749,
    'cancels': 13_408_748,
    'many_cancels': 67_166_794,
    'lives': 10_640_099,
}
PERCENT = 5


def make_beginnings(folder):
    """Writes the first lines of the big journals."""
    maker = os.path.join(ROOT, 'benches', 'make_journals.py')
    subprocess.run([maker, folder, str(LINES)], stdout=subprocess.DEVNULL, check=True)


def make_growth(folder):
    """Writes the journals in which much waits, or has waited."""
    subprocess.run([os.path.join(ROOT, 'benches', 'make_growth.py'), folder], check=True)


def has_valgrind():
    return shutil.which('valgrind') is not None


def instructions(words, path):
    """How many a program with these words takes, whose standard input is this file."""
    counted = ['valgrind', '--tool=callgrind', '--callgrind-out-file=/dev/null', *words]
    with open(path, 'rb') as file:
        done = subprocess.run(counted, stdin=file, stdout=subprocess.DEVNULL, stderr=subprocess.PIPE, text=True)
    if done.returncode != 0:
        sys.exit('%s: status %d: %s' % (' '.join(counted), done.returncode, done.stderr))
    return int(re.search(r'Collected : (\d+)', done.stderr)[1])


def is_within(name, count):
    """Whether a count may be; one that is far from what is written is told."""
    percent = 100 * count / WRITTEN[name]
    if abs(percent - 100) > PERCENT:
        told = 'too many' if percent > 100 else 'what is written may be lowered'
        print('instructions: %s: %d, %.1f percent of what is written: %s' % (name, count, percent, told))
    return percent <= 100 + PERCENT


def main(program):
    if not has_valgrind():
        print('instructions: skipped: valgrind is not there')
        sys.exit(SKIPPED)
    with tempfile.TemporaryDirectory() as folder:
        make_beginnings(folder)
        make_growth(folder)
        counts = {name: instructions([program, 'replay'], os.path.join(folder, name)) for name in WRITTEN}
    sys.exit(0 if all([is_within(name, count) for name, count in counts.items()]) else 1)


if __name__ == '__main__':
    main(sys.argv[1] if len(sys.argv) > 1 else os.path.join(ROOT, 'crates', 'chanhub', 'out', 'chanhub'))
