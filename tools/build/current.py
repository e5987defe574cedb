#!/usr/bin/env python3
"""Whether a crate, and all that it stands on, is built and current.

    current.py CRATE                status 0, or 1 where something is to be built
    current.py --sources CRATE      prints the files that it is built from, as seen from the working directory

A crate is current where it is as new as its sources and as what it stands on, whoever built it, and was built by the line that
crates.txt has for it now. So a line that changes makes its own crate stale, with those above it, and no other. Builds nothing.
Where all is current it leaves the file out/checked of the crate, as old as the check: while no file has changed since, all still
is.
"""
import contextlib
import os
import signal
import sys
import time

sys.dont_write_bytecode = True
from crates import LIST, ROOT, below, folder, is_program, kind_of, line_of, read_crates, rlib

# a kernel's times lag behind a clock, by less than so many nanoseconds
LAG = 50_000_000


def output(crate):
    """What a build of this crate makes."""
    if is_program(crate):
        return os.path.join(folder(ROOT, crate), 'out', crate)
    return os.path.join(folder(ROOT, crate), 'out', f'lib{crate}.a') if kind_of(crate) else rlib(crate)


def sources(crate):
    for part in ('src', 'specs', 'proofs'):
        for place, _, files in os.walk(os.path.join(folder(ROOT, crate), part)):
            yield from (os.path.join(place, name) for name in files)


def time_of(path):
    return os.stat(path).st_mtime_ns


def note_of(crate):
    """Where the line stands that the crate was built by, and below it the time of what was built then, which is what it speaks
    of."""
    return os.path.join(folder(ROOT, crate), 'out', 'built_by')


def note(crate):
    write(note_of(crate), f'{line_of(crate)}\n{time_of(output(crate))}\n', time.time_ns())


def write(path, text, when):
    """Writes a file of this time, which nobody meets half of."""
    with open(path + '.part', 'w') as file:
        file.write(text)
    os.utime(path + '.part', ns=(when, when))
    os.replace(path + '.part', path)


def is_by_its_line(crate):
    """Whether what is built was built by the crate's line of today. `rt` leaves no note of it: what it built counts where
    crates.txt is not newer, and has a note from then on."""
    time = time_of(output(crate))
    try:
        with open(note_of(crate)) as file:
            line, noted = file.read().splitlines()
    except (OSError, ValueError):
        noted = None
    if noted == str(time):
        return line == line_of(crate)
    if time < time_of(LIST):
        return False
    with contextlib.suppress(OSError):
        # A folder may not be ours to write to.
        note(crate)
    return True


def stale(crate, crates):
    """The crates that have to be built, of this one and those below it."""
    known = {}

    def is_stale(crate):
        if crate not in known:
            made = output(crate)
            known[crate] = (
                any([is_stale(it) for it in crates[crate]])
                or not os.path.exists(made)
                or time_of(made) < max(map(time_of, [*sources(crate), *map(output, crates[crate])]))
                or not is_by_its_line(crate)
            )
        return known[crate]

    is_stale(crate)
    return {it for it, is_old in known.items() if is_old}


def look(crate, crates, began):
    """The status for a crate."""
    if stale(crate, crates):
        return 1
    with contextlib.suppress(OSError):
        write(os.path.join(folder(ROOT, crate), 'out', 'checked'), '', began)
    return 0


def main():
    # Ctrl-C ends it without a word.
    signal.signal(signal.SIGINT, signal.SIG_DFL)
    began = time.time_ns() - LAG
    crates = read_crates()
    words = sys.argv[1:]
    lists = words[:1] == ['--sources']
    if len(words) != 1 + lists or words[-1] not in crates:
        print('usage: current.py [--sources] CRATE, which crates.txt lists', file=sys.stderr)
        return 2
    crate = words[-1]
    if not lists:
        return look(crate, crates, began)
    for it in sorted({crate, *below(crate, crates)}):
        # A path from here has none of the spaces that the path to here may have, which a Makefile can't take.
        print(*map(os.path.relpath, sources(it)), sep='\n')
    return 0


if __name__ == '__main__':
    sys.exit(main())
