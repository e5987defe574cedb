#!/usr/bin/env python3
"""sleeps.py [PROGRAM]: runs scenarios by the built program in which a thread waits for a second, for a value or for the lock of
the hub, and looks how much of the processor that takes: who waits has to sleep. The last line counts: 'N passed, M failed'."""
import os
import sys
import tempfile
import time

sys.dont_write_bytecode = True
from programs import Count, build_library, busy_time, said
from rows import PROGRAM

# A run takes some hundredths of a second of the processor; a wait that does not sleep takes a whole one.
MOST_BUSY = 0.5

SENDS = "ports = [0]\n[[process]]\nsteps = ['send 1 7']\n[[process]]\nsteps = ['recv 1']\n"
SELECTS = 'ports = []\n' + 2 * ('[[process]]\nsteps = [%s]\n' % (3000 * "'select default',"))

# what is slow, by slow.c; the scenario; and its report
ROWS = {
    # Process 0 begins late.
    'value': ({'SLOW_START': '1'}, SENDS, 'port 1 cap 0 sent 1 received 1 left 0 sum 7 open\n'),
    # At some step the journal grows slowly, under the lock.
    'lock': ({'SLOW_GROWTH': '1000000'}, SELECTS, ''),
}


def run(library, slow, scenario):
    """What a run tells; how long it took, and how much of the processor."""
    began, busy = time.monotonic(), busy_time()
    told = said([PROGRAM, 'run'], scenario.encode(), env={**os.environ, 'LD_PRELOAD': library, **slow})
    return told, time.monotonic() - began, busy_time() - busy


def main():
    count = Count()
    with tempfile.TemporaryDirectory() as folder:
        library = build_library(folder, 'slow')
        for name, (slow, scenario, report) in ROWS.items():
            told, took, busy = run(library, slow, scenario)
            good = told == (0, report.encode(), b'') and took >= 1 and busy < MOST_BUSY
            count.test(f'a wait for the {name}', good, f'status {told[0]}, {took:.2f} s, of them {busy:.2f} s of the processor')
    return count.end()


if __name__ == '__main__':
    sys.exit(main())
