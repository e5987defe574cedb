#!/usr/bin/env python3
"""program.py [PROGRAM [TOOL]]: tries the built programs, the C library, and the pages, by the scripts that are listed here.

Adds what their last lines count; a script that counts nothing counts once, by its status, and status 77 says that it tried
nothing for what the machine lacks. Prints of each that fails what it said. The last line counts: 'N passed, M failed', and how
many were skipped, if any. Before it stands once more what failed.
"""
import os
import subprocess
import sys
from concurrent.futures import ThreadPoolExecutor

sys.dont_write_bytecode = True
from counting import Count

ROOT = os.path.dirname(os.path.dirname(os.path.dirname(os.path.abspath(__file__))))
BUILT = os.path.join(ROOT, 'crates', '{0}', 'out', '{0}')
SKIPPED = 77

# These take longest, and run beside the others.
LONG = (
    'tests/drive/from_sources.py PROGRAM',
    'tools/gate/capi.sh PROGRAM',
    'tests/drive/refusals.py PROGRAM',
    'tools/gate/instructions.py PROGRAM',
    'tests/drive/story.py TOOL',
    'tests/drive/builds_test.py',
    'tests/drive/scenarios_test.py PROGRAM TOOL',
    'tests/oracle/go_compare/compare.sh PROGRAM',
)
# One after the other.
SHORT = (
    'tests/drive/examples.py PROGRAM',
    'tests/drive/rows.py PROGRAM',
    'tests/drive/cuts.py PROGRAM TOOL',
    'tests/drive/explorations.py PROGRAM TOOL',
    'tests/drive/arguments.py PROGRAM TOOL',
    'tests/drive/tool.py TOOL',
    'tests/drive/converse.py PROGRAM TOOL',
    'tests/drive/sleeps.py PROGRAM',
    'tools/gate/receivers_close_nothing.sh',
    'tools/gate/check_pages.py',
    'tools/gate/edits_test.py',
    'tools/embed_viewer.py --check',
    'tests/drive/picture.py TOOL',
    'tests/drive/viewers.py TOOL',
    'tests/drive/page_test.py TOOL',
)


def run(line, programs):
    words = [programs.get(word, word) for word in line.split()]
    return subprocess.run(words, cwd=ROOT, stdin=subprocess.DEVNULL, stdout=subprocess.PIPE, stderr=subprocess.STDOUT, text=True, errors='replace')


def tell(count, script, done):
    """Counts what a script did."""
    lines = done.stdout.splitlines()
    if done.returncode == SKIPPED:
        count.skip(f'{script}: {lines[-1] if lines else ""}')
        return
    has_failed = count.failed
    # Its failures stand under its name.
    if not count.add('\n'.join(f'failed: {script}: {it[8:]}' if it.startswith('failed: ') else it for it in lines)):
        count.test(script, done.returncode == 0)
    elif done.returncode != 0 and count.failed == has_failed:
        count.test(script, False, f'status {done.returncode}')
    is_well = count.failed == has_failed
    print(''.join(f'{script}: {it}\n' for it in lines if not is_well or it.startswith('skipped: ')), end='', flush=True)


def is_taken_as_built():
    """What is built and current is not built once more."""
    example = 'examples/journals/hand_over'
    done = run(f'./chanhub verify {example} {example}.stdout', {})
    return (done.returncode, done.stdout) == (0, 'same\n') and run('tools/build/build.py chanhub', {}).stdout == ''


def main():
    given = [os.path.abspath(it) for it in sys.argv[1:]]
    program, tool = [*given, *map(BUILT.format, ('chanhub', 'chanhub_tool')[len(given):])]
    programs = {'PROGRAM': program, 'TOOL': tool}
    count = Count()
    with ThreadPoolExecutor(len(LONG)) as pool:
        begun = [(line, pool.submit(run, line, programs)) for line in LONG]
        for line in SHORT:
            tell(count, line.split()[0], run(line, programs))
        if program == BUILT.format('chanhub'):
            count.test('the program is taken as it is built', is_taken_as_built())
        for line, done in begun:
            tell(count, line.split()[0], done.result())
    print(''.join(f'failed: {it}\n' for it in count.failures), end='')
    return count.end()


if __name__ == '__main__':
    sys.exit(main())
