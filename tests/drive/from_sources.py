#!/usr/bin/env python3
"""from_sources.py PROGRAM: whether ./chanhub in a tree where nothing is built does what the built chanhub (PROGRAM) does, but for
its own lines on standard error. The last line counts: 'N passed, M failed'."""
import os
import pathlib
import re
import shutil
import sys
import tempfile

sys.dont_write_bytecode = True
from programs import JOURNALS, ROOT, SCENARIOS, Count, said

PARTS = ('chanhub', 'crates', 'crates.txt', 'examples', 'tests', 'tools')
UNPROVED = re.compile(rb'^chanhub: from sources.*, not proved: .*\n', re.M)
HELP = re.compile(rb'^\./chanhub: .*\n', re.M)


def told(program, words, tree):
    with open(JOURNALS / 'pipeline', 'rb') as given:
        return said([program, *words], cwd=tree / 'examples', stdin=given, timeout=None)


def is_same(program, words, tree):
    status, output, errors = told(tree / 'chanhub', words, tree)
    own = HELP.sub(b'', UNPROVED.sub(b'', errors))
    return (status, output, own) == told(program, words, tree) and len(UNPROVED.findall(errors)) == 1


def main():
    program = os.path.abspath(sys.argv[1])
    count = Count()
    with tempfile.TemporaryDirectory() as work:
        tree = pathlib.Path(work) / 'a tree'
        tree.mkdir()
        for name in PARTS:
            source = ROOT / name
            if source.is_dir():
                shutil.copytree(source, tree / name, ignore=shutil.ignore_patterns('out'), symlinks=True)
            else:
                shutil.copy2(source, tree / name)
        scenarios = [['run', f'scenarios/{it.stem}'] for it in sorted(SCENARIOS.glob('*.stdout'))]
        for words in (*scenarios, ['replay'], ['verify', 'journals/pipeline', 'journals/pipeline.stdout'],
                      ['verify', 'journals/pipeline', 'scenarios/ring'], ['run', 'missing'], ['run', 'README.md'], ['run', '--journal']):
            count.test(' '.join(words), is_same(program, words, tree))
        explain = [tree / 'tools' / 'explain.sh', '--every', 'philosophers']
        _, printed, errors = said(explain, cwd=tree / 'examples', env={**os.environ, 'TMPDIR': work, 'OPENER': ':'}, timeout=None)
        count.test('explain.sh --every', printed.startswith(b'stall after 10 steps\n'), errors)
    return count.end()


if __name__ == '__main__':
    sys.exit(main())
