#!/usr/bin/env python3
"""page_times.py [TOOL]: makes the pages of the four journals of make_journals.py, a million steps each, by the built chanhub_tool (TOOL) or
else by tests/oracle/page.py, which takes minutes, and prints how long they take to open and to move, and their bytes a step."""
import pathlib
import subprocess
import sys
import tempfile
import time

sys.dont_write_bytecode = True
ROOT = pathlib.Path(__file__).resolve().parent.parent
sys.path.insert(0, str(ROOT / 'tests/drive'))
from page_test import Browser

NAMES = ('hand_overs', 'bursts', 'selects', 'bytes')


def measure(name, path):
    """Opens a page, and prints what it costs."""
    with tempfile.TemporaryDirectory() as user:
        browser = Browser(user)
        began = time.monotonic()
        browser.open(path)
        clock, opened, steps = time.monotonic() - began, browser.seconds(), browser.value('page.journal.steps')
        print(f'{name}: {path.stat().st_size / steps:.1f} bytes a step, open after {opened:.2f} s of the processor, {clock:.2f} s by the clock')
        for share in 1, 0.1, 0.01, 0.005, 0.0005, 0.0001:
            browser.value(f'page.view.show({steps} * 0.3, {steps} * {share}); page.paint()')
            took = browser.value('timesOfMoves()')
            print(f'  {int(steps * share)} steps: a move takes {took[10]:.0f} ms, at most {took[-1]:.0f}')
        before = browser.seconds()
        browser.value("page.find('P3')")
        print(f'  P3 is found in {browser.seconds() - before:.1f} s')
        browser.end()


def main():
    maker = [sys.argv[1], 'page'] if len(sys.argv) > 1 else [ROOT / 'tests/oracle/page.py', '/dev/stdin']
    with tempfile.TemporaryDirectory() as folder:
        subprocess.run([ROOT / 'benches/make_journals.py', folder], check=True, stdout=subprocess.DEVNULL)
        for name in NAMES:
            path = pathlib.Path(folder) / f'{name}.html'
            with open(pathlib.Path(folder) / name) as journal, open(path, 'w') as made:
                subprocess.run(maker, stdin=journal, stdout=made, check=True)
            measure(name, path)


if __name__ == '__main__':
    main()
