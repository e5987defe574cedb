#!/usr/bin/env python3
"""compare.py FOLDER [PROGRAM]: whether what FOLDER/told says each process was told is what a replay of FOLDER/journal tells it.

The replay is that of PROGRAM, a built chanhub; where none is named, that of tools/model.py, by the rules alone.
"""
import os
import subprocess
import sys

TOOLS = os.path.join(os.path.dirname(os.path.abspath(__file__)), '..', '..', 'tools')


def by_process(lines):
    """The lines of each process, but for those that say that its call waits."""
    told = {}
    for line in lines:
        pid, what = line.split(' ', 1)
        if what != 'parked':
            told.setdefault(pid, []).append(what)
    return told


def main():
    folder = sys.argv[1]
    with open(os.path.join(folder, 'journal'), 'rb') as journal:
        model = [sys.executable, os.path.join(TOOLS, 'model.py')]
        replay = [sys.argv[2], 'replay'] if len(sys.argv) > 2 else model
        events = subprocess.run(replay, stdin=journal, stdout=subprocess.PIPE, check=True).stdout.decode()
    with open(os.path.join(folder, 'told'), encoding='ascii') as told:
        same = by_process(told.read().splitlines()) == by_process(events.splitlines())
    print('the same' if same else 'another')
    sys.exit(0 if same else 1)


if __name__ == '__main__':
    main()
