#!/usr/bin/env python3
"""Writes the scenarios that are timed, the same wherever they are made.

    make_scenarios.py FOLDER

`pool` and `pipeline` have 8 processes each. `pool_read` and `pipeline_read` are the same with a bad step behind their
last one, so they are read and not run.
"""
import os
import sys


def write(path, ports, scripts):
    with open(path, 'w') as file:
        file.write('limit = 1000000\nports = %s\nprocess = [\n' % ports)
        for steps in scripts:
            file.write('    { steps = [%s] },\n' % ', '.join('"%s"' % step for step in steps))
        file.write(']\n')


def pool():
    """Five processes send 49,991 values on one port, of which three share the receives. Four tell the first on a second
    port that they are done, and the first closes the pool: 99,994 calls and closes."""
    first = ['send 1 7'] * 9995 + ['recv 2'] * 4 + ['close 1']
    others = [['send 1 7'] * 9999 + ['send 2 1'] for _ in range(4)]
    return [64, 4], [first] + others + [['range 1']] * 3


def pipeline():
    """4,999 values and a close go through 8 stages, by 7 ports: 69,994 calls and closes."""
    count = 4999
    middle = [['recv %d' % port, 'send %d 7' % (port + 1)] * count + ['close %d' % (port + 1)] for port in range(1, 7)]
    return [64] * 7, [['send 1 7'] * count + ['close 1']] + middle + [['range 7']]


def main(folder):
    for name, (ports, scripts) in (('pool', pool()), ('pipeline', pipeline())):
        write(os.path.join(folder, name), ports, scripts)
        write(os.path.join(folder, name + '_read'), ports, scripts[:-1] + [scripts[-1] + ['bad']])


if __name__ == '__main__':
    if len(sys.argv) != 2:
        sys.exit(__doc__.strip())
    os.makedirs(sys.argv[1], exist_ok=True)
    main(sys.argv[1])
