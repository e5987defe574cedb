#!/usr/bin/env python3
"""report.py PROGRAM JOURNAL..: writes beside each journal, as JOURNAL.report, what a run that had this journal reports.

PROGRAM is the built chanhub, whose replay gives the events. A file that does not begin as a journal is its own report.
"""
import re
import subprocess
import sys


class Port:
    def __init__(self, cap):
        self.cap = cap
        self.sent = self.received = self.sum = 0
        self.end = 'open'

    def line(self, number):
        left = self.sent - self.received
        return f'port {number} cap {self.cap} sent {self.sent} received {self.received} left {left} sum {self.sum} {self.end}\n'


def ports_of(fields):
    """By case, the port of an entry that is a call; of a close its port."""
    if fields[1] == 'select':
        return [int(re.match(r'[sr](\d+)', it)[1]) for it in fields[3:] if it != 'default']
    return [int(fields[2])] if fields[1] in ('send', 'recv', 'close') else []


def report_of(entries, events):
    """The report of a journal with these lines and these events: each process is told of its entries in their order."""
    asked = {}
    for line in entries:
        fields = line.split(' ')
        asked.setdefault(fields[0], []).append(fields)
    ports, stalled, faults = {}, 0, 0
    for line in events:
        pid, what, *rest = line.split(' ')
        entry = asked[pid][0]
        if what == 'parked':
            continue
        asked[pid].pop(0)
        if what == 'made':
            ports[int(rest[0])] = Port(entry[2])
        elif what == 'case' and rest[1] in ('sent', 'got'):
            port = ports[ports_of(entry)[int(rest[0])]]
            port.sent += rest[1] == 'sent'
            port.received += rest[1] == 'got'
            port.sum += int(rest[2]) if rest[1] == 'got' and not rest[2].startswith('#') else 0
        elif what == 'done' and entry[1] == 'close':
            ports[ports_of(entry)[0]].end = 'closed'
        stalled += what == 'stalled'
        faults += what == 'fault'
    counts = [f'{name} {count}\n' for name, count in (('stalled', stalled), ('faults', faults)) if count]
    return ''.join([ports[number].line(number) for number in sorted(ports)] + counts)


def main():
    program, *journals = sys.argv[1:]
    for path in journals:
        with open(path) as file:
            text = file.read()
        report = text
        if text.startswith('chanhub journal '):
            events = subprocess.run([program, 'replay'], input=text, capture_output=True, text=True, check=True).stdout
            report = report_of(text.splitlines()[2:], events.splitlines())
        with open(path + '.report', 'w') as file:
            file.write(report)


if __name__ == '__main__':
    main()
