#!/usr/bin/env python3
"""The events of a journal, by the rules and nothing else: lists, and a search through them for each step.

    model.py < JOURNAL

It is a second reading of docs/SEMANTICS.md, slow and short, to compare the program with. It keeps no limit on the length of a
journal.
"""
import os
import re
import sys

VALUE = '(?:[0-9]+|#(?:[0-9a-f]{2})*)'
LINES = [re.compile(it) for it in (
    'chanhub journal [123]', 'procs [0-9]+',
    f'[0-9]+ (?:make [0-9]+|send [0-9]+ {VALUE}|recv [0-9]+|select [0-9]+(?: s[0-9]+:{VALUE}| r[0-9]+)*(?: default)?|close [0-9]+|exit|cancel [0-9]+'
    '|start [0-9]+|reopen [0-9]+ [0-9]+)')]


def end_with(text):
    """Ends the script, and says why."""
    sys.exit(f'{os.path.basename(sys.argv[0])}: {text}')


def help_if_asked(text):
    if sys.argv[1:] in (['-h'], ['--help']):
        print(text.strip())
        sys.exit()


def lines_of(name=None):
    """The lines of a journal, which this file holds, or standard input."""
    what = name or 'standard input'
    number = 0
    try:
        with open(0 if name is None else name, encoding='ascii', errors='surrogateescape', newline='\n') as file:
            for number, line in enumerate(file, 1):
                if not line.endswith('\n') or not LINES[min(number, len(LINES)) - 1].fullmatch(line[:-1]):
                    end_with(f'{what}: line {number} is none of a journal')
                yield line[:-1]
    except OSError as error:
        end_with(f'{what}: {error.strerror}')
    if number < len(LINES) - 1:
        end_with(f'{what}: line {number + 1} is none of a journal')


class Hub:
    def __init__(self, edition, procs):
        self.most_cases = 8 if edition == 1 else 16
        self.procs = procs
        self.gone = set()
        self.waiting = []  # (process, cases), oldest first
        self.ports = []  # {'cap', 'buffer', 'closed'}
        self.events = []

    def tell(self, pid, what):
        self.events.append(f'{pid} {what}')

    def channel(self, port):
        return self.ports[port - 1]

    def end(self, pid):
        self.waiting = [call for call in self.waiting if call[0] != pid]

    def oldest(self, side, port):
        """The oldest waiting call with such a case, and the lowest such case."""
        for pid, cases in self.waiting:
            for index, case in enumerate(cases):
                if case[0] == side and case[1] == port:
                    return pid, index, case
        return None

    def can_proceed(self, case):
        side, port = case[:2]
        if port == 0:
            return False
        channel = self.channel(port)
        if side == 's':
            return bool(channel['closed'] or self.oldest('r', port) or len(channel['buffer']) < channel['cap'])
        return bool(channel['buffer'] or self.oldest('s', port) or channel['closed'])

    def send(self, pid, index, port, value):
        channel = self.channel(port)
        if channel['closed']:
            return self.tell(pid, f'case {index} closed')
        self.tell(pid, f'case {index} sent')
        met = self.oldest('r', port)
        if met is None:
            channel['buffer'].append(value)
        else:
            self.end(met[0])
            self.tell(met[0], f'case {met[1]} got {value}')

    def receive(self, pid, index, port):
        channel = self.channel(port)
        met = self.oldest('s', port)
        if met is not None:
            channel['buffer'].append(met[2][2])
            self.end(met[0])
        if not channel['buffer']:
            return self.tell(pid, f'case {index} drained')
        self.tell(pid, f'case {index} got {channel["buffer"].pop(0)}')
        if met is not None:
            self.tell(met[0], f'case {met[1]} sent')

    def call(self, pid, cases, default, word):
        ready = [index for index, case in enumerate(cases) if self.can_proceed(case)]
        if ready:
            index = ready[word % len(ready)]
            if cases[index][0] == 's':
                self.send(pid, index, *cases[index][1:])
            else:
                self.receive(pid, index, cases[index][1])
        elif default:
            self.tell(pid, 'default')
        else:
            self.waiting.append((pid, cases))
            self.tell(pid, 'parked')

    def close(self, pid, port):
        self.tell(pid, 'done')
        self.channel(port)['closed'] = True
        for other, cases in self.waiting:
            for index, case in enumerate(cases):
                if case[1] == port:
                    self.tell(other, f'case {index} {"closed" if case[0] == "s" else "drained"}')
                    self.end(other)
                    break

    def fault(self, word, step):
        if word == 'make':
            return 6 if step > 1024 else 7 if len(self.ports) == 64 else None
        if word == 'call':
            if len(step[0]) > self.most_cases:
                return 4
            return 5 if any(case[1] > len(self.ports) for case in step[0]) else None
        if word == 'cancel':
            return None if any(step == other for other, _ in self.waiting) else 12
        if word == 'close':
            if step > len(self.ports):
                return 5
            return 8 if step == 0 else 9 if self.channel(step)['closed'] else None
        if word == 'start':
            return None if step in self.gone else 17
        if word == 'reopen':
            port, cap = step
            if port > len(self.ports):
                return 5
            if cap > 1024:
                return 6
            if port == 0:
                return 8
            channel = self.channel(port)
            return None if channel['closed'] and not channel['buffer'] else 16
        return None

    def refusal(self, pid):
        if pid >= self.procs:
            return 1
        if pid in self.gone:
            return 2
        return 3 if any(pid == other for other, _ in self.waiting) else None

    def step(self, pid, word, step):
        fault = self.refusal(pid) or self.fault(word, step)
        if fault is not None:
            return self.tell(pid, f'fault {fault}')
        if word == 'make':
            self.ports.append({'cap': step, 'buffer': [], 'closed': False})
            self.tell(pid, f'made {len(self.ports)}')
        elif word == 'call':
            self.call(pid, *step)
        elif word == 'close':
            self.close(pid, step)
        elif word == 'cancel':
            self.end(step)
            self.tell(pid, 'done')
            self.tell(step, 'cancelled')
        elif word == 'start':
            self.gone.remove(step)
            self.tell(pid, 'done')
        elif word == 'reopen':
            self.channel(step[0]).update(cap=step[1], closed=False)
            self.tell(pid, 'done')
        else:
            self.gone.add(pid)
            self.tell(pid, 'done')
        waiting = [other for other, _ in self.waiting]
        if waiting and all(other in self.gone or other in waiting for other in range(self.procs)):
            for other in waiting:
                self.tell(other, 'stalled')
            self.waiting = []


def value(text):
    """A number, or bytes, which no rule looks into: `#` and their digits."""
    return text if text.startswith('#') else int(text)


def case(text):
    if text[0] == 'r':
        return 'r', int(text[1:])
    port, sent = text[1:].split(':')
    return 's', int(port), value(sent)


def step(fields):
    word = fields[0]
    if word in ('make', 'close', 'cancel', 'start'):
        return word, int(fields[1])
    if word == 'reopen':
        return word, (int(fields[1]), int(fields[2]))
    if word == 'send':
        return 'call', ([('s', int(fields[1]), value(fields[2]))], False, 0)
    if word == 'recv':
        return 'call', ([('r', int(fields[1]))], False, 0)
    if word == 'select':
        default = fields[-1] == 'default'
        return 'call', ([case(text) for text in fields[2:len(fields) - default]], default, int(fields[1]))
    if word == 'exit':
        return word, None
    sys.exit(f'there is no step {word}')


def events_of(journal):
    return events_of_lines(journal.splitlines())


def events_of_lines(lines):
    hub = Hub(int(lines[0].split()[2]), int(lines[1].split()[1]))
    for line in lines[2:]:
        fields = line.split()
        hub.step(int(fields[0]), *step(fields[1:]))
    return hub.events


def main():
    help_if_asked(__doc__)
    sys.stdout.write(''.join(event + '\n' for event in events_of_lines(list(lines_of()))))


if __name__ == '__main__':
    main()
