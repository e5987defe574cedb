"""The worked journals that stand as theorems beside the definitions, `events HEAD STEPS ≡ EVENTS`, as texts of steps and events.

They are read word for word by the notation of hub_base/specs/Notation.antt, so that a row of tests/ can be compared with its
theorem.
"""
import functools
import os
import re

SPECS = os.path.join(os.path.dirname(os.path.abspath(__file__)), '..', '..', 'crates', 'hub_base', 'specs')
TOKEN = re.compile(r'\[\]|[()∷λ.]|\+\+|[^\s()∷.]+')


def read(*parts):
    with open(os.path.join(SPECS, *parts), encoding='utf-8') as file:
        return file.read()


def step_of_call(pid, word, cases, default):
    if len(cases) == 1 and not default and word == 0:
        side, rest = cases[0][0], cases[0][1:].replace(':', ' ')
        return '%d %s %s' % (pid, {'s': 'send', 'r': 'recv'}[side], rest)
    return ' '.join(['%d select %d' % (pid, word), *cases, *['default'] * default])


def bytes_of(values):
    return '#' + bytes(values).hex()


WORDS = {
    'true': True, 'false': False, '[]': [], 'Sent': 'sent', 'Closed': 'closed', 'Drained': 'drained',
    'procs': lambda n: (1, n), 'procs_two': lambda n: (2, n), 'procs_three': lambda n: (3, n), 'port': lambda p: p, 'value_of': lambda v: v, 'bytes_of': bytes_of,
    's': lambda p: lambda v: 's%d:%d' % (p, v), 'sb': lambda p: lambda v: 's%d:%s' % (p, bytes_of(v)), 'r': lambda p: 'r%d' % p,
    'Send': lambda p: lambda v: 's%d:%s' % (p, v),
    'make': lambda pid: lambda cap: '%d make %d' % (pid, cap),
    'send': lambda pid: lambda p: lambda v: '%d send %d %d' % (pid, p, v),
    'recv': lambda pid: lambda p: '%d recv %d' % (pid, p),
    'select': lambda pid: lambda word: lambda cases: lambda default: step_of_call(pid, word, cases, default),
    'close': lambda pid: lambda p: '%d close %d' % (pid, p),
    'exit': lambda pid: '%d exit' % pid,
    'cancel': lambda pid: lambda other: '%d cancel %d' % (pid, other),
    'start': lambda pid: lambda other: '%d start %d' % (pid, other),
    'reopen': lambda pid: lambda p: lambda cap: '%d reopen %d %d' % (pid, p, cap),
    'made': lambda pid: lambda p: '%d made %d' % (pid, p),
    'case': lambda pid: lambda index: lambda outcome: '%d case %d %s' % (pid, index, outcome),
    'got': lambda v: 'got %s' % v, 'Got': lambda v: 'got %s' % v,
    'defaulted': lambda pid: '%d default' % pid, 'done': lambda pid: '%d done' % pid, 'parked': lambda pid: '%d parked' % pid,
    'stalled': lambda pid: '%d stalled' % pid, 'cancelled': lambda pid: '%d cancelled' % pid,
    'faulted': lambda pid: lambda fault: '%d fault %d' % (pid, fault),
    'map': lambda f: lambda items: [f(it) for it in items],
    'flat_map': lambda f: lambda items: [it for item in items for it in f(item)],
    'range_with_len': lambda first: lambda count: list(range(first, first + count)),
}


class Reader:
    """Reads a term, and gives what it stands for, once its names are known."""

    def __init__(self, text):
        self.tokens = TOKEN.findall(text)

    def next(self):
        return self.tokens[0] if self.tokens else None

    def term(self):
        """Items and lists in a row: `a ∷ b ∷ []`, `as ++ bs`."""
        one = self.application()
        if self.next() == '∷':
            self.tokens.pop(0)
            rest = self.term()
            return lambda names: [one(names), *rest(names)]
        if self.next() == '++':
            self.tokens.pop(0)
            rest = self.term()
            return lambda names: one(names) + rest(names)
        return one

    def application(self):
        parts = [self.atom()]
        while self.next() not in (None, ')', '∷', '++'):
            parts.append(self.atom())
        return lambda names: functools.reduce(lambda f, it: f(it), [it(names) for it in parts])

    def atom(self):
        token = self.tokens.pop(0)
        if token == '(':
            inner = self.term()
            self.tokens.pop(0)
            return inner
        if token == 'λ':
            name = self.tokens.pop(0)
            self.tokens.pop(0)
            body = self.term()
            return lambda names: lambda it: body({**names, name: it})
        if token.isdigit():
            return lambda names: int(token)
        return lambda names: names[token]


def value(text, words):
    return Reader(text).term()(words)


def faults():
    return {name: int(number) for name, number in re.findall(r'^fault_row (\w+) = \((\d+), ', read('Faults.antt'), re.M)}


def theorems():
    """The name of each theorem about events, with its edition, its number of processes, and its steps and events, as lines."""
    for file in sorted(os.listdir(os.path.join(SPECS, 'Rows'))):
        text = read('Rows', file)
        words = {**WORDS, **faults()}
        parts = re.split(r'^(?=(?:abbrev |pub |\w+ =|--|use ))', text, flags=re.M)
        for part in parts:
            short = re.match(r'(\w+) =\s(.*)', part, re.S)
            row = re.match(r'pub (\w+) :\s+events (\([^)]*\)) (.*)≡(.*)', part, re.S)
            if short and ' '.join(short.group(2).split()) != 'refl' and re.search(r'^abbrev %s :' % short.group(1), text, re.M):
                if short.group(1) not in words:
                    words[short.group(1)] = value(short.group(2), words)
            if row:
                name, head, steps, events = row.groups()
                edition, procs = value(head, words)
                yield name, (edition, procs, lines(value(steps, words)), lines(value(events, words)))


def lines(items):
    return ''.join(it + '\n' for it in items)
