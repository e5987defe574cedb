#!/usr/bin/env python3
"""Says what is wrong with a scenario file, and where.

    lint_scenario.py FILE

Prints a line for each fault, `FILE:LINE:COLUMN: what is wrong`, by place: of its TOML the first, and else all of its keys,
numbers and steps. Lines and columns are counted from 1, columns in characters. Status 0 where there is none, which is where
`chanhub run` takes the file; 1 where there are faults; 2 where the file cannot be read, or other words are given.

Python's `tomllib` says what is wrong with the TOML. Scenarios are TOML 1.1 and it reads 1.0, so it does not see what only 1.1
has. docs/FORMATS.md has the rules of a scenario.
"""
import re
import sys
import tomllib

MOST_FILE_BYTES = 1_048_576
GREATEST_SEED = 2 ** 63 - 1
MOST_STEPS = 1_000_000
MOST_PORTS = 64
MOST_CAP = 1024
MOST_PROCS = 64
MOST_SCRIPT_STEPS = 10_000
MOST_CASES = 16
GREATEST_PORT = 65535
GREATEST_VALUE = 2 ** 64 - 1
MOST_VALUE_DIGITS = 64

BLANK = r'[ \t\r\n]+|#[^\n]*'
STRING = '|'.join((r'"""(?:[^"\\]|\\.|"{1,2}(?!"))*"{3,5}', r"'{3}(?:[^']|'{1,2}(?!'))*'{3,5}", r'"(?:[^"\\\n]|\\[^\n])*"', r"'[^'\n]*'"))
WORD_CHARACTERS = r'''[^\s[\]{}=,"'#]'''
# A space joins a date and a time.
WORD = rf'\d{{4}}-\d\d-\d\d \d{WORD_CHARACTERS}*|{WORD_CHARACTERS}+'
TOKEN = re.compile(rf'(?P<blank>{BLANK})|(?P<string>{STRING})|(?P<mark>[][{{}}=,])|(?P<word>{WORD})|(?P<other>.)', re.S)
LAST_COMMA = re.compile(rf',(?:{BLANK})*}}')
ONLY_NEWER = re.compile(r'\\(?:x[0-9a-fA-F]{2}|.)', re.S)
CHARACTER = re.compile(r'\\(?:x(..)|u(.{4})|U(.{8})|([ \t]*\r?\n[ \t\r\n]*)|(.))|.', re.S)
ESCAPED = dict(zip('befnrt', '\b\x1b\f\n\r\t'))
PLACE = re.compile(r'(.*) \(at line (\d+), column (\d+)\)', re.S)
NUMERAL = re.compile(r'0|[1-9][0-9]*')
DIGITS_OF_BYTES = re.compile(r'(?:[0-9a-f][0-9a-f])*')
NAMES = {int: 'a whole number', list: 'an array', dict: 'a table', str: 'a string', bool: 'a boolean', float: 'a float'}


class Fault(Exception):
    """What is wrong, and at which character."""

    def __init__(self, at, text):
        super().__init__(text)
        self.at = at


class Value:
    """What stands at a key or in an array. `places` has, of a string, where each of its characters stands in the file, and its
    end."""

    def __init__(self, data, at, places=()):
        self.data = data
        self.at = self.key_at = at
        self.places = places


def named(value):
    return NAMES.get(type(value.data), 'a datetime')


def shown(text):
    """A part of the file, for a message."""
    return '`%s`' % (text if len(text) <= 60 else text[:60] + '..')


def hide(escape):
    return '.' * len(escape[0]) if escape[0] == r'\e' or len(escape[0]) == 4 else escape[0]


def as_older(text):
    """The text, as long, without what only TOML 1.1 has: two escapes; and in tables in braces newlines, comments and a last
    comma."""
    pieces, inside, last = [], [], ''
    for token in TOKEN.finditer(text):
        piece, is_in_braces = token[0], inside[-1:] == ['{']
        if piece.startswith('"'):
            piece = ONLY_NEWER.sub(hide, piece)
        elif is_in_braces and (token['blank'] or piece == ',' and last not in '{,' and LAST_COMMA.match(text, token.start())):
            piece = ' ' * len(piece)
        elif piece in '[{':
            inside.append(piece)
        elif piece in ']}':
            del inside[-1:]
        last = last if token['blank'] else piece
        pieces.append(piece)
    return ''.join(pieces)


def wrong_toml(text):
    """The first fault of the TOML, or nothing."""
    older = as_older(text)
    try:
        tomllib.loads(older)
    except (ValueError, RecursionError) as error:
        found = PLACE.fullmatch(str(error))
        if not found:
            # At the end, or of a number or a nesting that Python does not take.
            return Fault(len(text) if 'end of document' in str(error) else 0, str(error))
        lines = older.split('\n')[:int(found[2]) - 1]
        return Fault(sum(len(line) + 1 for line in lines) + int(found[3]) - 1, found[1])
    return None


def read_string(token, at):
    size = 3 if token[:3] in ('"""', "'''") else 1
    begin = size + (re.match(r'\r?\n|', token[size:]).end() if size == 3 else 0)
    if token[0] == "'":
        data = token[begin:-size]
        return Value(data, at, range(at + begin, at + begin + len(data) + 1))
    text, places = '', []
    for found in CHARACTER.finditer(token, begin, len(token) - size):
        digits = found[1] or found[2] or found[3]
        if not found[4]:
            text += chr(int(digits, 16)) if digits else ESCAPED.get(found[5], found[5]) or found[0]
            places.append(at + found.start())
    return Value(text, at, [*places, at + len(token) - size])


def read_word(word, at):
    try:
        return Value(int(word, 0), at)
    except ValueError:
        return Value(tomllib.loads('word = ' + word)['word'], at)


class Reader:
    """Reads a text that is TOML, with the places of all."""

    def __init__(self, text):
        self.tokens = [(found[0], found.start()) for found in TOKEN.finditer(text) if not found['blank']]
        self.tokens.reverse()

    def next(self):
        return self.tokens[-1][0]

    def read_document(self):
        root = table = Value({}, 0)
        while self.tokens:
            if self.next() == '[':
                table = self.read_header(root)
            else:
                self.read_pair(table)
        return root

    def read_header(self, table):
        """The table that is filled behind this header."""
        _, at = self.tokens.pop()
        is_element = self.next() == '['
        *path, last = self.read_key('[', ']')
        for key in path:
            table = self.pass_key(table, *key)
        if not is_element:
            return self.pass_key(table, *last)
        self.tokens.pop()
        array = table.data.setdefault(last[0], Value([], at))
        array.data.append(Value({}, at))
        return array.data[-1]

    def pass_key(self, table, key, at):
        found = table.data.setdefault(key, Value({}, at))
        return found.data[-1] if isinstance(found.data, list) else found

    def read_key(self, *marks):
        """Its parts, each with its place, and what ends it."""
        parts = []
        while (token := self.tokens.pop())[0] != marks[-1]:
            word, at = token
            if word[0] in '"\'':
                parts.append((read_string(word, at).data, at))
            elif word not in marks:
                parts += [(part, at) for part in word.split('.') if part]
        return parts

    def read_pair(self, table):
        *path, (last, at) = self.read_key('=')
        for key in path:
            table = self.pass_key(table, *key)
        table.data[last] = self.read_value()
        table.data[last].key_at = at

    def read_value(self):
        token, at = self.tokens.pop()
        if token == '[':
            return self.read_inside(Value([], at), ']', lambda array: array.data.append(self.read_value()))
        if token == '{':
            return self.read_inside(Value({}, at), '}', self.read_pair)
        return read_string(token, at) if token[0] in '"\'' else read_word(token, at)

    def read_inside(self, value, closing, read_one):
        while self.next() != closing:
            if self.next() == ',':
                self.tokens.pop()
            else:
                read_one(value)
        self.tokens.pop()
        return value


class Scenario:
    """Looks for all faults of a scenario's keys, numbers and steps."""

    def __init__(self):
        self.faults = []

    def tell(self, at, text):
        self.faults.append(Fault(at, text))

    def look(self, root):
        known = {'seed', 'limit', 'journal', 'ports', 'process'}
        self.look_at_keys(root, known, 'a scenario has the keys seed, limit, journal, ports and process')
        self.look_at_number(root, 'seed', 0, GREATEST_SEED)
        self.look_at_number(root, 'limit', 1, MOST_STEPS)
        self.look_at_number(root, 'journal', 1, 2)
        ports = self.array_at(root, 'ports', 'the file')
        if ports:
            self.look_at_ports(ports)
        processes = self.array_at(root, 'process', 'the file')
        if processes:
            journal = root.data.get('journal')
            self.look_at_processes(processes, 1 if journal is None or journal.data == 1 else 2)

    def look_at_keys(self, table, known, text):
        for key, value in table.data.items():
            if key not in known:
                self.tell(value.key_at, 'there is no key %s: %s' % (shown(key), text))

    def look_at_number(self, root, key, least, most):
        value = root.data.get(key)
        if value is None:
            return
        if type(value.data) is not int:
            self.tell(value.at, '%s is a whole number, and this is %s' % (key, named(value)))
        elif not least <= value.data <= most:
            self.tell(value.at, '%s is a number from %d to %d' % (key, least, most))

    def array_at(self, table, key, whose):
        value = table.data.get(key)
        if value is None:
            self.tell(table.at, 'a key is missing: %s has %s' % (whose, shown(key)))
        elif type(value.data) is not list:
            self.tell(value.at, '%s is an array, and this is %s' % (key, named(value)))
        else:
            return value
        return None

    def look_at_ports(self, ports):
        if len(ports.data) > MOST_PORTS:
            self.tell(ports.data[MOST_PORTS].at, 'there are at most %d ports' % MOST_PORTS)
        for port in ports.data:
            if type(port.data) is not int or not 0 <= port.data <= MOST_CAP:
                self.tell(port.at, 'a capacity is a whole number from 0 to %d' % MOST_CAP)

    def look_at_processes(self, processes, edition):
        if not processes.data:
            self.tell(processes.at, 'there is at least one process')
        if len(processes.data) > MOST_PROCS:
            self.tell(processes.data[MOST_PROCS].at, 'there are at most %d processes' % MOST_PROCS)
        for pid, process in enumerate(processes.data):
            if type(process.data) is not dict:
                self.tell(process.at, 'process %d is a table with the key steps, and this is %s' % (pid, named(process)))
                continue
            self.look_at_keys(process, {'steps'}, 'a process has the one key steps')
            steps = self.array_at(process, 'steps', 'process %d' % pid)
            for place, step in enumerate(steps.data if steps else []):
                if place == MOST_SCRIPT_STEPS:
                    self.tell(step.at, 'process %d has more than %d steps' % (pid, MOST_SCRIPT_STEPS))
                    break
                self.look_at_step(step, edition, 'process %d step %d: ' % (pid, place))

    def look_at_step(self, step, edition, where):
        if type(step.data) is not str:
            self.tell(step.at, where + 'a step is a text, and this is ' + named(step))
            return
        try:
            read_step(step.data, edition)
        except Fault as fault:
            self.tell(step.places[fault.at], where + str(fault))


def fields_of(text):
    """Each field with its place, between single spaces."""
    at = 0
    for field in text.split(' '):
        yield field, at
        at += len(field) + 1


def read_step(text, edition):
    (word, _), *rest = fields_of(text)
    wanted = {'send': 'PORT V', 'recv': 'PORT', 'close': 'PORT', 'range': 'PORT', 'select': 'CASE.. [default]'}
    if word not in wanted:
        raise Fault(0, '%s is no step: one is send, recv, select, close or range' % shown(text))
    form = wanted[word]
    if word == 'select':
        read_select(rest, edition)
        return
    if len(rest) != len(form.split()):
        behind = rest[len(form.split())][1] if len(rest) > len(form.split()) else len(text)
        raise Fault(behind, '%s is no step: `%s %s` is, with single spaces' % (shown(text), word, form))
    read_number(*rest[0], 'a port', GREATEST_PORT)
    if word == 'send':
        read_value(*rest[1], edition)


def read_select(fields, edition):
    if fields and fields[-1][0] == 'default':
        fields = fields[:-1]
    if len(fields) > MOST_CASES:
        raise Fault(fields[MOST_CASES][1], 'a select has at most %d cases' % MOST_CASES)
    for field, at in fields:
        port, colon, value = field[1:].partition(':')
        if field[:1] == 's' and colon and ':' not in value:
            read_number(port, at + 1, 'a port', GREATEST_PORT)
            read_value(value, at + 2 + len(port), edition)
        elif field[:1] == 'r' and not colon:
            read_number(port, at + 1, 'a port', GREATEST_PORT)
        else:
            raise Fault(at, '%s is no case: one is sPORT:V or rPORT, and default stands last' % shown(field))


def read_number(field, at, what, most):
    if not NUMERAL.fullmatch(field) or len(field) > 20 or int(field) > most:
        raise Fault(at, '%s is %s: a number from 0 to %d, without signs and leading zeros' % (shown(field), 'no ' + what.removeprefix('a '), most))


def read_value(field, at, edition):
    if not field.startswith('#'):
        read_number(field, at, 'a value', GREATEST_VALUE)
    elif edition == 1:
        raise Fault(at, '%s is no value: only with `journal = 2` is a value bytes' % shown(field))
    elif not DIGITS_OF_BYTES.fullmatch(field[1:]) or len(field) > 1 + MOST_VALUE_DIGITS:
        raise Fault(at, '%s is no value: # and two of the digits 0 to 9 and a to f for each of at most %d bytes' % (shown(field), MOST_VALUE_DIGITS // 2))


def faults_of(content):
    """All that is wrong with what a file holds, by place, each with its line and column."""
    text = content[:MOST_FILE_BYTES].decode(errors='replace')
    faults = [Fault(len(text), 'a file has at most %d bytes' % MOST_FILE_BYTES)] if len(content) > MOST_FILE_BYTES else faults_in(content)
    return [(text.count('\n', 0, it.at) + 1, it.at - text.rfind('\n', 0, it.at), str(it)) for it in sorted(faults, key=lambda it: it.at)]


def faults_in(content):
    try:
        # A byte-order mark may stand before the text.
        text = re.sub('^\N{BYTE ORDER MARK}', ' ', content.decode())
    except UnicodeDecodeError as error:
        return [Fault(len(content[:error.start].decode()), 'this is not UTF-8')]
    fault = wrong_toml(text)
    if fault:
        return [fault]
    scenario = Scenario()
    scenario.look(Reader(text).read_document())
    return scenario.faults


def main():
    words = sys.argv[1:]
    if words in (['-h'], ['--help']):
        print(__doc__, end='')
        return 0
    if len(words) != 1 or words[0].startswith('-'):
        print('usage: lint_scenario.py FILE', file=sys.stderr)
        return 2
    try:
        with open(words[0], 'rb') as file:
            faults = faults_of(file.read())
    except OSError as error:
        print('lint_scenario.py: %s: %s' % (words[0], error.strerror), file=sys.stderr)
        return 2
    for fault in faults:
        print('%s:%d:%d: %s' % (words[0], *fault))
    return 1 if faults else 0


if __name__ == '__main__':
    sys.exit(main())
