#!/usr/bin/env python3
"""answer.py PROGRAM WORDS..: runs a program of this repository, for ../chanhub, with these words and standard streams, and ends
as it does. Behind the program's fault line it says in one more line what helps: which word, file or line is wrong. A signal to
this script reaches the program.
"""
import fcntl
import os
import stat
import sys
# This begins sooner than `signal`, which names numbers by enums.
import _signal as signal

SIGNALS = (signal.SIGHUP, signal.SIGINT, signal.SIGQUIT, signal.SIGTERM, signal.SIGUSR1, signal.SIGUSR2, signal.SIGALRM)
# Python ignores these, and the program would inherit that.
IGNORED = (signal.SIGPIPE, signal.SIGXFSZ)
# The words that a command may have, beside options.
COMMANDS = {'replay': (), 'run': ('FILE',), 'verify': ('JOURNAL', 'EVENTS')}
BEGINNING = 'chanhub: '
# no text that is read is longer
MOST_BYTES = 67108864
MARKS = {b'\xef\xbb\xbf': 'UTF-8', b'\xff\xfe': 'UTF-16', b'\xfe\xff': 'UTF-16'}
WANTED = {
    'bad header': 'a journal begins with `chanhub journal 1` or `chanhub journal 2`',
    'bad procs': 'line 2 of a journal is `procs N`, with N from 1 to 64',
    'bad step': 'a step is P and `make C`, `send PORT V`, `recv PORT`, `select W CASE.. [default]`, `close PORT`, `exit` or, in edition 2, `cancel Q`',
    'bad number': 'a number has digits alone, no zero before them, and a limit; in edition 2 a value may be # and pairs of 0 to 9 and a to f',
    'too long': 'docs/FORMATS.md#limits says how long a journal may be',
}


def hear(handler):
    """Has this called for signals, but for those that are ignored, as under nohup."""
    for number in SIGNALS:
        if signal.getsignal(number) != signal.SIG_IGN:
            signal.signal(number, handler)


def pipe():
    """A pipe that takes no place of a standard stream, which may be closed."""
    ends = os.pipe()
    if min(ends) > 2:
        return ends
    above = [fcntl.fcntl(it, fcntl.F_DUPFD_CLOEXEC, 3) for it in ends]
    for it in ends:
        os.close(it)
    return above


def told_by(program, words):
    """How a program ended, and what it told on standard error, which is passed on."""
    heard, told = pipe()
    before = signal.pthread_sigmask(signal.SIG_BLOCK, SIGNALS)
    child = os.posix_spawn(program, [program, *words], os.environ, file_actions=[(os.POSIX_SPAWN_DUP2, told, 2)],
                           setsigmask=before, setsigdef=IGNORED)
    os.close(told)
    hear(lambda number, _: os.kill(child, number))
    signal.pthread_sigmask(signal.SIG_SETMASK, before)
    said = b''
    while piece := os.read(heard, 65536):
        said += piece
        tell(piece)
    # Its number may be another process's behind waitpid.
    os.waitid(os.P_PID, child, os.WEXITED | os.WNOWAIT)
    hear(signal.SIG_DFL)
    return os.waitpid(child, 0)[1], said


def tell(said):
    try:
        os.write(2, said)
    except OSError:
        # Nobody hears it.
        pass


def shown(text):
    said = text.decode(errors='backslashreplace')
    return '`%s`' % (said if len(said) <= 60 else said[:60] + '..').replace('\r', '\\r')


def wrong_word(words):
    """What is wrong with the words of `chanhub`, or nothing."""
    for word in words:
        try:
            os.fsencode(word).decode()
        except UnicodeDecodeError:
            return '%s is not UTF-8' % shown(os.fsencode(word))
    if not words or words[0] not in COMMANDS:
        return '%s, which is run, replay or verify' % ('`%s` is no command' % words[0] if words else 'there is no command')
    command, *given = words
    option = ['--journal'] if command == 'run' else []
    for word in given:
        if word.startswith('-') and word not in option:
            return '`%s` is no option of %s: for a file of that name, write ./%s' % (word, command, word)
    if given.count('--journal') > 1:
        return '`--journal` stands twice'
    files = [word for word in given if word not in option]
    wanted = COMMANDS[command]
    if len(files) > len(wanted):
        return '`%s` is one word too many%s' % (files[len(wanted)], ': replay reads standard input, as by < JOURNAL' if command == 'replay' else '')
    if command == 'verify' and len(files) < len(wanted):
        return 'verify lacks %s' % ' and '.join(wanted[len(files):])
    return ''


def files_of(words):
    """The files that are read for these words of a program; of standard input, nothing."""
    command = words[0] if words else ''
    files, last = [], ''
    for word in words[1:]:
        is_value = last in ('-o', '--output', '--color', '--ask', '--states') or last == '--journal' and command == 'explore'
        if not (is_value or word.startswith('-') or word.isdigit() and command not in ('run', 'verify', 'chain')):
            files.append(word)
        last = word
    return files or [None]


def is_file(name):
    """Whether it is a file that can be read again: no pipe, no device. Raises OSError."""
    return stat.S_ISREG(os.stat(0 if name is None else name).st_mode)


def content(name, began):
    """What the file holds, or standard input from where it began; raises OSError."""
    if not is_file(name):
        raise OSError
    with open(0 if name is None else name, 'rb', closefd=name is not None) as file:
        file.seek(began if name is None else 0)
        return file.read(MOST_BYTES)


def wrong_line(text, number, fault):
    """What a line of a journal lacks."""
    lines = text.split(b'\n')
    has_newline = number < len(lines)
    line = lines[number - 1] if number <= len(lines) else b''
    for mark, name in MARKS.items():
        if number == 1 and line.startswith(mark):
            return 'line 1 begins with a byte-order mark of %s, and a journal has none' % name
    if line.endswith(b'\r'):
        return 'line %d ends with a carriage return (CRLF), and a journal has newlines alone' % number
    wanted = WANTED.get(fault, fault)
    if has_newline:
        return 'line %d is %s: %s' % (number, shown(line), wanted)
    return 'line %d, the last, has no newline behind it' % number if line else 'the journal ends before line %d: %s' % (number, wanted)


def wrong_place(text, name):
    """Where a scenario is wrong."""
    sys.path.insert(0, os.path.dirname(os.path.dirname(os.path.abspath(__file__))))
    sys.dont_write_bytecode = True
    import lint_scenario
    faults = lint_scenario.faults_of(text)
    if not faults:
        return ''
    first, *more = faults
    return '%s:%d:%d: %s%s' % (name or 'standard input', *first, ', and %d more: tools/lint_scenario.py FILE tells all' % len(more) if more else '')


def unread(names):
    """Which file cannot be read, and why."""
    for name in names:
        try:
            if name is None:
                os.read(0, 0)
            elif is_file(name) or os.path.isdir(name):
                open(name, 'rb').close()
        except OSError as error:
            return '%s: %s' % ('standard input' if name is None else name, error.strerror)
    return ''


def unwritten(words):
    """What could not be written."""
    for option, name in zip(words, words[1:]):
        if option in ('-o', '--output') or option == '--journal' and words[0] == 'explore':
            return name
    try:
        place = os.readlink('/proc/self/fd/1')
    except OSError:
        place = 'which is closed'
    return 'standard output, %s' % ('which nobody reads' if place.startswith('pipe:') else place)


def begins_at():
    """At which byte standard input stands, if that is a file."""
    try:
        return os.lseek(0, 0, os.SEEK_CUR)
    except OSError:
        return 0


def help_of_text(find, began, name, *known):
    """What `find` says of a text that was read."""
    try:
        text = content(name, began)
    except OSError:
        return 'give the input as a file, as by < FILE, and this line says what is wrong with it'
    return find(text, *known)


def help_for(fault, words, began):
    """What helps behind a fault line, which is given without its `chanhub: `; nothing where nothing does."""
    import re
    names = files_of(words)
    found = re.fullmatch('(?:(.*): )?line ([0-9]+): (.*)', fault, re.S)
    if found:
        return help_of_text(wrong_line, began, found[1] or names[0], int(found[2]), found[3])
    if fault.startswith('scenario: ') and not fault.endswith('out of memory'):
        return help_of_text(wrong_place, began, names[0], names[0])
    if fault == 'bad arguments':
        return '%s (./chanhub --help)' % wrong_word(words)
    if fault == 'read failed':
        return unread(names)
    if fault == 'write failed':
        return unwritten(words)
    return 'the scripts ask for more steps than the `limit` of the scenario' if fault == 'journal full' else ''


def more(said, words, began=0):
    """The line behind a fault line, or nothing; nothing where the program says more itself, as chanhub_tool does."""
    line = said.decode(errors='surrogateescape')
    helps = help_for(line[len(BEGINNING):-1], words, began) if line.startswith(BEGINNING) and line.find('\n') == len(line) - 1 else ''
    return os.fsencode('./chanhub: %s\n' % helps) if helps else b''


def main():
    program, *words = sys.argv[1:]
    if words[:1] == ['explore']:
        # Where standard error is a terminal, it shows there how far it has come.
        for number in IGNORED:
            signal.signal(number, signal.SIG_DFL)
        os.execv(program, [program, *words])
    began = begins_at()
    status, said = told_by(program, words)
    tell(more(said, words, began))
    if os.WIFSIGNALED(status):
        if os.WTERMSIG(status) != signal.SIGKILL:
            signal.signal(os.WTERMSIG(status), signal.SIG_DFL)
        os.kill(os.getpid(), os.WTERMSIG(status))
    return os.WEXITSTATUS(status)


if __name__ == '__main__':
    sys.exit(main())
