#!/usr/bin/env python3
"""scenarios_test.py PROGRAM [TOOL [MUTATIONS]]: tries the scripts here that look at scenarios and at their runs.

That is lint_scenario.py, which has to agree with the program on every file, explain.sh, until_stall.sh, seeds.sh, report.py, what
answer.py says of a fault, and what scripts say of -h and of files that they cannot read. A line for each test that fails; the
last line counts: 'N passed, M failed'.
"""
import glob
import itertools
import os
import random
import re
import signal
import subprocess
import sys
import tempfile
import time

sys.dont_write_bytecode = True
from programs import ROOT, Count, said, table

EXAMPLES = os.path.join(ROOT, 'examples')

# after so many seconds what should end, on a slow machine too, is taken to hang
LONG = 120


def run(words, **how):
    return said(words, '', LONG, text=True, **how)


def read(path):
    with open(path, 'rb') as file:
        return file.read()


def write(path, text):
    with open(path, 'wb') as file:
        file.write(text)


def path_of(name):
    """Where a script stands."""
    paths = (os.path.join(ROOT, folder, name) for folder in ('tools', 'tools/build', 'tests/oracle'))
    return next(filter(os.path.exists, paths), os.path.join(ROOT, 'tools', name))


def paths(many, before=''):
    """The form of so many paths, each in a line, behind this."""
    return re.compile(before + r'(/.*\n){%d}' % many)


def steps_of(story):
    """The steps that a story tells, without what it tells of the ends of waits."""
    return story.split(b'\nport ')[0]


LINT = table('lint')


def examples(kind):
    return [it.removesuffix('.stdout') for it in sorted(glob.glob(os.path.join(EXAMPLES, kind, '*.stdout')))]


def rows():
    """The scenarios of tests/, good and faulty."""
    for row in table('runs')['run']:
        yield row['scenario'].encode()
    scenarios = table('scenarios')
    for group in scenarios['group']:
        yield from (text.encode() for text in group['texts'].values())
        yield from (bytes.fromhex(text) for text in group.get('hexadecimal', {}).values())
    for group in scenarios['steps']:
        yield from (group['text'].replace('STEP', value).encode() for value in group['values'])


def limits():
    """Scenarios at the limits, and one past them."""
    for times in (64, 65):
        yield b'ports = [%s]\nprocess = [{steps = []}]\n' % (b'0,' * times)
        yield b'ports = []\nprocess = [%s]\n' % (b'{steps = []},' * times)
    for times in (10000, 10001):
        yield b'ports = []\nprocess = [{steps = [%s]}]\n' % (b"'recv 1'," * times)
    for cases in (16, 17):
        yield b'ports = [1]\nprocess = [{steps = ["select%s default"]}]\n' % (b' r1' * cases)
    for size in (1048576, 1048577):
        head = b'ports = []\nprocess = [{steps = []}]\n#'
        yield head + b'x' * (size - len(head))
    # The arrays are elements of `ports`, so the program refuses both; but the deeper one is no TOML.
    for depth in (79, 80):
        yield b'ports = [%s%s]\nprocess = [{steps = []}]\n' % (b'[' * depth, b']' * depth)
    for parts in (80, 81):
        yield b'%s = 1\nports = []\nprocess = [{steps = []}]\n' % b'.'.join([b'a'] * parts)
    for digits in (32, 33):
        yield b'journal = 2\nports = [1]\nprocess = [{steps = ["send 1 #%s"]}]\n' % (b'0f' * digits)


def mutate(chance, text):
    """The text with a few places changed."""
    for _ in range(chance.choice((1, 1, 1, 2, 3))):
        at = chance.randrange(len(text) + 1)
        end = min(len(text), at + chance.choice((0, 0, 1, 1, 2, 8)))
        kind = chance.randrange(5)
        if kind == 0:
            text = text[:at] + text[end:]
        elif kind == 1:
            lines = text.splitlines(keepends=True)
            line = chance.choice(lines or [b''])
            at = sum(map(len, lines[:chance.randrange(len(lines) + 1)]))
            text = text[:at] + line + text[at:]
        elif kind == 2:
            # A number becomes another one.
            found = list(re.finditer(rb'\d+', text))
            if found:
                number = chance.choice(found)
                text = text[:number.start()] + chance.choice(LINT['numbers']).encode() + text[number.end():]
        else:
            text = text[:at] + chance.choice(LINT['pieces']).encode() + text[end:]
    return text


class Tests(Count):
    def __init__(self, program, tool, folder):
        super().__init__()
        self.program = program
        self.folder = folder
        self.env = {**os.environ, 'CHANHUB': program, 'TOOL': tool, 'OPENER': 'true', 'TMPDIR': folder}

    def path(self, name):
        return os.path.join(self.folder, name)

    def script(self, name, *words):
        return run([path_of(name), *words], env=self.env)

    def ends(self, name, words, status, told, errors=''):
        """A script that is run with these words ends with this status, leaves nothing unless that is 0, and writes texts that are
        these or have these forms; answers the lines of the first one."""
        before, done = self.left(), self.script(*words)
        fits = (form == text if isinstance(form, str) else form.fullmatch(text) for form, text in zip((told, errors), done[1:]))
        self.test(name, done[0] == status and all(fits) and (status == 0 or self.left() == before), done)
        return done[1].splitlines()

    def says_usage(self, *words):
        """A script says how it is used, and nothing else."""
        self.ends(f'{words[0]} says how it is used: {words[1:]}', words, 2, '', re.compile('usage: .*', re.S))

    def left(self):
        """What lies in the folder for what is kept for a while."""
        return {it for it in os.listdir(self.folder) if it.startswith('tmp')}

    def lint(self, text):
        """Whether the linter takes it, in one process for all; and what it says."""
        import lint_scenario
        faults = lint_scenario.faults_of(text)
        return not faults, faults

    def agrees(self, text):
        """Whether linter and program agree on a scenario."""
        write(self.path('scenario'), text)
        status, _, told = run([self.program, 'run', self.path('scenario')])
        try:
            takes, _ = self.lint(text)
        except Exception as error:
            print('lint_scenario.py: %r on %r' % (error, text[:300]))
            return False
        if takes == (status == 2):
            does = 'takes it' if takes else 'refuses it'
            print('lint_scenario.py %s, and the program: %d %s: %r' % (does, status, told.strip(), text[:600]))
        return takes == (status != 2)

    def lint_agrees(self, mutations):
        good = [read(it) for it in examples('scenarios')] + [it.encode() for it in LINT['rich']]
        self.test('lint_scenario.py takes the examples', all(self.lint(it)[0] for it in good))
        self.test('lint_scenario.py agrees on the examples', all([self.agrees(it) for it in good]))
        self.test('lint_scenario.py agrees on the rows of tests/', all([self.agrees(it) for it in rows()]))
        self.test('lint_scenario.py agrees at the limits', all([self.agrees(it) for it in limits()]))
        chance = random.Random(38)
        # Whatever a script does is done soon.
        short = [it for it in good if len(it) < 2000]
        agree = [self.agrees(mutate(chance, chance.choice(short))) for _ in range(mutations)]
        self.test('lint_scenario.py agrees on %d changed scenarios' % mutations, all(agree))

    def lint_says_where(self):
        """Worked by hand: what is wrong stands at this line and column."""
        for text, line, column, said in LINT['places']:
            _, faults = self.lint(text.encode())
            where = [it for it in faults if it[:2] == (line, column) and said in it[2]]
            is_well = where and len(faults) == (2 if 'é' in text else 1)
            self.test('lint_scenario.py says where: line %d column %d of %r' % (line, column, text), is_well)
        write(self.path('two'), b'ports = [9999]\nprocess = [{steps = ["recv x"]}]\n')
        places = re.compile('%s:1:10: .*\n%s:2:28: .*\n' % ((re.escape(self.path('two')),) * 2))
        self.ends('lint_scenario.py tells each fault, and status 1', ['lint_scenario.py', self.path('two')], 1, places)
        ring = os.path.join(EXAMPLES, 'scenarios', 'ring')
        self.ends('lint_scenario.py says nothing of a good file', ['lint_scenario.py', ring], 0, '')
        missing = ['lint_scenario.py', self.path('missing')]
        self.ends('lint_scenario.py on a file that is not there', missing, 2, re.compile('.*', re.S), re.compile('.*\n'))

    def explains(self):
        journal = os.path.join(EXAMPLES, 'journals', 'hand_over')
        story, picture, page = self.ends('explain.sh explains a journal', ['explain.sh', journal], 0, paths(3))
        is_well = read(picture).endswith(b'</svg>\n') and b'recv 1' in read(story)
        self.test('explain.sh makes its story, its picture and its page', is_well and read(page).endswith(b'</html>\n'))
        makes = b'0 make 5000\n' * 200
        write(self.path('long'), b'chanhub journal 1\nprocs 2\n0 make 0\n1 recv 1\n' + makes + makes + b'0 send 1 9\n' + makes)
        note = 'no picture of more than 300 steps: the strip of the page shows all, and FROM and TO draw some\n'
        names = self.ends('explain.sh draws no long picture, and says so', ['explain.sh', self.path('long')], 0, paths(2), note)
        self.same('but makes a story and a page', [os.path.basename(path) for path in names], ['story.txt', 'page.html'])
        for words, shown in (['1', '2'], [1, 2]), (['2'], [2]), (['399', '401'], [399, 400, 401]):
            journal_of = self.path('long') if '399' in words else journal
            names = self.ends(f'explain.sh explains some steps: {words}', ['explain.sh', journal_of, *words], 0, paths(3))
            self.same('no others', [int(it) for it in re.findall(rb'^ +(\d+)  P', steps_of(read(names[0])), re.M)], shown)
        for word in ('-h', '--help'):
            self.ends('explain.sh ' + word, ['explain.sh', word], 0, re.compile('usage: .*JOURNAL.*', re.S))
        for words in ((), (journal, '1', '2', '3'), (journal, journal), (journal, '1', journal), (journal, ''), (journal, '-o')):
            self.says_usage('explain.sh', *words)
        write(self.path('faulty'), b'chanhub journal 1\nprocs 0\n')
        faulty = ['explain.sh', self.path('faulty')]
        self.ends('explain.sh leaves nothing of a faulty journal', faulty, 2, '', 'chanhub: line 2: bad procs\n')

    def explains_a_chapter(self):
        # The last step of the chapter looks like one of its checkpoint, which has the port, its two values and the exit.
        before, chapter, other = (self.path(name) for name in ('chapter', 'next', 'other'))
        again = b'0 make 9\n0 send 1 5\n0 send 1 6\n2 exit\n'
        write(before, b'chanhub journal 2\nprocs 3\n0 make 9\n2 exit\n0 send 1 4\n1 recv 1\n0 send 1 5\n1 send 1 6\n')
        write(chapter, b'chanhub journal 2\nprocs 3\n' + again + b'0 send 1 7\n1 recv 1\n')
        write(other, b'chanhub journal 2\nprocs 3\n' + again[:-7])
        for name, words, step in (('explain.sh --after says where the checkpoint ends', [before, chapter], 4),
                                  ('explain.sh --after of chapters without a step between', [other, other, '1'], 3)):
            form = paths(3, f'its checkpoint ends with step {step}\n')
            _, story, *_ = self.ends(name, ['explain.sh', '--after', *words], 0, form)
            self.test('explain.sh --after explains the chapter', step == 3 or b'\n      5  P0 send 1 7' in read(story))
        said = f'{other} breaks the chain at line 6: not the checkpoint of the chapter before\n'
        self.ends('explain.sh --after another chapter', ['explain.sh', '--after', before, other], 3, '', said)
        for words in ((), (before,)):
            self.says_usage('explain.sh', '--after', *words)

    def explains_every_run(self):
        stalls, ends = (os.path.join(EXAMPLES, it) for it in ('philosophers', os.path.join('scenarios', 'mutual_exclusion')))
        every = ['explain.sh', '--every']
        # Process 0 makes four steps, and each of three philosophers takes a fork and asks for another; the ports are made before.
        form = paths(3, 'stall after 10 steps\n')
        _, *names = self.ends('explain.sh --every says after how many steps a run stalls', [*every, stalls], 0, form)
        story, picture, _ = (read(it).decode() for it in names)
        is_drawn = story.count('stall: everyone who is left waits') == 1 and '     13  P' in story and '     14  P' not in story
        self.test('explain.sh --every explains that run', is_drawn and picture.endswith('</svg>\n'))
        _, story, *_ = self.ends('explain.sh --every explains one step of that run', [*every, stalls, '13'], 0, form)
        self.test('and no other one', b'     13  P' in read(story) and b'     11  P' not in read(story))
        before, form = self.left(), re.compile(r'no stall: \d+ states, \d+ steps between them\n')
        self.ends('explain.sh --every says that no run stalls', [*every, ends], 0, form)
        self.same('and leaves nothing', self.left(), before)
        write(self.path('faulty'), b'ports = [x]\n')
        form = re.compile('chanhub: scenario: .*', re.S)
        self.ends('explain.sh --every leaves nothing of a faulty scenario', [*every, self.path('faulty')], 2, '', form)
        self.says_usage(*every)

    def stalls(self):
        stalls, ends = (os.path.join(EXAMPLES, 'scenarios', it) for it in ('everyone_stalls', 'hand_over'))
        form = re.compile(r'run 1 stalled: \S+\n')
        said_so, = self.ends('until_stall.sh keeps a run that stalls', ['until_stall.sh', stalls], 0, form)
        journal = read(said_so.removeprefix('run 1 stalled: '))
        self.test('until_stall.sh keeps a journal', journal.startswith(b'chanhub journal '))
        self.test('until_stall.sh keeps a journal with a stall', b' stalled\n' in said([self.program, 'replay'], journal)[1])
        self.ends('until_stall.sh says that none stalled', ['until_stall.sh', ends, '3'], 1, 'none of 3 runs stalled\n')
        self.says_usage('until_stall.sh', ends, 'many')
        write(self.path('faulty'), b'ports = 1\n')
        wrong = 'chanhub: scenario: bad key\n'
        self.ends('until_stall.sh on a faulty file', ['until_stall.sh', self.path('faulty')], 2, '', wrong)
        self.ends('until_stall.sh --help', ['until_stall.sh', '--help'], 0, re.compile('.*seed.*', re.S))
        for number in (signal.SIGINT, signal.SIGTERM):
            self.interrupt('until_stall.sh', number, ends, '999999999')
            self.interrupt('seeds.sh', number, ends, '999999999')

    def interrupt(self, name, number, *words):
        """A signal to the script's group, as Ctrl-C sends it: it ends, with its status, and leaves nothing."""
        before = self.left()
        what = '%s ends by %s and leaves nothing' % (name, number.name)
        how = {'env': self.env, 'start_new_session': True, 'stdout': subprocess.PIPE, 'stderr': subprocess.STDOUT}
        with subprocess.Popen([path_of(name), *words], **how) as child:
            # What lies in its folder shows that it has begun with its runs.
            until = time.monotonic() + LONG
            while not any(os.listdir(os.path.join(self.folder, it)) for it in self.left() - before) and time.monotonic() < until:
                time.sleep(0.05)
            time.sleep(0.5)
            os.killpg(child.pid, number)
            said, _ = child.communicate(timeout=LONG)
        # The shell says of a program that it waited for how that ended.
        self.test(what, child.returncode == 128 + number and set(said.split()) <= {b'Terminated'} and self.left() == before)

    def counts(self):
        scenario, full = (os.path.join(EXAMPLES, 'scenarios', it) for it in ('seeds', 'limit_is_reached'))
        kept = self.path('kept')
        # One process: of each seed one journal, which has the choice word.
        form = re.compile('.*6 runs, 2 outcomes, 6 different journals\n', re.S)
        told = self.ends('seeds.sh counts outcomes and journals', ['seeds.sh', scenario, '6', kept], 0, form)
        is_well = '4 of 6, first with seed 0, status 0:' in told and '  different journals: 4' in told
        self.test('seeds.sh counts the journals of an outcome', is_well, told)
        names = sorted(os.listdir(kept)) if os.path.isdir(kept) else []
        replays = [said([self.program, 'replay'], read(os.path.join(kept, it))) for it in names]
        is_well = names == ['journal_1', 'journal_2'] and all(status == 0 for status, _, _ in replays)
        self.test('seeds.sh keeps a journal of each outcome', is_well and b'got 2' in replays[0][1] and b'got 1' in replays[1][1])
        form = re.compile('.*No seed repeats a schedule.*', re.S)
        self.ends('seeds.sh says that no seed repeats a schedule', ['seeds.sh', '--help'], 0, form)
        form = re.compile('.*chanhub: journal full.* 0 different journals\n', re.S)
        self.ends('seeds.sh counts no journal of a run that has none', ['seeds.sh', full, '2'], 0, form)

    def answered(self, words, **how):
        done = subprocess.run([path_of('answer.py'), self.program, *words], stderr=subprocess.PIPE, timeout=LONG, **how)
        return done.returncode, done.stderr.decode()

    def answers(self):
        """Behind the program's fault line stands one line more, which says what is wrong."""
        missing, two = self.path('missing'), self.path('two')
        write(two, table('answers')['two'].encode())
        full = os.path.join(EXAMPLES, 'scenarios', 'limit_is_reached')
        named = {'MISSING': missing, 'TWO': two, 'FOLDER': self.folder, 'FULL': full, 'BYTE': b'\xff'}
        for row in table('answers')['row']:
            words, given, fault = [named.get(word, word) for word in row['words']], row.get('given', '').encode(), row['fault']
            helps = re.sub('MISSING|TWO|FOLDER', lambda found: named[found[0]], row['helps'])
            write(self.path('given'), given)
            with open(self.path('given')) as file:
                status, told = self.answered(words, stdin=file, stdout=subprocess.DEVNULL)
            wanted, _, errors = said([self.program, *words], given)
            is_same = (status, told.splitlines(keepends=True)[:1]) == (wanted, [errors.decode()])
            is_well = is_same and told.startswith('chanhub: %s\n./chanhub: %s' % (fault, helps)) and told.count('\n') == 2
            self.test('answer.py helps with %s %s' % (words, given), is_well, told)
        import answer
        known = 'replay', 'run', 'verify', '--journal', '--', '-', missing
        for words in (it for size in range(4) for it in itertools.product(known, repeat=size)):
            is_wrong = run([self.program, *words])[2] == 'chanhub: bad arguments\n'
            self.test('answer.py agrees on the words %s' % (words,), bool(answer.wrong_word(words)) == is_wrong)
        with open('/dev/full', 'wb') as file:
            told = self.answered(['run', os.path.join(EXAMPLES, 'scenarios', 'ring')], stdout=file)
        wanted = 1, 'chanhub: write failed\n./chanhub: standard output, /dev/full\n'
        self.same('answer.py says what is not written', told, wanted)
        told = self.answered(['replay'], input=b'chanhub journal 1\n', stdout=subprocess.DEVNULL)
        self.test('answer.py cannot read a pipe again', told[0] == 2 and 'give the input as a file' in told[1], told)
        for name in examples('scenarios'):
            status = run([self.program, 'run', name])[0]
            if status not in (1, 2):
                told = self.answered(['run', name], stdout=subprocess.DEVNULL)
                self.same('answer.py adds nothing to ' + name, told, (status, ''))

    def refusals(self):
        """No script meets a file by a traceback."""
        none = 'line 1 is none of a journal'
        wrong = {self.path('missing'): 'No such file', self.folder: 'Is a directory', '/dev/null': none, self.path('two'): none}
        for path, why in wrong.items():
            form = re.compile(re.escape(f'page.py: {path}: {why}') + '.*\n')
            self.ends(f'page.py on {path}', ['page.py', path], 1, '', form)
        for name in ('model.py', 'story_model.py'):
            told = said([path_of(name)], 'chanhub journal 1\nprocs 1\n0 mak 1\n', text=True)
            self.same('%s on no journal' % name, told, (1, '', name + ': standard input: line 3 is none of a journal\n'))
        for name in ('explain.sh', 'page.py', 'until_stall.sh', 'seeds.sh', 'lint_scenario.py', 'aarch64.sh', 'soak.sh',
                     'trials.sh', 'build.py', 'ready.py', 'claims.py', 'model.py', 'story_model.py'):
            for word in ('-h', '--help'):
                form = re.compile('.+' if name == 'story_model.py' else f'.*{re.escape(name)}.*', re.S)
                self.ends(f'{name} {word}', [name, word], 0, form)

    def passes_no_window(self):
        """What a page tells of a value does not go through the steps of its window."""
        import page
        class Window:
            def __init__(self, steps):
                self.start, self.stop, self.has = steps.start, steps.stop, steps.__contains__
            def __contains__(self, place):
                return self.has(place)
        lines = ['chanhub journal 1', 'procs 1', '0 make 1', '0 send 1 5', '0 recv 1']
        data = page.Data(lines, lambda text: None)
        data.window, data.told = Window(data.window), set()
        for entry, ended in page.walk.Walk(lines):
            data.line(entry, ended)
        self.test('page.py does not go through its window', {1, 2} <= data.told)

    def reports(self):
        """What a journal reports by report.py is what a run prints, where that is the same under each schedule."""
        for scenario in examples('scenarios'):
            wanted = read(scenario + '.stdout')
            if not wanted:
                continue
            write(self.path('journal'), said([self.program, 'run', scenario, '--journal'])[1])
            status, _, _ = self.script('report.py', self.program, self.path('journal'))
            self.test('report.py on ' + os.path.basename(scenario), status == 0 and read(self.path('journal.report')) == wanted)


def main():
    words = sys.argv[1:]
    program = os.path.abspath(words[0])
    tool = os.path.abspath(words[1] if len(words) > 1 else os.path.join(ROOT, 'crates', 'chanhub_tool', 'out', 'chanhub_tool'))
    mutations = int(words[2]) if len(words) > 2 else 1500
    # What is started here hears Ctrl-C, though this script may have been started deaf to it, as in the background.
    signal.signal(signal.SIGINT, signal.default_int_handler)
    with tempfile.TemporaryDirectory() as folder:
        tests = Tests(program, tool, folder)
        for part in (lambda: tests.lint_agrees(mutations), tests.lint_says_where, tests.explains, tests.explains_a_chapter,
                     tests.explains_every_run, tests.stalls, tests.counts, tests.answers, tests.refusals, tests.passes_no_window,
                     tests.reports):
            try:
                part()
            except (ImportError, OSError, TypeError) as error:
                tests.test(str(error), False)
    return tests.end()


if __name__ == '__main__':
    sys.exit(main())
