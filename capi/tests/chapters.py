#!/usr/bin/env python3
"""chapters.py FOLDER PROGRAM [TOOL]: whether the chapters that chapters.c wrote are one history, which tells what its threads were told.

For each FOLDER/SEED.told, the chapters are FOLDER/SEED.0, SEED.1, and so on. Each later one has to begin with the checkpoint that
tools/model.py finds for the one before, and the built chanhub (PROGRAM) has to replay each. The history is the first chapter and then
what follows the checkpoint in each later one. What the replays tell behind the checkpoints has to be what PROGRAM tells of the history,
and what the threads were told. If the built chanhub_tool (TOOL) is named, the files have to be whole to it as well. The last line
counts: 'N passed, M failed'.
"""
import concurrent.futures
import glob
import os
import subprocess
import sys
import tempfile

sys.dont_write_bytecode = True
ROOT = os.path.join(os.path.dirname(os.path.abspath(__file__)), '..', '..')
sys.path[:0] = [os.path.join(ROOT, it) for it in ('tools/gate', 'tests/drive')]
from compare import by_process  # noqa: E402
from counting import Count  # noqa: E402
from cuts import checkpoint_of  # noqa: E402

AT_ONCE = 2


class Wrong(Exception):
    """What is wrong with a run."""


def printed(words, text=None):
    """What a program prints that has to succeed."""
    done = subprocess.run(words, input=text, capture_output=True)
    if done.returncode != 0:
        raise Wrong(f'{" ".join(words[:2])}: status {done.returncode}, {(done.stdout + done.stderr).decode().strip()}')
    return done.stdout.decode()


def text_of(lines):
    return ''.join(line + '\n' for line in lines)


def read_lines(path):
    with open(path, encoding='ascii') as file:
        return file.read().splitlines()


def chapter_paths(name):
    """The paths of a run's chapters, in order. Their numbers begin at 0, and none is left out."""
    paths = [f'{name}.{number}' for number in range(len(glob.glob(f'{name}.[0-9]*')))]
    for path in paths:
        if not os.path.exists(path):
            raise Wrong(f'{path} is not there')
    return paths


class Chapters:
    """Reads the chapters of a run, and puts them together."""

    def __init__(self, program, name):
        self.program = program
        self.paths = chapter_paths(name)
        self.head, self.history, self.events = None, [], []
        checkpoint = []
        for path in self.paths:
            checkpoint = self.add(path, checkpoint)

    def add(self, path, checkpoint):
        """Adds a chapter that has to begin with this checkpoint. Gives that of the next one."""
        lines = read_lines(path)
        head, lines = lines[:2], lines[2:]
        self.head = self.head or head
        if head != self.head or lines[:len(checkpoint)] != checkpoint:
            raise Wrong(f'{path} does not begin with the checkpoint')
        self.history += lines[len(checkpoint):]
        self.events += printed([self.program, 'replay'], text_of(head + lines).encode()).splitlines()[len(checkpoint):]
        return checkpoint_of(head, lines)

    def verify(self):
        """Whether the events are those of the history."""
        with tempfile.TemporaryDirectory() as work:
            files = []
            for file, lines in (('journal', self.head + self.history), ('events', self.events)):
                files.append(os.path.join(work, file))
                with open(files[-1], 'w', encoding='ascii') as out:
                    out.write(text_of(lines))
            printed([self.program, 'verify', *files])


def what_fails(name, program, tool):
    """What is wrong with a run, or nothing."""
    try:
        chapters = Chapters(program, name)
        chapters.verify()
        if by_process(read_lines(name + '.told')) != by_process(chapters.events):
            raise Wrong('the threads were told something else')
        if tool:
            printed([tool, 'chain', *chapters.paths])
    except Wrong as wrong:
        return str(wrong)
    return None


def main(words):
    if not 2 <= len(words) <= 3:
        sys.exit(__doc__.strip())
    folder, program, tool = *map(os.path.abspath, words), *[None] * (3 - len(words))
    names = sorted(path.removesuffix('.told') for path in glob.glob(os.path.join(folder, '*.told')))
    count = Count()
    with concurrent.futures.ThreadPoolExecutor(AT_ONCE) as pool:
        for name, wrong in zip(names, pool.map(lambda name: what_fails(name, program, tool), names)):
            count.test(f'the run of seed {os.path.basename(name)}', not wrong, wrong)
    count.test('there are runs', names, 'none')
    return count.end()


if __name__ == '__main__':
    sys.exit(main(sys.argv[1:]))
