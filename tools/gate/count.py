#!/usr/bin/env python3
"""count.py: prints how large the repository is, one count a line."""
import os
import re
import subprocess
import sys

sys.dont_write_bytecode = True
from check_pages import pages, read, words_of
from crates import ROOT, read_crates


def tracked():
    """The files of the repository, by their paths from the root."""
    listed = subprocess.run(['git', 'ls-files', '-z'], cwd=ROOT, stdout=subprocess.PIPE, text=True, check=True)
    return [path for path in listed.stdout.split('\0') if os.path.isfile(os.path.join(ROOT, path))]


def lines_of(paths):
    return sum(read(path).count('\n') for path in paths)


def main():
    files = tracked()
    counts = {
        'crates': len(read_crates()),
        'files': len(files),
        'lines of Rattle': lines_of(path for path in files if path.endswith('.rt')),
        'lines of specs': lines_of(path for path in files if '/specs/' in path and path.endswith('.antt')),
        'lines of proofs': lines_of(path for path in files if '/proofs/' in path and path.endswith('.antt')),
        'lines of scripts': lines_of(path for path in files if re.match(r'(tools|tests)/.*\.(py|sh|c)$', path)),
        'words of pages': sum(map(words_of, pages())),
        'words of README': words_of('README.md'),
        'columns of README': max(map(len, read('README.md').split('\n'))),
    }
    print(''.join(f'{what}: {count}\n' for what, count in counts.items()), end='')


if __name__ == '__main__':
    main()
