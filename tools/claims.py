#!/usr/bin/env python3
"""Prints the index of what is proved, from the sources.

    claims.py [CRATE ..]

Tells of each public call of these crates, or of all: its file; the first sentence of its doc comment; the labels of what it
requires and ensures, '-' for a clause without one; the definitions of specs/ that these clauses cite, behind their files, and
crates if these are others; and the must-fail edits that turn it. Public calls are the functions that a library offers, or the
public ones of a program; public methods of such types; and methods of such traits if they ensure something.
"""
import functools
import glob
import os
import re
import signal
import sys
from collections import namedtuple

sys.dont_write_bytecode = True
sys.path[:0] = [os.path.join(os.path.dirname(os.path.abspath(__file__)), it) for it in ('build', 'gate')]
from crates import ROOT, folder, is_program, read_lines
from edit_files import names_by_call

Call = namedtuple('Call', 'name path doc requires ensures definitions')
# What begins an item or a method, in a source whose functions have no words but `pub` before `fn`.
START = re.compile(r'^(?:[^\s)>/#{}]|    (?:pub )?fn )', re.M)
BLOCK = re.compile(r'impl(?:<[^>]*>)? (?P<type>\w+)(?:<[^>]*>)? \{|pub trait (?P<trait>\w+)')
DOC = re.compile(r'((?:^ *///.*\n)*)(?:^ *#\[.*\n)*\Z', re.M)
USE = re.compile(r'^ *(?:ghost|pub) use (?:Rattle\.)?(\w+)\.(?:specs\.)?([\w.]+)\.\{([^}]*)\}', re.M)


@functools.lru_cache(maxsize=None)
def read(path):
    with open(os.path.join(ROOT, path)) as file:
        return file.read()


def files(crate, *parts):
    """The files of a crate that fit, by their paths from the root."""
    found = glob.glob(os.path.join(folder(ROOT, crate), *parts), recursive=True)
    return sorted(os.path.relpath(path, ROOT) for path in found)


def sources(crate):
    return files(crate, 'src', '**', '*.rt')


def offered(crate):
    """The names that a library offers, or all public ones of a program."""
    texts = [read(path) for path in sources(crate)]
    used = [names for text in texts for names in re.findall(r'^pub use ([^;]+);', text, re.M)]
    own = texts if is_program(crate) else [read(f'crates/{crate}/src/lib.rt')]
    kinds = 'fn|struct|enum' if is_program(crate) else 'fn'
    declared = [name for text in own for name in re.findall(rf'^pub (?:unsafe )?(?:extern "C" )?(?:{kinds}) (\w+)', text, re.M)]
    return {*declared, *re.findall(r'\w+', ' '.join(used))}


def specs_file(crate, file):
    """The path of a file of definitions, or nothing if it is declared in sources, or not in this tree."""
    path = f'crates/{crate}/specs/{file.replace(".", "/")}.antt'
    return path if os.path.exists(os.path.join(ROOT, path)) else None


@functools.lru_cache(maxsize=None)
def imports(path):
    """Where that stands which a source imports, or a file of definitions passes on: crate, file and name there, by the name
    here."""
    found = {}
    for crate, file, names in USE.findall(read(path)):
        specs = specs_file(crate, file)
        passed_on = imports(specs) if specs else {}
        for name in re.split(r',\s*', names):
            there, _, here = name.partition(' as ')
            found[here or there] = passed_on.get(there, (crate, file, there))
    return found


def definitions(path):
    """Those of them that are definitions of this tree."""
    return {name: place for name, place in imports(path).items() if specs_file(*place[:2])}


def labels(kind, contract):
    return [label or '-' for label in re.findall(rf'\b{kind}\*? (\w+)? ?\{{', contract)]


def sentence(doc):
    """The first sentence of a doc comment."""
    text = ' '.join(re.sub(r'^ *///', '', line).strip() for line in doc.splitlines())
    return re.split(r'(?<=\.) ', text, maxsplit=1)[0]


def items(source):
    """The items and methods of a source, each behind its doc comment."""
    starts = [start.start() for start in START.finditer(source)] + [len(source)]
    for before, begin, end in zip([0, *starts], starts, starts[1:]):
        yield DOC.search(source[before:begin])[1], source[begin:end]


def call_of(name, path, doc, contract):
    clauses = re.search(r'\b(?:requires|ensures)\b.*|$', re.sub('//.*', '', contract), re.S)[0]
    known, words = definitions(path), dict.fromkeys(re.findall(r'(?<![\w.])\w+', clauses))
    cited = [known[word] for word in words if word in known]
    return Call(name, path, sentence(doc), labels('requires', contract), labels('ensures', contract), cited)


def calls_in(path, names):
    """The calls of a file whose functions or types are among the names."""
    owner, visible = '', 'pub '
    for doc, text in items(re.sub(r'pub (?:unsafe )?extern "C" fn|pub unsafe fn', 'pub fn', read(path))):
        if not text.startswith(' '):
            block = BLOCK.match(text)
            owner = block['type'] or block['trait'] if block else ''
            visible = '' if block and block['trait'] else 'pub '
        function = re.match(rf'(?P<indent> *){visible}fn (?P<name>\w+)', text)
        if function and (owner if function['indent'] else function['name']) in names:
            contract = re.split(r'\n *(?:\{|///)', text, maxsplit=1)[0]
            # a trait's method promises nothing but what it ensures
            if visible or labels('ensures', contract):
                name = f'{owner}::{function["name"]}' if function['indent'] else function['name']
                yield call_of(name, path, doc, contract)


@functools.lru_cache(maxsize=None)
def public_calls(crate):
    """The public calls of a crate, by name."""
    names = offered(crate)
    return {call.name: call for path in sources(crate) for call in calls_in(path, names)}


def definitions_told(crate, places):
    """The definitions, file by file, with the crate of each that is another's."""
    by_file = {}
    for owner, file, name in places:
        by_file.setdefault(file if owner == crate else f'{owner}/{file}', []).append(name)
    return '; '.join(f'{file}: {", ".join(names)}' for file, names in by_file.items())


def entry(crate, call):
    """The lines of the index on a call."""
    turned = names_by_call(crate).get(call.name, ())
    parts = {'requires': ', '.join(call.requires), 'ensures': ', '.join(call.ensures),
             'definitions': definitions_told(crate, call.definitions), 'edits': ', '.join(turned)}
    told = [call.doc, *(f'{name}: {text}' for name, text in parts.items() if text)]
    return '\n'.join([f'{call.name}  {call.path}', *(f'    {line}' for line in told if line)])


def main():
    words = sys.argv[1:]
    if words in (['-h'], ['--help']):
        print(__doc__, end='')
        return
    signal.signal(signal.SIGPIPE, signal.SIG_DFL)
    unknown = [crate for crate in words if crate not in read_lines()]
    if unknown:
        sys.exit('claims.py: crates.txt has no ' + ', '.join(unknown))
    for crate in words or read_lines():
        print(f'## {crate}\n')
        for call in public_calls(crate).values():
            print(entry(crate, call) + '\n')


if __name__ == '__main__':
    main()
