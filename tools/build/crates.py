"""The crates of crates.txt and where they lie, for the scripts here that build them."""
import functools
import os
import subprocess

ROOT = os.path.dirname(os.path.dirname(os.path.dirname(os.path.abspath(__file__))))
LIST = os.path.join(ROOT, 'crates.txt')


def folder(tree, crate):
    return os.path.join(tree, 'crates', crate)


@functools.lru_cache
def read_heads():
    """Each crate's words before the colon, its name and what it is, with the libraries that it names; all as they stood when this
    was first called, so that one script goes by one list."""
    with open(LIST) as file:
        parts = [line.partition('#')[0].partition(':') for line in file]
    return [(head.split(), libraries.split()) for head, colon, libraries in parts if colon]


def line_of(crate):
    """A crate's own line, in one spelling."""
    lines = {head[0]: f"{' '.join(head)}: {' '.join(libraries)}" for head, libraries in read_heads()}
    return lines[crate]


def read_lines():
    """Each crate with the libraries that it names, those of the toolchain among them."""
    return {head[0]: libraries for head, libraries in read_heads()}


def kind_of(crate):
    """The words for a crate that is a static library."""
    return ['--crate-type', 'staticlib'] if [crate, 'staticlib'] in (head for head, _ in read_heads()) else []


def read_crates():
    """Each crate with those of them that it stands on."""
    lines = read_lines()
    return {crate: [it for it in libraries if it in lines] for crate, libraries in lines.items()}


def below(crate, crates):
    """All that a crate stands on."""
    found = set(crates[crate])
    for it in crates[crate]:
        found |= below(it, crates)
    return found


def is_program(crate):
    return os.path.exists(os.path.join(folder(ROOT, crate), 'src', 'main.rt'))


def rlib(crate):
    return os.path.join(folder(ROOT, crate), 'out', 'rlib', crate + '.rlib')


@functools.lru_cache
def kit():
    """The folder of the toolchain."""
    return os.path.dirname(subprocess.run(['rt', 'doc'], stdout=subprocess.PIPE, text=True, check=True).stdout.strip())


def words_of(crate, verb):
    """The words by which `rattle` checks or builds a crate over the built libraries below it, without those for its output."""
    crates = read_crates()
    at = kit()
    of_kit = ['std'] + [it for it in read_lines()[crate] if it not in crates]
    given = [f'{it}={at}/rlibs/{it}.rlib' for it in of_kit] + [f'{it}={rlib(it)}' for it in crates[crate]]
    places = [f'{at}/rlibs'] + [os.path.dirname(rlib(it)) for it in sorted(below(crate, crates))]
    return [f'{at}/bin/rattle', verb, '--crate-name', crate, 'src/main.rt' if is_program(crate) else 'src/lib.rt',
            *(word for it in given for word in ('--extern', it)), *(word for it in places for word in ('-L', f'dependency={it}')),
            '--antt-project', f'{at}/rattle/logic/antt-project.json', '--logic-built', f'{at}/logic_built', *kind_of(crate)]
