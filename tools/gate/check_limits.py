"""Looks for limits that are written as numbers, and for sizes that are told wrong, for check_pages.py.

The limits of hubs, texts and scenarios stand in the files limits.rt of the crates, and all others name them. Tells each
line of sources, definitions and proofs that has one of these numbers, comments included; tests and worked rows may, and
so may widths of machine words. Sources prove how many bytes a type takes (`size_of`), and what pages and comments say of
it is compared with that.
"""
import glob
import re

from claims import files, read
from crates import ROOT

NUMBERS = ['63', '64', '65', '66', '1024', '1000000', '67108864', '67108865', '65535', '4294967295',
           '9223372036854775807', '18446744073709551615']
LIMIT = re.compile(r'(?<![\w.])(?:%s)(?![\w])' % '|'.join(NUMBERS))
TEXT = re.compile(r'"(?:[^"\\]|\\.)*"')
WIDTH = re.compile(r'2 ?\^ ?6[34]|1 << 63|\b64[- ]bits?\b|digits_onto 64')
SIZE = re.compile(r'prove!\(size_of::<(\w+)>\(\) == (\d+)\)')
TOLD = {  # how a size is told, by the type
    'Entry': re.compile(r'\b(?:[Ee]ntry`? takes|new one is|entries of) (?:some )?(\d+)'),
    'Brief': re.compile(r'(?:step|receive) takes (\d+) bytes|(\d+) bytes for (?:most|each) entr'),
    'ShortCase': re.compile(r'(\d+) more for each (?:of its )?case|case of a select takes (\d+)'),
    'Value': re.compile(r'(\d+) more for (?:each value of )?bytes'),
}
PAGES = ('README.md', 'docs/*.md', 'benches/README.md', 'crates/*/README.md', 'crates/*/src/**/*.rt',
         'capi/chanhub.h', 'capi/python/chanhub.py', 'capi/rust/src/lib.rs')
TEST_CRATES = ('hub_live_tests', 'hub_tests', 'hub_trials')
# Files of limits, of tests and of worked rows, and the folder viewer as constants.
MAY_HAVE_NUMBERS = re.compile(r'crates/(?:%s)/|/src/viewer/|Rows|/(?:limits|tests)\.rt$|/tests/' % '|'.join(TEST_CRATES))


def bare(line):
    """The first limit that the line has as a number, or nothing."""
    line = WIDTH.sub('', TEXT.sub('""', line))
    line = re.sub(r'(?<=\d)[_,](?=\d\d\d)', '', line)
    return LIMIT.search(line)


def bare_limits():
    for path in (it for part in ('src', 'specs', 'proofs') for it in files('*', part, '**', '*.*t*')):
        if path.endswith(('.rt', '.antt')) and not MAY_HAVE_NUMBERS.search(path):
            yield from (f'{path}:{number}: {bare(line)[0]}, a limit as a number' for number, line in enumerate(read(path).split('\n'), 1) if bare(line))


def wrong_sizes():
    """What pages and comments say of a size that is another."""
    paths = [path for page in PAGES for path in sorted(glob.glob(page, root_dir=ROOT, recursive=True))]
    # The lines of each, and those of its comments, are joined.
    texts = {path: re.sub(r'\s*\n[\s/*!#]*', ' ', read(path)) for path in paths}
    sizes = dict(found for text in texts.values() for found in SIZE.findall(text))
    for path, text in texts.items():
        for name, told in TOLD.items():
            yield from (f'{path}: {said[0]}, and not {sizes[name]}' for said in told.finditer(text) if said[said.lastindex] != sizes[name])


def wrong():
    yield from bare_limits()
    yield from wrong_sizes()
