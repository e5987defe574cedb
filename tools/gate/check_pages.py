#!/usr/bin/env python3
"""Compares pages with each other and with the sources.

    check_pages.py [--write]

    links      a link of a page leads to a file or folder that is there, and its anchor to a heading of that page
    quotes     a block of code below a line `<!-- quoted: FILE from `LINE` on -->` is what stands in FILE from that line to its end;
               with `to `END`` in place of `on`, up to the line END, without empty lines before it. README and OUTSIDE have to quote
               something. In a table whose rows begin with a link to a file of capi/, each code of a row stands in that file
    lists      the files that a crate's README names are there; and where it lists those of src/, it lists all of them: a file, or the
               one that its folder is called by. A list is a table, or a block of lines `src/NAME, NAME..  what they are`, where a name
               without a folder is of the folder of the one before it
    changing   the files in the tables of docs/CHANGING.md are there, and the first table names all that name `Reopen`, the step that
               came last: but for crates of tests, and for the answers of single functions, in folders of proofs/
    claims     what check_claims.py says of docs/CLAIMS.md and docs/SEMANTICS.md
    limits     what check_limits.py says of numbers
    citations  sources and proofs cite lemmas of their own crate and of the crates of definitions and laws: what else a proof needs of
               another crate is a clause of its contracts
    width      lines of definitions, of proofs and of README.md are not too wide to read
    words      pages have few words
    edits      README says how many edits the gate tries

Prints a line for each thing that is wrong, and the status is 1 where there is any. With --write the lines of the sources are put
into quotations first.
"""
import glob
import os
import re
import sys

sys.dont_write_bytecode = True
HERE = os.path.dirname(os.path.abspath(__file__))
sys.path[:0] = [os.path.join(HERE, it) for it in ('..', '../build')]
import check_claims
import check_limits
from claims import files, read, sources
from crates import ROOT, read_crates

MOST_WORDS = 45000
MOST_WORDS_OF_README = 900
COLUMNS = 159
COLUMNS_OF_README = 110
QUOTES = ('README.md', 'docs/OUTSIDE.md')
TEST_CRATES = ('hub_live_tests', 'hub_tests', 'hub_trials', 'hub_uses')

CODE = re.compile(r'^```.*?^```$|^    .*?$|`[^`\n]*`', re.M | re.S)
LINK = re.compile(r'\]\(([^()\s]+)\)')
HEADING = re.compile(r'^#+ +(.+)$', re.M)
QUOTED = re.compile(r'(<!-- quoted: (\S+) from `([^`\n]+)` (?:on|to `([^`\n]+)`) -->\n```\w+\n)(.*?)(^```$)', re.M | re.S)
ROW_OF_CAPI = re.compile(r'^\[[^\]\n]+\]\(\.\./(capi/\S+)\) \| (.*)$', re.M)
TICKED = re.compile(r'`([^`]+)`')
BLOCK = re.compile(r'^```text\n(.*?)^```$', re.M | re.S)
LINE_OF_LIST = re.compile(r'^(src/.*?)(?:  |$)', re.M)
ROW_OF_LIST = re.compile(r'^(?:\| )?`(src/[\w/]+?)(?:\.rt)?`[^|\n]* \|', re.M)
NAMED = re.compile(r'`(src/[\w/]+?)(?:\.rt)?`|`([\w/]+)\.rt`')
ROW_OF_CHANGING = re.compile(r'^(?:\| )?`(\w+)`(?: \*)? \| (.*?) \|', re.M)
STEP = re.compile(r'\bReopen\b')
CITED = re.compile(r'\bRattle\.((\w+)\.proofs\.\w+)')
LAWS = {'hub_base', 'hub_laws', 'hub_chapters'}
EDITS_OF_GATE = re.compile(r'^gate: yes$', re.M)
COUNTED_EDITS = re.compile(r'rejects (\w+)\s+deliberately wrong')
NUMBERS = 'no one two three four five six seven eight nine ten eleven twelve'.split()


def pages():
    """All pages, by their paths from the root."""
    found = glob.glob('**/*.md', root_dir=ROOT, recursive=True)
    return sorted(it for it in found if not {'out', 'target'} & set(it.split(os.sep)))


def is_there(path):
    return os.path.exists(os.path.join(ROOT, path))


def anchors(page):
    """The anchors of a page's headings: lower case, without punctuation, a hyphen for each space."""
    text = re.sub(r'^```.*?^```$', '', read(page), flags=re.M | re.S)
    return {re.sub(r'[^\w\- ]', '', title.replace('`', '')).strip().lower().replace(' ', '-') for title in HEADING.findall(text)}


def fault_of(page, link):
    """What is wrong with a link of a page, or nothing; links to the web are left aside."""
    path, _, anchor = link.partition('#')
    target = os.path.normpath(os.path.join(os.path.dirname(page), path)) if path else page
    if '://' in link:
        return None
    if not is_there(target):
        return 'nothing is there'
    return 'no such heading' if anchor and anchor not in anchors(target) else None


def links():
    for page in pages():
        for link in sorted(set(LINK.findall(CODE.sub('', read(page))))):
            if fault := fault_of(page, link):
                yield f'{page}: {link}: {fault}'


def quotation(match):
    """The quotation as it should be."""
    before, source, first, end, _, after = match.groups()
    lines = read(source).split('\n')
    if lines.count(first) != 1:
        raise ValueError(f'{source} does not have this line once: {first}')
    start = lines.index(first)
    quoted = '\n'.join(lines[start:lines.index(end, start)] if end else lines[start:])
    return before + quoted.rstrip('\n') + '\n' + after


def is_quoted(match):
    try:
        return match[0] == quotation(match)
    except (OSError, ValueError):
        return False


def quotes():
    for page in pages():
        text = read(page)
        marks, found = text.count('<!-- quoted: '), list(QUOTED.finditer(text))
        if marks != len(found) or page in QUOTES and not found:
            yield f'{page}: {marks} quotations are marked, and {len(found)} can be read'
        yield from (f'{page}: the quotation of {match[2]}' for match in found if not is_quoted(match))
        for source, row in ROW_OF_CAPI.findall(text):
            yield from (f'{page}: {source} has no `{code}`' for code in TICKED.findall(row) if code not in read(source))


def write_quotations():
    for page in pages():
        right = QUOTED.sub(quotation, read(page))
        with open(os.path.join(ROOT, page), 'w', encoding='utf-8') as file:
            file.write(right)
    read.cache_clear()


def names_of(line):
    """The files that a line of a list names."""
    folder = ''
    for name in line.split(', '):
        folder = os.path.dirname(name) or folder
        yield os.path.join(folder, os.path.basename(name))


def listed(text):
    lines = [line for block in BLOCK.findall(text) for line in LINE_OF_LIST.findall(block)]
    return {name for line in lines for name in names_of(line)} | set(ROW_OF_LIST.findall(text))


def lists():
    for readme in (it for it in pages() if re.fullmatch(r'crates/\w+/README\.md', it)):
        crate, text = readme.split(os.sep)[1], read(readme)
        there = {os.path.relpath(path, f'crates/{crate}').removesuffix('.rt') for path in sources(crate)}
        inside = listed(text)
        named = {own or f'src/{other}' for own, other in NAMED.findall(text)}
        yield from (f'{readme}: {name} is not there' for name in sorted(inside | named)
                    if name not in there and not is_there(f'crates/{name.removeprefix("src/")}.rt'))
        yield from (f'{readme}: no line for {name}' for name in sorted(there - {'src/lib', 'src/main'} - inside if inside else ())
                    if os.path.dirname(name) not in inside)


def rows_of_changing(text):
    """The files that the rows of these tables name, as crate/folder/name."""
    return {f'{crate}/{name}' for crate, names in ROW_OF_CHANGING.findall(text) if is_there(f'crates/{crate}') for name in TICKED.findall(names)}


def files_of_step():
    """The files in which the step is named."""
    for path in [*files('*', 'src', '**', '*.rt'), *files('*', 'specs', '**', '*.antt'), *files('*', 'proofs', '*.antt')]:
        if path.split(os.sep)[1] not in TEST_CRATES and STEP.search(read(path)):
            yield os.path.splitext(os.path.relpath(path, 'crates'))[0]


def changing():
    page = read('docs/CHANGING.md')
    first = rows_of_changing(re.search(r'^## A further step\n(.*?)^## ', page, re.M | re.S)[1])
    yield from (f'{name} is not there' for name in sorted(rows_of_changing(page))
                if not any(is_there(f'crates/{name}{ending}') for ending in ('.rt', '.antt')))
    yield from (f'{name} names Reopen, and is in no row' for name in files_of_step() if name not in first)


def citations():
    crates = read_crates()
    for crate in crates:
        for path in [*sources(crate), *files(crate, 'specs', '**', '*.antt'), *files(crate, 'proofs', '**', '*.antt')]:
            yield from (f'{path}: {lemmas}' for lemmas, other in CITED.findall(read(path))
                        if other in crates.keys() - LAWS - {crate})


def wide_lines(path, most):
    return (f'{path}:{number}: {len(line)} columns' for number, line in enumerate(read(path).split('\n'), 1) if len(line) > most)


def width():
    for part in ('specs', 'proofs'):
        for path in files('*', part, '**', '*.antt'):
            yield from wide_lines(path, COLUMNS)
    yield from wide_lines('README.md', COLUMNS_OF_README)


def words_of(page):
    return len(read(page).split())


def words():
    for what, count, most in (('README.md', words_of('README.md'), MOST_WORDS_OF_README), ('all pages', sum(map(words_of, pages())), MOST_WORDS)):
        if count > most:
            yield f'{what}: {count}, and at most {most} are wanted'


def edits():
    tried = sum(len(EDITS_OF_GATE.findall(read(path))) for path in files('*', 'edits.txt'))
    said = COUNTED_EDITS.search(read('README.md'))
    if not said or said[1] != NUMBERS[tried]:
        yield f'README.md: the gate tries {tried}'


CHECKS = {'links': links, 'quotes': quotes, 'lists': lists, 'changing': changing, 'claims': check_claims.wrong, 'limits': check_limits.wrong,
          'citations': citations, 'width': width, 'words': words, 'edits': edits}


def main():
    if sys.argv[1:] == ['--write']:
        write_quotations()
    found = [f'{name}: {line}' for name, check in CHECKS.items() for line in check()]
    print(''.join(line + '\n' for line in found), end='')
    return 1 if found else 0


if __name__ == '__main__':
    sys.exit(main())
