"""Compares docs/CLAIMS.md and docs/SEMANTICS.md with the sources, for check_pages.py, and proves nothing.

Tells what a page says in code, and the sources do not have: names; definitions, behind their files, as in `Steps`: `turn`; in a
link to a source what does not stand there; and in CLAIMS, in brackets, clauses that the calls before them lack, as in `run`
(`ok`). Each crate has a section of CLAIMS, or is one of those that these do not cover. Of the crates with a section tells the
public calls without a doc comment, the edits whose line `call:` names none of them, and the public functions that no edit turns:
but for those of the list under 'Edits', for laws, which have no body, and for the methods of traits, which have none there.
"""
import functools
import os
import re

from claims import files, public_calls, read, sources, specs_file
from crates import read_lines
from edit_files import names_by_call

SHORT = {name.removeprefix('hub_'): name for name in read_lines()}
TICKED = re.compile(r'`([^`]+)`')
NAME = re.compile(r'`(\w\w+(?:::\w+)*)`')
LINK = re.compile(r'\[([^\]]+)\]\(([^)]+)\)')
CITED = re.compile(r'(?:(%s) )?`([A-Z][\w/]*)`: ((?:`\w+`(?:, )?)+)' % '|'.join(SHORT))
CLAUSES = re.compile(r'((?:`[\w:]+`(?:, | and ))*`[\w:]+` )?\(((?:`\w+`(?:, )?)+)\)')
DECLARED = re.compile(r'^ *(?:pub(?:\(\w+\))? )?(?:extern "C" )?(?:fn|struct|enum|trait|type|mod|const) (\w+)|^    ([A-Z]\w*)(?=[,({ ])', re.M)
DEFINED = re.compile(r'^ *(?:(?:abbrev|pub|record|data) )+(\w+)', re.M)
LAW = re.compile(r'^pub fn (\w+)(?:(?!^pub fn ).)*?^(?:\{\}|\{\n\})', re.M | re.S)
OTHERS = set('AtomicBool Brand Condvar Err IfErr IfSome Mutex OnErr axioms false mathlib os requires result slice_get thread::Parker true xs'.split())
WITHOUT_DOC = {'Counted::new', 'Counted::into_inner'}


def sections(page):
    """The texts of a page's sections, by their headings."""
    return dict(part.partition('\n')[::2] for part in re.split('^## ', read(f'docs/{page}.md'), flags=re.M))


@functools.lru_cache(maxsize=None)
def defined(path):
    return set(DEFINED.findall(read(path)))


@functools.lru_cache(maxsize=None)
def declared(path):
    return {name for names in DECLARED.findall(read(path)) for name in names}


@functools.lru_cache(maxsize=None)
def all_calls():
    return {name: call for crate in read_lines() for name, call in public_calls(crate).items()}


def labels_of(call):
    return {*call.requires, *call.ensures} - {'-'}


@functools.lru_cache(maxsize=None)
def known():
    """All names of crates, and those of others that pages use."""
    found = {*OTHERS, *read_lines(), *all_calls(), *(library for libraries in read_lines().values() for library in libraries)}
    found = found.union(*(labels_of(call) for call in all_calls().values()))
    for crate in read_lines():
        specs = files(crate, 'specs', '**', '*.antt')
        found = found.union(*names_by_call(crate).values())
        found = found.union(*map(declared, sources(crate)), *map(defined, specs))
        found |= {os.path.splitext(os.path.basename(path))[0] for path in specs}
    return found


def wrong_definitions(crate, text):
    for other, file, names in CITED.findall(text):
        path = specs_file(SHORT.get(other, crate), file)
        there = defined(path) if path else ()
        yield from (f'no definition {name} in {file}' for name in TICKED.findall(names) if name not in there)


def wrong_links(text):
    for names, link in LINK.findall(text):
        path = os.path.normpath(os.path.join('docs', link))
        if path.endswith('.rt'):
            there = declared(path) | {name for name, call in all_calls().items() if call.path == path}
            yield from (f'no {name} in {path}' for name in TICKED.findall(names) if name not in there)


def wrong_clauses(text):
    """Labels that a call before them does not have; in brackets behind no call, what is no call itself."""
    for names, labels in CLAUSES.findall(LINK.sub(r'\1', text)):
        there = {f'clause of {name}': labels_of(all_calls()[name]) if name in all_calls() else () for name in TICKED.findall(names)}
        for place, known_there in (there or {'call': all_calls()}).items():
            yield from (f'{label} is no {place}' for label in TICKED.findall(labels) if label not in known_there)


def wrong_page(page):
    for heading, text in sections(page).items():
        crate, text = heading if heading in read_lines() else 'hub_base', ' '.join(text.split())
        yield from (f'nothing is called {name}' for name in sorted(set(NAME.findall(text)) - known()))
        yield from wrong_definitions(crate, text)
        yield from wrong_links(text)
        yield from wrong_clauses(text) if page == 'CLAIMS' else ()


def wrong_edits(crate, unturned):
    calls, texts, turning = public_calls(crate), [read(path) for path in sources(crate)], names_by_call(crate)
    yield from (f'{name} of {crate} names no public call' for call, names in turning.items() if call not in calls for name in names)
    traits = {name for text in texts for name in re.findall(r'^pub trait (\w+)', text, re.M)}
    laws = {name for text in texts for name in LAW.findall(text)}
    lacking = {name for name in calls if name.split('::')[0] not in traits} - turning.keys() - laws
    yield from (f'no edit turns {name} of {crate}' for name in sorted(lacking - unturned))
    yield from (f'{name} of {crate} is no call without an edit' for name in sorted(unturned - lacking))


def wrong_crates():
    parts = sections('CLAIMS')
    items = re.split('^- ', parts['Edits'], flags=re.M)[1:]
    unturned = {item.partition(':')[0]: set(TICKED.findall(item)) for item in items}
    left = re.search(r'These claims do not cover (.*?)\.', parts['What holds of every call'], re.S)[1]
    yield from (f'no section on {crate}' for crate in read_lines() if crate not in {*parts, *TICKED.findall(left)})
    for crate in (crate for crate in read_lines() if crate in parts):
        yield from wrong_edits(crate, unturned.pop(crate, set()))
        yield from (f'no doc comment on {call.name} of {crate}' for call in public_calls(crate).values()
                    if not call.doc and call.name not in WITHOUT_DOC)
    yield from (f'no section on {crate}, which has calls without an edit' for crate in unturned)


def wrong():
    yield from (f'{page}: {line}' for page in ('CLAIMS', 'SEMANTICS') for line in wrong_page(page))
    yield from (f'CLAIMS: {line}' for line in wrong_crates())
