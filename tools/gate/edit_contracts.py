"""What an edit is judged by: the contracts of the functions that it changes and of those that these call, and the definitions of
both.

Which these are is told from names, and rather too many than too few: of all functions of the crate whose name stands in what is
changed or in what the edit puts there, and of all methods of traits, since these are called without their names."""
import collections
import functools
import os
import re

from crates import ROOT, folder
from edit_files import FUNCTION, function_at

CLAUSE = re.compile(r'^\s*(?:requires|ensures|follows\w*|ghost(?! use)|invariant)\b', re.M)
COMMENT = re.compile(r'^[ \t]*(?://|--).*\n', re.M)
WORD = re.compile(r'[^\s(){}\[\].,;:&<>?!◌]+')
# What a function can be called by.
IDENTIFIER = re.compile(r'\w+')
# What the methods of a trait stand in.
BLOCK = re.compile(r'^(?:pub(?:\([a-z]+\))? )?(?:impl|trait)\b[^{]*\{', re.M)
OF_TRAIT = re.compile(r'\btrait\b|\bfor\b')
# What a definition is called, and its fields or ways to make it.
NAMED = re.compile(r'^(?:(?:(?:abbrev|unfoldable|unfolding|pub|record|data) )*(\S+)|  (?:pub )?(\S+) :)', re.M)
# What brings in other modules or names them, and so defines nothing.
IMPORT = re.compile(r'^(?:pub )?(?:use|mod) [^\n]*\n', re.M)

# A function of a source: by what path a check names it, its own name, its text up to the next, and the clauses of its contract.
Function = collections.namedtuple('Function', 'path name text clauses')


def read_text(path):
    with open(path) as file:
        return file.read()


def files(place, ending):
    for at, folders, names in os.walk(place):
        folders.sort()
        yield from (os.path.join(at, it) for it in sorted(names) if it.endswith(ending))


def clauses(text):
    """The texts of the clauses of a source: from the word that begins each to the brace that ends it."""
    for found in CLAUSE.finditer(text):
        depth, end = 0, found.end()
        while end < len(text) and (depth or text[end] not in '}\n'):
            depth += (text[end] == '{') - (text[end] == '}')
            end += 1
            if depth == 0 and text[end - 1] == '}':
                break
        yield ' '.join(text[found.start():end].split())


def words_of(text):
    return set(WORD.findall(text))


def is_of_trait(before):
    """Whether the method that a text ends in is one of a trait."""
    blocks = BLOCK.findall(before)
    return bool(blocks) and OF_TRAIT.search(blocks[-1]) is not None


class Source:
    """A source as far as edits are judged by it: its text, its functions, and the clauses that count for all."""

    def __init__(self, file, text):
        self.text = text = COMMENT.sub('', text)
        self.always = [it for it in clauses(text) if it.startswith('ghost')]
        self.functions = []
        found = list(FUNCTION.finditer(text))
        for it, end in zip(found, [it.start() for it in found[1:]] + [len(text)]):
            own = text[it.start():end]
            said = [clause for clause in clauses(own) if not clause.startswith('ghost')]
            if it[1] and is_of_trait(text[:it.start()]):
                self.always += said
            else:
                self.functions.append(Function(function_at(file, text[:it.end()]), it[2], own, said))


def definitions(text):
    """The definitions of a module, each with what it is called, and its fields or ways to make it."""
    for block in re.split(r'\n\s*\n', IMPORT.sub('', COMMENT.sub('', text)).strip()):
        yield block, {word for found in NAMED.findall(block) for word in words_of(' '.join(found))}


class Contracts:
    """The contracts of a crate: its sources, by the names of their files, and of each name the definitions that go by it."""

    def __init__(self, sources, modules):
        self.sources = {file: Source(file, text) for file, text in sources.items()}
        self.named = collections.defaultdict(list)
        for text in modules:
            for block, names in definitions(text):
                for name in names:
                    self.named[name].append(block)

    def changed(self, edit):
        """The functions that an edit changes, by file and path, and their text with what it puts there."""
        places = {(file, function) for (file, _, _), function in zip(edit.changes, edit.functions)}
        texts = [new for _, _, new in edit.changes]
        for file, path in places:
            own = [it.text for it in self.sources[file].functions if it.path == path]
            # What is no plain function is not told apart.
            texts += own or [self.sources[file].text]
        return places, ' '.join(texts)

    def defined(self, texts):
        """The definitions that go by a word of these texts, and those that go by a word of such a one."""
        words, found = words_of(' '.join(texts)), set()
        while words:
            new = {block for word in words for block in self.named.get(word, ())} - found
            found |= new
            words = words_of(' '.join(new))
        return found

    def of(self, edit):
        """All that an edit is judged by, as texts."""
        places, text = self.changed(edit)
        called = set(IDENTIFIER.findall(text))
        said = []
        for file, source in self.sources.items():
            said += source.always
            said += [clause for it in source.functions if it.name in called or (file, it.path) in places for clause in it.clauses]
        return sorted(said) + sorted(self.defined(said))


@functools.lru_cache(maxsize=None)
def contracts(crate):
    place = folder(ROOT, crate)
    sources = {os.path.relpath(it, place): read_text(it) for it in files(os.path.join(place, 'src'), '.rt')}
    return Contracts(sources, map(read_text, files(os.path.join(place, 'specs'), '.antt')))
