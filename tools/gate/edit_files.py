"""Must-fail edits: a crate's table of them, which functions they change, and which of them can be made together.

The table is crates/NAME/edits.txt. An edit is some lines in a row, and a blank line ends it:

    edit: NAME
    call: NAME       the public call that it turns
    gate: yes        if the gate tries it
    file: PATH       a source of the crate
    old: TEXT        stands in that source once
    new: TEXT        is put in its place

The last two may come again, and so may the last three.
"""
import os
import re
import shutil

from crates import ROOT, folder

PARTS = ('src', 'specs', 'proofs')
TABLE = 'edits.txt'
NAME = re.compile(r'edit: (\w+)$', re.M)
FUNCTION = re.compile(r'^( *)(?:pub(?:\([a-z]+\))? )?(?:extern "C" )?fn (\w+)', re.M)
BLOCK = re.compile(r'^impl\b.*\{', re.M)


class BadEdit(Exception):
    pass


def changes_in(lines):
    """The changes that the lines of an edit tell, in order: each a file, the old text and the new one."""
    file = old = None
    for key, rest in lines:
        if key == 'file':
            file = rest.strip()
        elif key == 'old':
            old = rest.removeprefix(' ')
        elif key == 'new':
            yield file, old, rest.removeprefix(' ')


class Edit:
    """One of them, by its crate and its lines."""

    def __init__(self, crate, text):
        self.crate = crate
        self.text = text
        lines = [line.partition(':')[::2] for line in text.split('\n')]
        words = {key: rest.strip() for key, rest in lines}
        self.own_name = words['edit']
        self.call = words.get('call', '')
        self.is_of_gate = words.get('gate') == 'yes'
        self.changes = list(changes_in(lines))
        if not self.changes:
            raise BadEdit('it changes nothing')
        _, self.functions = self.made({})

    def made(self, texts):
        """The texts of the files with this edit made too, and the functions that it changes."""
        texts = dict(texts)
        functions = []
        for file, old, new in self.changes:
            text = texts.get(file)
            if text is None:
                with open(os.path.join(folder(ROOT, self.crate), file)) as source:
                    text = source.read()
            if text.count(old) != 1:
                raise BadEdit('an old text stands in %s %d times' % (file, text.count(old)))
            functions.append(function_at(file, text[:text.index(old) + len(old)]))
            texts[file] = text.replace(old, new)
        return texts, functions

    def places(self):
        """The bare names of the functions that it changes."""
        return {it.rsplit('::', 1)[-1] for it in self.functions}

    def owns(self, function):
        """How much of the path of a function that a check names, and of those inside it, is that of one that this edit changes; a
        module is worth less than any function in it. A closure's path is that of its function, with an `fn` in it."""
        function = '::'.join(it for it in function.split('::') if it != 'fn')
        parts = [(len(it), it) for it in self.functions if not it.endswith('::*')]
        parts += [(1, it[:-len('::*')]) for it in self.functions if it.endswith('::*')]
        return max((worth for worth, it in parts if '::%s::' % it in '::%s::' % function), default=0)

    def name(self):
        return self.crate + '/' + self.own_name


class Batch:
    """Edits of one crate that are made together, each in functions of its own where it says so."""

    def __init__(self, edits=(), apart=True):
        self.edits = []
        self.texts = {}
        self.apart = apart
        for edit in edits:
            self.takes(edit)

    def takes(self, edit):
        if self.apart and any(it.places() & edit.places() for it in self.edits):
            return False
        try:
            self.texts, _ = edit.made(self.texts)
        except BadEdit:
            return False
        self.edits.append(edit)
        return True


def batches_of(edits, apart=True):
    batches = []
    for edit in edits:
        if not any(it.takes(edit) for it in batches):
            batches.append(Batch([edit], apart))
    return batches


def function_at(file, before):
    """By what a check names the function that a text ends in: its path below the crate, or the end of that of a method, which
    goes by the place of its type. Of what is no plain function, its module, and then `::*`."""
    module = [it for it in file[len('src/'):-len('.rt')].split('/') if it not in ('lib', 'main')]
    functions = list(FUNCTION.finditer(before))
    if not functions:
        return '::'.join(module + ['*'])
    indented, name = functions[-1].groups()
    if not indented:
        return '::'.join(module + [name])
    block = list(BLOCK.finditer(before))[-1].group()
    words = re.sub(r'<(?:[^<>]|<[^<>]*>)*>', '', block[len('impl'):]).split()
    if 'for' in words:
        return '::'.join(module + ['*'])
    return words[0] + argument_of(block) + '::' + name


def argument_of(block):
    """What a check names behind the type of a block of methods: the argument that it is for, if it is not for any."""
    found = re.match(r'impl(<.*?>)? \w+<(\w+)> \{', block)
    if not found or re.search(r'\b%s\b' % found.group(2), found.group(1) or ''):
        return ''
    return '+' + found.group(2)


def copy_of(crate, room, texts):
    """Puts the crate into an empty folder, with these texts in place of its own."""
    for part in PARTS:
        source = os.path.join(folder(ROOT, crate), part)
        if os.path.isdir(source):
            shutil.copytree(source, os.path.join(room, part))
    for file, text in texts.items():
        place = os.path.join(room, file)
        os.makedirs(os.path.dirname(place), exist_ok=True)
        with open(place, 'w') as target:
            target.write(text)


def texts_of(crate):
    """The lines of each of a crate's edits."""
    place = os.path.join(folder(ROOT, crate), TABLE)
    if not os.path.exists(place):
        return []
    with open(place) as table:
        return [it.strip('\n') for it in re.split(r'\n\n+', table.read()) if it.strip()]


def names_by_call(crate):
    """The names of a crate's edits, by the call that each turns; '' for those that name none."""
    found = {}
    for text in texts_of(crate):
        call = re.search(r'^call: (\S+)$', text, re.M)
        found.setdefault(call[1] if call else '', []).append(NAME.match(text)[1])
    return found


def read_edits(crate, asked, bad):
    """Those of a crate that were asked for, by its name or by theirs."""
    edits = []
    for text in texts_of(crate):
        name = '%s/%s' % (crate, NAME.match(text)[1])
        if asked and crate not in asked and name not in asked:
            continue
        try:
            edits.append(Edit(crate, text))
        except (BadEdit, OSError) as error:
            bad.append('%s: BAD EDIT: %s' % (name, error))
    return edits
