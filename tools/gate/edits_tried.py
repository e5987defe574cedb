"""Which edits were refused, and over which contracts: edits_tried.toml, which edits.py reads and writes."""
import collections
import datetime
import hashlib
import os
import subprocess
import tomllib

from crates import ROOT, below, folder, read_crates
from edit_contracts import contracts, files, read_text
from edit_files import read_edits

RECORD = os.path.join(ROOT, 'tools', 'gate', 'edits_tried.toml')
HEAD = """# Per crate, when edits were tried last: by `tools/edits.py --further CRATE`, or single ones, CRATE/NAME, which write this. `refused`
# has a sum for each edit that was refused: of its lines, and all that it is judged by, which is the contracts of the functions
# that it changes and of those that these call, and the definitions of both. `kinds` is what the last run of all told. `read` is a
# sum over edits and sources that the compiler has read together. `tools/edits.py --read` fails unless each edit is among those
# refused; imports, proofs and what bodies do have no sums.
"""
COLUMNS = 140


def sum_of(texts, length=8):
    total = hashlib.sha256()
    for text in texts:
        total.update(text.encode() + b'\n')
    return total.hexdigest()[:length]


def edit_sum(edit):
    """The sum of an edit and of all that it is judged by."""
    return sum_of([edit.text, *contracts(edit.crate).of(edit)])


def sources_sum(crate, edits):
    """A sum over the crate's edits, its sources, and those below it."""
    crates = read_crates()
    sources = [it for name in sorted({crate} | below(crate, crates)) for it in files(os.path.join(folder(ROOT, name), 'src'), '.rt')]
    return sum_of([*map(read_text, sources), *sorted(it.text for it in edits)], 16)


def read_record():
    if not os.path.exists(RECORD):
        return {}
    with open(RECORD, 'rb') as file:
        return tomllib.load(file)


def lacking(crate, edits):
    """Those of a crate's edits of which the record does not say that they were refused over the contracts that stand."""
    refused = read_record().get(crate, {}).get('refused', ())
    return [it for it in edits if edit_sum(it) not in refused]


def lacks(by_crate):
    """What to say of each crate of which the record lacks something."""
    for crate, edits in by_crate.items():
        names = ', '.join(sorted(it.own_name for it in lacking(crate, edits)))
        if names:
            yield '%s: not known to be refused over the present contracts: %s: tools/edits.py --further --lacking %s' % (crate, names, crate)


def are_read(crate, edits):
    """Whether the compiler has read these edits with the sources that stand now."""
    return read_record().get(crate, {}).get('read') == sources_sum(crate, edits)


def list_of(name, words):
    """A list over as many lines as it needs."""
    if not words:
        return ['%s = []' % name]
    lines = ['%s = [' % name]
    for word in words:
        if len(lines) == 1 or len(lines[-1]) + len(word) + 4 > COLUMNS:
            lines.append('   ')
        lines[-1] += ' "%s",' % word
    return lines + [']']


def part(crate, tried):
    """What the record has of a crate, in its own lines."""
    lines = ['[%s]' % crate, 'date = %s' % tried['date']]
    lines += ['%s = "%s"' % (it, tried[it]) for it in ('commit', 'read') if it in tried]
    lines.append('kinds = { %s }' % ', '.join('"%s" = %d' % it for it in sorted(tried.get('kinds', {}).items())))
    return '\n'.join(lines + list_of('refused', sorted(tried['refused']))) + '\n'


def write_record(record):
    with open(RECORD, 'w') as file:
        file.write(HEAD + ''.join('\n' + part(*it) for it in sorted(record.items())))


def record_read(by_crate):
    """Records of these crates that the compiler has read all their edits with the sources that stand now."""
    if not by_crate:
        return
    record = read_record()
    for crate, edits in by_crate.items():
        if crate in record:
            record[crate]['read'] = sources_sum(crate, edits)
    write_record(record)


def beside(old, told, there):
    """The sums of the edits that were refused: of those that are still there and were not tried since, and of those that are told
    now, of which each sum goes with whether it was."""
    return {it for it in old if it in there and it not in told} | {it for it, is_refused in told.items() if is_refused}


def record_tried(by_crate, whole, refused):
    """Records what was told of edits: of all of these whole crates, or of some of a crate."""
    record = read_record()
    commit = subprocess.run(['git', 'rev-parse', '--short', 'HEAD'], cwd=ROOT, stdout=subprocess.PIPE, text=True).stdout.strip()
    for crate, told in by_crate.items():
        # Where a crate's own check failed, none of its edits was tried.
        if not told:
            continue
        old = record.get(crate, {})
        there = {edit_sum(it) for it in read_edits(crate, [], [])}
        sums = beside(old.get('refused', ()), {edit_sum(it.edit): it.kind in refused for it in told}, there)
        new = {'date': datetime.date.today(), 'commit': commit, 'refused': sums}
        if crate in whole:
            new['kinds'] = collections.Counter(it.kind or 'not refused' for it in told)
        record[crate] = {**old, **new}
    write_record(record)
