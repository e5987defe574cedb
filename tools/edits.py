#!/usr/bin/env python3
"""Tries the must-fail edits of the crates: the prover must refuse each wrong body, at a goal of the function that it stands in.

    edits.py [--further] [--lacking] [--proved-in LOG] [--jobs N] [CRATE[/NAME] ..]
    edits.py --read [CRATE ..]

Those of the tables crates/NAME/edits.txt that the gate tries, and after --further the others too; of these crates, or of all; or
one by its name. After --lacking only those of which edits_tried.toml does not say that they were refused over the present
contracts. The form of the tables is told in edit_files.py.

It goes over the libraries that `rt ci` or `rt lib` left, and proves no crate whole. Of each crate the functions that its edits
change are proved first, unchanged, with what they call; this shows that what is refused later is refused for its edit. With
--proved-in that is left out: LOG is what `rt ci` prints, which may still run, and a crate's turn comes once it is proved there.
Then edits of a crate that change different functions are made together on a copy, and the changed functions are checked, each by
itself: a caller is checked against a contract, which no edit changes. An edit is refused where a goal of its own function is
shown false, or left open by a search that came to its end. Where a search stopped at its limit, or an answer's line does not fit,
the goals are asked anew, with a plain search in their place, in the edited crate and, where an answer stood, in the unchanged
one: only what a search proves there and not here counts. What is left is no refusal, and fails: by a limit, by a name that is
gone, by an answer's line, by a goal of safety alone (an index, a sum). One that is not refused beside others is tried alone.
Prints a line for each edit, then how many by each kind, and last how many were refused: `N passed, M failed`. Status 0 where none
failed, and something was tried. After --further writes to edits_tried.toml which were refused, and over which contracts.

After --read none is tried: all edits of the crates are made on copies and read by the compiler's front end, which checks names
and types; but not where edits_tried.toml says that it has read the same edits with the same sources. What was read is written
there. A crate fails if the record does not say of each of its edits that it was refused over the present contracts.
"""
import argparse
import collections
import functools
import os
import re
import shutil
import subprocess
import sys
import tempfile
import threading
import time
from concurrent.futures import ThreadPoolExecutor

sys.dont_write_bytecode = True
sys.path[:0] = [os.path.join(os.path.dirname(os.path.abspath(__file__)), it) for it in ('build', 'gate')]
import edit_verdicts as verdicts
import edits_tried
from crates import ROOT, folder, read_crates, words_of
from edit_files import BadEdit, Batch, batches_of, copy_of, read_edits

# as many checks at a time as main says
turns = threading.Semaphore()

PROVED = re.compile(r'^(?:rt: )?(\w+) (?:proved$|is kept: )', re.M)

Told = collections.namedtuple('Told', 'edit kind said')


def run_check(crate, texts, more):
    """What a check of the crate says, with these texts in place of its own."""
    with turns, tempfile.TemporaryDirectory() as room:
        copy_of(crate, room, texts)
        began = time.monotonic()
        words = words_of(crate, 'check') + ['--jobs', '1', *more]
        ran = subprocess.run(words, cwd=room, stdin=subprocess.DEVNULL, stdout=subprocess.PIPE, stderr=subprocess.STDOUT, text=True)
        ran.seconds = time.monotonic() - began
        return ran


def check(crate, texts, edits, kept):
    """What a check of the functions that these edits change says, over what was kept."""
    functions = dict.fromkeys(function for edit in edits for function in edit.functions)
    return run_check(crate, texts, ['--incremental', kept, *(word for it in functions for word in ('--only', it.removesuffix('::*')))])


def check_over(crate, texts, edits, kept):
    """The same over a copy of what was kept; where nothing was yet, what this one proves is kept."""
    if not os.listdir(kept):
        return check(crate, texts, edits, kept)
    with tempfile.TemporaryDirectory(dir=os.path.dirname(kept)) as room:
        over = os.path.join(room, 'kept')
        shutil.copytree(kept, over, copy_function=link_or_copy)
        return check(crate, texts, edits, over)


def link_or_copy(source, target):
    """What was proved is linked: a check replaces such a file, and changes none."""
    try:
        if source.endswith('.oantt'):
            os.link(source, target)
            return
    except OSError:
        pass  # another file system
    shutil.copy2(source, target)


def refuse_unread(ran):
    """Raises why a check says nothing of its edits."""
    lines = ran.stdout.split('\n')
    if re.search(r'\berror\[[\w-]+\]', ran.stdout):
        raise BadEdit('BAD EDIT: ' + next(it for it in lines if 'error' in it)[:200])
    if ran.returncode == 3 and verdicts.STOPPED.search(ran.stdout):
        return
    if len(lines) < 2 or not lines[-2].startswith('only='):
        raise BadEdit('it was not proved and not refused: ' + next((it for it in lines if 'error' in it), lines[0])[:200])


def judge(batch, ran):
    """Of each edit of the batch the goals of its own functions that are not met, by its name. Raises why none of them counts."""
    refuse_unread(ran)
    if ran.returncode == 0:
        raise BadEdit('NOT REFUSED: it is still proved')
    found = {}
    others = []
    goals = verdicts.goals_of(ran.stdout)
    for function in verdicts.not_proved(ran.stdout):
        edit = max(batch.edits, key=lambda it: it.owns(function))
        if edit.owns(function):
            found.setdefault(edit.name(), []).extend(it for it in goals if it.function == function)
        else:
            others.append(function)
    if others:
        raise BadEdit('what is not proved is another function: ' + ', '.join(others))
    return found


def asked_files(edits, ran, found, search):
    """The Answers of the functions whose goals are to be asked anew, and those of them that stand for an answer, for the
    unchanged crate."""
    asked, plain = {}, {}
    for goals in (found[it.name()] for it in edits):
        for function in dict.fromkeys(it.function for it in goals):
            crate = edits[0].crate
            file = 'proofs/%s/Answers.antt' % function.replace('::', '/')
            place = os.path.join(folder(ROOT, crate), file)
            text = open(place).read() if os.path.exists(place) else ''
            own = [it for it in goals if it.function == function]
            anew = verdicts.asked_anew(crate, function, ran.stdout, own, text, search)
            if anew is not None:
                asked[file] = anew
                without = verdicts.asked_anew(crate, function, '', own, text, search)
                if without is not None:
                    plain[file] = without
    return asked, plain


def ask_anew(edits, ran, found, kept, search):
    """The goals that are not met where a plain search stands in place of the answers that are none, by the names of the edits."""
    asked, plain = asked_files(edits, ran, found, search)
    if not asked:
        return {}
    again = judge(Batch(edits), check_over(edits[0].crate, {**Batch(edits).texts, **asked}, edits, kept))
    if plain:
        lacking = verdicts.not_proved(check_over(edits[0].crate, plain, edits, kept).stdout)
        # No search proves these in the unchanged crate either.
        again = {name: [it._replace(kind=verdicts.ANSWER) if it.function in lacking and it.kind in verdicts.REFUSED and
                        not it.line.startswith('note: ') else it for it in goals] for name, goals in again.items()}
    return again


def settle(edits, ran, found, kept):
    """What the goals of these edits, asked anew, come to, by their names."""
    settled = {}
    for search in verdicts.PLAIN:
        left = [it for it in edits if not is_refused(settled.get(it.name(), ()))]
        if left:
            settled.update(ask_all(left, ran, found, kept, search))
    return settled


def ask_all(edits, ran, found, kept, search):
    try:
        return ask_anew(edits, ran, found, kept, search)
    except BadEdit as error:
        if len(edits) > 1:
            return {name: goals for it in edits for name, goals in ask_all([it], ran, found, kept, search).items()}
        said = '%s; asked anew: %s' % (first_line(found[edits[0].name()][0]), error)
        return {edits[0].name(): [it._replace(line=said) for it in found[edits[0].name()]]}


def is_refused(goals):
    best = verdicts.best(goals)
    return best is not None and best.kind in verdicts.REFUSED


def first_line(goal):
    return goal.line.split('\n')[0][:200]


def halves(batch):
    middle = len(batch.edits) // 2
    return [Batch(it, batch.apart) for it in (batch.edits[:middle], batch.edits[middle:])]


def try_batch(batch, kept):
    """What was told of each of its edits."""
    ran = check_over(batch.edits[0].crate, batch.texts, batch.edits, kept)
    alone = len(batch.edits) == 1
    try:
        found = judge(batch, ran)
    except BadEdit as error:
        if alone:
            return [Told(batch.edits[0], None, '%s: %s' % (batch.edits[0].name(), error))]
        return [it for half in halves(batch) for it in try_batch(half, kept)]
    found.update(settle([it for it in batch.edits if found.get(it.name()) and not is_refused(found[it.name()])], ran, found, kept))
    told = []
    for edit in batch.edits:
        goal = verdicts.best(found.get(edit.name(), []))
        if goal:
            told.append(Told(edit, goal.kind, '%s: %s, in %d s: %s' % (edit.name(), goal.kind, ran.seconds, first_line(goal))))
        elif alone:
            told.append(Told(edit, None, '%s: no goal of it fails' % edit.name()))
        else:
            told += try_batch(Batch([edit]), kept)
    return told


def tell_batch(batch, kept):
    """The same, and prints it."""
    told = try_batch(batch, kept)
    print(''.join(it.said + '\n' for it in told), end='', flush=True)
    return told


def prove_unchanged(crate, edits, kept):
    """Proves what the edits change, over what a check of the crate kept, if one did."""
    earlier = os.path.join(folder(ROOT, crate), 'out', 'incremental')
    if os.path.isdir(earlier):
        shutil.copytree(earlier, kept, copy_function=link_or_copy)
    else:
        os.makedirs(kept)
    ran = check(crate, {}, edits, kept)
    if ran.returncode != 0:
        raise BadEdit('what is to be edited is not proved unchanged:\n' + ran.stdout[-2000:])
    print('%s: what its edits change is proved unchanged, in %d s' % (crate, ran.seconds), flush=True)


@functools.lru_cache(maxsize=1)
def proved_in(log, size):
    """The crates that `rt ci` has told in its log, of this size now, to be proved, in this run or an earlier one, and whether it
    has ended."""
    with open(log, errors='replace') as file:
        told = file.read(size)
    return set(PROVED.findall(told)), re.search(r'^\d+ passed, \d+ failed$', told, re.M) is not None


def wait_for(crate, log):
    """Returns once the crate is proved."""
    while True:
        proved, has_ended = proved_in(log, os.path.getsize(log))
        if crate in proved:
            return
        if has_ended:
            raise BadEdit('rt ci did not prove it')
        time.sleep(2)


def try_all(by_crate, log, bad):
    """Tries them, those of a crate once what they change is proved unchanged, and returns what was told of each."""
    told = []
    with tempfile.TemporaryDirectory() as room, ThreadPoolExecutor(2 * sum(map(len, by_crate.values())) + 1) as pool:
        def begin(crate):
            kept = os.path.join(room, crate, 'kept')
            first, *others = batches_of(by_crate[crate])
            if log:
                wait_for(crate, log)
                os.makedirs(kept)
            else:
                prove_unchanged(crate, by_crate[crate], kept)
            tried = pool.submit(tell_batch, first, kept)
            if log:
                tried.exception()  # the others go over what it proves
            return [tried, *(pool.submit(tell_batch, batch, kept) for batch in others)]

        begun = {crate: pool.submit(begin, crate) for crate in sorted(by_crate, key=lambda it: -len(by_crate[it]))}
        for crate, tried in begun.items():
            try:
                results = tried.result()
            except BadEdit as error:
                bad.extend('%s: NOT TRIED: %s' % (it.name(), error) for it in by_crate[crate])
                continue
            told += [it for result in results for it in result.result()]
            shutil.rmtree(os.path.join(room, crate), ignore_errors=True)
    return told


def read_batch(batch):
    """What the front end says against these edits."""
    ran = run_check(batch.edits[0].crate, batch.texts, ['--only', ''])
    if ran.returncode == 0:
        return []
    if len(batch.edits) == 1:
        line = next((it for it in ran.stdout.split('\n') if 'error' in it), 'status %d' % ran.returncode)
        return ['%s: BAD EDIT: %s' % (batch.edits[0].name(), line[:200])]
    return [it for half in halves(batch) for it in read_batch(half)]


def read_all(by_crate, log):
    """Has the front end read all edits, and returns what it says against those of each crate."""
    def read_crate(crate):
        try:
            if log:
                wait_for(crate, log)
            return [it for batch in batches_of(by_crate[crate], apart=False) for it in read_batch(batch)]
        except BadEdit as error:
            return ['%s: its edits were not read: %s' % (crate, error)]

    with ThreadPoolExecutor(len(by_crate) + 1) as pool:
        return dict(zip(by_crate, pool.map(read_crate, by_crate)))


def count_kinds(told):
    """How many edits were refused by each kind, in one line."""
    counts = collections.Counter(it.kind for it in told)
    kinds = ['%d %s' % (counts[it], it) for it in verdicts.KINDS if counts[it] or it in verdicts.REFUSED]
    return 'edits: %d tried: %s; %d not refused' % (len(told), ', '.join(kinds), counts[None])


def main():
    parser = argparse.ArgumentParser(description=__doc__, formatter_class=argparse.RawDescriptionHelpFormatter)
    parser.add_argument('--further', action='store_true')
    parser.add_argument('--lacking', action='store_true')
    parser.add_argument('--read', action='store_true')
    parser.add_argument('--proved-in', metavar='LOG')
    parser.add_argument('--jobs', type=int, default=len(os.sched_getaffinity(0)))
    parser.add_argument('asked', nargs='*')
    words = parser.parse_args()
    for _ in range(1, words.jobs):
        turns.release()
    bad = []
    found = {crate: read_edits(crate, words.asked, bad) for crate in read_crates()}
    if not words.further and not words.read:
        found = {crate: [it for it in edits if it.is_of_gate] for crate, edits in found.items()}
    there = {name for crate, edits in found.items() for name in (crate, *(it.name() for it in edits))}
    bad += ['%s: there is no such crate or edit' % it for it in words.asked if it not in there]
    if words.lacking:
        found = {crate: edits_tried.lacking(crate, edits) for crate, edits in found.items()}
    by_crate = {crate: edits for crate, edits in found.items() if edits}
    if not by_crate:
        bad.append('there are no edits')
    whole = [it for it in by_crate if not words.lacking and (not words.asked or it in words.asked)]
    if words.read:
        unread = {it: edits for it, edits in by_crate.items() if not edits_tried.are_read(it, edits)}
        passed = sum(map(len, by_crate.values()))
        wrong = read_all(unread, words.proved_in)
        bad += [it for told in wrong.values() for it in told]
        edits_tried.record_read({it: unread[it] for it in unread if it in whole and not wrong[it]})
        bad += edits_tried.lacks({it: by_crate[it] for it in whole})
    else:
        told = try_all(by_crate, words.proved_in, bad)
        passed = sum(it.kind in verdicts.REFUSED for it in told)
        bad += [it.said for it in told if it.kind not in verdicts.REFUSED]
        print(count_kinds(told))
        if words.further:
            edits_tried.record_tried({crate: [it for it in told if it.edit.crate == crate] for crate in by_crate}, whole, verdicts.REFUSED)
    print(''.join('failed: %s\n' % it for it in bad), end='')
    print('%d passed, %d failed' % (passed, len(bad)))
    return 1 if bad else 0


if __name__ == '__main__':
    sys.exit(main())
