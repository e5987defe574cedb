#!/usr/bin/env python3
"""edits_test.py: tries how edits.py reads what the prover prints, on texts that it printed of edits, cut behind what decides.

A line for each test that fails; the last line counts: 'N passed, M failed'.
"""
import datetime
import os
import sys
import tomllib

sys.dont_write_bytecode = True
sys.path.insert(0, os.path.join(os.path.dirname(os.path.abspath(__file__)), '..', 'build'))
import edit_contracts
import edit_verdicts as verdicts
import edits_tried
from counting import Count
from edit_files import Batch, batches_of, function_at

with open(os.path.join(os.path.dirname(os.path.abspath(__file__)), '..', '..', 'tests', 'edits.toml'), 'rb') as file:
    TABLE = tomllib.load(file)
PRINTED = {row['name']: row for row in TABLE['printed']}
TEXTS = TABLE['texts']
RECORDED = {'date': datetime.date(2026, 1, 2), 'commit': '12ab', 'read': '34cd', 'kinds': {verdicts.FALSE: 2}, 'refused': ['%02x' % it for it in range(90)]}


class Change:
    """An edit of one function, as far as batches and contracts look at it."""

    def __init__(self, function, file='', new=''):
        self.function = function
        self.functions = [function]
        self.changes = [(file, '', new)]

    def places(self):
        return {self.function}

    def made(self, texts):
        return {**texts, self.function: 'changed'}, [self.function]


def judged_by(*words):
    """What an edit is judged by in these two sources and their definitions: of each clause, and of each definition, its name."""
    told = edit_contracts.Contracts({'src/two.rt': TEXTS['two'], 'src/sum.rt': TEXTS['sum']}, [TEXTS['defined']]).of(Change(*words))
    return sorted(' '.join(it.removeprefix('abbrev ').removeprefix('pub ').split()[:2]) for it in told)


def tests_of_contracts():
    clauses = list(edit_contracts.clauses(TEXTS['source']))
    yield 'clauses of a source', clauses == ['requires small { x < 9 }', 'ensures { IfOk result (λ r. { r }) }']
    imports = 'use A.{b}\npub use C.{d}\npub mod E\nuse_it = b\n'
    yield 'imports say nothing', edit_contracts.IMPORT.sub('', imports) == 'use_it = b\n'
    always = ['ensures read', 'ghost view', 'record IsEmpty']
    called = sorted(always + ['ensures small', 'ensures {', 'IsSmall :', 'limit ='])
    yield 'the contracts of a function and of what it calls', judged_by('Two::one', 'src/two.rt', 'self.other()') == called
    yield 'those of what it calls alone', judged_by('Two::other', 'src/two.rt', '3') == sorted(always + ['ensures {'])
    added = sorted(always + ['ensures sum', 'invariant here', 'ensures {', 'Sums :'])
    yield 'those of what an edit calls', judged_by('Two::other', 'src/two.rt', 'sum()') == added
    yield 'a call behind an operator', judged_by('Two::other', 'src/two.rt', '-sum()') == added
    everything = sorted(set(added) | set(called))
    yield 'those of what a method of a trait calls', judged_by('two::*', 'src/two.rt', '3') == everything
    yield 'names of operators', 'after' in dict(edit_contracts.definitions(TEXTS['defined']))['abbrev pub ◌after◌ : ℕ → ℕ → ℕ']


def tests():
    for name, row in PRINTED.items():
        goals = verdicts.goals_of(row['said'])
        yield name, goals != [] and {it.function for it in goals} == {row['function']} and verdicts.best(goals).kind == getattr(verdicts, row['kind'])
    yield 'callers do not count', verdicts.not_proved(TEXTS['caller']) == ['text::quick::number_at']
    two = PRINTED['numbers at which an answer fails']['said']
    both = verdicts.goals_of(PRINTED['what a call requires, at its limit']['said'].split('fn ')[0] + two)
    yield 'the best of two goals', len(both) == 2 and verdicts.best(both).kind == verdicts.FALSE
    yield 'lines to ask by', verdicts.asked_lines(TEXTS['help'], 'head::Edition::most_cases') == ['pub returns-in-Two : goal.returns-in-Two', 'returns-in-Two c = ?']
    goal = verdicts.Goal('text::selects::choose', 'returns', verdicts.ANSWER, '')
    name = 'returns-then-bytes-eq-MOST_VALUE_BYTES-clause-none'
    yield 'lines that the prover breaks', verdicts.asked_lines(TEXTS['help'], 'value::Value::bytes') == ['pub %s : goal.%s' % (name, name), name + ' g c = ?']
    answers, asked = TEXTS['answers'], verdicts.ASKED + TEXTS['asked']
    record = answers.replace('    three\n', '    record {\n      three = four;\n}\n')
    yield 'a record asked anew', verdicts.asked_anew('hub_base', goal.function, '', [goal], record, verdicts.PLAIN[0]) == asked
    yield 'an answer asked anew', verdicts.asked_anew('hub_base', goal.function, '', [goal], answers, verdicts.PLAIN[0]) == asked
    yield 'nothing to ask', verdicts.asked_anew('hub_base', goal.function, '', [goal._replace(kind=verdicts.FALSE)], answers, '') is None
    itself = verdicts.goals_of('./proofs/svg/bands/+put_between/Answers.antt:43:39: error: `returns`: `search`: no proof of it')
    yield 'a function that calls itself', [it.function for it in itself] == ['svg::bands::put_between']
    batches = batches_of([Change('one'), Change('two'), Change('one')])
    yield 'edits of one function are apart', [len(it.edits) for it in batches] == [2, 1]
    yield 'or read together', [len(it.edits) for it in batches_of([Change('one'), Change('one')], apart=False)] == [2]
    yield 'an empty batch', Batch().texts == {}
    yield 'a method for any argument', function_at('src/hub.rt', 'impl<F: Form> HubOf<F> {\n    pub fn len(') == 'HubOf::len'
    yield 'a method for one argument', function_at('src/hub.rt', 'impl HubOf<Whole> {\n    pub fn entries(') == 'HubOf+Whole::entries'
    yield 'a record that is read back', tomllib.loads(edits_tried.part('one', RECORDED))['one'] == RECORDED
    yield 'edits beside others', edits_tried.beside(['1a', '2b', 'gone'], {'3c': True, '1a': False}, {'1a', '2b', '3c'}) == {'2b', '3c'}
    yield from tests_of_contracts()


def main():
    count = Count()
    for name, is_well in tests():
        count.test(name, is_well)
    return count.end()


if __name__ == '__main__':
    sys.exit(main())
