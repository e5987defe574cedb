"""What the prover's output says of the functions that are not proved: which goals, and why each is not met.

A goal counts as refused where it is shown false, or left open by a search that came to its end. Where a search stopped at a
limit, an answer's line no longer fits, or a proof names what is gone, the contract may be met all the same: these are kinds of
their own.
"""
import collections
import re

FALSE = 'shown false'
OPEN = 'left open'
SAFETY = 'of its safety alone'
LIMIT = 'a search stopped at a limit'
ANSWER = "an answer's line does not fit"
NAME = 'a name is gone'
# from the one that tells most
KINDS = (FALSE, OPEN, SAFETY, LIMIT, ANSWER, NAME)
REFUSED = (FALSE, OPEN)

Goal = collections.namedtuple('Goal', 'function name kind line')

VERDICT = re.compile(r'fn (\w+)::(\S+): (.*)')
NOTE = re.compile(r'note: (?:\./)?src/\S+: it is not proved that [^`]*(?:`[^`]*`[^`]*)*\(`([^`]+)`\)(.*)')
ANSWERED = re.compile(r'(?:note: )?(?:\./)?proofs/(\S+)/(?:Answers|Invariants|Proof)\.antt:\d+:\d+: error: (?:`([^`]+)`: )?(.*)', re.S)
# A goal that computes to the empty type may be told behind its function's line alone.
EMPTY = re.compile(r'note: `([^`]+)` of proofs/(\S+)/Answers\.antt must prove: ⊥(?:\n|$)')
GONE = re.compile(r'has no field|is not in scope|has no `|that can be named from here|was not admitted')
TACTIC = re.compile(r'`(?:search|grind|omega|cc|simp)`')
# The prover's own words for a limit of a whole declaration.
STOPPED = re.compile(r'\bran out of\b|outgrew the memory limit|stopped at the step limit|gave up at|stopped at its own limit|so the goal may hold')
VALUES = re.compile(r'the facts known there allow values at which this goal is false|All of that holds, and the goal fails')
ENDED = re.compile(r'Every way was tried|the goal fails at')
# Goals that no clause of a contract states.
OF_SAFETY = re.compile(r'(?:overflow_|nonzero_|bounds-|slice_bounds-|offset_bounds-|prove-)|.*-smaller')


def entries(said):
    """The lines, with those that go on with an error or a note behind it."""
    found = []
    for line in said.split('\n'):
        if line.startswith('  ') and found:
            found[-1] += '\n' + line
        else:
            found.append(line)
    return found


def kind_of_note(name, behind):
    if VALUES.search(behind):
        kind = FALSE
    elif STOPPED.search(behind):
        kind = LIMIT
    else:
        kind = OPEN
    return SAFETY if kind in REFUSED and OF_SAFETY.match(name) else kind


def kind_of_answer(said):
    """Why an answer is none: what a tactic in it found, or that its own words do not fit."""
    if GONE.search(said.split('\n')[0]):
        return NAME
    if not TACTIC.match(said):
        return ANSWER
    if STOPPED.search(said):
        return LIMIT
    if VALUES.search(said):
        return FALSE
    return OPEN if ENDED.search(said) else LIMIT


def function_of(path):
    """The function whose proof stands in this folder of proofs/. One that calls itself has a `+` before its name there."""
    return path.replace('/', '::').replace('+', '')


def goals_of(said):
    """The goals that are not met, each with its function's path below the crate."""
    goals = []
    waiting = []
    answered = {}
    for entry in entries(said):
        note, answer, empty, verdict = (it.match(entry) for it in (NOTE, ANSWERED, EMPTY, VERDICT))
        if note:
            waiting.append((note.group(1), kind_of_note(note.group(1), note.group(2)), entry))
        elif answer:
            path, name, text = answer.groups()
            answered.setdefault(function_of(path), []).append((name or '', kind_of_answer(text), entry))
        elif empty:
            name, path = empty.groups()
            if not any(it.function == function_of(path) and it.name == name for it in goals):
                goals.append(Goal(function_of(path), name, kind_of_note(name, ''), entry))
        elif verdict:
            if re.match(r'(?:not proved|no proof|could not tell)(?!: it calls)', verdict.group(3)):
                goals += [Goal(verdict.group(2), *it) for it in waiting]
                if verdict.group(3).startswith('could not tell'):
                    goals.append(Goal(verdict.group(2), '', LIMIT, entry))
            waiting = []
    for function, found in answered.items():
        goals += [Goal(function, *it) for it in found]
    lost = {it.function for it in goals if it.kind == NAME}
    # Where a proof names what is gone, a goal may be open for want of the answer that goes by another name.
    return [it._replace(kind=NAME) if it.kind == OPEN and it.function in lost else it for it in goals]


def not_proved(said):
    """Each function that is not proved for a goal of its own."""
    found = (VERDICT.match(it) for it in said.split('\n'))
    return [it.group(2) for it in found if it and re.match(r'(?:not proved|no proof|could not tell)(?!: it calls)', it.group(3))]


def best(goals):
    """The goal that tells most, or None where there is none."""
    return min(goals, key=lambda it: KINDS.index(it.kind), default=None)


# What is tried where no answer stands, under names that no file has.
ASKED = '''\
use Rattle.std.proofs.Common.{rules as every_rule, arith as every_number}
use Rattle.std.proofs.lemmas.Grind.{common_steps as every_step}
'''
PLAIN = ('search every_rule', 'grind (every_number, every_step)')


def asked_anew(crate, function, said, goals, text, plain):
    """The function's answers with this plain search in place of those that are not proved and of those that stop at a limit; None
    where there are none such. The text is that of its Answers.antt, or empty."""
    anew = text
    for goal in goals:
        # It may end with the brace of a record, which stands in the first column.
        body = re.compile(r'^(%s(?: [^=\n]*)? =)[ \n].*(?:\n[ \t})].*)*' % re.escape(goal.name), re.M)
        if goal.kind in (LIMIT, ANSWER) and goal.name:
            anew = body.sub(r'\1 ' + plain, anew, count=1)
    lines = asked_lines(said, function)
    if anew == text and not lines:
        return None
    if lines and not text:
        anew = 'use Rattle.%s.proofs.%s.Goals as goal\n' % (crate, function.replace('::', '.'))
    asked = ''.join(it.removesuffix('?') + plain + '\n' if it.endswith('= ?') else '\n' + it + '\n' for it in lines)
    return ASKED + anew + asked


def asked_lines(said, function):
    """The lines by which the prover says how to answer the goals of a function that it leaves open: `NAME : goal.NAME`, and `NAME
    c = ?`."""
    place = 'proofs/%s/Answers.antt' % function.replace('::', '/')
    lines = []
    inside = False
    for line in said.split('\n'):
        if line.startswith('help: '):
            inside = ('%s with these lines' % place in line) or ('these lines to ./%s' % place in line)
        elif not line.startswith('    '):
            inside = False
        elif inside and lines and lines[-1].endswith((' :', ' =')) and line.startswith('     '):
            # The prover breaks a line of a long name.
            lines[-1] += ' ' + line.strip()
        elif inside and re.match(r'    (?:pub |\S.* =(?: \?)?$|unfolding )', line):
            lines.append(line[4:])
    return lines
