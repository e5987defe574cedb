#!/usr/bin/env python3
"""Finds or makes a program that answers by the sources as they are.

    ready.py PROGRAM                    prints its path
    ready.py --run PROGRAM WORDS..      runs it with these words, as `answer.py` does

That is the built program where it is current, as `current.py` says. Else `rt try` compiles one in about a minute, with checks as
it runs and without a proof; it stays until a source changes, and a line on standard error says what it is. Where `rt try` makes
none, the program is proved and built. Status 125 where there is none in the end.
"""
import array
import fcntl
import os
import shutil
import subprocess
import sys
import termios
import time

sys.dont_write_bytecode = True
import answer
import ending
from build import bring_up_to_date, has_rt, hold, remove
from crates import LIST, ROOT, below, folder, read_crates
from current import LAG, look, output, sources, time_of

# how many minutes `./chanhub build` takes, by benches/README.md
MINUTES = 10
# by program, the command that reads the file which is named behind it
READS = {'chanhub': 'run', 'chanhub_tool': 'story'}
# of `rt try`, where the sources do not compile
REFUSED = 1


def tried(crate):
    """Where the program stays that `rt try` compiled."""
    return os.path.join(folder(ROOT, crate), 'out', 'tried')


def changed(path):
    """When this came here or was changed, whatever time it brought along."""
    found = os.stat(path)
    return max(found.st_mtime_ns, found.st_ctime_ns)


def is_tried(crate, crates):
    """Whether that is newer than all that it was compiled from, and the folders of that."""
    if not os.path.exists(tried(crate)):
        return False
    paths = {LIST, *(path for it in {crate, *below(crate, crates)} for path in sources(it))}
    return time_of(tried(crate)) >= max(map(changed, paths | {os.path.dirname(it) for it in paths if it != LIST}))


def has_begun(gate, child):
    """Whether somebody reads what is in the pipe; not where the child ends before."""
    left = array.array('i', [1])
    while left[0] and child.poll() is None:
        time.sleep(0.05)
        fcntl.ioctl(gate, termios.FIONREAD, left)
    return not left[0]


def compile_unproved(crate, room, log):
    """The program, which `rt try` does not keep: it is given a pipe to read, and is copied while it waits. None, and the status
    of `rt try`, where that made none."""
    gate = os.path.join(room, 'gate')
    os.mkfifo(gate)
    # Where this script is killed, the program comes to the end of the pipe.
    end = os.open(gate, os.O_RDWR)
    os.write(end, b'\n')
    how = {'cwd': folder(ROOT, crate), 'env': {**os.environ, 'TMPDIR': room}, 'stdin': subprocess.DEVNULL, 'stdout': log, 'stderr': log}
    with subprocess.Popen(['rt', 'try', crate, '--', READS[crate], gate], **how) as child:
        has = has_begun(end, child)
        found = [os.path.join(place, 'program') for place, _, files in os.walk(room) if 'program' in files]
        made = shutil.copy2(found[0], os.path.join(room, 'made')) if has and found else None
        os.close(end)
        child.terminate()
    return made, child.returncode


def keep(crate, began):
    """Has the program compiled, and keeps it: the status of `rt try`, and what it said, where there is none."""
    # What a killed call left goes.
    room = os.path.join(os.path.dirname(tried(crate)), 'trying')
    remove(room)
    os.mkdir(room)
    try:
        with open(os.path.join(room, 'log'), 'w+', errors='replace') as log:
            made, status = compile_unproved(crate, room, log)
            log.seek(0)
            said = log.read()
        if made:
            os.utime(made, ns=(began, began))
            os.replace(made, tried(crate))
            return None, ''
        return status, said
    finally:
        shutil.rmtree(room, ignore_errors=True)


def make(crate, crates):
    """The path of a program that is made now, or none."""
    ending.end_by_signals()
    hold([os.path.dirname(tried(crate))], crate)
    # Another call may have made it meanwhile.
    status, said = (None, '') if is_tried(crate, crates) else keep(crate, time.time_ns() - LAG)
    if status is None:
        return tried(crate)
    print(said, end='', file=sys.stderr)
    if status == REFUSED:
        return None
    print(f'{crate}: rt try made no program, so it is proved and built', file=sys.stderr, flush=True)
    return output(crate) if bring_up_to_date([crate], crates) else None


def say(crate, how):
    print(f'{crate}: {how}, checked as it runs, not proved: ./chanhub build proves it, in some {MINUTES} minutes', file=sys.stderr, flush=True)


def ready(crate, crates):
    """The path of the program, or none."""
    if look(crate, crates, time.time_ns() - LAG) == 0:
        return output(crate)
    if is_tried(crate, crates):
        say(crate, 'from sources')
        return tried(crate)
    if not has_rt(crate):
        return None
    say(crate, 'from sources, compiled in a minute')
    os.makedirs(os.path.dirname(tried(crate)), exist_ok=True)
    return make(crate, crates)


def main():
    words = sys.argv[1:]
    runs = words[:1] == ['--run']
    if runs:
        del words[0]
    if words in (['-h'], ['--help']):
        print(__doc__, end='')
        return 0
    if not words or words[0] not in READS or not runs and len(words) > 1:
        print('usage: ready.py [--run] PROGRAM [WORDS], with chanhub or chanhub_tool, and after --run its words', file=sys.stderr)
        return 2
    if runs and words[0] == 'chanhub' and answer.wrong_word(words[1:]):
        # No program is needed to say so.
        fault = b'chanhub: bad arguments\n'
        answer.tell(fault + answer.more(fault, words[1:]))
        return 2
    try:
        program = ready(words[0], read_crates())
    except OSError as error:
        # It cannot be kept here.
        print(f'{words[0]}: {error}', file=sys.stderr)
        program = None
    if program is None:
        print(f'{words[0]}: not built', file=sys.stderr)
        return 125
    if not runs:
        print(program)
        return 0
    ending.become(sys.executable, [sys.executable, '-IS', answer.__file__, program, *words[1:]])


if __name__ == '__main__':
    sys.exit(main())
