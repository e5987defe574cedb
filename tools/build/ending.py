"""Ends what a script started when Ctrl-C, a kill or a hang-up ends the script, for the scripts here that start much.

`end_by_signals` has such a signal end all processes below this one, and then raise SystemExit with status 128 and the signal's
number in the main thread, so that whatever was opened by `with` is closed. No signal interrupts that a second time.
"""
import ctypes
import os
import signal
import subprocess
import sys
import threading
import time

SIGNALS = (signal.SIGINT, signal.SIGTERM, signal.SIGHUP)
# Of prctl: a process below this one whose parent has ended is a child of this one.
PR_SET_CHILD_SUBREAPER = 36
# for how long, in seconds, a process may go on once it was asked to end, and was killed
PATIENCE = 1
LAST_PATIENCE = 10

# the signal that ends this script, once it has come
ended_by = None
# held where a process is started, and where the end begins: none is started behind it
starting = threading.RLock()
has_begun = threading.Event()

# Until `end_by_signals` Ctrl-C ends the script without a word.
if signal.getsignal(signal.SIGINT) is signal.default_int_handler:
    signal.signal(signal.SIGINT, signal.SIG_DFL)


def adopt(is_on):
    ctypes.CDLL(None).prctl(PR_SET_CHILD_SUBREAPER, int(is_on), 0, 0, 0)


def end_by_signals():
    """Has these signals end all that is started from now on. One that is ignored here stays so, as under nohup."""
    adopt(True)
    for number in SIGNALS:
        if signal.getsignal(number) != signal.SIG_IGN:
            signal.signal(number, end)


def end(number, _):
    global ended_by
    for it in SIGNALS:
        signal.signal(it, signal.SIG_IGN)
    with starting:
        ended_by = number
        has_begun.set()
    end_all()
    sys.exit(128 + number)


def become(program, words):
    """Runs a program in place of this script, as a shell would."""
    adopt(False)
    # Python ignores these, and the program would inherit that.
    for it in (signal.SIGPIPE, signal.SIGXFSZ):
        signal.signal(it, signal.SIG_DFL)
    for it in SIGNALS:
        if signal.getsignal(it) != signal.SIG_IGN:
            signal.signal(it, signal.SIG_DFL)
    os.execv(program, words)


def run(words, **how):
    """As subprocess.run; but it starts nothing once the end has begun, and does not come back from what was ended by it."""
    with starting:
        if ended_by:
            raise SystemExit
        child = subprocess.Popen(words, **how)
    with child:
        said, _ = child.communicate()
    if -child.returncode in SIGNALS:
        # Ctrl-C reaches what was started as well, and may do so first.
        has_begun.wait(PATIENCE)
    if ended_by:
        raise SystemExit
    return subprocess.CompletedProcess(words, child.returncode, said)


def below():
    """The processes below this one that still run, as they are met one after the other."""
    children = {}
    for name in filter(str.isdigit, os.listdir('/proc')):
        try:
            with open(f'/proc/{name}/stat', 'rb') as file:
                state, parent = file.read().rpartition(b')')[2].split()[:2]
        except OSError:
            # It ended meanwhile.
            continue
        if state not in (b'Z', b'X'):
            children.setdefault(int(parent), []).append(int(name))
    found = []
    left = [os.getpid()]
    while left:
        mine = children.get(left.pop(), [])
        found += mine
        left += mine
    return found


def tell(process, number):
    try:
        os.kill(process, number)
    except OSError:
        # It ended meanwhile, or is not ours to end.
        pass


def end_all():
    """Ends all processes below this one, and returns once none runs. Each is asked first, and soon killed."""
    began = time.monotonic()
    asked = set()
    # One whose parent ends meanwhile may be missed: it is met in a second look, as a child of this one.
    while left := below() or below():
        passed = time.monotonic() - began
        if passed > LAST_PATIENCE:
            return
        for process in left:
            if passed > PATIENCE:
                tell(process, signal.SIGKILL)
            elif process not in asked:
                tell(process, signal.SIGTERM)
                asked.add(process)
        time.sleep(0.01)
