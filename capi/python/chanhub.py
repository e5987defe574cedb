"""Go's channels for Python threads, in a hub that reports deadlocks and keeps a journal of its steps. Requires libchanhub.so.

    with Hub(procs=2) as hub:
        ann, bob = hub.seat(0), hub.seat(1)
        port = ann.make(1)
        ann.send(port, 9)
        print(bob.recv(port))

A hub has a fixed number of processes. Each thread acts as one of them, through its seat. Other threads run while a call waits. A call
that fails raises Closed, Drained, Stalled, Cancelled, TimedOut, HubEnded or Fault.

If every process that has not exited is waiting, none of their calls can ever end. Each of these calls then raises Stalled, and has had
no effect. A process may call again, but if all repeat their calls, they stall again. A hub
watches only its own processes, so it can report a deadlock while other threads of the program still run. But no deadlock is reported
while a process that has not exited is outside the hub, such as in a lock, a join or I/O. Once it waits in a call or exits, deadlocks
are reported again. Exit a process after its last call: before its thread ends, and before a wait that only other processes can end,
such as a join.

If a program hangs, any thread can save `hub.journal()` to a file; `tools/explain.sh FILE` in this repository draws the calls that
still wait, with the numbers of their processes and ports.

A stall ends several calls at once. In a test, the first thread that catches Stalled saves the journal, before its process exits. Here
`saving` is a threading.Lock, and `file` a new Path of the test, such as `tmp_path / 'stalled.journal'` in pytest:

    except Stalled:
        with saving:
            file.exists() or file.write_bytes(hub.journal())
        raise

A value is an int of 64 bits or up to 32 bytes. `send_all` and `recv_up_to` pass many by one call, which takes less time for each. A hub
that is opened with `objects=True` passes any object instead. A port has the names of queue.Queue, can be iterated, and can be awaited:

    with Hub(procs=2, objects=True) as hub:
        jobs = hub.seat(0).make(1)                  # a Port, through which process 0 acts
        jobs.put({'any': 'object'})
        jobs.close()
        for job in hub.seat(1).port(jobs):          # the same port, for process 1
            ...

If a hub is opened with `timeouts=True`, calls take a timeout in seconds:

    with Hub(procs=2, timeouts=True) as hub, hub.seat(0) as seat:
        port = seat.make(1)
        seat.recv(port, timeout=0.5)                # raises TimedOut after half a second

While a call with a timeout waits, no deadlock is reported, since something can still happen.

Limits: a hub has at most 64 processes (63 with timeouts) and 64 ports, and a closed port still counts. A hub makes at most 1,000,000
steps, not counting exits, and keeps them all. That suits tests and finite runs. In a hub of edition 3, `seat.start` brings back a process
that has exited, and `seat.reopen` a closed port.

A hub that is opened with `keep` never ends. It keeps its last steps, and cuts its journal into chapters, each of which is a journal of
its own. Older chapters go, or are written to files, or are given to a function:

    with Hub(procs=9, keep=10_000, chapters='pool') as hub:         # pool.0, pool.1, ..
        ...

A hub can follow a journal, so that a run is repeated exactly as it was:

    with Hub.follow(Path('flaky.journal').read_bytes()) as hub:
        ...                                         # a call that the journal has not here raises Diverged

If the journal's hub had timeouts, each call times out, or is answered, as it was there, however long that takes.

Ctrl-C interrupts a wait of the main thread with KeyboardInterrupt. Nothing is lost, whatever exception a signal handler raises and
when: either the call was not made, or it stays open, `seat.waits` is true, and `seat.resume()` resumes the wait. (Before Python 3.11, an
answer that comes just then may be lost on its way to the caller.)

When a `with Hub` block ends, no new call begins, and each waiting call raises HubEnded. A hub belongs to the operating-system
process that opened it: in a forked child, every call on it raises RuntimeError.
"""
from __future__ import annotations

import ctypes
import errno
import os
import struct
import sys
import threading
import weakref
from collections import defaultdict, deque
from concurrent.futures import Future, ThreadPoolExecutor
from importlib.machinery import ExtensionFileLoader
from importlib.util import module_from_spec, spec_from_loader
from itertools import count, repeat, starmap
from queue import Empty, Full, SimpleQueue
from threading import get_ident
from time import monotonic_ns
from typing import (Any, AsyncIterator, Callable, DefaultDict, Deque, Dict, Iterable, Iterator, List, NamedTuple, Optional, Sequence,
                    Set, Tuple, Union)

Value = Union[int, bytes]
# The types that can be sent. A bool is sent as the number 0 or 1; a bytearray or a memoryview is received as bytes.
Sendable = Union[int, bytes, bytearray, memoryview]
# What gets the chapters of a hub that never ends.
Chapters = Union[Callable[[Optional[bytes]], object], str, bytes, 'os.PathLike[Any]']

MADE, SENT, GOT, DRAINED, CLOSED, DEFAULT, DONE, WAITING, STALLED, FAULT, CANCELLED, TIMED_OUT = range(1, 13)

GONE, BUSY, NOT_PARKED, DIVERGED, NOT_YET, IN_USE, NOT_GONE = 2, 3, 12, 14, 15, 16, 17
FAULTS = {
    1: 'no such process', 2: 'the process has exited', 3: 'a call of the process is still open', 4: 'more than 8 cases in edition 1',
    5: 'no such port', 6: 'the capacity is above 1,024', 7: 'the hub already has 64 ports', 8: 'close of port 0',
    9: 'close of a closed port', 10: 'the hub has reached its step limit', 11: 'out of memory', 12: 'the process has no waiting call',
    13: 'more than 16 cases, or a call that needs another edition', 14: 'the journal that the hub follows has another step here',
    16: 'the port is in use', 17: 'the process has not exited',
}
OPENING = {1: 'the number of processes must be between 1 and 64', 2: 'the step limit must be between 1 and 1,000,000',
           4: 'the edition must be 1, 2 or 3'}
OPENING_ENDLESS = {**OPENING, 2: 'the number of steps to keep must be between 1 and 900,000'}
OPENING_FOLLOWING = {5: 'the journal is malformed, in line %d', 6: 'no hub admits the step of the journal in line %d'}
OPENING_TIMED = {1: 'the number of processes must be between 1 and 63, since timeouts need one more', 4: 'timeouts need edition 2 or 3'}


class Ended(Exception):
    """Base class of the exceptions of a call that ended without a value, except Fault.

    For Closed and Drained, `index` is the index of the case. `sent` is how many values a `send_all` had sent before.
    """

    words = 'the call ended without a value'
    sent = 0

    def __init__(self, index: int = 0) -> None:
        super().__init__(index)
        self.index = index

    def __str__(self) -> str:
        return self.words


class Closed(Ended):
    """Raised by a send on a closed port."""

    words = 'send on a closed port'


class Drained(Ended):
    """Raised by a receive from a port that is closed and empty."""

    words = 'receive from a port that is closed and empty'


class Stalled(Ended):
    """Raised by each call of a deadlock: every process that had not exited was waiting. The call had no effect.

    To see who waited for whom, save `hub.journal()` to a file, and run `tools/explain.sh FILE` in this repository.
    """

    words = 'every process was waiting, so no call could ever end'


class Cancelled(Ended):
    """Raised by a call that another process cancelled. The call had no effect."""

    words = 'another process cancelled the call'


class TimedOut(Ended):
    """Raised by a call whose timeout passed before it was answered. The call had no effect."""

    words = 'the timeout passed'


class HubEnded(Ended, ValueError):
    """Raised by each call that waits when a hub ends, and by each call after that. The call had no effect."""

    words = 'the hub has ended'


class Fault(Exception):
    """Raised by a call that the hub did not carry out. `number` says why; it is a key of FAULTS. `sent` is how many values a `send_all`
    had sent before."""

    sent = 0

    def __init__(self, number: int) -> None:
        super().__init__(number)
        self.number = number

    def __str__(self) -> str:
        return f'fault {self.number}: {FAULTS.get(self.number, "unknown")}'


class Diverged(Fault):
    """Raised by a call where the journal that the hub follows has another step. It says which: `P2 asked send 2 3, step 17 is 2 send 2 2`.

    `step` is the number of that step, from 1, as stories and pictures number them. It is the next one of the process that called; if the
    journal has ended, it is the one behind its last. If the hub ends then, all its calls raise this with the same number.
    """

    def __init__(self, step: int, words: str = '') -> None:
        super().__init__(DIVERGED)
        self.args = step, words
        self.step = step

    def __str__(self) -> str:
        return self.args[1] or f'{FAULTS[DIVERGED]}: step {self.step}'


class Send(NamedTuple):
    """A case of a select that sends a value on a port: a Sendable, or any object if the hub has `objects`."""
    port: int
    value: Any


class Recv(NamedTuple):
    """A case of a select that receives from a port."""
    port: int


class Fired(NamedTuple):
    """The result of a select: the index of the case that fired and, for a receive, the value. `value` is None for a send."""
    index: int
    value: Any = None


class Counts(NamedTuple):
    """The state of a port: its capacity, how many values were sent and received since the hub was opened, and whether it is closed."""
    cap: int
    sent: int
    received: int
    closed: bool


class _Value(ctypes.Structure):
    """chanhub_value."""
    _fields_ = [('number', ctypes.c_uint64), ('is_bytes', ctypes.c_bool), ('length', ctypes.c_uint8), ('bytes', ctypes.c_uint8 * 32)]

    def value(self) -> Value:
        return bytes(self.bytes[:self.length]) if self.is_bytes else int(self.number)


class _Told(ctypes.Structure):
    """chanhub_told."""
    _fields_ = [('what', ctypes.c_uint8), ('fault', ctypes.c_uint8), ('index', ctypes.c_uint8), ('port', ctypes.c_uint16),
                ('value', _Value)]


# The layouts of chanhub_case for a receive, a send of a number, and a send of bytes. Each begins with `sends` and the port.
_pack_recv = struct.Struct('=?xH52x').pack
_pack_number = struct.Struct('=?xH4xQ40x').pack
_pack_bytes = struct.Struct('=?xH12x?B32s6x').pack


class _Counts(ctypes.Structure):
    _fields_ = [('made', ctypes.c_bool), ('closed', ctypes.c_bool), ('cap', ctypes.c_uint32), ('sent', ctypes.c_uint64),
                ('received', ctypes.c_uint64)]


class _Options(ctypes.Structure):
    """chanhub_options."""
    _fields_ = [('edition', ctypes.c_uint), ('procs', ctypes.c_uint), ('limit', ctypes.c_uint32), ('keep', ctypes.c_uint32),
                ('chapters', ctypes.c_void_p), ('pointer', ctypes.c_void_p), ('clock', ctypes.c_bool), ('journal', ctypes.c_char_p),
                ('journal_length', ctypes.c_size_t), ('goes_on', ctypes.c_bool), ('asks_again', ctypes.c_bool),
                ('journal_line', ctypes.POINTER(ctypes.c_uint32)), ('reserved', ctypes.c_void_p * 4)]


class _Files(ctypes.Structure):
    """chanhub_files."""
    _fields_ = [('name', ctypes.c_char_p), ('next', ctypes.c_uint64), ('error', ctypes.c_int)]


def _library() -> ctypes.CDLL:
    """Loads libchanhub.so: the file that CHANHUB_LIBRARY names, or the one that pip put beside this file, or the one that make builds,
    or the installed one."""
    here = os.path.dirname(os.path.abspath(__file__))
    places = [os.path.join(here, 'libchanhub.so'), os.path.join(here, '..', 'out', 'libchanhub.so')]
    path = os.environ.get('CHANHUB_LIBRARY') or next(filter(os.path.exists, places), 'libchanhub.so.1')
    try:
        library = ctypes.CDLL(path)
    except OSError as error:
        raise ImportError(f'{error}\nBuild the library, by `make -C capi` at the top of chanhub\'s repository, or install it '
                          f'where the loader looks,\nor have CHANHUB_LIBRARY name the file libchanhub.so.') from None
    hub, number, size = ctypes.c_void_p, ctypes.c_uint, ctypes.POINTER(ctypes.c_size_t)
    for name, result, arguments in (
            ('open', ctypes.c_int, [ctypes.POINTER(hub), number, number, ctypes.c_uint32]),
            ('open_endless', ctypes.c_int, [ctypes.POINTER(hub), number, number, ctypes.c_uint32, ctypes.c_void_p, ctypes.c_void_p]),
            ('open_with', ctypes.c_int, [ctypes.POINTER(hub), ctypes.POINTER(_Options)]),
            ('free', None, [hub]),
            ('make', _Told, [hub, number, ctypes.c_uint32]),
            ('begin', _Told, [hub, number, ctypes.c_char_p, ctypes.c_size_t, ctypes.c_bool, ctypes.c_uint64]),
            ('begin_until', _Told, [hub, number, ctypes.c_char_p, ctypes.c_size_t, ctypes.c_bool, ctypes.c_uint64, ctypes.c_uint64]),
            ('begin_send_all', _Told, [hub, number, number, ctypes.c_void_p, ctypes.c_size_t, ctypes.c_uint64, size]),
            ('begin_recv_up_to', _Told, [hub, number, number, ctypes.c_void_p, ctypes.c_size_t, ctypes.c_uint64, size]),
            ('expire', ctypes.c_bool, [hub, number]),
            ('turn', ctypes.c_bool, [hub, number, ctypes.c_uint64]),
            ('stop', None, [hub]),
            ('has_clock', ctypes.c_bool, [hub]),
            ('resume', _Told, [hub, number, ctypes.c_uint64]),
            ('close', _Told, [hub, number, number]),
            ('exit', _Told, [hub, number]),
            ('cancel', _Told, [hub, number, number]),
            ('start', _Told, [hub, number, number]),
            ('reopen', _Told, [hub, number, number, ctypes.c_uint32]),
            ('cut', ctypes.c_bool, [hub]),
            ('steps_left', ctypes.c_uint64, [hub]),
            ('look', _Counts, [hub, number]),
            ('journal', hub, [hub, size]),
            ('before', hub, [hub, size]),
            ('divergence', hub, [hub, size]),
            ('free_text', None, [hub]),
            ('write_chapter', None, [ctypes.c_void_p, ctypes.c_char_p, ctypes.c_size_t])):
        function = getattr(library, 'chanhub_' + name)
        function.restype, function.argtypes = result, arguments
    return library


def _calls_type() -> Any:
    """Loads chanhub_calls.c, by which a send or a receive that need not wait takes a tenth of the time, and returns its type. Returns
    `_Calls` if it was not built, if this Python cannot load it, or if CHANHUB_CALLS says `ctypes`. Also before Python 3.10, where an
    exception of a signal handler may come between a subscript and a return."""
    here = os.path.dirname(os.path.abspath(__file__))
    places = [os.path.join(folder, 'chanhub_calls.abi3.so') for folder in (here, os.path.join(here, '..', 'out'))]
    path = next(filter(os.path.exists, places), None)
    if path is None or os.environ.get('CHANHUB_CALLS') == 'ctypes' or sys.version_info < (3, 10):
        return _Calls
    try:
        loader = ExtensionFileLoader('chanhub_calls', path)
        module = module_from_spec(spec_from_loader('chanhub_calls', loader))  # type: ignore[arg-type]
        loader.exec_module(module)
    except ImportError:
        return _Calls
    names = 'begin', 'begin_until', 'begin_send_all', 'begin_recv_up_to', 'resume', 'turn', 'make', 'close', 'cancel', 'start', 'reopen'
    functions = (getattr(_LIBRARY, 'chanhub_' + name) for name in names)
    module.use(tuple(ctypes.cast(function, ctypes.c_void_p).value for function in functions), _case, Fired, Fault)
    return module.Calls


_LIBRARY = _library()
_begin, _begin_until, _resume = _LIBRARY.chanhub_begin, _LIBRARY.chanhub_begin_until, _LIBRARY.chanhub_resume
# How many nanoseconds the main thread waits before it checks for signals, and how many the others do.
_SLICE, _FOR_EVER = 50_000_000, 2 ** 64 - 1
# The longest timeout in seconds, some 30 years. A longer one is this one.
_LONGEST = 10 ** 9
# What chanhub_calls.c calls MOST_PROCS and MOST_AT_ONCE.
_MOST_PROCS, _MOST_AT_ONCE = 64, 2048
# The thread that handles signals.
_main = threading.main_thread().ident


# All open hubs.
_hubs: weakref.WeakSet[Hub] = weakref.WeakSet()


def _after_fork() -> None:
    """In a forked child, makes the thread that forked the main one, and ends all hubs: threads that do not exist in the child may
    hold their locks."""
    global _main
    _main = get_ident()
    for hub in list(_hubs):
        hub._live = None


os.register_at_fork(after_in_child=_after_fork)


def _within(name: str, number: int, most: int) -> int:
    """Returns the number if it is within 0 to `most`, and otherwise raises ValueError. ctypes would truncate it."""
    if not 0 <= number <= most:
        raise ValueError(f'{name} {number}: not within 0 to {most}')
    return number


def _up_to(most: int) -> int:
    """Returns how many values a receive of up to `most` takes at most."""
    if most < 1:
        raise ValueError(f'most {most}: must be at least 1')
    return min(most, _MOST_AT_ONCE)


def _case(port: int, *value: Sendable) -> bytes:
    """Returns the chanhub_case that sends this value on the port, or without one receives from it."""
    if not 0 <= port <= 65535:
        _within('port', port, 65535)
    if not value:
        return _pack_recv(False, port)
    if isinstance(value[0], int):
        return _pack_number(True, port, value[0] if 0 <= value[0] < 2 ** 64 else _within('value', value[0], 2 ** 64 - 1))
    if not isinstance(value[0], (bytes, bytearray, memoryview)):
        raise TypeError(f'a value must be an int or bytes, not {type(value[0]).__name__}')
    sent = bytes(value[0])
    return _pack_bytes(True, port, True, _within('length', len(sent), 32), sent)


class _Call:
    """A call: its answer, once there is one, whether it is a select, and the numbers of the objects that it sends, by case."""

    def __init__(self, is_select: bool, numbers: Dict[int, int]) -> None:
        self.answer: List[Any] = []
        self.is_select = is_select
        self.numbers = numbers

    def done(self) -> int:
        """Returns how many of its many values were passed."""
        return 0

    def is_between(self) -> bool:
        """Returns whether nothing of it is open in the hub, and the rest of its many values is to be asked for."""
        return False

    def got(self) -> List[Any]:
        told = self.answer[0]
        return [told.value.value()] if told.what == GOT else []

    def unsent(self) -> List[int]:
        """Returns the numbers of the objects that it did not send."""
        told = self.answer[0]
        return [number for index, number in self.numbers.items() if told.what != SENT or told.index != index]

    def put(self, put: int) -> int:
        """Returns how many objects the process has put once the call has ended, where it has put so many by now."""
        return put


class _Many(_Call):
    """A call that passes many values. Its answer is what the library told last, how many values were passed before, and how many it has
    stored as passed since: so one step of the interpreter changes all. `numbers` are those of the objects that it sends, in order."""

    def __init__(self, begin: Callable[..., _Told], port: int, values: Any, deadline: int, numbers: List[int], put: int) -> None:
        self.answer = [_BETWEEN, 0, ctypes.c_size_t()]
        self.is_select = False
        self.sends = begin is _LIBRARY.chanhub_begin_send_all
        self._begin, self._port, self._values, self._deadline, self._numbers, self._put = begin, port, values, deadline, numbers, put

    def done(self) -> int:
        told, done, stored = self.answer
        done += stored.value
        has_waited = told.what == SENT and done < len(self._values) or told.what == GOT and done == 0  # then it is not among those
        return int(done + has_waited)

    def is_between(self) -> bool:
        told = self.answer[0]
        return bool(told.fault == NOT_YET or told.what == SENT and self.done() < len(self._values))

    def put(self, put: int) -> int:
        """As if each object had been sent by itself, the one that was refused too."""
        return self._put + min(self.done() + 1, len(self._numbers))

    def go_on(self, hub: Optional[int], pid: int) -> None:
        """Asks for the rest of the values, as far as it does not wait."""
        done = self.done()
        rest = ctypes.addressof(self._values) + done * ctypes.sizeof(_Value)
        self.answer[:] = [_BETWEEN, done, ctypes.c_size_t()]
        asked = hub, pid, self._port, rest, len(self._values) - done, self._deadline, self.answer[2]
        self.answer[:1] = starmap(self._begin, (asked,))

    def got(self) -> List[Any]:
        stored = 0 if self.sends else self.answer[2].value
        return [value.value() for value in self._values[:stored]] or super().got()

    def unsent(self) -> List[int]:
        return self._numbers[self.done():]


# The answer of a call of many values, where the rest is to be asked for.
_BETWEEN = _Told(FAULT, NOT_YET)


class _Calls:
    """What chanhub_calls.c is, by ctypes.

    The interpreter handles signals behind a call, at the beginning of a function, and between two rounds of a loop. So
    `answer += starmap(..)`, which calls the library and stores what it tells, is one step, and so is all that stands between calls.
    Before Python 3.11 it handles them elsewhere too, and an answer may be lost on its way to the caller.
    """

    keeps_open = False

    def __init__(self, hub: Optional[int], things: Optional[Dict[int, Any]]) -> None:
        self._hub = hub
        self._has_things = things is not None
        self._things = {} if things is None else things
        self._put: DefaultDict[int, int] = defaultdict(int)  # how many objects each process has sent, or tried to
        self._calls: Dict[int, _Call] = {}  # those that are open or being made
        self._awaited: Dict[int, bool] = {}  # the processes for whose answers a thread waits

    def __getitem__(self, asked: Any) -> Any:
        if asked.__class__ is tuple:
            self.ask(asked[0], (asked[1:],), False, False, 0)
            asked = asked[0]
            if self.keeps_open or self._calls[asked].answer[0].what not in (SENT, GOT):
                return self
        call = self._calls[asked]
        result, gone, self._put[asked] = self._result(call), self._gone(call), call.put(self._put[asked])
        [*gone]  # in one step with the rest
        del self._calls[asked]
        return result

    def __delitem__(self, pid: int) -> None:
        call = self._calls[pid]
        gone, self._put[pid] = self._gone(call), call.put(self._put[pid])
        [*gone]
        del self._calls[pid]

    def ask(self, pid: int, cases: Tuple[Tuple[Any, ...], ...], is_select: bool, default: bool, word: int, *deadline: int) -> None:
        numbers: Dict[int, int] = {}
        things: Dict[int, Any] = {}
        packed = b''
        for index, case in enumerate(cases):
            if self._has_things and len(case) == 2:
                number = 100 * (self._put[pid] + len(things) + 1) + pid
                if pid < _MOST_PROCS:
                    numbers[index], things[number] = number, case[1]
                case = case[0], number
            packed += _case(*case)
        self._ask(pid, _Call(is_select, numbers), things, _begin_until if deadline else _begin,
                    (self._hub, pid, packed, len(cases), default, word, *deadline))

    def ask_other(self, pid: int, name: str, *numbers: int) -> None:
        self._ask(pid, _Call(False, {}), {}, getattr(_LIBRARY, 'chanhub_' + name), (self._hub, pid, *numbers))

    def send_all(self, pid: int, port: int, values: Tuple[Any, ...], deadline: int = 2 ** 64 - 1) -> None:
        _case(port)
        put = self._put[pid]
        numbers = [100 * (put + k) + pid for k in range(1, len(values) + 1)] if self._has_things else []
        sent = b''.join(_case(port, value)[8:] for value in numbers or values)
        array = (_Value * len(values)).from_buffer_copy(sent)
        if pid >= _MOST_PROCS:
            numbers = []
        self._ask_many(pid, _Many(_LIBRARY.chanhub_begin_send_all, port, array, deadline, numbers, put), dict(zip(numbers, values)))

    def recv_up_to(self, pid: int, port: int, most: int, deadline: int = 2 ** 64 - 1) -> None:
        _case(port)
        array = (_Value * min(most, _MOST_AT_ONCE))()
        self._ask_many(pid, _Many(_LIBRARY.chanhub_begin_recv_up_to, port, array, deadline, [], self._put[pid]), {})

    def told(self, pid: int) -> Optional[Tuple[int, int, int, int, int]]:
        call = self._calls.get(pid)
        if call is None or not call.answer:
            return None
        told = call.answer[0]
        if call.is_between():
            return WAITING, 0, 0, 0, call.done()
        return told.what, told.fault, told.index, told.port or told.value.number, call.done()

    def wait(self, pid: int, nanoseconds: int) -> bool:
        call = self._calls.get(pid)
        if pid in self._awaited:
            return False
        if call and call.answer and (call.is_between() or call.answer[0].what == WAITING):
            self._awaited[pid] = True
            try:
                if not call.is_between():
                    call.answer[:1] = starmap(_resume, ((self._hub, pid, nanoseconds),))
                if isinstance(call, _Many) and nanoseconds:
                    self._go_on(pid, call)
            finally:
                del self._awaited[pid]
        return True

    def _ask_many(self, pid: int, call: _Many, things: Dict[int, Any]) -> None:
        if pid in self._calls:
            raise Fault(BUSY)
        unsent = map(self._things.pop, things, repeat(None)) if things else ()
        try:
            self._things.update(things)
            self._calls[pid] = call
        finally:
            if pid not in self._calls:
                [*unsent]
        self.wait(pid, _SLICE)

    def _go_on(self, pid: int, call: _Many) -> None:
        """Asks for the rest of a call of many values, as far as it does not wait. It is a function for the reason that `_give_all` is."""
        while call.is_between():
            call.go_on(self._hub, pid)
            if call.answer[0].fault == NOT_YET:
                _LIBRARY.chanhub_turn(self._hub, pid, _SLICE)

    def _ask(self, pid: int, call: _Call, things: Dict[int, Any], function: Callable[..., _Told], asked: Tuple[Any, ...]) -> None:
        if pid in self._calls:
            raise Fault(BUSY)
        answer, put = call.answer, len(things)
        unsent = map(self._things.pop, things, repeat(None)) if things else ()
        self._calls[pid] = call
        try:
            if things:
                self._things.update(things)
            answer += starmap(function, (asked,))
            if answer[0].fault == NOT_YET:
                self._ask_in_turn(pid, answer, function, asked)
        finally:
            if answer and answer[0].fault != NOT_YET:
                self._put[pid] += put
            else:
                [*unsent]
                del self._calls[pid]

    def _ask_in_turn(self, pid: int, answer: List[_Told], function: Callable[..., _Told], asked: Tuple[Any, ...]) -> None:
        """Makes a call again until its turn in the journal that the hub follows has come. It is a function for the reason that `_give_all`
        is."""
        while answer[0].fault == NOT_YET:
            _LIBRARY.chanhub_turn(self._hub, pid, _SLICE)
            answer[:] = starmap(function, (asked,))

    def _result(self, call: _Call) -> Any:
        """Returns the result of an answer that is no exception."""
        told = call.answer[0]
        if told.what == MADE:
            return told.port
        got = [self._things[number] for number in call.got()] if self._has_things else call.got()
        if isinstance(call, _Many):
            return None if call.sends else got
        value = got[0] if got else None
        return Fired(told.index, value) if call.is_select and told.what != DEFAULT else value

    def _gone(self, call: _Call) -> Iterable[Any]:
        """Returns what removes the objects that are no longer in the hub after the call: those it did not send, and those it received."""
        return map(self._things.pop, call.unsent() + call.got(), repeat(None)) if self._has_things else ()


_CallsType = _calls_type()
_ENDED = {CLOSED: Closed, DRAINED: Drained, STALLED: Stalled, CANCELLED: Cancelled, TIMED_OUT: TimedOut}


class _To:
    """What the chapters of a hub go to."""

    arguments: Tuple[Any, int]  # the last ones of chanhub_open_endless
    fallen: Optional[SimpleQueue[str]] = None  # the chapters that wait to be given, where they have to wait
    error: Optional[OSError] = None
    giver: Optional[int] = None  # the thread in which a function runs that gets one

    def add(self, text: Optional[bytes]) -> None:
        """Adds a chapter, as the library does."""
        raise NotImplementedError

    def shut(self) -> None:
        """Ignores what the library adds from now on."""
        raise NotImplementedError

    def give(self) -> None:
        """Gives the chapters that wait. While another thread gives one, waits too."""

    def finish(self) -> None:
        """Gives all chapters that are left. None may follow."""


class _Reported:
    """Raises an exception where nobody can catch it, so that the interpreter reports it through sys.unraisablehook."""

    def __init__(self, error: BaseException) -> None:
        self._error = error

    def __del__(self) -> None:
        raise self._error


# chanhub_chapters, and PyUnicode_FromKindAndData, which takes the same arguments if the pointer is PyUnicode_1BYTE_KIND. It returns the
# text as a str.
_CHAPTERS = ctypes.CFUNCTYPE(None, ctypes.c_void_p, ctypes.c_void_p, ctypes.c_ssize_t)
_STRING = ctypes.PYFUNCTYPE(ctypes.py_object, ctypes.c_int, ctypes.c_void_p, ctypes.c_ssize_t)
_KIND = 1


def _ignore(text: Optional[bytes]) -> None:
    """Gets chapters that nobody wants."""


class _ToFunction(_To):
    """A function that chapters go to, in order.

    The library does not call it. What the library calls only puts the text into a queue, and has no Python code: there a signal handler
    could raise an exception, which would be lost with the chapter. After each call a thread gives what it finds in the queue.
    """

    fallen: SimpleQueue[str]

    def __init__(self, function: Callable[[Optional[bytes]], object]) -> None:
        self.fallen = SimpleQueue()
        self._function = function
        self._giving = threading.RLock()  # held while the function runs
        self._taken: List[str] = []  # the chapter that it gets, until it has returned
        self._has_raised = False
        self._string = _STRING(('PyUnicode_FromKindAndData', ctypes.pythonapi))
        self._string.errcheck = self.fallen.put
        self._callback = _CHAPTERS(self._string)
        self.arguments = ctypes.cast(self._callback, ctypes.c_void_p), _KIND

    def add(self, text: Optional[bytes]) -> None:
        self.fallen.put((text or b'').decode())

    def shut(self) -> None:
        del self._string.errcheck

    def give(self) -> None:
        while not self.fallen.empty():
            with self._giving:
                if not self._give_one():
                    break

    def finish(self) -> None:
        with self._giving:
            self._give_all()
            # It may refer to the hub.
            self._function = _ignore

    def _give_all(self) -> None:
        """Gives all chapters that are left. It is a function, since in Python 3.13 a `with` misses an exception between two
        rounds of a loop in it, and the lock would stay held."""
        while self._give_one():
            pass

    def _give_one(self) -> bool:
        """Gives the oldest chapter that is left. Returns whether it did: it does not if there is none, nor within the function, where
        a signal handler may call it. If the function is interrupted, the chapter stays taken. Holds the lock."""
        if self.giver is not None:
            return False
        self.giver = get_ident()
        try:
            if not self._taken:
                self._taken.extend(starmap(self.fallen.get_nowait, ((),)))
            self._call(self._taken[0].encode() or None)
            self._taken.clear()
            return True
        except Empty:
            return False
        finally:
            self.giver = None

    def _call(self, text: Optional[bytes]) -> None:
        """Calls the function. Reports its first exception, but does not keep it, since its frames may refer to the hub."""
        try:
            self._function(text)
        except Exception as error:
            if not self._has_raised:
                self._has_raised = True
                _Reported(error)


class _ToFiles(_To):
    """Files that chapters go to. The library writes them."""

    def __init__(self, path: Union[str, bytes, os.PathLike[Any]]) -> None:
        name = os.path.abspath(os.fsencode(path))
        if b'\0' in name:
            raise ValueError('embedded null byte')
        self._files = _Files(os.path.join(name, b'journal') if os.path.isdir(name) else name)
        self.arguments = ctypes.cast(_LIBRARY.chanhub_write_chapter, ctypes.c_void_p), ctypes.addressof(self._files)

    @property
    def error(self) -> Optional[OSError]:  # type: ignore[override]
        number = self._files.error
        return OSError(number, os.strerror(number), os.fsdecode(self._files.name)) if number else None

    def add(self, text: Optional[bytes]) -> None:
        _LIBRARY.chanhub_write_chapter(ctypes.byref(self._files), text, len(text or b''))

    def shut(self) -> None:
        # It cannot write to such a name, and tells only a first error.
        self._ignored = self._files
        self._files = _Files(self._ignored.name, self._ignored.next, self._ignored.error)
        self._ignored.name, self._ignored.error = b'/dev/null/', errno.ENOTDIR


def _to(chapters: Chapters) -> _To:
    if callable(chapters):
        return _ToFunction(chapters)
    if isinstance(chapters, (str, bytes, os.PathLike)):
        return _ToFiles(chapters)
    raise TypeError(f'chapters must be a function or a path, not {type(chapters).__name__}')


# What the chapters of a hub go to stays until the hub is freed, even if the interpreter ends before: a daemon thread may still be in the
# library then.
_hold, _let_go = (ctypes.PYFUNCTYPE(None, ctypes.py_object)((name, ctypes.pythonapi)) for name in ('Py_IncRef', 'Py_DecRef'))


def _opened(opens: Callable[..., int], edition: int, procs: int, *arguments: Any, causes: Dict[int, str]) -> ctypes.c_void_p:
    """Returns the handle of a new hub. Raises the exception for the cause if the library refuses to open it."""
    handle = ctypes.c_void_p()
    cause = opens(ctypes.byref(handle), _within('edition', edition, 255), _within('procs', procs, 255), *arguments)
    if cause == 3:
        raise MemoryError
    if cause:
        raise ValueError(causes[cause])
    return handle


def _open(edition: int, procs: int, limit: int) -> ctypes.c_void_p:
    return _opened(_LIBRARY.chanhub_open, edition, procs, _within('limit', limit, 2 ** 32 - 1), causes=OPENING)


def _open_endless(edition: int, procs: int, keep: int, chapters: Optional[_To]) -> ctypes.c_void_p:
    function, pointer = (None, None) if chapters is None else chapters.arguments
    handle = _opened(_LIBRARY.chanhub_open_endless, edition, procs, _within('keep', keep, 2 ** 32 - 1), function, pointer,
                     causes=OPENING_ENDLESS)
    if chapters is not None:
        _hold(chapters)
    return handle


def _open_timed(edition: int, procs: int, limit: int, keep: int, chapters: Optional[_To]) -> ctypes.c_void_p:
    """Opens a hub whose calls take timeouts, with a limit or, if `keep` is not 0, without an end."""
    causes = {**(OPENING_ENDLESS if keep else OPENING), **OPENING_TIMED}
    if edition == 0 or limit == keep == 0:  # the library takes 0 for what is usual
        raise ValueError(causes[2 if edition else 4])
    function, pointer = (None, None) if chapters is None else chapters.arguments
    options = _Options(_within('edition', edition, 255), _within('procs', procs, 255), _within('limit', limit, 2 ** 32 - 1),
                       _within('keep', keep, 2 ** 32 - 1), function, pointer, True)
    handle = _opened(lambda at, *_: _LIBRARY.chanhub_open_with(at, options), edition, procs, causes=causes)
    if chapters is not None:
        _hold(chapters)
    return handle


def _open_following(journal: bytes, goes_on: bool) -> ctypes.c_void_p:
    """Opens a hub that follows a journal."""
    line = ctypes.c_uint32()
    options = _Options(journal=journal, journal_length=len(journal), goes_on=goes_on, asks_again=True, journal_line=ctypes.pointer(line))
    handle = ctypes.c_void_p()
    cause = _LIBRARY.chanhub_open_with(ctypes.byref(handle), options)
    if cause == 3:
        raise MemoryError
    if cause:
        raise ValueError(OPENING_FOLLOWING[cause] % line.value)
    return handle


def _free(handle: ctypes.c_void_p, opener: int, chapters: Optional[_To]) -> None:
    """Frees a hub and gives the chapters that are left, except in a forked child, where a thread that does not exist may hold its
    lock."""
    if os.getpid() == opener:
        _LIBRARY.chanhub_free(handle)
        if chapters is not None:
            _let_go(chapters)
            chapters.finish()


class Hub:
    """A hub of `procs` processes (1 to 64).

    Open the hub with exactly as many processes as you will run. While one of them neither calls nor exits, no deadlock among the
    others is reported.

    In edition 1, values are numbers and a select has up to 8 cases. Edition 2, the default, also has bytes as values, up to 16 cases,
    and `cancel`. Edition 3 also has `start` and `reopen`.

    With `objects`, a value is any object, and whoever receives it gets this object itself. The hub carries a number for it, which the
    journal shows: 100 * k + pid for the k-th object that process `pid` sends or offers in a select, from 1. The object stays in a table
    until it is received. If nobody receives it, it goes with the hub. If its send raises an exception of the hub, it was not sent, and
    the table has it no longer.

    Without `keep`, the hub makes at most `limit` steps (1 to 1,000,000, the default), not counting exits. Its journal has them all.

    With `timeouts`, calls take a timeout. This needs edition 2 or 3 and at most 63 processes: the library has one more, the clock, whose number
    is `procs`. The journal shows its steps: `cancel`, where a call has timed out. A call that waits with a timeout makes at most 5 steps.
    They count towards the limit, and a step is kept for each call that waits with a timeout, so that a full journal delays none.

    With `keep` (1 to 900,000), the hub does not end by itself, and its journal is cut into chapters. A chapter begins with some steps
    that make the ports, the buffered values, the exits and the waiting calls again, so it is a journal of its own. It is full once `keep`
    steps were added, and twice as many as it began with, not counting exits; sooner if its text would get too long to be read. The next
    step then begins a new chapter, unless it is an exit. Every answer is the one that the whole history gives. The hub keeps the present
    chapter and the one before, so the last `keep` steps are always there, or as many as two texts hold.

    When a chapter begins, the chapter before falls out of the hub. If `chapters` is None, it goes. Otherwise `chapters` gets it. Once
    the hub has ended, `chapters` also gets those that the hub still keeps. So it gets the whole history, in order; `chanhub_tool chain`
    checks that files of all chapters are one history. `chapters` is one of these:

    - A path, NAME. Chapter k is written to the file NAME.k, from NAME.0 on; if NAME is a folder, to NAME/journal.k. A file of that name
      is replaced. Each file gets its name once it is whole. If a chapter cannot be written, it is left out. The first time, a line on
      standard error says why, and `chapters_error` does from then on. No step fails for that. Ctrl-C has to wait while a file is written.
    - A function. It gets the text, as `journal` returns it, or None if there was no memory for it. It runs in a thread that calls on
      the hub, as a rule the one whose call made the chapter fall out, before that call returns or waits. Other calls go on meanwhile,
      until another chapter has fallen out: then they end once the function has returned. The function may look at the hub and read
      its journals. It must not call through a seat or end the hub, and `cut` raises ValueError there. If it raises an Exception, no
      step fails for that; the first one is reported by sys.unraisablehook. If Ctrl-C interrupts it, the call in whose thread it ran
      raises KeyboardInterrupt, and `seat.resume()` returns what the call would have. The function gets that chapter again, before
      the next one.

    The hub ends when a `with Hub` block ends. Without such a block it ends when it is freed, which it never is if its function refers to
    it. If it has not ended when the interpreter does, `chapters` does not get the chapters that it keeps.

    Memory: a send or a receive takes 16 bytes, and a select or a send of bytes more. Without `keep`, all of them stay until the hub is
    freed. With `keep`, two chapters stay, and up to four while `chapters` gets one. A chapter begins with at most 65,792 steps, and then
    has at most `keep`, or twice as many as it began with, if these are more. If the function is slow, up to one text for each process
    waits for it.

    Raises ValueError if an argument is out of range, if `keep` and `limit` are both given, or if `chapters` is given without `keep`.
    Raises TypeError if `chapters` is neither a path nor a function, and MemoryError if memory runs out.

    The hub is freed once no thread calls on it and nothing refers to it or its seats, or when the interpreter's process ends.
    """

    def __init__(self, procs: int, edition: int = 2, limit: Optional[int] = None, *, keep: Optional[int] = None,
                 chapters: Optional[Chapters] = None, objects: bool = False, timeouts: bool = False) -> None:
        if keep is None:
            if chapters is not None:
                raise ValueError('only a hub with `keep` has chapters')
            self._chapters = None
            limit = 1_000_000 if limit is None else limit
            handle = _open_timed(edition, procs, limit, 0, None) if timeouts else _open(edition, procs, limit)
        else:
            if limit is not None:
                raise ValueError('a hub with `keep` has no limit')
            self._chapters = None if chapters is None else _to(chapters)
            handle = (_open_timed(edition, procs, 0, keep, self._chapters) if timeouts
                      else _open_endless(edition, procs, keep, self._chapters))
        self._set_up(handle, procs, is_endless=keep is not None, objects=objects, timeouts=timeouts)

    @classmethod
    def follow(cls, journal: bytes, *, goes_on: bool = False, objects: bool = False) -> Hub:
        """Opens a hub that follows a journal, such as `journal` of another hub returned: its edition, its processes and its steps.

        A step is made only in its turn: a call whose step is the process's next in the journal waits until it is the next of all. So each
        call gets the answer that the journal has, whatever the schedule of the threads is. A process that makes no further step in the
        journal waits until all of it is made.

        A call with another step than the process's next one raises Diverged, and so does a call once all of the journal is made. Then
        the hub ends: all calls raise Diverged, also those that wait. With `goes_on` it goes on as a hub that follows nothing: the call
        that raised Diverged was not made, and the other calls are made as they come. Once all of the journal is made, it then makes any
        call, without an exception.

        A process that never makes its next step holds up all whose turn is later. When a `with Hub` block ends, they raise Diverged.

        With `objects`, which the hub of the journal must have had, a value is any object, as in such a hub. If that hub had
        `timeouts`, calls take them. A call raises TimedOut if, and only if, it did in the journal's run, whatever time it is now.
        Timeouts count again once the hub goes on freely.

        Raises ValueError if the journal is malformed, or has a step that is not admitted in its turn. MemoryError if memory runs out.
        """
        hub = cls.__new__(cls)
        hub._chapters = None
        handle = _open_following(journal, goes_on)
        timeouts = bool(_LIBRARY.chanhub_has_clock(handle))
        procs = int(journal.split(None, 5)[4]) - timeouts  # the clock is one more
        hub._set_up(handle, procs, objects=objects, timeouts=timeouts)
        hub._follows = True
        return hub

    def _set_up(self, handle: ctypes.c_void_p, procs: int, *, is_endless: bool = False, objects: bool = False,
                timeouts: bool = False) -> None:
        """Sets what a new hub has."""
        self._handle = handle
        # The objects whose numbers are in the hub, if it has `objects`.
        self._things: Optional[Dict[int, Any]] = {} if objects else None
        self._calls = _CallsType(handle.value, self._things)
        self._live: Optional[_Calls] = self._calls  # None once no new call may begin
        self._procs = procs
        self._is_endless = is_endless
        self._follows = False
        self._has_timeouts = timeouts
        # The chapters that fell out, if they go to a function.
        self._fallen = None if self._chapters is None else self._chapters.fallen
        self._calls.keeps_open = self._fallen is not None
        # Set once `chapters` has those that the hub kept when it ended, too.
        self._has_all = threading.Event()
        self._opener = os.getpid()
        self._settling = threading.RLock()
        # How many stalls each process was told, and how many any was when the hub ended.
        self._stalls: DefaultDict[int, int] = defaultdict(int)
        self._seen_stalls = 0
        # For each process that is awaited, the thread that makes its calls, and what that is still to do.
        self._executors: Dict[int, ThreadPoolExecutor] = {}
        self._handed: DefaultDict[int, Set[Future[Any]]] = defaultdict(set)
        # For each process and port, the receives that were begun for a task that was cancelled.
        self._unclaimed: DefaultDict[Tuple[int, int], Deque[Future[Any]]] = defaultdict(deque)
        self._free = weakref.finalize(self, _free, handle, self._opener, self._chapters)
        # When the interpreter exits, other threads may still call on the hub.
        self._free.atexit = False
        _hubs.add(self)

    def __enter__(self) -> Hub:
        return self

    def __exit__(self, *_: object) -> None:
        """Ends the hub. From then on no call begins, except exits. Each process that is not waiting exits. Each waiting call raises
        HubEnded, if nothing else ends it, and then its process exits too.

        If the hub has `chapters`, this returns once all processes have exited and `chapters` has got all chapters."""
        if self._is_here():
            if self._live is not None:
                self._seen_stalls = max(self._stalls.values(), default=0)
                self._calls.keeps_open = True
                self._live = None
            if self._follows:
                _LIBRARY.chanhub_stop(self._handle)
            self._settle()
            for executor in self._executors.values():
                executor.shutdown(wait=False)
            if self._chapters is not None:
                self._has_all.wait()
                self._chapters.finish()

    def _is_here(self) -> bool:
        """Whether this operating-system process opened the hub. False in a forked child."""
        return os.getpid() == self._opener

    def _owned(self) -> ctypes.c_void_p:
        """Returns the handle, even if the hub has ended. Raises RuntimeError in a forked child."""
        if not self._is_here():
            raise RuntimeError('the hub belongs to the process that opened it, not to a forked child')
        return self._handle

    def _caller(self) -> _Calls:
        """Returns what makes new calls. Raises HubEnded once the hub has ended."""
        if self._live is None:
            self._owned()
            raise HubEnded
        return self._live

    @property
    def handle(self) -> ctypes.c_void_p:
        """The C library's pointer to the hub, for a new call. Raises HubEnded once the hub has ended."""
        self._caller()
        return self._handle

    def seat(self, pid: int) -> Seat:
        """Returns a seat, through which one thread at a time calls as process `pid`."""
        return Seat(self, pid)

    def look(self, port: int) -> Optional[Counts]:
        """Returns the present state of a port, or None if the port has not been made."""
        counts = _LIBRARY.chanhub_look(self._owned(), _within('port', port, 65535))
        return Counts(counts.cap, counts.sent, counts.received, counts.closed) if counts.made else None

    def journal(self) -> bytes:
        """Returns the text of the journal so far, with `keep` that of the present chapter. This needs no seat, so it also works while
        every process waits.

        Other calls on the hub are delayed while the text is made. `chanhub replay` reads a text of at most 67,108,864 bytes.
        Raises MemoryError if memory runs out.
        """
        text = self._text(_LIBRARY.chanhub_journal)
        if text is None:
            raise MemoryError
        return text

    def before(self) -> Optional[bytes]:
        """Returns the text of the chapter before the present one in the same way, or None if there is none or memory runs out."""
        return self._text(_LIBRARY.chanhub_before)

    def cut(self) -> None:
        """Ends the present chapter of a hub with `keep`, as if it were full: it becomes the chapter before, and the one that was before
        falls out. Waiting calls go on waiting. This needs no seat.

        Raises MemoryError if memory runs out, and ValueError if the hub has no `keep` or has ended, or where the function for chapters
        runs in this thread: each cut would call it again. Then nothing has changed.
        """
        if not self._is_endless:
            raise ValueError('only a hub with `keep` has chapters')
        if self._chapters and self._chapters.giver == get_ident():
            raise ValueError('the function for chapters must not cut the hub')
        with self._settling:
            was_cut = _LIBRARY.chanhub_cut(self.handle)
        self._give_fallen()
        if not was_cut:
            raise MemoryError

    def steps_left(self) -> Optional[int]:
        """Returns how many more steps other than exits the hub makes, by all its processes, before it raises Fault 10. Returns None for a
        hub with `keep`. This needs no seat."""
        return None if self._is_endless else int(_LIBRARY.chanhub_steps_left(self._owned()))

    @property
    def chapters_error(self) -> Optional[OSError]:
        """Why a chapter was not written to its file, for the first such chapter, with NAME as the file name; ENOMEM if there was no
        memory for its text. None if there is no such chapter."""
        return None if self._chapters is None else self._chapters.error

    def _text(self, reads: Callable[..., Any]) -> Optional[bytes]:
        """Returns the text of a journal, or None if there is none or memory runs out."""
        length = ctypes.c_size_t()
        text = reads(self._owned(), ctypes.byref(length))
        if not text:
            return None
        try:
            return ctypes.string_at(text, length.value)
        finally:
            _LIBRARY.chanhub_free_text(text)

    def _attend(self) -> None:
        """Does what a thread has to do once its call was asked or answered: gives chapters, and settles a hub that has ended."""
        if self._live is None:
            self._settle()
        self._give_fallen()

    def _error(self, pid: int, what: int, fault: int, index: int, number: int) -> Union[Ended, Fault]:
        """Returns the exception for this answer. A stall that another process was told before the hub ended was none of the end."""
        if fault == DIVERGED:
            return Diverged(number, (self._text(_LIBRARY.chanhub_divergence) or b'').decode())
        if self._live is None and (fault == GONE or what == TIMED_OUT or what == STALLED and self._stalls[pid] >= self._seen_stalls):
            return HubEnded()
        return Fault(fault) if what == FAULT else _ENDED[what](index)

    def _give_fallen(self) -> None:
        """Gives the chapters that fell out, if they go to a function."""
        if self._chapters and self._fallen and not self._fallen.empty():
            self._chapters.give()

    def _settle(self) -> None:
        """Exits all processes that are not waiting, once the hub has ended. An exit may end calls by a stall, so this repeats until
        no process exits. A call that ends later does the same again, and the last one adds the chapters that are left."""
        with self._settling:
            told = self._exit_repeatedly()
            if self._chapters and not self._has_all.is_set() and not any(each.fault == BUSY for each in told):
                self._add_kept(self._chapters)
        self._give_fallen()

    def _exit_repeatedly(self) -> List[_Told]:
        """Exits each process that is not waiting, until none exits. Returns the last answers. It is a function for the reason
        that `_give_all` is."""
        told = self._exit_all()
        while any(each.what == DONE for each in told):
            told = self._exit_all()
        return told

    def _exit_all(self) -> List[_Told]:
        """Exits each process that is not waiting. Returns the answers of the exits."""
        return [self._exit(pid) for pid in range(self._procs)]

    def _exit(self, pid: int) -> _Told:
        """Exits the process if it is not waiting. If it waits with a timeout, that passes. Returns the answer."""
        if self._has_timeouts:
            _LIBRARY.chanhub_expire(self._handle, pid)
        self._calls.wait(pid, 0)  # nobody may be there to resume it
        exited: _Told = _LIBRARY.chanhub_exit(self._handle, pid)
        return exited

    def _add_kept(self, chapters: _To) -> None:
        """Adds the chapters that the hub keeps, once no step can follow."""
        before = self.before()
        if before is not None:
            chapters.add(before)
        chapters.add(self._text(_LIBRARY.chanhub_journal))
        chapters.shut()
        self._has_all.set()


class Table:
    """Holds objects of any type, so that channels can pass them by number.

    One thread calls `seat.send(port, table.put(seat, it))`, and another calls `table.take(seat.recv(port))`.
    """

    def __init__(self) -> None:
        self._numbers: DefaultDict[int, Iterator[int]] = defaultdict(lambda: count(1))
        self._things: Dict[int, Any] = {}

    def put(self, seat: Seat, thing: Any) -> int:
        """Stores an object and returns its number: 100 * k + pid for the k-th that the seat's process puts here, as in a hub of objects.
        Raises Fault 1 if no hub has such a process."""
        if seat.pid >= _MOST_PROCS:
            raise Fault(1)
        number = 100 * next(self._numbers[seat.pid]) + seat.pid
        self._things[number] = thing
        return number

    def take(self, number: Value) -> Any:
        """Removes and returns the object with this number. Raises KeyError if there is none."""
        return self._things.pop(number)


class Seat:
    """A handle to a process of a hub. One thread at a time may call through it. As a context manager, it exits the process at the end."""

    def __init__(self, hub: Hub, pid: int) -> None:
        self.hub = hub
        self.pid = _within('process', pid, 255)

    def __enter__(self) -> Seat:
        return self

    def __exit__(self, kind: object, *_: object) -> None:
        """Exits the process, except in a forked child, or if an exception left the block while a call is open."""
        if not self.hub._is_here() or kind is not None and self.waits:
            return
        try:
            self.exit()
        except Diverged:
            if kind is None:
                raise

    @property
    def waits(self) -> bool:
        """Whether a call of the process is open, such as one that Ctrl-C interrupted. `resume` waits for its answer; until then, every
        other call of the process raises Fault 3."""
        return self.hub._calls.told(self.pid) is not None

    def resume(self) -> Any:
        """Resumes the wait of the call that Ctrl-C interrupted, and returns or raises what that call would have. A `send_all` goes on.

        Raises Fault 12 if there is no such call, and Fault 3 if another thread is waiting for its answer.
        """
        hub = self.hub
        hub._owned()
        with hub._settling:
            if not self.waits:
                raise Fault(NOT_PARKED)
            if not hub._calls.wait(self.pid, 0):
                raise Fault(BUSY)
        return self._result()

    def make(self, cap: int) -> Port:
        """Makes a channel that buffers up to `cap` values, 0 to 1,024, and returns its port. Ports are numbered from 1."""
        calls = self.hub._caller()
        calls.ask_other(self.pid, 'make', _within('capacity', cap, 2 ** 32 - 1))
        port = Port(self._told()[3], self)
        del calls[self.pid]
        return port

    def port(self, port: int) -> Port:
        """Returns this port as one through which this process acts."""
        return Port(port, self)

    def send(self, port: int, value: Any, timeout: Optional[float] = None) -> None:
        """Sends a value. Waits until a receiver takes it or the buffer has room for it.

        With a timeout, raises TimedOut if that takes longer than so many seconds. A timeout of 0 does not wait. Only a hub with
        `timeouts` takes one.

        Unless the hub has `objects`, raises TypeError if the value is neither an int nor bytes, and ValueError if it does not fit into
        64 bits or 32 bytes.
        """
        if timeout is not None:
            self._call(((port, value),), timeout)
            return
        calls = self.hub._live or self.hub._caller()
        if calls[self.pid, port, value] is calls:
            self._result()

    def recv(self, port: int, timeout: Optional[float] = None) -> Any:
        """Receives a value and returns it. Waits until there is one. With a timeout, as `send`."""
        if timeout is not None:
            return self._call(((port,),), timeout)
        calls = self.hub._live or self.hub._caller()
        got = calls[self.pid, port]
        return self._result() if got is calls else got

    def send_all(self, port: int, values: Iterable[Any], timeout: Optional[float] = None) -> None:
        """Sends these values in their order, and waits as often as it has to. It makes the same steps as a `send` of each, in less time.

        The timeout is one for all. If it raises an exception of the hub, `sent` of that is how many values were sent before; the others
        were not. If a value raises TypeError or ValueError, none is sent.
        """
        self._ask_many('send_all', port, tuple(values), timeout)
        self._result()

    def recv_up_to(self, port: int, most: int, timeout: Optional[float] = None) -> List[Any]:
        """Waits for a value, and receives it and those behind it in the buffer, up to `most` and never more than 2,048. Returns them in a
        list. A value that it had to wait for comes alone, and so does each of a port without a buffer. Raises ValueError if `most` is less
        than 1."""
        self._ask_many('recv_up_to', port, _up_to(most), timeout)
        got: List[Any] = self._result()
        return got

    def drain(self, port: int) -> Iterator[Any]:
        """Receives values and yields them, until the port is closed and empty."""
        while True:
            try:
                value = self.recv(port)
            except Drained:
                return
            yield value

    def select(self, cases: Sequence[Union[Send, Recv]], default: bool = False, word: int = 0,
               timeout: Optional[float] = None) -> Optional[Fired]:
        """Fires one of the cases that can proceed, and returns its index and, for a receive, the value.

        If k cases can proceed, the one with index `word % k` among them fires. Word 0 always picks the first; pass
        `random.getrandbits(64)` for a fair choice. If no case can proceed, `select` returns None if `default` is true, and
        otherwise waits. With a timeout, as `send`.
        """
        fired: Optional[Fired] = self._call(tuple(cases), timeout, True, default, _within('word', word, 2 ** 64 - 1))
        return fired

    def close(self, port: int) -> None:
        """Closes a port. Waiting sends raise Closed, and waiting receives raise Drained."""
        self.hub._caller().ask_other(self.pid, 'close', _within('port', port, 65535))
        self._result()

    def reopen(self, port: int, cap: int) -> None:
        """Opens a port again that is closed and empty, with a buffer for up to `cap` values, 0 to 1,024. Raises Fault 16 if it is open or
        holds a value. The port keeps its number, so nobody should still use it for what it was.

        Requires edition 3; in another it raises Fault 13.
        """
        self.hub._caller().ask_other(self.pid, 'reopen', _within('port', port, 65535), _within('capacity', cap, 2 ** 32 - 1))
        self._result()

    def exit(self) -> None:
        """Ends the process, so that a deadlock among the others can be reported. Does nothing if it has already exited.

        Raises Fault 3 if a call of the process is open. May be called after the hub has ended.
        """
        handle = self.hub._owned()
        if self.waits:
            raise Fault(BUSY)
        told = _LIBRARY.chanhub_exit(handle, self.pid)
        while told.fault == NOT_YET:
            _LIBRARY.chanhub_turn(handle, self.pid, _SLICE)
            told = _LIBRARY.chanhub_exit(handle, self.pid)
        if told.fault and told.fault != GONE:
            raise self.hub._error(self.pid, told.what, told.fault, 0, told.value.number)

    def start(self, other: int) -> None:
        """Starts a process again that has exited. Raises Fault 17 if it has not exited or does not exist.

        Then `hub.seat(other)` calls as that process, and so does a seat from before. Start a process before the thread that is to call
        as it. While no thread does, exit it: otherwise no deadlock is reported.

        Requires edition 3; in another it raises Fault 13.
        """
        self.hub._caller().ask_other(self.pid, 'start', _within('process', other, 255))
        self._result()

    def cancel(self, other: int) -> None:
        """Ends the waiting call of another process with Cancelled. Raises Fault 12 if that process has no waiting call.

        Requires edition 2 or 3; in edition 1 it raises Fault 13.
        """
        self.hub._caller().ask_other(self.pid, 'cancel', _within('process', other, 255))
        self._result()

    def _call(self, cases: Tuple[Tuple[Any, ...], ...], timeout: Optional[float], is_select: bool = False, default: bool = False,
              word: int = 0) -> Any:
        """Makes a call of these cases, and returns its result."""
        deadline = () if timeout is None else (self._deadline(timeout),)
        self.hub._caller().ask(self.pid, cases, is_select, default, word, *deadline)
        return self._result()

    def _ask_many(self, name: str, port: int, what: Any, timeout: Optional[float] = None) -> None:
        """Makes a call of this name, which passes many values."""
        deadline = () if timeout is None else (self._deadline(timeout),)
        getattr(self.hub._caller(), name)(self.pid, port, what, *deadline)

    def _deadline(self, timeout: float) -> int:
        """Returns the time on the library's clock at which this timeout passes."""
        if not self.hub._has_timeouts:
            raise ValueError('only a hub with `timeouts` takes a timeout')
        if not timeout >= 0:
            raise ValueError('a timeout must not be negative')
        return monotonic_ns() + int(min(timeout, _LONGEST) * 10 ** 9)

    def _result(self) -> Any:
        """Waits for the answer of the open call, ends the call, and returns its result."""
        self._told()
        return self.hub._calls[self.pid]

    def _told(self) -> Tuple[int, int, int, int, int]:
        """Waits for the answer of the open call, and returns it. If it is an exception, ends the call and raises that. The main thread
        waits in short slices, so that it can be interrupted: then the call stays open."""
        hub, pid, calls = self.hub, self.pid, self.hub._calls
        hub._attend()
        told: Tuple[int, int, int, int, int] = calls.told(pid)
        while told[0] == WAITING:
            calls.wait(pid, _SLICE if get_ident() == _main else _FOR_EVER)
            told = calls.told(pid)
            if told[0] == WAITING and told[1]:  # it has timed out, but there is no memory to end it
                error = Fault(told[1])
                error.sent = told[4]
                raise error
            hub._attend()
        if told[0] in _ENDED or told[0] == FAULT:
            error = hub._error(pid, *told[:4])
            error.sent = told[4]
            hub._stalls[pid] += told[0] == STALLED
            del calls[pid]
            raise error
        return told

    def _begun(self, name: str, port: int, what: Any) -> Any:
        """Begins a call that passes many values, and blocks nothing. Returns its result, or if it has to wait, a Future of that, which cannot
        be cancelled. If the process's thread has another call to make first, or if this one might wait for its turn in a journal or give a
        chapter, that thread makes it, unless its Future is cancelled before."""
        hub = self.hub
        calls = hub._caller()
        if hub._handed[self.pid] or hub._follows or hub._chapters:
            return self._submit(getattr(self, name), port, what)
        self._ask_many(name, port, what)
        if calls.told(self.pid)[0] != WAITING:
            return self._result()
        result: Future[Any] = Future()
        result.set_running_or_notify_cancel()
        self._submit(self._result).add_done_callback(lambda told: _pass_on(told, result))
        return result

    def _submit(self, call: Callable[..., Any], *arguments: Any) -> Future[Any]:
        """Has the thread that makes the awaited calls of the process make this one."""
        hub = self.hub
        if self.pid not in hub._executors:
            hub._executors.setdefault(self.pid, ThreadPoolExecutor(1, f'chanhub-process-{self.pid}'))
        future = hub._executors[self.pid].submit(call, *arguments)
        handed = hub._handed[self.pid]
        handed.add(future)
        future.add_done_callback(handed.discard)
        return future


def _pass_on(told: Future[Any], result: Future[Any]) -> None:
    """Gives what one Future has to another."""
    error = told.exception()
    if error is None:
        result.set_result(told.result())
    else:
        result.set_exception(error)


class Port(int):
    """The number of a port, with a seat: each call is one of the seat's process. `seat.make` and `seat.port` return one.

    A Port has the methods of queue.Queue, and can be iterated:

        for value in port:                                  # until the port is closed and empty
            ...

    A call that fails raises Closed, Drained, Stalled, Cancelled or Fault, as those of a Seat. Only a hub with `timeouts` takes a timeout.

    In asyncio, `await port.aput(value)` and `await port.aget()` make these calls as the process of the port's seat, `asend_all` and
    `arecv_up_to` pass many values, and `async for value in port` receives until the end. Like those of asyncio.Queue, a call that need
    not wait goes on at once. Where it has to, a thread waits for it, named chanhub-process-PID, one for each process, which makes its
    calls one after the other. So give each task that waits a process of its own. The process counts as waiting as long as its call
    waits. While the task does something else, the process is outside the hub, and no deadlock is reported. End the hub by a `with`
    block, which ends the calls that wait: the interpreter waits for them when it exits. In a hub that follows a journal, any call waits
    for its turn: make the others, such as `close`, by asyncio.to_thread, so that they do not hold up the loop.
    """

    seat: Seat

    def __new__(cls, number: int, seat: Seat) -> Port:
        port = super().__new__(cls, number)
        port.seat = seat
        return port

    def __reduce__(self) -> Tuple[Any, ...]:
        """A copy or a pickle is the plain number."""
        return int, (int(self),)

    def put(self, item: Any, block: bool = True, timeout: Optional[float] = None) -> None:
        """Sends a value. Raises queue.Full where this would have to wait, if `block` is false, or longer than `timeout` seconds."""
        if block:
            try:
                self.seat.send(self, item, timeout)
            except TimedOut:
                raise Full from None
        elif self.seat.select([Send(self, item)], default=True) is None:
            raise Full

    def put_nowait(self, item: Any) -> None:
        """Sends a value if that needs no wait, and raises queue.Full otherwise."""
        self.put(item, block=False)

    def get(self, block: bool = True, timeout: Optional[float] = None) -> Any:
        """Receives a value and returns it. Raises queue.Empty where this would have to wait, if `block` is false, or longer than `timeout`
        seconds."""
        if block:
            try:
                return self.seat.recv(self, timeout)
            except TimedOut:
                raise Empty from None
        fired = self.seat.select([Recv(self)], default=True)
        if fired is None:
            raise Empty
        return fired.value

    def get_nowait(self) -> Any:
        """Receives a value if that needs no wait, and raises queue.Empty otherwise."""
        return self.get(block=False)

    def send_all(self, values: Iterable[Any], timeout: Optional[float] = None) -> None:
        """Sends these values, as `seat.send_all` does."""
        self.seat.send_all(self, values, timeout)

    def recv_up_to(self, most: int, timeout: Optional[float] = None) -> List[Any]:
        """Receives up to `most` values, at least one, as `seat.recv_up_to` does."""
        return self.seat.recv_up_to(self, most, timeout)

    def close(self) -> None:
        """Closes the port. Waiting sends raise Closed, and waiting receives raise Drained."""
        self.seat.close(self)

    def qsize(self) -> int:
        """Returns how many values are in the buffer."""
        counts = self._counts()
        return counts.sent - counts.received

    def empty(self) -> bool:
        """Returns whether no value is in the buffer."""
        return self.qsize() == 0

    def full(self) -> bool:
        """Returns whether the buffer has no room. A port of capacity 0 is always full."""
        counts = self._counts()
        return counts.sent - counts.received >= counts.cap

    def _counts(self) -> Counts:
        return self.seat.hub.look(self) or Counts(0, 0, 0, False)

    def __iter__(self) -> Iterator[Any]:
        return self.seat.drain(self)

    async def aput(self, item: Any) -> None:
        """Sends a value, without blocking the event loop. If the task is cancelled meanwhile, the value may still be sent."""
        await self.asend_all((item,))

    async def aget(self) -> Any:
        """Receives a value and returns it, without blocking the event loop. If the task is cancelled meanwhile, no value is lost: the
        call goes on, and the next `aget` or `arecv_up_to` of this process on this port gets its result."""
        got, = await self.arecv_up_to(1)
        return got

    async def asend_all(self, values: Iterable[Any]) -> None:
        """Sends these values, as `send_all` does, without blocking the event loop. If the task is cancelled meanwhile, they may still be
        sent."""
        sent = self.seat._begun('send_all', self, tuple(values))
        if sent is not None:
            from asyncio import wrap_future
            await wrap_future(sent)

    async def arecv_up_to(self, most: int) -> List[Any]:
        """Receives up to `most` values, at least one, as `recv_up_to` does, without blocking the event loop. If the task is cancelled
        meanwhile, no value is lost, as with `aget`."""
        unclaimed = self.seat.hub._unclaimed[self.seat.pid, int(self)]
        most = _up_to(most)
        got = unclaimed.popleft() if unclaimed else self.seat._begun('recv_up_to', self, most)
        if isinstance(got, Future):
            got = await self._claimed(got, unclaimed)
        if len(got) > most:
            rest: Future[List[Any]] = Future()
            rest.set_result(got[most:])
            unclaimed.appendleft(rest)
        return got[:most]

    @staticmethod
    async def _claimed(got: Future[List[Any]], unclaimed: Deque[Future[List[Any]]]) -> List[Any]:
        """Returns what a receive got. If the task is cancelled meanwhile, that is unclaimed."""
        from asyncio import CancelledError, wrap_future
        try:
            return await wrap_future(got)
        except CancelledError:
            if not got.cancel():  # it has begun
                unclaimed.append(got)
            raise

    async def __aiter__(self) -> AsyncIterator[Any]:
        while True:
            try:
                value = await self.aget()
            except Drained:
                return
            yield value
