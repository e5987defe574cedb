"""Calls with a timeout, through the Python module. python3 -m unittest test_timeouts"""
import os
import pathlib
import queue
import signal
import sys
import tempfile
import threading
import time
import unittest

import chanhub
from chanhub import Cancelled, Closed, Drained, Fault, Fired, Hub, HubEnded, Recv, Send, Stalled, TimedOut

sys.path.append(str(pathlib.Path(__file__).resolve().parent.parent.parent / 'tools'))
import model  # noqa: E402

LONG = 120  # seconds after which what should end soon is taken to hang
SHORT = 0.02


def events(journal):
    """What a journal tells, by the rules."""
    lines = journal.decode().splitlines()
    hub = model.Hub(int(lines[0].split()[2]), int(lines[1].split()[1]))
    for line in lines[2:]:
        pid, *words = line.split()
        hub.step(int(pid), *model.step(words))
    return hub.events


def in_thread(call):
    """Begins a call in a thread. Gives a function that waits for what it returned or raised."""
    came = []

    def run():
        try:
            came.append((call(), None))
        except Exception as error:
            came.append((None, error))

    thread = threading.Thread(target=run, daemon=True)
    thread.start()

    def end():
        thread.join(LONG)
        if not came:
            raise AssertionError('it hangs')
        value, error = came[0]
        if error is not None:
            raise error
        return value
    return end


def journal_with(hub, line, times=1):
    """Waits until the journal has this line so many times."""
    end = time.monotonic() + LONG
    while hub.journal().decode().splitlines().count(line) < times:
        if time.monotonic() > end:
            raise AssertionError(f'no {line}')
        time.sleep(0.001)


class Timeouts(unittest.TestCase):
    def took(self, least, call):
        """Asserts that the call raises TimedOut, after this time at the earliest."""
        began = time.monotonic()
        self.assertRaises(TimedOut, call)
        self.assertGreaterEqual(time.monotonic() - began, least)

    def test_each_call_in_the_main_thread(self):
        with Hub(procs=1, timeouts=True) as hub, hub.seat(0) as seat:
            port = seat.make(1)
            self.took(SHORT, lambda: seat.recv(port, timeout=SHORT))
            seat.send(port, 7, timeout=SHORT)
            self.took(SHORT, lambda: seat.send(port, 8, timeout=SHORT))
            self.took(0.12, lambda: seat.send(port, 8, timeout=0.12))  # more than one slice
            self.assertEqual(seat.recv(port, timeout=SHORT), 7)
            self.took(SHORT, lambda: seat.select([Recv(port), Recv(0)], timeout=SHORT))
            self.assertEqual(seat.select([Recv(port), Send(port, b'a')], timeout=SHORT), Fired(1))
            self.assertEqual(seat.select([Recv(port)], default=True, timeout=SHORT), Fired(0, b'a'))
            self.assertIsNone(seat.select([Recv(port)], default=True, timeout=SHORT))
            self.assertRaises(TimedOut, seat.recv, port, 0)
            with self.assertRaisesRegex(TimedOut, 'the timeout passed'):
                seat.recv(port, timeout=0)
            self.assertRaises(Stalled, seat.recv, port)
            seat.close(port)
            self.assertRaises(Drained, seat.recv, port, SHORT)
            self.assertRaises(Closed, seat.send, port, 1, SHORT)
            told = events(hub.journal())
        self.assertEqual([event for event in told if event.startswith('1 ')],
                         ['1 parked', *4 * ['1 cancelled', '1 done', '1 parked'], '1 stalled', '1 parked'])
        self.assertEqual([event for event in told if event in ('0 cancelled', '0 stalled')], 4 * ['0 cancelled'] + ['0 stalled'])

    def test_each_call_in_another_thread(self):
        with Hub(procs=2, timeouts=True) as hub:
            ann, bob = hub.seat(0), hub.seat(1)
            port = ann.make(0)
            self.took(SHORT, lambda: in_thread(lambda: bob.recv(port, timeout=SHORT))())
            got = in_thread(lambda: bob.recv(port, timeout=LONG))
            journal_with(hub, f'1 recv {port}', times=2)
            ann.send(port, 5, timeout=0)
            self.assertEqual(got(), 5)
            sent = in_thread(lambda: bob.send(port, 6, timeout=LONG))
            journal_with(hub, f'1 send {port} 6')
            self.assertEqual(ann.recv(port, timeout=SHORT), 6)
            self.assertIsNone(sent())
            cancelled = in_thread(lambda: bob.select([Recv(0), Recv(port)], word=3, timeout=LONG))
            journal_with(hub, f'1 select 3 r0 r{port}')
            ann.cancel(1)
            self.assertRaises(Cancelled, cancelled)

    def test_no_deadlock_is_told_while_a_call_may_time_out(self):
        with Hub(procs=2, timeouts=True) as hub:
            ann, bob = hub.seat(0), hub.seat(1)
            port = ann.make(0)
            stalled = in_thread(lambda: bob.recv(port))
            journal_with(hub, f'1 recv {port}')
            self.took(SHORT, lambda: ann.recv(port, timeout=SHORT))
            self.assertRaises(Stalled, ann.recv, port)
            self.assertRaises(Stalled, stalled)

    def test_names_of_queue(self):
        with Hub(procs=1, timeouts=True) as hub, hub.seat(0) as seat:
            port = seat.make(1)
            self.assertRaises(queue.Empty, port.get, timeout=SHORT)
            self.assertRaises(queue.Empty, port.get, True, 0)
            port.put(7, timeout=SHORT)
            self.assertRaises(queue.Full, port.put, 8, timeout=SHORT)
            self.assertRaises(queue.Full, port.put, 8, False, 100)
            self.assertEqual(port.get(timeout=SHORT), 7)
            self.assertRaises(queue.Empty, port.get, False, 100)

    def test_many_values_have_one_timeout(self):
        with Hub(procs=2, objects=True, timeouts=True) as hub:
            ann, bob = hub.seat(0), hub.seat(1)
            port = ann.make(2)
            self.took(SHORT, lambda: port.recv_up_to(9, timeout=SHORT))
            for timeout in (0, SHORT):
                with self.assertRaises(TimedOut) as raised:
                    port.send_all('abcd', timeout=timeout)
                self.assertEqual((raised.exception.sent, bob.recv_up_to(port, 9, timeout=0)), (2, ['a', 'b']))
            self.assertEqual(hub._things, {})
            port.send_all('ab', timeout=LONG)
            sent = in_thread(lambda: port.send_all('cde', timeout=0.2))
            journal_with(hub, '0 send 1 900')  # each of both that were refused has had a number
            self.assertEqual(bob.recv(port), 'a')
            with self.assertRaises(TimedOut) as raised:
                sent()
            self.assertEqual((raised.exception.sent, bob.recv_up_to(port, 9)), (1, ['b', 'c']))
            self.assertEqual(hub._things, {})

    def test_objects_that_are_not_sent_are_forgotten(self):
        with Hub(procs=1, objects=True, timeouts=True) as hub, hub.seat(0) as seat:
            port = seat.make(1)
            port.put(['one'], timeout=SHORT)
            self.assertRaises(queue.Full, port.put, ['two'], timeout=SHORT)
            self.assertRaises(TimedOut, seat.select, [Send(port, ['three']), Recv(0)], timeout=SHORT)
            self.assertEqual(list(hub._things.values()), [['one']])
            self.assertEqual(port.get(timeout=SHORT), ['one'])
            self.assertRaises(queue.Empty, port.get, timeout=SHORT)

    def test_what_is_refused(self):
        with Hub(procs=1) as hub, hub.seat(0) as seat:
            port = seat.make(1)
            for call in (lambda: seat.recv(port, timeout=1), lambda: port.send_all([1], timeout=1), lambda: port.recv_up_to(1, 1), lambda: port.put(1, timeout=1), lambda: seat.select([], timeout=0)):
                self.assertRaisesRegex(ValueError, 'only a hub with `timeouts`', call)
        with Hub(procs=1, timeouts=True) as hub, hub.seat(0) as seat:
            port = seat.make(1)
            for timeout in (-1, float('-inf'), float('nan')):
                self.assertRaises(ValueError, seat.recv, port, timeout)
            self.assertRaises(TypeError, seat.recv, port, 'soon')
            seat.send(port, 1, timeout=float('inf'))
            seat.recv(port, timeout=10 ** 400 // 10 ** 390)
            self.assertRaises(Fault, hub.seat(1).recv, port)  # the clock
        for arguments in (dict(procs=0), dict(procs=64), dict(procs=1, edition=1), dict(procs=1, edition=0), dict(procs=1, limit=0),
                          dict(procs=1, limit=1_000_001), dict(procs=1, keep=0), dict(procs=1, keep=900_001),
                          dict(procs=1, keep=5, limit=5), dict(procs=1, chapters=print)):
            self.assertRaises(ValueError, Hub, timeouts=True, **arguments)
        Hub(procs=63, timeouts=True)

    def test_a_full_journal_delays_no_timeout(self):
        with Hub(procs=1, limit=6, timeouts=True) as hub:
            seat = hub.seat(0)
            port = seat.make(1)
            self.took(SHORT, lambda: seat.recv(port, timeout=SHORT))
            for call in (lambda: seat.recv(port, timeout=SHORT), lambda: seat.recv(port, timeout=0), lambda: seat.send(port, 1)):
                with self.assertRaises(Fault) as fault:
                    call()
                self.assertEqual(fault.exception.number, 10)

    def test_chapters(self):
        with tempfile.TemporaryDirectory() as folder:
            with Hub(procs=2, keep=10, chapters=folder, timeouts=True) as hub:
                ann, bob = hub.seat(0), hub.seat(1)
                port = ann.make(1)
                timed_out = [in_thread(lambda: [bob.recv(port, timeout=SHORT / 10) for _ in range(100)])]
                for _ in range(20):
                    self.assertRaises(TimedOut, ann.recv, port, timeout=SHORT / 10)
                self.assertRaises(TimedOut, timed_out[0])
                self.assertIn(b'\n2 recv 0\n', hub.journal())
            texts = sorted(pathlib.Path(folder).iterdir(), key=lambda path: int(path.suffix[1:]))
            self.assertGreater(len(texts), 5)
            self.assertTrue(texts[-1].read_text().endswith('2 exit\n'))

    def test_the_end_of_a_hub_ends_calls_with_timeouts(self):
        for arguments in ({}, {'keep': 10, 'chapters': lambda text: None}):
            with Hub(procs=2, timeouts=True, **arguments) as hub:
                port = hub.seat(0).make(0)
                waits = in_thread(lambda: hub.seat(1).recv(port, timeout=10 * LONG))
                journal_with(hub, f'1 recv {port}')
            self.assertRaises(HubEnded, waits)

    def test_an_interrupted_call_is_resumed(self):
        before = signal.signal(signal.SIGINT, signal.default_int_handler)  # it may be ignored
        self.addCleanup(signal.signal, signal.SIGINT, before)
        with Hub(procs=1, timeouts=True) as hub:
            seat = hub.seat(0)
            port = seat.make(0)

            def interrupt():
                journal_with(hub, f'0 recv {port}')
                os.kill(os.getpid(), signal.SIGINT)

            interrupted = in_thread(interrupt)
            self.assertRaises(KeyboardInterrupt, seat.recv, port, timeout=LONG)
            interrupted()
            self.assertTrue(seat.waits)
            chanhub._LIBRARY.chanhub_expire(hub._handle, 0)
            self.assertRaises(TimedOut, seat.resume)
            self.assertFalse(seat.waits)
            self.assertRaises(Stalled, seat.recv, port)


if __name__ == '__main__':
    unittest.main()
