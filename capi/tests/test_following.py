"""Tests of hubs that follow a journal, and of the plugin for pytest, which is left out where there is no pytest."""
import asyncio
import importlib.util
import os
import pickle
import random
import signal
import subprocess
import sys
import tempfile
import threading
import time
import unittest
from functools import partial
from pathlib import Path
from xml.etree import ElementTree

from chanhub import Closed, Diverged, Drained, Fault, Hub, Recv, Send, Stalled, TimedOut

JOURNAL = b'chanhub journal 2\nprocs 2\n0 make 0\n1 recv 1\n0 send 1 9\n0 close 1\n'
# Process 0 first waits in vain, then not at all, and then gets a value. Process 2 is the clock.
TIMED = (b'chanhub journal 2\nprocs 3\n2 recv 0\n0 make 0\n0 select 0 r1 default\n0 cancel 2\n0 recv 1\n2 cancel 0\n2 recv 0\n'
         b'0 select 0 r1 default\n0 select 0 r1 default\n0 cancel 2\n0 recv 1\n1 send 1 9\n2 recv 0\n')


class Following(unittest.TestCase):
    def in_thread(self, call):
        """Begins a call in another thread. Returns what waits for it and gives its result, or raises its exception."""
        came = []

        def run():
            try:
                came.append((call(), None))
            except Exception as error:
                came.append((None, error))

        thread = threading.Thread(target=run, daemon=True)
        thread.start()

        def ends():
            thread.join(20)
            self.assertFalse(thread.is_alive(), 'it hangs')
            value, error = came[0]
            if error:
                raise error
            return value
        return ends

    def diverges(self, step, call, *arguments):
        with self.assertRaises(Diverged) as raised:
            call(*arguments)
        self.assertEqual(raised.exception.step, step)

    def test_starts_and_reopens_wait_for_their_turns(self):
        hub = Hub.follow(b'chanhub journal 3\nprocs 2\n0 make 0\n0 close 1\n1 reopen 1 1\n1 exit\n0 start 1\n1 send 1 7\n0 recv 1\n')
        zero, one = hub.seat(0), hub.seat(1)
        reopened = self.in_thread(lambda: one.reopen(1, 1))
        port = zero.make(0)
        zero.close(port)
        reopened()
        started = self.in_thread(lambda: zero.start(1))
        one.exit()
        started()
        one.send(port, 7)
        self.assertEqual(zero.recv(port), 7)
        self.diverges(8, zero.reopen, port, 2)

    def test_answers_are_the_recorded_ones(self):
        hub = Hub.follow(JOURNAL)
        zero, one = hub.seat(0), hub.seat(1)
        received = self.in_thread(lambda: one.recv(1))
        port = zero.make(0)
        zero.send(port, 9)
        self.assertEqual(received(), 9)
        zero.close(port)
        self.assertEqual(hub.journal(), JOURNAL)
        self.diverges(5, one.recv, 1)
        with self.assertRaisesRegex(Diverged, '^P1 asked recv 1, the journal ends with step 4$'):
            zero.exit()
        self.assertEqual(hub.journal(), JOURNAL)

    def test_divergence_ends_the_hub(self):
        hub = Hub.follow(JOURNAL)
        zero, one = hub.seat(0), hub.seat(1)
        received = self.in_thread(lambda: one.recv(1))
        zero.make(0)
        self.diverges(3, zero.send, 1, 8)
        self.diverges(3, received)
        self.diverges(3, zero.send, 1, 9)
        self.diverges(3, one.exit)
        with self.assertRaises(Fault) as raised:
            one.recv(1)
        self.assertEqual(raised.exception.number, 14)
        self.assertEqual(str(raised.exception), 'P0 asked send 1 8, step 3 is 0 send 1 9')
        self.assertEqual(repr(pickle.loads(pickle.dumps(raised.exception))), repr(raised.exception))
        self.assertEqual(str(Diverged(3)), 'the journal that the hub follows has another step here: step 3')

    def test_hub_that_goes_on(self):
        with Hub.follow(JOURNAL, goes_on=True) as hub:
            zero, one = hub.seat(0), hub.seat(1)
            port = zero.make(0)
            self.diverges(3, zero.close, port)
            zero.close(port)
            with self.assertRaises(Drained):
                one.recv(port)
            with self.assertRaises(Closed):
                zero.send(port, 9)
        with Hub.follow(b'chanhub journal 2\nprocs 1\n0 make 1\n', goes_on=True) as hub, hub.seat(0) as seat:
            port = seat.make(1)
            seat.send(port, b'more')
            self.assertEqual(seat.recv(port), b'more')

    def test_journals_that_are_not_followed(self):
        for journal, words in ((b'', 'the journal is malformed, in line 1'),
                               (JOURNAL + b'0 sends\n', 'the journal is malformed, in line 7'),
                               (b'chanhub journal 1\nprocs 1\n0 exit\n0 exit\n', 'no hub admits the step of the journal in line 4')):
            with self.assertRaises(ValueError) as raised:
                Hub.follow(journal)
            self.assertEqual(str(raised.exception), words)

    def test_stalls_are_recorded(self):
        journal = b'chanhub journal 2\nprocs 2\n0 make 0\n1 recv 1\n0 recv 1\n1 exit\n0 exit\n'
        with Hub.follow(journal) as hub:
            def stalls():
                with hub.seat(1) as seat, self.assertRaises(Stalled):
                    seat.recv(1)
            ends = self.in_thread(stalls)
            with hub.seat(0) as seat:
                port = seat.make(0)
                with self.assertRaises(Stalled):
                    seat.recv(port)
            ends()
        self.assertEqual(hub.journal(), journal)

    def test_timeouts_are_the_recorded_ones(self):
        for timeout in (0, 1000):
            hub = Hub.follow(TIMED)
            zero, one = hub.seat(0), hub.seat(1)
            port = zero.make(0)
            self.assertRaises(TimedOut, zero.recv, port, timeout)
            self.assertRaises(TimedOut, zero.recv, port, timeout)
            received = self.in_thread(lambda: zero.recv(port, timeout))
            one.send(port, 9)
            self.assertEqual(received(), 9)
            self.assertEqual(hub.journal(), TIMED)
            self.diverges(14, zero.recv, port, timeout)

    def test_timeouts_in_the_main_thread(self):
        hub = Hub.follow(TIMED)
        zero = hub.seat(0)
        port = zero.make(0)
        for _ in range(2):
            self.assertRaises(TimedOut, zero.recv, port, 1000)
        sent = self.in_thread(lambda: hub.seat(1).send(port, 9))
        self.assertEqual(zero.recv(port, 0), 9)
        sent()
        self.assertRaises(Fault, hub.seat(2).recv, port)  # the clock

    def test_timeouts_of_a_hub_that_goes_on(self):
        with Hub.follow(TIMED, goes_on=True) as hub:
            zero, one = hub.seat(0), hub.seat(1)
            port = zero.make(0)
            for _ in range(2):
                self.assertRaises(TimedOut, zero.recv, port, 1000)
            waits = self.in_thread(lambda: zero.recv(port, 0.01))
            while hub.journal().count(b'\n0 recv 1\n') < 2:
                time.sleep(0.001)
            time.sleep(0.02)
            self.diverges(12, one.send, port, 8)
            self.assertRaises(TimedOut, waits)
            began = time.monotonic()
            self.assertRaises(TimedOut, one.recv, port, 0.02)
            self.assertGreaterEqual(time.monotonic() - began, 0.02)
            stalls = self.in_thread(lambda: zero.recv(port))
            self.assertRaises(Stalled, one.recv, port)
            self.assertRaises(Stalled, stalls)

    def repeats(self, run, procs, **options):
        """Asserts of 200 runs that each, once it is recorded, is the same when its journal is followed. A run exits all its processes. It
        gets the hub, and whether that follows. Returns the journals."""
        journals = set()
        for _ in range(200):
            with Hub(procs, objects=True, **options) as hub:
                told = run(hub, False)
            journal = hub.journal()
            with Hub.follow(journal, objects=True) as hub:
                self.assertEqual(run(hub, True), told)
            self.assertEqual(hub.journal(), journal)
            journals.add(journal)
        self.assertGreater(len(journals), 1)  # they have several schedules
        return journals

    def told_of(self, hub, work, procs):
        """What this returns in a thread for each process from 1 on."""
        def works(seat):
            with seat:
                return work(seat)
        threads = [self.in_thread(partial(works, hub.seat(pid))) for pid in range(1, procs)]
        return [ends() for ends in threads]

    def test_four_senders_of_objects(self):
        def run(hub, _):
            port = hub.seat(0).make(1)

            def receive():
                with hub.seat(0) as seat:
                    return [seat.recv(port) for _ in range(20)]
            got = self.in_thread(receive)
            self.told_of(hub, lambda seat: [seat.send(port, [seat.pid, k]) for k in range(5)], 5)
            return got()
        self.repeats(run, 5)

    def test_many_objects_at_once(self):
        def run(hub, _):
            ports = [hub.seat(0).make(cap) for cap in (0, 3)]

            def receive():
                got = []
                with hub.seat(0) as seat:
                    while sum(map(len, got)) < 20:
                        got.append(seat.recv_up_to(ports[1], 4))
                    return got, [seat.recv_up_to(ports[0], 4) for _ in range(20)]
            got = self.in_thread(receive)
            self.told_of(hub, lambda seat: [seat.send_all(port, [[seat.pid, k] for k in range(5)]) for port in reversed(ports)], 5)
            return got()
        self.repeats(run, 5)

    def test_many_objects_that_end_in_the_middle(self):
        def run(hub, _):
            with hub.seat(0) as boss:
                port = boss.make(2)

            def work(seat):
                try:
                    if seat.pid == 1:
                        got = seat.recv_up_to(port, 3), seat.recv_up_to(port, 3)
                        return got, seat.close(port)
                    return seat.send_all(port, [[seat.pid, k] for k in range(5)])
                except Closed as closed:
                    return closed.sent
            return self.told_of(hub, work, 4)
        self.repeats(run, 4)

    def test_many_values_that_diverge(self):
        hub = Hub.follow(b'chanhub journal 2\nprocs 1\n0 make 3\n0 send 1 5\n0 send 1 6\n0 close 1\n')
        port = hub.seat(0).make(3)
        with self.assertRaises(Diverged) as raised:
            port.send_all([5, 6, 7])
        self.assertEqual((raised.exception.step, raised.exception.sent), (4, 2))

    def test_interrupt_of_a_turn_of_many(self):
        hub = Hub.follow(b'chanhub journal 2\nprocs 2\n0 make 3\n0 send 1 100\n1 send 1 101\n0 send 1 200\n', objects=True)
        zero, one = hub.seat(0), hub.seat(1)
        port = zero.make(3)

        class Interrupted(Exception):
            pass

        def interrupt(*_):
            raise Interrupted
        self.addCleanup(signal.signal, signal.SIGALRM, signal.signal(signal.SIGALRM, interrupt))
        for call in (lambda: port.send_all('ab'), zero.resume):
            signal.setitimer(signal.ITIMER_REAL, 0.1)
            self.assertRaises(Interrupted, call)
            self.assertTrue(zero.waits)
        sent = self.in_thread(lambda: one.send(port, 'c'))
        self.assertIsNone(zero.resume())
        sent()
        self.assertEqual(hub._things, {100: 'a', 101: 'c', 200: 'b'})

    def test_selects_with_random_words(self):
        def run(hub, _):
            with hub.seat(0) as boss:
                ports = [boss.make(cap) for cap in (0, 1, 2)]

            def work(seat):
                told = []
                for k in range(8):
                    cases = [Send(port, [seat.pid, k]) for port in ports[k % 2:]] + [Recv(port) for port in ports[:2 + k % 2]]
                    try:
                        told.append(seat.select(cases, default=k % 4 == 0, word=random.getrandbits(64)))
                    except Stalled:
                        told.append('stalled')
                return told
            return self.told_of(hub, work, 5)
        self.repeats(run, 5)

    def test_timeouts_of_objects(self):
        def run(hub, follows):
            def timed(call, *arguments):
                try:
                    return call(*arguments, timeout=1000 if follows else 0.0001)
                except TimedOut:
                    return 'timed out'

            def work(seat):
                return [timed(seat.recv, port) if (seat.pid + k // 4) % 2 else timed(seat.send, port, [seat.pid, k]) for k in range(8)]
            with hub.seat(0) as boss:
                port = boss.make(1)
            return self.told_of(hub, work, 5)
        journals = self.repeats(run, 5, timeouts=True)
        self.assertTrue(any(b'\n5 cancel ' in journal for journal in journals))

    def test_awaited_objects(self):
        def run(hub, _):
            seats = [hub.seat(pid) for pid in range(4)]
            port = seats[0].make(1)

            async def send(seat):
                for k in range(2):
                    await seat.port(port).aput([seat.pid, k])
                await seat.port(port).asend_all([[seat.pid, k] for k in range(2, 4)])

            async def receive():
                got = [await port.aget() for _ in range(6)]
                while len(got) < 12:
                    got += await port.arecv_up_to(12 - len(got))
                return got

            async def main():
                got, *_ = await asyncio.wait_for(asyncio.gather(receive(), *map(send, seats[1:])), 20)
                return got
            got = asyncio.run(main())
            for seat in seats:
                seat.exit()
            return got
        self.repeats(run, 4)

    def test_end_of_the_block(self):
        with Hub.follow(JOURNAL) as hub:
            waits = self.in_thread(lambda: hub.seat(1).recv(1))
            self.assertEqual(hub.look(1), None)
        with self.assertRaisesRegex(Diverged, '^stopped before step 1, which is 0 make 0$'):
            waits()

    def test_interrupt_of_a_turn(self):
        hub = Hub.follow(JOURNAL.replace(b' 9', b' 100'), objects=True)
        zero, one = hub.seat(0), hub.seat(1)
        port = zero.make(0)

        class Interrupted(Exception):
            pass

        def interrupts(*_):
            raise Interrupted
        before = signal.signal(signal.SIGALRM, interrupts)
        try:
            signal.setitimer(signal.ITIMER_REAL, 0.2)
            with self.assertRaises(Interrupted):
                zero.send(port, 'object')
        finally:
            signal.setitimer(signal.ITIMER_REAL, 0)
            signal.signal(signal.SIGALRM, before)
        # Nothing is open, and nothing was put.
        self.assertEqual((zero.waits, hub._things), (False, {}))
        received = self.in_thread(lambda: one.recv(1))
        zero.send(port, 'object')
        self.assertEqual(received(), 'object')


TEST = '''
import os, threading

def test_first(open_hub):
    with open_hub(procs=2, objects=True) as hub:
        zero, one = hub.seat(0), hub.seat(1)
        port = zero.make(2)
        threads = [threading.Thread(target=seat.send, args=(port, name)) for seat, name in ((zero, 'zero'), (one, 'one'))]
        if os.environ['ORDER'] == 'one':
            threads.reverse()
        for thread in threads:
            thread.start()
            if os.environ['ORDER'] != 'race':
                thread.join()
        for thread in threads:
            thread.join()
        first = hub.look(port) and zero.recv(port)
        assert first == 'zero'

def test_passes(open_hub):
    open_hub(1).seat(0).make(1)
'''

TEST_TIMED = '''
import os
from chanhub import TimedOut

def test_timed(open_hub):
    hub = open_hub(procs=1, timeouts=True)
    seat = hub.seat(0)
    port = seat.make(1)
    try:
        seat.recv(port, timeout=float(os.environ['ORDER']))
    except TimedOut:
        assert False, 'it timed out'
'''


TEST_NAMES = '''
import pytest

@pytest.mark.parametrize('name', ['a' * 300, 'a/b', 'a?b'])
def test_names(open_hub, name):
    open_hub(procs=1).seat(0).make(len(name) + ord(name[1]))
    assert False

def test_after():
    pass
'''


@unittest.skipUnless(importlib.util.find_spec('pytest'), 'no pytest')
class Plugin(unittest.TestCase):
    def pytest(self, folder, order, *words):
        here = Path(__file__).resolve().parent.parent / 'python'
        path = os.pathsep.join([str(here), *filter(None, [os.environ.get('PYTHONPATH')])])
        # One thread sends after the other, but in a race.
        return subprocess.run([sys.executable, '-m', 'pytest', '-p', 'chanhub_pytest', '-p', 'no:cacheprovider', *words], cwd=folder,
                              env={**os.environ, 'PYTHONPATH': path, 'ORDER': order}, stdout=subprocess.PIPE, text=True, timeout=60)

    def test_journal_with_a_timeout(self):
        with tempfile.TemporaryDirectory() as folder:
            Path(folder, 'test_it.py').write_text(TEST_TIMED)
            ran = self.pytest(folder, '0.01')
            self.assertEqual(ran.returncode, 1, ran.stdout)
            ran = self.pytest(folder, '1000', '--chanhub-follow')
            self.assertEqual(ran.returncode, 1, ran.stdout)
            self.assertIn('it timed out', ran.stdout)
            self.assertRegex(ran.stdout, 'followed chanhub-journals/test_it.py_test_timed.[0-9a-f]{12}.0.journal\n')

    def test_journal_of_a_failing_test(self):
        with tempfile.TemporaryDirectory() as folder:
            Path(folder, 'test_it.py').write_text(TEST)
            ran = self.pytest(folder, 'zero')
            self.assertEqual(ran.returncode, 0, ran.stdout)
            self.assertFalse(Path(folder, 'chanhub-journals').exists())
            ran = self.pytest(folder, 'one')
            self.assertEqual(ran.returncode, 1, ran.stdout)
            kept, = Path(folder, 'chanhub-journals').iterdir()
            self.assertIn(f'wrote chanhub-journals/{kept.name}; ', ran.stdout)
            # The threads race, and the one sends first again.
            for _ in range(3):
                ran = self.pytest(folder, 'race', '--chanhub-follow')
                self.assertEqual(ran.returncode, 1, ran.stdout)
                self.assertIn("assert 'one' == 'zero'", ran.stdout)
                self.assertIn(f'followed chanhub-journals/{kept.name}\n', ran.stdout)

    def test_tests_have_files_of_their_own(self):
        with tempfile.TemporaryDirectory() as folder:
            Path(folder, 'test_it.py').write_text(TEST_NAMES)
            ran = self.pytest(folder, '', '--junitxml=junit.xml')
            self.assertIn('3 failed, 1 passed in', ran.stdout)
            named = [it.attrib['value'] for it in ElementTree.parse(Path(folder, 'junit.xml')).iter('property')]
            caps = [Path(folder, name).read_text().splitlines()[2] for name in named]
            self.assertEqual(caps, [f'0 make {cap}' for cap in (300 + ord('a'), 3 + ord('/'), 3 + ord('?'))])

    def test_journal_that_cannot_be_written(self):
        with tempfile.TemporaryDirectory() as folder:
            Path(folder, 'test_it.py').write_text(TEST_NAMES)
            for words in ((), ('-W', 'error')):
                ran = self.pytest(folder, '', '--chanhub-journals=/dev/null/folder', *words)
                self.assertIn('3 failed, 1 passed, 3 warnings in', ran.stdout)
                self.assertIn('PytestWarning: could not write /dev/null/folder/test_it.py_test_names_a_b_.', ran.stdout)


if __name__ == '__main__':
    unittest.main()
