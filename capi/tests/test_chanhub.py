"""What the Python module gives and raises. python3 -m unittest test_chanhub

If TOOL is the path of a built chanhub_tool, chapters are given to it as well.
"""
import collections
import gc
import os
import pathlib
import pickle
import signal
import subprocess
import sys
import tempfile
import threading
import time
import unittest

import chanhub
from chanhub import Cancelled, Closed, Counts, Drained, Fault, Fired, Hub, HubEnded, Recv, Seat, Send, Stalled, Table
from rigs import Worker

HERE = pathlib.Path(__file__).resolve().parent
sys.path += [str(HERE.parent.parent / it) for it in ('tools', 'tests/drive')]
import model  # noqa: E402
from compare import by_process  # noqa: E402
from cuts import checkpoint_of  # noqa: E402

LONG = 120  # seconds after which what should end at once, on a slow machine too, is taken to hang


def ran(script, *arguments):
    """The script in an interpreter of its own: its status and what it printed; fails where it does not end."""
    done = subprocess.run([sys.executable, '-c', script, *arguments], stdout=subprocess.PIPE, stderr=subprocess.STDOUT, timeout=LONG,
                          env=dict(os.environ, PYTHONPATH=os.pathsep.join(filter(None, sys.path))))
    return done.returncode, done.stdout.decode()


def history(chapters):
    """The head lines and the other lines of the history that these chapters are: the first, and what follows in each later one behind
    the checkpoint of the one before. Fails where one does not begin with that."""
    head, lines, checkpoint = [], [], []
    for number, chapter in enumerate(chapters):
        read = chapter.decode().splitlines()
        head, read = read[:2], read[2:]
        if read[:len(checkpoint)] != checkpoint:
            raise AssertionError(f'chapter {number} does not begin with the checkpoint')
        lines += read[len(checkpoint):]
        checkpoint = checkpoint_of(head, read)
    if os.environ.get('TOOL'):
        with tempfile.TemporaryDirectory() as folder:
            paths = [pathlib.Path(folder, str(number)) for number in range(len(chapters))]
            for path, chapter in zip(paths, chapters):
                path.write_bytes(chapter)
            subprocess.run([os.environ['TOOL'], 'chain', *paths], stdout=subprocess.DEVNULL, check=True)
    return head, lines


def events(head, lines):
    """What a journal tells, by the rules."""
    hub = model.Hub(int(head[0].split()[2]), int(head[1].split()[1]))
    for line in lines:
        fields = line.split()
        hub.step(int(fields[0]), *model.step(fields[1:]))
    return hub.events


def written(name):
    """The chapters that were written to NAME.0, NAME.1, and so on."""
    name = pathlib.Path(os.fsdecode(name))
    paths = [name.with_name(f'{name.name}.{number}') for number in range(len(os.listdir(name.parent)))]
    return [path.read_bytes() for path in paths if path.exists()]


def pass_numbers(hub, count):
    """Makes a port, and sends and receives so many numbers: 1 + 2 * count steps."""
    seat = hub.seat(0)
    port = seat.make(2)
    for number in range(count):
        seat.send(port, number)
        seat.recv(port)
    return port


def lines_of(count):
    """The lines of these steps."""
    return ['0 make 2', *(line for number in range(count) for line in (f'0 send 1 {number}', '0 recv 1'))]


def joined(threads):
    """Whether all of them end in time."""
    end = time.monotonic() + LONG
    for thread in threads:
        thread.join(max(0, end - time.monotonic()))
    return not any(thread.is_alive() for thread in threads)


class Calls(unittest.TestCase):
    def test_values_come_in_order(self):
        with Hub(procs=1) as hub:
            seat = hub.seat(0)
            port = seat.make(3)
            for value in (7, b'', bytes(range(32))):
                seat.send(port, value)
            self.assertEqual(hub.look(port), Counts(3, 3, 0, False))
            seat.close(port)
            self.assertEqual(list(seat.drain(port)), [7, b'', bytes(range(32))])

    def test_ends_are_exceptions(self):
        with Hub(procs=1) as hub:
            seat = hub.seat(0)
            port = seat.make(0)
            with self.assertRaises(Stalled):
                seat.recv(port)
            seat.close(port)
            with self.assertRaises(Drained):
                seat.recv(port)
            with self.assertRaises(Closed):
                seat.send(port, 1)

    def test_select_tells_its_case(self):
        with Hub(procs=1) as hub:
            seat = hub.seat(0)
            port = seat.make(1)
            self.assertIsNone(seat.select([Recv(port)], default=True))
            self.assertEqual(seat.select([Recv(port), Send(port, b'x')]), Fired(1))
            self.assertEqual(seat.select([Recv(0), Recv(port)]), Fired(1, b'x'))

    def test_faults_have_numbers(self):
        with Hub(procs=1, edition=1) as hub:
            seat = hub.seat(0)
            for number, call in ((1, lambda: hub.seat(1).make(0)), (5, lambda: seat.recv(9)), (6, lambda: seat.make(1025)),
                                 (8, lambda: seat.close(0)), (13, lambda: seat.send(0, b'x')), (13, lambda: seat.cancel(0))):
                with self.assertRaises(Fault) as raised:
                    call()
                self.assertEqual(raised.exception.number, number)

    def test_numbers_are_not_cut(self):
        with Hub(procs=1) as hub:
            seat = hub.seat(0)
            for call in (lambda: hub.seat(256), lambda: seat.recv(65536), lambda: seat.send(0, -1), lambda: seat.send(0, 2 ** 64),
                         lambda: seat.send(0, bytes(33)), lambda: seat.make(2 ** 32), lambda: Hub(procs=257)):
                with self.assertRaises(ValueError):
                    call()

    def test_values_are_numbers_or_bytes(self):
        with Hub(procs=1) as hub:
            seat = hub.seat(0)
            port = seat.make(9)
            for value in ((300,), [1], 'a', None, 1.0, {1}, object()):
                with self.assertRaises(TypeError):
                    seat.send(port, value)
                with self.assertRaises(TypeError):
                    seat.select([Send(port, value)])
            for value in (-1, 2 ** 64, bytes(33), bytearray(33)):
                with self.assertRaises(ValueError):
                    seat.send(port, value)
            self.assertEqual(hub.look(port).sent, 0)
            sent = (0, 2 ** 64 - 1, True, bytearray(b'a\0b'), memoryview(b'abcdef')[::2], bytes(32))
            for value in sent:
                seat.send(port, value)
            got = [seat.recv(port) for _ in sent]
            self.assertEqual(got, [0, 2 ** 64 - 1, 1, b'a\0b', b'ace', bytes(32)])
            self.assertEqual([type(value) for value in got], [int, int, int, bytes, bytes, bytes])

    def test_many_values_go_by_one_call(self):
        sent = (0, 2 ** 64 - 1, True, bytearray(b'a\0b'), memoryview(b'abcdef')[::2], bytes(32), b'')
        with Hub(procs=1) as hub:
            seat = hub.seat(0)
            port = seat.make(9)
            seat.send_all(port, iter(sent))
            self.assertEqual(port.recv_up_to(3), [0, 2 ** 64 - 1, 1])
            port.send_all([7])
            got = seat.recv_up_to(port, 10 ** 30)
            self.assertEqual(got, [b'a\0b', b'ace', bytes(32), b'', 7])
            self.assertEqual([type(value) for value in got], [bytes, bytes, bytes, bytes, int])
            seat.send_all(port, [])
            self.assertEqual(hub.look(port), Counts(9, 8, 8, False))

    def test_many_values_are_the_steps_of_each(self):
        with Hub(procs=1) as hub, Hub(procs=1) as other:
            for seat, send_all, recv_up_to in (
                    (hub.seat(0), Seat.send_all, Seat.recv_up_to),
                    (other.seat(0), lambda *these: [Seat.send(*these[:2], value) for value in these[2]],
                     lambda seat, port, most: [seat.recv(port) for _ in range(most)])):
                port = seat.make(3)
                send_all(seat, port, [1, b'b'])
                self.assertEqual(recv_up_to(seat, port, 2), [1, b'b'])
            self.assertEqual(hub.journal(), other.journal())

    def test_a_refused_value_of_many_is_told_before_any_is_sent(self):
        with Hub(procs=1) as hub:
            port = hub.seat(0).make(9)
            for refused in ((300,), 'a', None, 1.0):
                self.assertRaises(TypeError, port.send_all, [1, refused])
            for refused in (-1, 2 ** 64, bytes(33), bytearray(33)):
                self.assertRaises(ValueError, port.send_all, [1, refused])
            for call in (lambda: port.recv_up_to(0), lambda: port.recv_up_to(-1), lambda: hub.seat(0).send_all(65536, []),
                         lambda: hub.seat(0).recv_up_to(-1, 1)):
                self.assertRaises(ValueError, call)
            self.assertRaises(TypeError, port.send_all, 5)
            self.assertFalse(port.seat.waits)
            self.assertEqual(hub.look(port).sent, 0)

    def test_an_exception_tells_how_many_of_many_were_sent(self):
        with Hub(procs=2, limit=10) as hub:
            seat, other = hub.seat(0), hub.seat(1)
            port = seat.make(2)
            for raised, number, sent in ((Fault, 5, 0), (Stalled, None, 2), (Closed, None, 0), (Fault, 10, 0)):
                if raised is Closed:
                    port.close()
                if raised is Stalled:
                    other.exit()
                with self.assertRaises(raised) as told:
                    while True:
                        seat.send_all(9 if number == 5 else port, [1, 2, 3])
                        self.assertEqual(number, 10)
                self.assertEqual(told.exception.sent, sent)
                if raised is Closed:
                    self.assertEqual(seat.recv_up_to(port, 9), [1, 2])
                    self.assertRaises(Drained, seat.recv_up_to, port, 9)
                    hub, port = Hub(procs=1, limit=3), None
                    seat = hub.seat(0)
                    port = seat.make(1000)
                    seat.send_all(port, [1, 2])

    def test_many_values_are_sent_until_the_journal_is_full(self):
        with Hub(procs=1, limit=4) as hub:
            port = hub.seat(0).make(9)
            with self.assertRaises(Fault) as told:
                port.send_all(range(9))
            self.assertEqual((told.exception.number, told.exception.sent, port.qsize()), (10, 3, 3))

    def test_many_values_wait_as_often_as_they_must(self):
        for cap in (0, 1, 5):
            with Hub(procs=2) as hub:
                port = hub.seat(0).make(cap)
                got = []

                def receive():
                    with hub.seat(1) as seat:
                        try:
                            while True:
                                got.append(seat.recv_up_to(port, 3))
                        except Drained:
                            pass
                thread = threading.Thread(target=receive, daemon=True)
                thread.start()
                port.send_all(range(200))
                port.close()
                hub.seat(0).exit()
                self.assertTrue(joined([thread]))
                self.assertEqual(sum(got, []), list(range(200)))
                self.assertLessEqual(max(map(len, got)), 3 if cap else 1)

    def test_many_values_end_in_the_middle(self):
        for raised, end in ((Closed, lambda hub: hub.seat(1).close(1)), (Cancelled, lambda hub: hub.seat(1).cancel(0)),
                            (Stalled, lambda hub: hub.seat(1).exit()), (HubEnded, lambda hub: hub.__exit__())):
            hub = Hub(procs=2)
            port = hub.seat(0).make(2)
            told = []

            def send():
                try:
                    port.send_all(range(9))
                except (chanhub.Ended, Fault) as error:
                    told.append(error)
            thread = threading.Thread(target=send, daemon=True)
            thread.start()
            until(lambda: b'\n0 send 1 2\n' in hub.journal())
            self.assertEqual(hub.seat(1).recv(port), 0)
            until(lambda: b'\n0 send 1 3\n' in hub.journal())
            end(hub)
            self.assertTrue(joined([thread]))
            self.assertEqual([(type(error), error.sent) for error in told], [(raised, 3)])
            self.assertFalse(port.seat.waits)

    def test_exceptions_say_what_happened(self):
        said = [str(ended(3)) for ended in (Closed, Drained, Stalled, Cancelled, HubEnded)]
        self.assertEqual(said, ['send on a closed port', 'receive from a port that is closed and empty',
                                'every process was waiting, so no call could ever end', 'another process cancelled the call',
                                'the hub has ended'])
        self.assertEqual(str(Fault(5)), 'fault 5: no such port')
        again = pickle.loads(pickle.dumps([Closed(3), Fault(5)]))
        self.assertEqual((again[0].index, again[1].number), (3, 5))

    def test_openings_are_refused(self):
        for procs, edition, limit in ((0, 1, 1), (65, 1, 1), (1, 4, 1), (1, 1, 0), (1, 1, 1_000_001)):
            with self.assertRaises(ValueError):
                Hub(procs, edition, limit)

    def test_openings_with_keep_are_refused(self):
        for arguments in (dict(keep=0), dict(keep=-1), dict(keep=900_001), dict(keep=2 ** 32 + 1), dict(procs=0, keep=1),
                          dict(procs=65, keep=1), dict(edition=4, keep=1), dict(limit=1, keep=1), dict(chapters=print),
                          dict(limit=1, chapters='name'), dict(keep=1, chapters='a\0b')):
            for chapters in ({}, dict(chapters=print)):
                with self.assertRaises(ValueError):
                    Hub(**{'procs': 1, **chapters, **arguments})
        for chapters in (5, [], object()):
            with self.assertRaises(TypeError):
                Hub(1, keep=1, chapters=chapters)
        for keep in (1, 900_000):
            self.assertEqual(Hub(64, keep=keep).journal(), b'chanhub journal 2\nprocs 64\n')

    def test_an_ended_hub_takes_no_call(self):
        with Hub(procs=1) as hub:
            seat = hub.seat(0)
        with self.assertRaises(ValueError):
            seat.make(0)

    def test_another_process_cancels(self):
        with Hub(procs=2) as hub:
            port = hub.seat(0).make(0)
            ended = []

            def wait():
                try:
                    hub.seat(1).recv(port)
                except Cancelled as cancelled:
                    ended.append(cancelled)
            thread = threading.Thread(target=wait)
            thread.start()
            while not ended:
                try:
                    hub.seat(0).cancel(1)
                    thread.join()
                except Fault as fault:
                    self.assertEqual(fault.number, 12)
                    time.sleep(0.001)
            self.assertEqual(len(ended), 1)

    def raises_fault(self, number, call, *arguments):
        with self.assertRaises(Fault) as raised:
            call(*arguments)
        self.assertEqual(raised.exception.number, number)

    def test_a_process_that_has_exited_is_started_again(self):
        with Hub(procs=2, edition=3) as hub:
            boss, old = hub.seat(0), hub.seat(1)
            port = boss.make(2)
            for other in (1, 0, 2):
                self.raises_fault(chanhub.NOT_GONE, boss.start, other)
            with self.assertRaises(ValueError):
                boss.start(256)
            with old:
                old.send(port, 5)
            self.raises_fault(chanhub.GONE, old.send, port, 6)
            boss.start(1)
            old.send(port, 6)
            self.assertEqual([boss.recv(port), boss.recv(port)], [5, 6])
            with hub.seat(1) as new:
                self.assertIsNone(new.select([Recv(port)], default=True))
            with self.assertRaises(Stalled):
                boss.recv(port)
            self.assertEqual(hub.journal().decode().split('\n')[2:-1], [
                '0 make 2', '0 start 1', '0 start 0', '0 start 2', '1 send 1 5', '1 exit', '0 start 1', '1 send 1 6', '0 recv 1', '0 recv 1',
                '1 select 0 r1 default', '1 exit', '0 recv 1'])
        with Hub(procs=1) as hub:
            self.raises_fault(13, hub.seat(0).start, 0)
        self.assertEqual(str(Fault(chanhub.NOT_GONE)), 'fault 17: the process has not exited')

    def test_a_closed_port_is_opened_again(self):
        with Hub(procs=1, edition=3) as hub:
            seat = hub.seat(0)
            port = seat.make(1)
            self.raises_fault(chanhub.IN_USE, seat.reopen, port, 2)
            port.put(b'a')
            port.close()
            self.raises_fault(chanhub.IN_USE, seat.reopen, port, 2)
            self.assertEqual(list(port), [b'a'])
            for number, at, cap in ((6, port, 1025), (5, 2, 0), (8, 0, 0)):
                self.raises_fault(number, seat.reopen, at, cap)
            for at, cap in ((65536, 0), (port, 2 ** 32), (port, -1)):
                with self.assertRaises(ValueError):
                    seat.reopen(at, cap)
            self.assertIsNone(seat.reopen(port, 2))
            port.put(1)
            port.put(2)
            self.assertEqual(hub.look(port), Counts(2, 3, 1, False))
            self.assertEqual([port.get(), port.get()], [1, 2])
        with Hub(procs=1) as hub:
            self.raises_fault(13, hub.seat(0).reopen, hub.seat(0).make(0), 0)
        self.assertEqual(str(Fault(chanhub.IN_USE)), 'fault 16: the port is in use')

    def test_objects_of_a_process_that_is_started_again_have_further_numbers(self):
        with Hub(procs=2, edition=3, objects=True) as hub, hub.seat(0) as boss:
            port = boss.make(2)
            for thing in ('a', 'b'):
                with hub.seat(1) as seat:
                    seat.send(port, thing)
                boss.start(1)
            self.assertEqual([boss.recv(port), boss.recv(port)], ['a', 'b'])
            self.assertEqual([line for line in hub.journal().split(b'\n') if b'send' in line], [b'1 send 1 101', b'1 send 1 201'])

    def test_nobody_starts_the_clock(self):
        with Hub(procs=1, edition=3, timeouts=True) as hub:
            self.raises_fault(1, hub.seat(0).start, 1)
        with self.assertRaisesRegex(ValueError, 'timeouts need edition 2 or 3'):
            Hub(procs=1, edition=1, timeouts=True)

    def test_a_hub_ends_while_processes_are_started(self):
        for _ in range(50):
            with Hub(procs=3, edition=3, limit=1_000_000) as hub:
                port = hub.seat(0).make(0)

                def work(pid):
                    try:
                        while True:
                            with hub.seat(pid) as seat:
                                pass
                            hub.seat(0).start(pid)
                    except HubEnded:
                        pass

                def wait():
                    try:
                        hub.seat(2).recv(port)
                    except HubEnded:
                        pass
                threads = [threading.Thread(target=work, args=(1,)), threading.Thread(target=wait)]
                for thread in threads:
                    thread.start()
                time.sleep(0.001)
            self.assertTrue(joined(threads))

    def test_steps_that_are_left(self):
        with Hub(procs=1, limit=5) as hub, hub.seat(0) as seat:
            self.assertEqual(hub.steps_left(), 5)
            seat.make(0)
            self.assertEqual(hub.steps_left(), 4)
        self.assertEqual((Hub(1).steps_left(), Hub(1, keep=5).steps_left()), (1_000_000, None))

    def test_memory_goes_with_the_last_user(self):
        hub = Hub(procs=1)
        freed = hub._free
        seat = hub.seat(0)
        del hub
        gc.collect()
        self.assertTrue(freed.alive)
        self.assertEqual(seat.make(0), 1)
        del seat
        gc.collect()
        self.assertFalse(freed.alive)

    def test_objects_go_by_number(self):
        table = Table()
        with Hub(procs=1) as hub:
            seat = hub.seat(0)
            port = seat.make(2)
            things = [{'a': 1}, 'text']
            for thing in things:
                seat.send(port, table.put(seat, thing))
            self.assertEqual([table.take(seat.recv(port)) for _ in things], things)
            with self.assertRaises(KeyError):
                table.take(100)
            self.assertEqual([table.put(hub.seat(pid), 'more') for pid in (0, 5, 5)], [300, 105, 205])

    def test_exit_twice_is_nothing(self):
        with Hub(procs=2) as hub, hub.seat(0) as seat:
            seat.exit()
            self.assertEqual(chanhub.Hub(procs=2).journal(), b'chanhub journal 2\nprocs 2\n')


def stage(seat, source, sink):
    with seat:
        for value in seat.drain(source):
            seat.send(sink, value)


def bare_stage(seat, source, sink):
    while True:
        seat.send(sink, seat.recv(source))


def until(is_so):
    """Returns once this is so; fails where that takes too long."""
    end = time.monotonic() + LONG
    while not is_so():
        if time.monotonic() > end:
            raise AssertionError('it takes too long')
        time.sleep(0.001)


class Loading(unittest.TestCase):
    def test_a_library_that_is_missing_is_an_import_error_that_says_what_to_do(self):
        status, said = ran("import os\nos.environ['CHANHUB_LIBRARY'] = '/no/libchanhub.so'\nimport chanhub\n")
        self.assertEqual(status, 1)
        self.assertIn('\nImportError: /no/libchanhub.so: ', said)
        self.assertIn('make -C capi', said)


class Chapters(unittest.TestCase):
    def setUp(self):
        folder = tempfile.TemporaryDirectory()
        self.addCleanup(folder.cleanup)
        self.folder = pathlib.Path(folder.name)
        self.reported = []
        self.addCleanup(setattr, sys, 'unraisablehook', sys.unraisablehook)
        sys.unraisablehook = lambda report: self.reported.append(report.exc_value)

    def test_they_begin_by_themselves_and_by_hand(self):
        chapters = []
        with Hub(procs=2, keep=3, chapters=chapters.append) as hub:
            seat = hub.seat(0)
            port = seat.make(2)
            self.assertIsNone(hub.before())
            seat.send(port, b'ab')
            seat.send(port, 5)
            self.assertEqual(hub.seat(1).recv(port), b'ab')
            first = b'chanhub journal 2\nprocs 2\n0 make 2\n0 send 1 #6162\n0 send 1 5\n'
            self.assertEqual(hub.before(), first)
            self.assertEqual(hub.journal(), first + b'1 recv 1\n')
            hub.cut()
            self.assertEqual(chapters, [first])
            self.assertEqual(hub.before(), first + b'1 recv 1\n')
            self.assertEqual(hub.journal(), b'chanhub journal 2\nprocs 2\n0 make 2\n0 send 1 5\n')
            self.assertEqual(seat.recv(port), 5)
            self.assertEqual(hub.look(port), Counts(2, 2, 2, False))
        self.assertEqual(chapters[1:], [first + b'1 recv 1\n', hub.journal()])
        self.assertEqual(hub.journal(), b'chanhub journal 2\nprocs 2\n0 make 2\n0 send 1 5\n0 recv 1\n0 exit\n1 exit\n')
        self.assertEqual(hub.before(), chapters[1])
        self.assertEqual(hub.look(port), Counts(2, 2, 2, False))
        with self.assertRaisesRegex(ValueError, 'the hub has ended'):
            hub.cut()
        self.assertEqual(len(chapters), 3)

    def test_only_a_hub_with_keep_is_cut(self):
        with Hub(procs=1) as hub:
            pass_numbers(hub, 1)
            with self.assertRaises(ValueError):
                hub.cut()
            self.assertIsNone(hub.before())
            self.assertEqual(hub.journal().decode().splitlines()[2:], lines_of(1))

    def test_without_a_function_they_go(self):
        with Hub(procs=1, keep=4) as hub:
            pass_numbers(hub, 20)
        self.assertEqual(history([hub.before(), hub.journal()])[1], ['0 make 2', *lines_of(20)[-6:], '0 exit'])

    def test_a_waiting_call_goes_on_waiting(self):
        chapters = []
        hub = Hub(procs=2, keep=1, chapters=chapters.append)
        got = []
        thread = threading.Thread(target=lambda: got.append(hub.seat(1).recv(1)))
        with hub:
            seat = hub.seat(0)
            seat.make(0)
            thread.start()
            while '1 recv 1' not in hub.journal().decode():
                time.sleep(0.001)
            for _ in range(5):
                hub.cut()
            seat.send(1, 7)
            thread.join(LONG)
        self.assertEqual(got, [7])
        self.assertEqual(history(chapters)[1], ['0 make 0', '1 recv 1', '0 send 1 7', '0 exit', '1 exit'])

    def test_many_values_make_several_chapters(self):
        chapters = []
        with Hub(procs=1, keep=5, chapters=chapters.append) as hub:
            seat = hub.seat(0)
            port = seat.make(50)
            seat.send_all(port, range(40))
            self.assertEqual(seat.recv_up_to(port, 50), list(range(40)))
        lines = ['0 make 50', *(f'0 send 1 {number}' for number in range(40)), *['0 recv 1'] * 40, '0 exit']
        self.assertEqual(history(chapters)[1], lines)
        self.assertEqual(len(chapters), 4)

    def test_more_steps_than_another_hub_makes(self):
        chapters = collections.Counter()
        with Hub(procs=1, keep=1000, chapters=lambda text: chapters.update([text])) as hub:
            seat = hub.seat(0)
            port = seat.make(1)
            send, recv = seat.send, seat.recv
            for _ in range(550_000):
                send(port, 7)
                recv(port)
            self.assertEqual(hub.look(port), Counts(1, 550_000, 550_000, False))
        steps = ['0 make 1', *['0 send 1 7', '0 recv 1'] * 1000]
        first, later, last = (history([text])[1] for text in chapters)
        self.assertEqual((first, later), (steps[:1000], steps[:2] + steps[2:1002]))
        self.assertEqual(last, [*steps[:3], '0 exit'])
        self.assertEqual(list(chapters.values()), [1, 1099, 1])

    def test_each_is_given_once_and_in_order_to_a_function_and_to_files(self):
        for keep in (1, 2, 7, 40, 41, 42, 1000):
            chapters = []
            with Hub(procs=1, keep=keep, chapters=chapters.append) as hub:
                pass_numbers(hub, 20)
            self.assertEqual(history(chapters)[1], [*lines_of(20), '0 exit'])
            with Hub(procs=1, keep=keep, chapters=self.folder / str(keep)) as hub:
                pass_numbers(hub, 20)
            self.assertEqual(written(self.folder / str(keep)), chapters)
            self.assertIsNone(hub.chapters_error)

    def test_the_names_of_files(self):
        folder = str(self.folder)
        (self.folder / 'there').mkdir()
        (self.folder / 'replaced.1').write_bytes(b'old')
        self.addCleanup(os.chdir, os.getcwd())
        os.chdir(folder)
        for chapters, name in ((folder + '/text', 'text'), (self.folder / 'path', 'path'), (os.fsencode(folder + '/bytes'), 'bytes'),
                               ('relative', 'relative'), (folder + '/there', 'there/journal'), ('replaced', 'replaced')):
            os.chdir(folder)
            with Hub(procs=1, keep=3, chapters=chapters) as hub:
                os.chdir('/')
                pass_numbers(hub, 5)
            self.assertEqual(history(written(self.folder / name))[1], [*lines_of(5), '0 exit'])
        del hub
        gc.collect()
        self.assertEqual([path for path in self.folder.rglob('*') if path.suffix == '.tmp'], [])
        self.assertEqual(len(list(self.folder.rglob('*.*'))), 6 * 4)

    def test_a_file_that_cannot_be_written_is_told_once(self):
        name = self.folder / 'later' / 'log'
        self.assertEqual(ran(UNWRITTEN, str(name)), (0, f'chanhub: {name}.0: No such file or directory\n' + UNWRITTEN_PRINTS.format(name)))
        self.assertEqual([number for number in range(9) if name.with_name(f'log.{number}').exists()], [3, 4, 5])

    def test_an_exception_of_the_function_is_reported_once(self):
        chapters = []

        def fail(text):
            chapters.append(text)
            raise OSError(len(chapters))
        with Hub(procs=1, keep=2, chapters=fail) as hub:
            port = pass_numbers(hub, 20)
            self.assertEqual(hub.look(port).received, 20)
        self.assertEqual(history(chapters)[1], [*lines_of(20), '0 exit'])
        self.assertEqual([error.args for error in self.reported], [(1,)])

    def test_the_function_looks_at_the_hub(self):
        looks = []

        def look(text):
            looks.append((hub.look(1), hub.before(), text, hub.journal()))
        with Hub(procs=1, keep=2, chapters=look) as hub:
            pass_numbers(hub, 5)
            hub.cut()
            self.assertEqual([counts.sent for counts, *_ in looks], [3, 5, 5])
            for _, *texts in looks:
                before, text, journal = texts
                history([text, before, journal])
        self.assertEqual(len(looks), 5)
        self.assertEqual(self.reported, [])

    def test_the_function_must_not_cut_the_hub(self):
        refused = []

        def cut(text):
            with self.assertRaisesRegex(ValueError, 'the function for chapters must not cut the hub'):
                hub.cut()
            refused.append(text)
        with Hub(procs=1, keep=2, chapters=cut) as hub:
            pass_numbers(hub, 3)
            hub.cut()
        self.assertEqual((history(refused)[1], self.reported), ([*lines_of(3), '0 exit'], []))

    def test_an_ended_hub_that_its_function_refers_to_is_freed(self):
        def opened():
            hub = Hub(procs=1, keep=2, chapters=lambda text: hub.look(1))
            return hub
        hub = opened()
        with hub:
            pass_numbers(hub, 3)
        freed = hub._free
        del hub
        gc.collect()
        self.assertFalse(freed.alive)
        self.assertEqual(self.reported, [])

    def test_a_call_that_waits_gives_a_chapter_first(self):
        for main_waits in (False, True):
            chapters = []
            with Hub(procs=2, keep=1, chapters=chapters.append) as hub:
                seat = hub.seat(0)
                seat.make(0), seat.make(0), seat.make(0)

                def other():
                    end = time.monotonic() + LONG
                    while not chapters and time.monotonic() < end:
                        time.sleep(0.001)
                    given.extend(chapters)
                    hub.seat(1).send(1, 7)
                given = []
                calls = [lambda: seat.recv(1), other]
                thread = threading.Thread(target=calls[main_waits])
                thread.start()
                calls[not main_waits]()
                self.assertTrue(joined([thread]))
            self.assertEqual(given, chapters[:1])
            history(chapters)

    def test_a_hub_whose_end_is_interrupted_gives_the_rest_when_it_is_freed(self):
        chapters, interrupts = [], []

        def interrupted(text):
            if b'exit' in text and not interrupts:
                interrupts.append(text)
                raise KeyboardInterrupt
            chapters.append(text)
        with self.assertRaises(KeyboardInterrupt):
            with Hub(procs=3, keep=1, chapters=interrupted) as hub:
                pass_numbers(hub, 3)
        self.assertNotIn(b'exit', chapters[-1])
        del hub
        gc.collect()
        self.assertEqual(history(chapters)[1], [*lines_of(3), '0 exit', '1 exit', '2 exit'])

    def test_the_function_can_be_interrupted(self):
        """The call has its result nevertheless, and the function gets the chapter again. Each call begins a chapter: the one before it is
        filled by selects."""
        chapters, interrupts = [], []

        def interrupted(text):
            if len(interrupts) < 7 and text not in interrupts:
                interrupts.append(text)
                raise KeyboardInterrupt
            chapters.append(text)

        def select(count):
            for _ in range(count):
                seat.select([], default=True)
        with Hub(procs=2, keep=8, chapters=interrupted) as hub:
            seat, results = hub.seat(0), []
            seat.make(0), seat.make(3), select(7)
            for call in (lambda: seat.send(2, 7), lambda: seat.select([Recv(1), Recv(2)]), lambda: seat.close(2), lambda: seat.recv(2),
                         lambda: seat.cancel(1), lambda: seat.make(9), lambda: seat.recv(9)):
                select(7)
                with self.assertRaises(KeyboardInterrupt):
                    call()
                self.assertTrue(seat.waits)
                try:
                    results.append(seat.resume())
                except (Drained, Fault) as error:
                    results.append(str(error))
                self.assertFalse(seat.waits)
            self.assertEqual(chapters, interrupts[:-1])
        self.assertEqual(results, [None, Fired(1, 7), None, str(Drained()), str(Fault(12)), 3, str(Fault(5))])
        lines = [line for line in history(chapters)[1] if line != '0 select 0 default']
        self.assertEqual(lines, ['0 make 0', '0 make 3', '0 send 2 7', '0 select 0 r1 r2', '0 close 2', '0 recv 2', '0 cancel 1',
                                 '0 make 9', '0 recv 9', '0 exit', '1 exit'])

    def test_other_calls_go_on_while_the_function_runs(self):
        chapters, calls = [], []
        runs, may_return = threading.Event(), threading.Event()

        def wait(text):
            chapters.append(text)
            runs.set()
            self.assertTrue(may_return.wait(LONG))

        def call(seat, count):
            for _ in range(count):
                calls.append(seat.select([], default=True))
        with Hub(procs=2, keep=10, chapters=wait) as hub:
            first = threading.Thread(target=call, args=(hub.seat(0), 21))
            first.start()
            self.assertTrue(runs.wait(LONG))
            second = threading.Thread(target=call, args=(hub.seat(1), 100))
            second.start()
            while len(calls) < 20 + 9:
                time.sleep(0.001)
            time.sleep(0.05)
            self.assertEqual((len(calls), len(chapters)), (20 + 9, 1))
            may_return.set()
            self.assertTrue(joined([first, second]))
        self.assertEqual(len(history(chapters)[1]), 121 + 2)

    def test_threads_are_told_what_their_history_tells(self):
        for seed in range(12):
            edition, chapters = 1 + seed % 2, []
            to = chapters.append if seed % 3 else self.folder / str(seed)
            with Hub(6, edition, keep=1 + seed * 5, chapters=to) as hub:
                workers = [Worker(hub, edition, pid, seed * 100 + pid) for pid in range(6)]
                workers[0].told += [f'made {workers[0].seat.make(cap)}' for cap in (0, 1, 5)]
                threads = [threading.Thread(target=worker.run) for worker in workers]
                for thread in threads:
                    thread.start()
                self.assertTrue(joined(threads))
            told = by_process(events(*history(chapters or written(to))))
            for pid, worker in enumerate(workers):
                self.assertEqual(told[str(pid)], [what for what in worker.told if what is not None], f'seed {seed}, process {pid}')

    def test_a_hub_that_is_freed_gives_what_is_left(self):
        for count in (0, 1, 20):
            chapters = []
            hub = Hub(procs=1, keep=2, chapters=chapters.append)
            pass_numbers(hub, count)
            del hub
            gc.collect()
            self.assertEqual(history(chapters)[1], lines_of(count))
            hub = Hub(procs=1, keep=2, chapters=self.folder / str(count))
            pass_numbers(hub, count)
            del hub
            gc.collect()
            self.assertEqual(written(self.folder / str(count)), chapters)

    def test_a_call_that_writes_a_chapter_while_the_hub_ends(self):
        """The file is a pipe, so that it takes as long as nobody reads it."""
        name = self.folder / 'slow'
        pipe = self.folder / 'slow.0.tmp'
        os.mkfifo(pipe)
        first = []

        def read():
            time.sleep(0.1)
            first.append(pipe.read_bytes())
        with Hub(procs=2, keep=2, chapters=name) as hub:
            for _ in range(6):
                hub.seat(0).make(0)
            threads = [threading.Thread(target=hub.seat(1).make, args=(1,)), threading.Thread(target=read)]
            threads[0].start()
            while b'1 make 1' not in hub.journal():
                time.sleep(0.001)
            threads[1].start()
        self.assertTrue(joined(threads))
        os.remove(self.folder / 'slow.0')
        (self.folder / 'slow.0').write_bytes(first[0])
        self.assertEqual(history(written(name))[1], ['0 make 0'] * 6 + ['1 make 1', '0 exit', '1 exit'])

    def test_a_pool_that_never_ends(self):
        last, name = self.folder / 'last', self.folder / 'chapters' / 'chapter'
        name.parent.mkdir()
        # A shell has what it starts in the background ignore Ctrl-C, and that would be passed on.
        pool = subprocess.Popen([sys.executable, HERE.parent / 'python' / 'forever.py', last, name], stdout=subprocess.PIPE,
                                preexec_fn=lambda: signal.signal(signal.SIGINT, signal.SIG_DFL))
        self.addCleanup(pool.kill)
        # By then its main thread has started all others, and waits.
        while not name.with_name('chapter.5').exists():
            time.sleep(0.01)
            self.assertIsNone(pool.poll())
        pool.send_signal(signal.SIGINT)
        prints = pool.communicate(timeout=LONG)[0].decode()
        chapters = written(name)
        done = sum(line.split()[1:3] == ['send', '2'] for line in history(chapters)[1])
        self.assertEqual((pool.returncode, prints), (0, f'{done} jobs\n'))
        self.assertEqual(last.read_bytes(), chapters[-1])


UNWRITTEN = """
import gc, os, sys
from chanhub import Hub
name = sys.argv[1]
hub = Hub(procs=1, keep=1, chapters=name)
with hub:
    seat = hub.seat(0)
    for _ in range(5):
        seat.select([], default=True)
    print(repr(hub.chapters_error), hub.chapters_error.filename, flush=True)
    os.mkdir(os.path.dirname(name))
    seat.select([], default=True)
print(repr(hub.chapters_error), flush=True)
os.rename(os.path.dirname(name), os.path.dirname(name) + '-')
del hub, seat
gc.collect()
os.rename(os.path.dirname(name) + '-', os.path.dirname(name))
"""

UNWRITTEN_PRINTS = """FileNotFoundError(2, 'No such file or directory') {}
FileNotFoundError(2, 'No such file or directory')
"""


class Leaving(unittest.TestCase):
    def setUp(self):
        """What a thread does not catch is kept here, and not printed."""
        self.raised = []
        self.has_left = threading.Event()
        before = threading.excepthook
        threading.excepthook = lambda args: self.raised.append(args.exc_value)
        self.addCleanup(setattr, threading, 'excepthook', before)

    def left_by_an_exception(self, hub, *works, step=None):
        """Starts these, in the names of processes 1 and on, and leaves the hub by an exception of the main thread, once the chapters that
        it keeps have steps of so many of them."""
        threads = [threading.Thread(target=work[0], args=(hub.seat(pid), *work[1:]), daemon=True) for pid, work in enumerate(works, 1)]
        step = len(works) if step is None else step

        def have_stepped():
            lines = ((hub.before() or b'') + hub.journal()).decode().splitlines()
            return len({line.split()[0] for line in lines} & set(map(str, range(1, 1 + len(works))))) >= step
        with self.assertRaises(ZeroDivisionError), hub:
            for thread in threads:
                thread.start()
            until(have_stepped)
            time.sleep(0.1)
            raise ZeroDivisionError
        self.has_left.set()
        if self.chapters is not None:
            self.has_exits(history(self.chapters)[1], len(works) + 1)
        self.assertTrue(joined(threads))
        self.has_exits(hub.journal().decode().splitlines(), len(works) + 1)

    def has_exits(self, lines, procs):
        self.assertEqual(sorted(line for line in lines if line.endswith(' exit')), sorted(f'{pid} exit' for pid in range(procs)))

    def hubs(self, procs, editions=(2,), keeps=(1, 1000)):
        """Hubs without chapters, and hubs whose chapters are put into a list."""
        for edition in editions:
            self.chapters = None
            yield Hub(procs, edition)
            for keep in keeps:
                self.chapters = []
                yield Hub(procs, edition, keep=keep, chapters=self.append)

    def append(self, text):
        """Takes its time."""
        time.sleep(0.001)
        self.chapters.append(text)

    def test_workers_that_wait_for_each_other_end(self):
        for work in (stage, bare_stage):
            for hub in self.hubs(4, editions=(1, 2)):
                a, b, c = (hub.seat(0).make(cap) for cap in (0, 2, 0))
                self.left_by_an_exception(hub, (work, a, b), (work, b, c), (work, c, a))
                self.assertEqual({type(error) for error in self.raised}, {HubEnded})

    def test_workers_that_are_busy_end(self):
        for work in (stage, bare_stage):
            for cap in (0, 1, 100):
                for hub in self.hubs(5, keeps=(3,)):
                    a, b = hub.seat(0).make(cap), hub.seat(0).make(cap)
                    self.left_by_an_exception(hub, (work, a, b), (work, b, a), (lambda seat: seat.send(a, 1),),
                                              (lambda seat: seat.send(b, 2),), step=1)
                    self.assertEqual({type(error) for error in self.raised} - {HubEnded}, set())

    def test_workers_that_compute_end(self):
        """One of them makes its next call after the hub was left."""
        def compute(seat, port):
            seat.select([], default=True)
            self.has_left.wait(LONG)
            seat.send(port, 1)
        for hub in self.hubs(3, keeps=(2,)):
            self.raised.clear()
            self.has_left.clear()
            port = hub.seat(0).make(0)
            self.left_by_an_exception(hub, (compute, port), (bare_stage, port, port))
            self.assertEqual([type(error) for error in self.raised], [HubEnded, HubEnded])

    def test_a_deadlock_that_was_told_before_the_end_is_one(self):
        """The second thread picks up its answer when the hub has ended; the third began to wait later."""
        with Hub(procs=3) as hub:
            seats = [hub.seat(pid) for pid in range(3)]
            port = seats[0].make(0)
            for seat in seats[1:]:
                hub._calls.ask(seat.pid, (Recv(port),), False, False, 0)
            with self.assertRaises(Stalled):
                seats[0].recv(port)
            with self.assertRaises(Stalled):
                seats[2].resume()
            hub._calls.ask(2, (Recv(port),), False, False, 0)
        for seat, ended in zip(seats[1:], (Stalled, HubEnded)):
            with self.assertRaises(ended):
                seat.resume()

    def test_a_hub_that_is_left_is_joined(self):
        with self.assertRaises(ZeroDivisionError):
            with Hub(procs=3) as hub:
                a, b = hub.seat(0).make(0), hub.seat(0).make(0)
                workers = [threading.Thread(target=stage, args=(hub.seat(1), a, b)), threading.Thread(target=stage, args=(hub.seat(2), b, a))]
                try:
                    for worker in workers:
                        worker.start()
                    raise ZeroDivisionError
                finally:
                    hub.__exit__()
                    self.assertTrue(joined(workers))

    def test_what_a_hub_that_is_left_still_does(self):
        with Hub(procs=2) as hub:
            seat, other = hub.seat(0), hub.seat(1)
            port = seat.make(3)
            seat.send(port, 7)
        for call in (lambda: seat.make(0), lambda: seat.send(port, 1), lambda: seat.recv(port), lambda: seat.select([], default=True),
                     lambda: seat.close(port), lambda: seat.cancel(1)):
            with self.assertRaisesRegex(ValueError, 'the hub has ended'):
                call()
        with other:
            seat.exit()
        other.exit()
        self.assertEqual(hub.look(port), Counts(3, 1, 0, False))
        self.assertEqual(hub.journal(), b'chanhub journal 2\nprocs 2\n0 make 3\n0 send 1 7\n0 exit\n1 exit\n')


AT_EXIT = """
import sys, threading, time
from chanhub import Fault, Hub
kept = []
options = dict(keep=int(sys.argv[3]), chapters={'function': lambda text: None}.get(sys.argv[4], sys.argv[4])) if sys.argv[3:] else {}
def waits(seat):
    seat.recv(1)
def busy(seat):
    try:
        while True:
            seat.send(2, 5), seat.recv(2)
    except Fault:
        time.sleep(100)  # main is slow, and the journal is full
def opened():
    hub = Hub(procs=4, **options)
    hub.seat(0).make(0), hub.seat(0).make(10)
    for pid in range(1, 4):
        threading.Thread(target=globals()[sys.argv[1]], args=(hub.seat(pid),), daemon=True).start()
    return hub
hub = opened()
if sys.argv[2] == 'kept':
    kept.append(opened())
time.sleep(0.05)
print('ends')
"""

FORKS = """
import gc, os, sys, threading, time, warnings
warnings.simplefilter('ignore', DeprecationWarning)  # of a fork beside threads, from Python 3.12 on
from chanhub import Hub
hub = Hub(procs=3, keep=100_000)
seat = hub.seat(0)
seat.make(0), seat.make(1)
def busy():
    other = hub.seat(1)
    while True:
        other.send(2, 5), other.recv(2)
threading.Thread(target=busy, daemon=True).start()
threading.Thread(target=lambda: hub.seat(2).recv(1), daemon=True).start()
time.sleep(0.05)
for _ in range(20):
    child = os.fork()
    if child == 0:
        calls = [lambda: seat.recv(1), lambda: seat.send(1, 1), lambda: seat.make(0), seat.exit, lambda: hub.look(1), hub.journal]
        for call in calls:
            try:
                call()
                print('no exception')
            except RuntimeError as error:
                if str(error) != 'the hub belongs to the process that opened it, not to a forked child':
                    print(error)
        with Hub(procs=1) as own:
            if own.seat(0).make(0) != 1:
                print('no hub of its own')
        with hub, seat:
            del hub, seat, busy
            gc.collect()
        if sys.argv[1] == 'exits':
            sys.exit(7)
        break
    status = os.waitpid(child, 0)[1]
    if status != (7 << 8 if sys.argv[1] == 'exits' else 0):  # the exit status 7
        print('child', status)
if child:
    hub.look(1), hub.journal()
    print('parent ends')
"""


FORKS_WITH_CHAPTERS = """
import gc, os, sys, threading, time, warnings
warnings.simplefilter('ignore', DeprecationWarning)  # of a fork beside threads, from Python 3.12 on
from chanhub import Hub
given = []
to = given.append if sys.argv[1] == 'function' else sys.argv[1]
hub = Hub(procs=2, keep=3, chapters=to)
hub.seat(0).make(1)
stopped = threading.Event()
def busy():
    with hub.seat(1) as other:
        while not stopped.is_set():
            other.send(1, 5), other.recv(1)
thread = threading.Thread(target=busy)
thread.start()
quiet = Hub(procs=1, keep=1, chapters=given.append)
quiet.seat(0).make(0)
for _ in range(10):
    time.sleep(0.01)
    child = os.fork()
    if child == 0:
        for call in (hub.cut, hub.before, lambda: hub.seat(0).make(0)):
            try:
                call()
                print('no exception')
            except RuntimeError:
                pass
        count = len(given)
        with hub:
            pass
        del hub, thread, busy, quiet
        gc.collect()
        if len(given) != count:
            print('given in the child')
        with Hub(procs=1, keep=1, chapters=given.append) as own:
            own.seat(0).make(0)
        if len(given) != count + 1:
            print('no chapters of its own')
        sys.stdout.flush()
        os._exit(0)
    status = os.waitpid(child, 0)[1]
    if status != 0:
        print('child', status)
while len(given if to == given.append else os.listdir(to)) <= 20:
    time.sleep(0.001)
stopped.set()
thread.join()
with hub:
    pass
if to != given.append:
    given = [open(os.path.join(to, 'journal.%d' % number), 'rb').read() for number in range(len(os.listdir(to)))]
sys.stdout.flush()
sys.stdout.buffer.write(b'end\\n'.join(given))
"""


class Ends(unittest.TestCase):
    def test_the_interpreter_ends_while_threads_call(self):
        for does in ('waits', 'busy'):
            for where in ('one', 'kept'):
                for _ in range(6):
                    self.assertEqual(ran(AT_EXIT, does, where), (0, 'ends\n'))

    def test_the_interpreter_ends_while_threads_make_chapters(self):
        with tempfile.TemporaryDirectory() as folder:
            for keep in (1, 10, 900_000):
                for where, chapters in (('one', 'function'), ('kept', 'function'), ('one', folder)):
                    self.assertEqual(ran(AT_EXIT, 'busy', where, str(keep), chapters), (0, 'ends\n'))

    def test_a_forked_child_leaves_the_hub_alone(self):
        for how in ('ends', 'exits'):
            self.assertEqual(ran(FORKS, how), (0, 'parent ends\n'))

    def test_a_forked_child_gets_no_chapter(self):
        with tempfile.TemporaryDirectory() as folder:
            for to in ('function', folder):
                status, prints = ran(FORKS_WITH_CHAPTERS, to)
                chapters = prints.encode().split(b'end\n')
                self.assertEqual(status, 0, prints)
                self.assertGreater(len(chapters), 20)
                self.assertEqual(history(chapters)[1][0], '0 make 1')


NOWHERE = -1


class Signalled(Exception):
    """What a signal handler raises."""


def signalled(call, place):
    """Makes a call, and raises an exception at this place of the module, from 0, if it comes there: the beginning of a function, or
    behind a call of one in C. There the interpreter handles signals."""
    def profile(frame, event, _):
        nonlocal place
        if event in ('call', 'c_return') and frame.f_code.co_filename == chanhub.__file__ and frame.f_code is not chanhub._free.__code__:
            place -= 1
            if place == -1:
                raise Signalled
    sys.setprofile(profile)
    try:
        return call()
    finally:
        sys.setprofile(None)


class Interrupts(unittest.TestCase):
    def setUp(self):
        self.inside = False
        self.addCleanup(signal.signal, signal.SIGINT, signal.signal(signal.SIGINT, self.handle))

    def handle(self, *_):
        """As the default does, but only once for each call that is to be interrupted."""
        if self.inside:
            self.inside = False
            raise KeyboardInterrupt

    def each_call(self, objects, place):
        """Calls of each kind, each with a signal at this place, and another there while it is resumed. Returns how many came, what the calls
        came to, and the journal."""
        with Hub(2, objects=objects, timeouts=True) as hub:
            seat, signals, came = hub.seat(0), 0, []

            def own_things():
                return [number for number in hub._things or () if number % 100 == 0]

            def answer():
                with hub.seat(1) as other:
                    until(lambda: b'\n0 recv 2\n' in hub.journal())
                    other.send(2, 7)
                    for count in (1, 2):
                        until(lambda: hub.journal().count(b'\n0 send 2 ') == count)
                        other.recv(2)
            thread = threading.Thread(target=answer)
            thread.start()
            for call in (lambda: seat.make(1), lambda: seat.make(0), lambda: seat.send(1, 8), lambda: seat.select([Recv(0), Recv(1)]),
                         lambda: seat.select([Recv(1)], default=True), lambda: seat.send(1, b'9', timeout=LONG),
                         lambda: seat.send(1, 10, timeout=0), lambda: seat.recv(1, timeout=LONG), lambda: seat.recv(2),
                         lambda: seat.send_all(2, [15, 16]), thread.join, lambda: seat.send_all(1, [17, 18]),
                         lambda: seat.send_all(1, [19], timeout=0), lambda: seat.recv_up_to(1, 9),
                         lambda: seat.recv_up_to(1, 9, timeout=0), lambda: seat.send_all(1, []),
                         lambda: seat.recv(1), lambda: seat.select([Send(0, 11), Send(1, 12), Send(1, 13)]), lambda: seat.recv(1),
                         lambda: seat.cancel(1), lambda: seat.close(1), lambda: seat.recv(1), lambda: seat.send(1, 14)):
                before = own_things()
                for each in (place, place, NOWHERE):
                    try:
                        came.append(repr(signalled(seat.resume if seat.waits else call, each)))
                        break
                    except Signalled:
                        signals += 1
                        self.assertTrue(seat.waits or own_things() == before)
                    except (chanhub.Ended, Fault) as error:
                        came.append(repr(error))
                        break
            self.assertEqual(hub._things, {} if objects else None)
            return signals, came, hub.journal()

    def test_no_call_is_lost_wherever_a_signal_comes(self):
        for objects in (False, True):
            _, *without = self.each_call(objects, NOWHERE)
            self.assertEqual(without[0], ['1', '2', 'None', 'Fired(index=1, value=8)', 'None', 'None', 'TimedOut(0)', "b'9'", '7', 'None',
                                          'None', 'Stalled(0)', 'TimedOut(0)', '[17]', 'TimedOut(0)', 'None',
                                          'Stalled(0)', 'Fired(index=1, value=None)', '12', repr(Fault(12)), 'None', 'Drained(0)', 'Closed(0)'])
            place, signals = 0, 1
            while signals:
                signals, *same = self.each_call(objects, place)
                self.assertEqual(same, without, f'a signal at place {place}')
                place += 1
            self.assertGreater(place, 3)

    def interrupted(self, call, has_begun=lambda: True):
        """How long it took from Ctrl-C, which comes once the call has begun, to the exception."""
        sent = []

        def interrupt():
            until(has_begun)
            time.sleep(0.12)
            sent.append(time.monotonic())
            os.kill(os.getpid(), signal.SIGINT)
        thread = threading.Thread(target=interrupt)
        with self.assertRaises(KeyboardInterrupt):
            self.inside = True
            thread.start()
            call()
        raised = time.monotonic()
        thread.join()
        return raised - sent[0]

    def is_soon(self, seat):
        """Whether Ctrl-C is soon heard while the open call is resumed: at some time, since a slow machine takes its time."""
        return any(self.interrupted(seat.resume) < 0.2 for _ in range(50))

    def is_busy(self, seat):
        self.assertTrue(seat.waits)
        for call in (lambda: seat.make(0), lambda: seat.send(1, 1), lambda: seat.recv(1), lambda: seat.select([], default=True),
                     lambda: seat.close(1), lambda: seat.cancel(1), lambda: seat.send_all(1, [1]), lambda: seat.recv_up_to(1, 1), seat.exit):
            with self.assertRaises(Fault) as raised:
                call()
            self.assertEqual(raised.exception.number, 3)

    def test_each_call_that_waits_is_interrupted_and_resumed(self):
        self.each_call_that_waits(Hub(procs=2))

    def test_each_call_that_waits_is_interrupted_and_resumed_in_each_chapter(self):
        chapters = []
        with Hub(procs=2, keep=1, chapters=chapters.append) as hub:
            self.each_call_that_waits(hub)
        history(chapters)

    def each_call_that_waits(self, hub):
        seat, other = hub.seat(0), hub.seat(1)

        def stands(line):
            return lambda: hub.journal().endswith(b'\n' + line.encode() + b'\n')
        for cap in (0, 1):
            port = seat.make(cap)
            self.interrupted(lambda: seat.recv(port), stands(f'0 recv {port}'))
            self.is_busy(seat)
            self.is_busy(hub.seat(0))
            for _ in range(3):
                self.interrupted(seat.resume)
            self.assertTrue(self.is_soon(seat))
            other.send(port, 7)
            self.is_busy(seat)
            self.assertEqual(seat.resume(), 7)
            self.assertFalse(seat.waits)
            for _ in range(cap):
                seat.send(port, 5)
            self.interrupted(lambda: seat.send(port, b'x'), stands(f'0 send {port} #78'))
            self.assertTrue(self.is_soon(seat))
            self.is_busy(seat)
            self.assertEqual([other.recv(port) for _ in range(cap + 1)], [5] * cap + [b'x'])
            self.assertIsNone(seat.resume())
            cases = [Recv(0), Recv(port)]
            self.interrupted(lambda: seat.select(cases), stands(f'0 select 0 r0 r{port}'))
            self.assertTrue(self.is_soon(seat))
            other.send(port, 8)
            self.assertEqual(seat.resume(), Fired(1, 8))
            self.interrupted(lambda: seat.send_all(port, range(1, cap + 3)), stands(f'0 send {port} {cap + 1}'))
            self.is_busy(seat)
            self.assertEqual(other.recv(port), 1)
            self.interrupted(seat.resume, stands(f'0 send {port} {cap + 2}'))
            self.assertTrue(self.is_soon(seat))
            self.assertEqual(other.recv_up_to(port, 9), list(range(2, cap + 3)))
            self.assertIsNone(seat.resume())
            self.interrupted(lambda: seat.recv_up_to(port, 9), stands(f'0 recv {port}'))
            other.send(port, b'y')
            self.assertEqual(seat.resume(), [b'y'])
        self.interrupted(lambda: seat.recv(port), stands(f'0 recv {port}'))
        other.close(port)
        with self.assertRaises(Drained):
            seat.resume()
        self.assertFalse(seat.waits)
        with self.assertRaises(Fault) as raised:
            seat.resume()
        self.assertEqual(raised.exception.number, 12)
        seat.exit()

    def test_a_seat_that_is_left_raises_no_other_exception(self):
        hub = Hub(procs=2)

        def waits():
            with hub.seat(0) as seat:
                seat.recv(seat.make(0))
        self.interrupted(waits, lambda: hub.journal().endswith(b'\n0 recv 1\n'))
        self.assertTrue(hub.seat(0).waits)

    def test_a_hub_that_is_left_by_an_interrupt_ends_its_threads(self):
        ended = []

        def wait(seat):
            try:
                with seat:
                    seat.recv(1)
            except HubEnded:
                ended.append(seat.pid)
        hub = Hub(procs=5)
        seat = hub.seat(0)
        seat.make(0)
        workers = [threading.Thread(target=wait, args=(hub.seat(pid),), daemon=True) for pid in range(1, 5)]
        for worker in workers[:3]:
            worker.start()

        def waits():
            with hub, seat:
                seat.recv(1)
        self.interrupted(waits, lambda: hub.journal().count(b' recv 1\n') == 4)
        self.assertTrue(joined(workers[:3]))
        self.assertEqual(sorted(ended), [1, 2, 3])
        with self.assertRaises(HubEnded):
            seat.resume()
        seat.exit()

    def test_an_answer_that_comes_with_an_interrupt_is_not_lost(self):
        self.numbers_come_with_interrupts(Hub(procs=2))

    def test_a_chapter_that_comes_with_an_interrupt_is_not_lost(self):
        """One that the function has when it is interrupted comes again."""
        for keep in (1, 50):
            chapters = []
            with Hub(procs=2, keep=keep, chapters=chapters.append) as hub:
                count = self.numbers_come_with_interrupts(hub)
            lines = history(list(dict.fromkeys(chapters)))[1]
            self.assertEqual([line for line in lines if 'send' in line], [f'1 send 1 {number}' for number in range(count)])
            self.assertEqual(len([line for line in lines if 'recv' in line]), count + 1)

    def test_a_wait_for_another_thread_that_gives_a_chapter_is_interrupted(self):
        runs, may_return = threading.Event(), threading.Event()

        def wait(text):
            chapters.append(text)
            runs.set()
            may_return.wait(LONG)
        chapters = []
        with Hub(procs=2, keep=2, chapters=wait) as hub:
            other = threading.Thread(target=pass_numbers, args=(hub, 3))
            other.start()
            self.assertTrue(runs.wait(LONG))
            seat = hub.seat(1)

            def call():
                while True:
                    ports.append(seat.make(0))
            ports = []
            # Its fourth port begins a chapter more.
            self.interrupted(call, lambda: hub.look(5))
            self.assertTrue(self.is_soon(seat))
            may_return.set()
            ports.append(seat.resume())
            self.assertTrue(joined([other]))
        self.assertEqual(ports, [2, 3, 4, 5, 6][:len(ports)])
        history(chapters)

    def test_a_signal_handler_cuts_the_hub(self):
        """Except while the function runs."""
        chapters, cuts = [], []

        def append(text):
            time.sleep(0.001)
            chapters.append(text)
        with Hub(procs=1, keep=20, chapters=append) as hub:

            def cut(*_):
                try:
                    cuts.append(hub.cut())
                except ValueError as error:
                    self.assertEqual(str(error), 'the function for chapters must not cut the hub')
            signal.signal(signal.SIGINT, cut)

            def interrupt():
                """Signals that come while a handler is still to run are one."""
                end, sent = time.monotonic() + LONG, 0
                while sent < 100 or len(cuts) <= 10 and time.monotonic() < end:
                    time.sleep(0.001)
                    os.kill(os.getpid(), signal.SIGINT)
                    sent += 1
            thread = threading.Thread(target=interrupt)
            thread.start()
            pass_numbers(hub, 2000)
            thread.join()
        self.assertEqual(history(chapters)[1], [*lines_of(2000), '0 exit'])
        self.assertGreater(len(cuts), 10)
        self.assertGreater(len(chapters), 4001 // 20)

    def numbers_come_with_interrupts(self, hub):
        """A thread sends numbers while signals come all the time; a handler raises only within a call of the seat. Returns how many
        numbers came."""
        sent, interrupts = [], []
        seat = hub.seat(0)
        port = seat.make(0)

        def send():
            end = time.monotonic() + LONG
            with hub.seat(1) as sender:
                while len(sent) < 4000 or len(interrupts) <= 10 and time.monotonic() < end:
                    sender.send(port, len(sent))
                    sent.append(len(sent))
                sender.close(port)
        done = threading.Event()

        def interrupt():
            while not done.wait(0.0005):
                os.kill(os.getpid(), signal.SIGINT)
        threads = [threading.Thread(target=send, daemon=True), threading.Thread(target=interrupt, daemon=True)]
        for thread in threads:
            thread.start()
        got = []
        while True:
            try:
                self.inside = True
                value = seat.resume() if seat.waits else seat.recv(port)
                self.inside = False
                got.append(value)
            except KeyboardInterrupt:
                interrupts.append(len(got))
            except Drained:
                self.inside = False
                break
        done.set()
        self.assertTrue(joined(threads))
        self.assertEqual(got, sent)
        self.assertGreater(len(interrupts), 10)
        return len(got)


if __name__ == '__main__':
    unittest.main()
