"""Any object as a value, ports that are used like a queue.Queue, and ports that are awaited. python3 -m unittest test_objects"""
import asyncio
import collections
import copy
import gc
import os
import pickle
import queue
import signal
import subprocess
import sys
import threading
import time
import unittest
import weakref

from chanhub import Cancelled, Closed, Drained, Fault, Fired, Hub, HubEnded, Port, Recv, Send, Stalled, Table

LONG = 120  # seconds after which what should end at once, on a slow machine too, is taken to hang


class Thing:
    """An object that can be referred to weakly."""


def until(is_so):
    """Returns once this is so; fails where that takes too long."""
    end = time.monotonic() + LONG
    while not is_so():
        if time.monotonic() > end:
            raise AssertionError('it takes too long')
        time.sleep(0.001)


def until_it_stands(hub, line):
    until(lambda: line in hub.journal().decode().splitlines())


def in_thread(call, *arguments):
    """Calls in a thread. Returns a function that joins it, and returns what the call did or the exception that it raised."""
    results = []

    def run():
        try:
            results.append(call(*arguments))
        except Exception as error:
            results.append(error)
    thread = threading.Thread(target=run, daemon=True)
    thread.start()

    def joined():
        thread.join(LONG)
        return results[0]
    return joined


class Objects(unittest.TestCase):
    def setUp(self):
        self.hub = Hub(procs=2, objects=True)
        self.seat, self.other = self.hub.seat(0), self.hub.seat(1)

    def test_a_receive_gets_the_object_itself(self):
        things = [Thing(), None, [1], {'a': b'b'}, 'text', 5, -1, 2 ** 70, bytes(100), 1.5, lambda: 0]
        port = self.seat.make(len(things))
        for thing in things:
            self.seat.send(port, thing)
        for thing in things:
            self.assertIs(self.seat.recv(port), thing)
        lines = [f'0 make {len(things)}', *(f'0 send 1 {100 * k}' for k in range(1, len(things) + 1)), *['0 recv 1'] * len(things)]
        self.assertEqual(self.hub.journal().decode().splitlines()[2:], lines)

    def test_a_port_may_be_a_number_of_another_type(self):
        class Index:
            def __init__(self, number):
                self.number = number

            def __index__(self):
                return self.number

            def __le__(self, other):
                return self.number <= other

            def __ge__(self, other):
                return self.number >= other
        port = self.seat.make(2)
        self.seat.send(port, 'one')
        self.seat.send(Index(int(port)), 'two')
        self.assertEqual([self.seat.recv(port), self.seat.recv(Index(int(port)))], ['one', 'two'])

    def test_a_process_that_no_hub_has_puts_nothing(self):
        port, table = self.seat.make(2), Table()
        self.seat.send(port, 'one')
        self.seat.send(port, 'two')
        for call in (lambda seat: seat.send(port, 'three'), lambda seat: table.put(seat, 'three')):
            with self.assertRaises(Fault) as raised:
                call(self.hub.seat(100))
            self.assertEqual(raised.exception.number, 1)
        self.assertEqual([self.seat.recv(port), self.seat.recv(port)], ['one', 'two'])

    def test_other_hubs_take_numbers_and_bytes_only(self):
        with Hub(procs=1) as hub:
            port = hub.seat(0).make(1)
            with self.assertRaises(TypeError):
                port.put('text')
            port.put(b'bytes')
            self.assertEqual(port.get(), b'bytes')

    def test_edition_1_has_objects(self):
        with Hub(procs=1, edition=1, objects=True) as hub:
            port = hub.seat(0).make(1)
            port.put('text')
            self.assertEqual(port.get(), 'text')

    def is_gone(self, alive):
        gc.collect()
        return alive() is None

    def test_a_value_that_is_not_sent_is_not_kept(self):
        port, closed = self.seat.make(1), self.seat.make(1)
        self.seat.close(closed)
        self.other.exit()
        port.put('full')
        for raised, call in ((Closed, lambda thing: closed.put(thing)),
                             (Closed, lambda thing: self.seat.select([Recv(0), Send(closed, thing)])),
                             (Stalled, lambda thing: port.put(thing)),
                             (Stalled, lambda thing: self.seat.select([Send(port, thing), Send(0, thing)])),
                             (queue.Full, lambda thing: port.put_nowait(thing)),
                             (Fault, lambda thing: self.seat.send(9, thing)),
                             (Fault, lambda thing: self.other.send(port, thing)),
                             (ValueError, lambda thing: self.seat.send(65536, thing)),
                             (Fault, lambda thing: self.seat.select([Send(port, thing)] * 17))):
            thing = Thing()
            alive = weakref.ref(thing)
            with self.assertRaises(raised):
                call(thing)
            del thing
            self.assertTrue(self.is_gone(alive), raised)
        self.assertEqual(port.get(), 'full')

    def test_a_value_of_a_full_journal_or_an_ended_hub_is_not_kept(self):
        full, ended = Hub(procs=1, limit=1, objects=True), Hub(procs=1, objects=True)
        ports = [full.seat(0).make(1), ended.seat(0).make(1)]
        with ended:
            pass
        for raised, port in zip((Fault, ValueError), ports):
            thing = Thing()
            alive = weakref.ref(thing)
            with self.assertRaises(raised):
                port.put(thing)
            del thing
            self.assertTrue(self.is_gone(alive))

    def test_a_value_is_kept_until_it_is_received_or_the_hub_goes(self):
        port = self.seat.make(3)
        things = [Thing() for _ in range(3)]
        alive = [weakref.ref(thing) for thing in things]
        while things:
            port.put(things.pop(0))
        self.assertFalse(any(map(self.is_gone, alive)))
        thing = port.get()
        self.assertIs(thing, alive[0]())
        del thing
        self.assertEqual(list(map(self.is_gone, alive)), [True, False, False])
        del port
        self.hub = self.seat = self.other = None
        self.assertEqual(list(map(self.is_gone, alive)), [True] * 3)

    def test_a_hub_that_its_own_value_refers_to_goes(self):
        self.seat.make(1).put(self.hub)
        freed = self.hub._free
        self.hub = self.seat = self.other = None
        gc.collect()
        self.assertFalse(freed.alive)

    def test_many_objects_go_by_one_call(self):
        port = self.seat.make(3)
        things = [Thing() for _ in range(5)]
        alive = [weakref.ref(thing) for thing in things]
        self.other.exit()
        with self.assertRaises(Stalled) as raised:
            port.send_all(things)
        del things
        self.assertEqual(raised.exception.sent, 3)
        raised = None
        self.assertEqual(list(map(self.is_gone, alive)), [False, False, False, True, True])
        got = port.recv_up_to(2)
        self.assertEqual([id(thing) for thing in got], [id(thing()) for thing in alive[:2]])
        del got
        self.assertEqual(list(map(self.is_gone, alive)), [True, True, False, True, True])
        port.put('more')  # one object that was refused has had a number, as by itself
        self.assertEqual(list(self.hub._things), [300, 500])
        with self.assertRaises(Fault):
            self.hub.seat(100).send_all(port, 'ab')
        self.assertEqual(list(self.hub._things), [300, 500])

    def test_a_select_gets_and_sends_objects(self):
        port, other = self.seat.make(1), self.seat.make(1)
        thing = Thing()
        self.assertIsNone(self.seat.select([Recv(port), Recv(other)], default=True))
        self.assertEqual(self.seat.select([Recv(port), Send(other, thing)]), Fired(1))
        self.assertEqual(self.seat.select([Recv(port), Recv(other), Send(other, 'more')]), Fired(1, thing))
        self.assertEqual(self.seat.select([Send(other, 'a'), Send(port, 'b')], word=1), Fired(1))
        self.assertEqual((other.qsize(), port.get()), (0, 'b'))
        self.assertEqual(self.hub._things, {})

    def test_a_cancelled_send_is_not_kept(self):
        port = self.seat.make(0)
        joined = in_thread(port.put, Thing())
        until_it_stands(self.hub, '0 send 1 100')
        self.other.cancel(0)
        self.assertIsInstance(joined(), Cancelled)
        self.assertEqual(self.hub._things, {})

    def test_threads_pass_each_object_once_and_in_order(self):
        for hub_of in (dict(), dict(keep=50), dict(keep=50, chapters=lambda text: None)):
            for cap in (0, 1, 7):
                with Hub(procs=9, objects=True, **hub_of) as hub:
                    self.each_object_once(hub, cap)
                    self.assertEqual(hub._things, {})

    def each_object_once(self, hub, cap):
        boss = hub.seat(8)
        port, never = boss.make(cap), boss.make(0)

        def send(seat):
            with seat:
                for number in range(300):
                    if seat.pid % 2:
                        seat.port(port).put((seat.pid, number))
                    else:
                        seat.select([Recv(never), Send(port, (seat.pid, number))])

        def receive(seat):
            with seat:
                if seat.pid % 2:
                    return list(seat.port(port))
                got = []
                while True:
                    try:
                        got.append(seat.select([Recv(never), Recv(port)]).value)
                    except Drained:
                        return got
        sending = [in_thread(send, hub.seat(pid)) for pid in range(4)]
        receiving = [in_thread(receive, hub.seat(pid)) for pid in range(4, 8)]
        self.assertEqual([joined() for joined in sending], [None] * 4)
        with boss:
            port.close()
        got = [joined() for joined in receiving]
        for own in got:
            for sender in range(4):
                numbers = [number for pid, number in own if pid == sender]
                self.assertEqual(numbers, sorted(numbers))
        self.assertEqual(collections.Counter(sum(got, [])), collections.Counter((pid, n) for pid in range(4) for n in range(300)))

    def test_no_object_is_lost_to_an_interrupt(self):
        port = self.seat.make(0)
        inside, interrupts, got, done = [False], [], [], threading.Event()
        self.addCleanup(done.set)

        def handle(*_):
            if inside[0]:
                inside[0] = False
                raise KeyboardInterrupt
        self.addCleanup(signal.signal, signal.SIGINT, signal.signal(signal.SIGINT, handle))

        def interrupt():
            while not done.wait(0.0005):
                os.kill(os.getpid(), signal.SIGINT)

        def send():
            end = time.monotonic() + LONG
            sent = 0
            with self.other as seat:
                while sent < 3000 or len(interrupts) <= 10 and time.monotonic() < end:
                    seat.send(port, {sent})
                    sent += 1
                seat.close(port)
            return sent
        joined = in_thread(send)
        thread = threading.Thread(target=interrupt, daemon=True)
        thread.start()
        while True:
            try:
                inside[0] = True
                value = self.seat.resume() if self.seat.waits else self.seat.recv(port)
                inside[0] = False
                got.append(value)
            except KeyboardInterrupt:
                interrupts.append(len(got))
            except Drained:
                inside[0] = False
                break
        done.set()
        thread.join()
        self.assertEqual(got, [{number} for number in range(joined())])
        self.assertGreater(len(interrupts), 10)
        self.assertEqual(self.hub._things, {})


class Ports(unittest.TestCase):
    def setUp(self):
        self.hub = Hub(procs=2, objects=True)
        self.seat = self.hub.seat(0)

    def test_a_port_is_its_number(self):
        port = self.seat.make(0)
        self.assertEqual((port, f'{port}', repr(port), {port: 1}[1]), (1, '1', '1', 1))
        self.assertIsInstance(port, Port)
        for same in (copy.copy(port), copy.deepcopy(port), pickle.loads(pickle.dumps(port))):
            self.assertEqual((same, type(same)), (1, int))

    def test_a_port_has_the_names_of_a_queue(self):
        port = self.seat.make(2)
        self.assertEqual((port.qsize(), port.empty(), port.full()), (0, True, False))
        for call in (port.get_nowait, lambda: port.get(block=False), lambda: port.get(False)):
            self.assertRaises(queue.Empty, call)
        port.put('a')
        self.assertEqual((port.qsize(), port.empty(), port.full()), (1, False, False))
        port.put_nowait('b')
        self.assertEqual((port.qsize(), port.empty(), port.full()), (2, False, True))
        for call in (port.put_nowait, lambda value: port.put(value, block=False), lambda value: port.put(value, False)):
            self.assertRaises(queue.Full, call, 'c')
        self.assertEqual((port.get_nowait(), port.get()), ('a', 'b'))
        port.close()
        self.assertRaises(Drained, port.get_nowait)
        self.assertRaises(Closed, port.put_nowait, 'd')
        none = self.seat.make(0)
        self.assertEqual((none.qsize(), none.empty(), none.full()), (0, True, True))

    def test_a_queues_names_are_those_of_queue(self):
        for name in ('put', 'get', 'put_nowait', 'get_nowait', 'qsize', 'empty', 'full'):
            self.assertTrue(callable(getattr(queue.Queue, name)) and callable(getattr(Port, name)), name)

    def test_iteration_ends_once_closed_and_empty(self):
        port = self.seat.make(3)
        for value in 'abc':
            port.put(value)
        port.close()
        self.assertEqual([value for value in port], ['a', 'b', 'c'])
        self.assertEqual(list(port), [])

    def test_iteration_raises_how_else_it_ends(self):
        self.hub.seat(1).exit()
        port = self.seat.make(3)
        port.put('a')
        values = iter(port)
        self.assertEqual(next(values), 'a')
        self.assertRaises(Stalled, next, values)

    def test_the_seat_of_a_port_makes_its_calls(self):
        port = self.seat.make(2)
        other = self.hub.seat(1).port(port)
        other.put('a')
        port.get()
        other.close()
        self.assertEqual(self.hub.journal().decode().splitlines()[2:], ['0 make 2', '1 send 1 101', '0 recv 1', '1 close 1'])


class Awaited(unittest.TestCase):
    def setUp(self):
        self.hub = Hub(procs=4, objects=True)
        self.addCleanup(self.hub.__exit__)
        self.seats = [self.hub.seat(pid) for pid in range(4)]

    def run_with_limit(self, task):
        return asyncio.run(asyncio.wait_for(task, LONG))

    def names_of_threads(self):
        names = {thread.name.rpartition('_')[0] for thread in threading.enumerate()}
        return {name for name in names if name.startswith('chanhub-process-')}

    def test_a_call_that_need_not_wait_takes_no_thread(self):
        port = self.seats[0].make(3)

        async def main():
            await port.aput('a')
            await port.asend_all('bc')
            return await port.aget(), await port.arecv_up_to(9)
        self.assertEqual(self.run_with_limit(main()), ('a', ['b', 'c']))
        self.assertEqual(self.hub._executors, {})

    def test_tasks_pass_many_objects(self):
        port = self.seats[0].make(3)

        async def send(seat):
            await seat.port(port).asend_all([(seat.pid, k) for k in range(50)])

        async def receive():
            got = []
            while len(got) < 100:
                got += await port.arecv_up_to(7)
            return got

        async def main():
            got, *_ = await asyncio.gather(receive(), *map(send, self.seats[1:3]))
            return got
        got = self.run_with_limit(main())
        self.assertEqual([[k for pid, k in got if pid == each] for each in (1, 2)], [list(range(50))] * 2)
        self.assertEqual(self.hub._things, {})

    def test_many_objects_of_a_cancelled_task_are_not_lost(self):
        port = self.seats[0].make(3)

        async def main():
            getting = asyncio.create_task(port.arecv_up_to(3))
            queued = asyncio.create_task(port.arecv_up_to(9))
            await asyncio.sleep(0.01)
            # Two receives of what is there go on, though nobody takes what they get.
            self.seats[1].port(port).send_all('ab')
            until(lambda: not self.hub._handed[0])
            getting.cancel()
            queued.cancel()
            for task in (getting, queued):
                with self.assertRaises(asyncio.CancelledError):
                    await task
            self.seats[1].port(port).send_all('cd')
            got = [await port.aget()]
            while len(got) < 4:
                got += await port.arecv_up_to(2)
            return got
        self.assertEqual(self.run_with_limit(main()), list('abcd'))

    def test_what_is_left_of_many_unclaimed_objects_comes_next(self):
        port = self.seats[0].make(3)

        async def main():
            waits = asyncio.create_task(port.aget())
            getting = asyncio.create_task(port.arecv_up_to(3))
            await asyncio.sleep(0.01)
            self.seats[1].port(port).send_all('abcd')
            until(lambda: not self.hub._handed[0])
            getting.cancel()
            with self.assertRaises(asyncio.CancelledError):
                await getting
            got = [await waits, await port.aget()]
            for most in (1, 1, 2):
                if len(got) < 4:
                    got += await port.arecv_up_to(most)
            return got
        self.assertEqual(self.run_with_limit(main()), list('abcd'))

    def test_a_cancelled_send_of_many_goes_on(self):
        port = self.seats[0].make(1)

        async def main():
            sending = asyncio.create_task(port.asend_all('abc'))
            await asyncio.sleep(0.01)
            sending.cancel()
            with self.assertRaises(asyncio.CancelledError):
                await sending
            return [await self.seats[1].port(port).aget() for _ in 'abc']
        self.assertEqual(self.run_with_limit(main()), ['a', 'b', 'c'])

    def test_an_await_of_many_tells_how_many_were_sent(self):
        port = self.seats[0].make(2)
        for seat in self.seats[1:]:
            seat.exit()

        async def main():
            for raised, sent in ((Stalled, 2), (Stalled, 0), (Closed, 0)):
                with self.assertRaises(raised) as told:
                    await port.asend_all('abc')
                self.assertEqual(told.exception.sent, sent)
                if sent == 0 and raised is Stalled:
                    port.close()
            with self.assertRaises(ValueError):
                await port.arecv_up_to(0)
            self.assertEqual(await port.arecv_up_to(9), ['a', 'b'])
        self.run_with_limit(main())
        self.assertEqual(self.hub._things, {})

    def test_a_chapter_holds_up_no_loop(self):
        names = []
        with Hub(procs=1, objects=True, keep=2, chapters=lambda text: names.append(threading.current_thread().name)) as hub:
            port = hub.seat(0).make(2)

            async def main():
                for number in range(9):
                    await port.aput(number)
                    self.assertEqual(await port.aget(), number)
            self.run_with_limit(main())
            self.assertEqual({name.rpartition('_')[0] for name in names}, {'chanhub-process-0'})

    def test_an_ended_hub_takes_no_awaited_call(self):
        port = self.seats[0].make(1)

        async def main():
            waits = asyncio.create_task(self.seats[1].port(port).aget())
            await asyncio.sleep(0.01)
            self.hub.__exit__()
            for call in (port.aput('a'), port.aget(), port.asend_all('a'), port.arecv_up_to(1), waits):
                with self.assertRaises(HubEnded):
                    await call
        self.run_with_limit(main())

    def test_tasks_pass_objects_while_the_loop_goes_on(self):
        port = self.seats[0].make(0)
        ticks = []
        sender, receiver = self.seats[1].port(port), self.seats[2].port(port)

        async def send():
            for number in range(50):
                await asyncio.sleep(0.001)
                await sender.aput([number])
            sender.close()

        async def tick():
            while True:
                ticks.append(len(ticks))
                await asyncio.sleep(0.001)

        async def receive():
            return [value async for value in receiver]

        async def main():
            ticking = asyncio.create_task(tick())
            _, got = await asyncio.gather(send(), receive())
            ticking.cancel()
            return got
        self.assertEqual(self.run_with_limit(main()), [[number] for number in range(50)])
        self.assertGreater(len(ticks), 10)
        self.assertLessEqual(self.names_of_threads(), {'chanhub-process-1', 'chanhub-process-2'})
        lines = self.hub.journal().decode().splitlines()
        self.assertEqual(sum(line.startswith('1 send 1 ') for line in lines), 50)
        self.assertEqual(lines.count('2 recv 1'), 51)

    def test_the_calls_of_a_process_are_made_one_after_the_other(self):
        port, reply = self.seats[0].make(0), self.seats[0].make(1)

        async def main():
            got = asyncio.create_task(port.aget())
            sent = asyncio.create_task(reply.aput('reply'))
            await asyncio.sleep(0.05)
            self.assertEqual(reply.qsize(), 0)
            await self.seats[1].port(port).aput('first')
            await sent
            return await got, reply.qsize()
        self.assertEqual(self.run_with_limit(main()), ('first', 1))

    def test_what_a_cancelled_task_waited_for_is_not_lost(self):
        port = self.seats[0].make(0)

        async def main():
            getting = asyncio.create_task(port.aget())
            await asyncio.sleep(0)
            while b'0 recv 1' not in self.hub.journal():
                await asyncio.sleep(0.001)
            queued = asyncio.create_task(port.aget())  # its call has not begun
            await asyncio.sleep(0.01)
            for task in (getting, queued):
                task.cancel()
                with self.assertRaises(asyncio.CancelledError):
                    await task
            self.seats[1].port(port).put('a')
            sent = in_thread(self.seats[1].port(port).put, 'b')
            got = [await port.aget(), await port.aget()]
            return sent(), got
        self.assertEqual(self.run_with_limit(main()), (None, ['a', 'b']))

    def test_a_cancelled_put_may_still_send(self):
        port = self.seats[0].make(0)

        async def main():
            putting = asyncio.create_task(port.aput('a'))
            await asyncio.sleep(0)
            while b'0 send 1 100' not in self.hub.journal():
                await asyncio.sleep(0.001)
            putting.cancel()
            with self.assertRaises(asyncio.CancelledError):
                await putting
            return await self.seats[1].port(port).aget()
        self.assertEqual(self.run_with_limit(main()), 'a')

    def test_an_await_raises_how_the_call_ended(self):
        port = self.seats[0].make(0)
        for seat in self.seats[1:]:
            seat.exit()

        async def main():
            for raised, call in ((Stalled, port.aget), (Stalled, lambda: port.aput('a'))):
                with self.assertRaises(raised):
                    await call()
            port.close()
            for raised, call in ((Drained, port.aget), (Closed, lambda: port.aput('a'))):
                with self.assertRaises(raised):
                    await call()
            self.assertEqual([value async for value in port], [])
        self.run_with_limit(main())
        self.assertEqual(self.hub._things, {})

    def test_a_hub_that_ends_lets_the_interpreter_end(self):
        script = ('import asyncio\n'
                  'from chanhub import Hub\n'
                  'async def main():\n'
                  '    with Hub(procs=2, objects=True) as hub:\n'
                  '        getting = asyncio.create_task(hub.seat(0).make(0).aget())\n'
                  '        await asyncio.sleep(0.05)\n'
                  '        getting.cancel()\n'
                  'asyncio.run(main())\n'
                  'print("ends")\n')
        done = subprocess.run([sys.executable, '-c', script], stdout=subprocess.PIPE, stderr=subprocess.STDOUT, timeout=LONG,
                              env=dict(os.environ, PYTHONPATH=os.pathsep.join(filter(None, sys.path))))
        self.assertEqual((done.returncode, done.stdout.decode()), (0, 'ends\n'))


if __name__ == '__main__':
    unittest.main()
