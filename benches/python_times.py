#!/usr/bin/env python3
"""Times a send and a receive of the Python module that need not wait, beside the same calls of queue.Queue.

    python_times.py [CALLS [SETS]]      after `make -C capi`; 200,000 calls in a set, and 5 sets

One thread fills 100 places and empties them. Prints the median of the sets for each, in microseconds a call, and its ratio to
queue.Queue. They take turns. `ctypes` is the module without its extension.
"""
import os
import queue
import statistics
import sys
import threading
import time

HERE = os.path.dirname(os.path.abspath(__file__))
sys.path.append(os.path.join(HERE, os.pardir, 'capi', 'python'))
sys.dont_write_bytecode = True
import chanhub  # noqa: E402


def seconds(put, get, calls):
    begun = time.perf_counter()
    for _ in range(calls // 200):
        for number in range(100):
            put(number)
        for _ in range(100):
            get()
    return time.perf_counter() - begun


def of_queue(calls):
    made = queue.Queue(100)
    return seconds(made.put, made.get, calls)


def of_hub(calls, **options):
    with chanhub.Hub(2, **options) as hub:
        port = hub.seat(0).make(100)
        return seconds(port.put, port.get, calls)


def by_ctypes(calls, **options):
    made, chanhub._CallsType = chanhub._CallsType, chanhub._Calls
    try:
        return of_hub(calls, **options)
    finally:
        chanhub._CallsType = made


def of_objects(calls):
    return of_hub(calls, objects=True)


def in_thread(run, calls):
    found = []
    thread = threading.Thread(target=lambda: found.append(run(calls)))
    thread.start()
    thread.join()
    return found[0]


def main():
    calls, sets = (int(word) for word in (sys.argv[1:] + ['200000', '5'][len(sys.argv) - 1:]))
    if chanhub._CallsType is chanhub._Calls:
        print('skipped: the extension: not built, or not to be used')
    timed = {
        'queue.Queue': of_queue,
        'Port': of_hub,
        'Port, objects=True': of_objects,
        'Port, in another thread': lambda calls: in_thread(of_hub, calls),
        'Port, ctypes': by_ctypes,
        'Port, ctypes, in another thread': lambda calls: in_thread(by_ctypes, calls),
    }
    taken = [{name: run(calls) / calls * 1e6 for name, run in timed.items()} for _ in range(sets)]
    medians = {name: statistics.median(each[name] for each in taken) for name in timed}
    for name, median in medians.items():
        print(f'{name:32} {median:.2f} us {median / medians["queue.Queue"]:.2f}')


if __name__ == '__main__':
    main()
