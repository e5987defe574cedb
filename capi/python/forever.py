"""A pool that never ends: process 0 hands out jobs, eight workers do them, and each result comes back, until Ctrl-C.

    forever.py JOURNAL [CHAPTERS]               saves the last chapter as JOURNAL; writes all to CHAPTERS.0, CHAPTERS.1, ..
    tools/explain.sh JOURNAL [FROM [TO]]        explains it: in words, and in a picture
"""
import sys
import threading
from pathlib import Path

from chanhub import Hub, Recv, Seat, Send

WORKERS = 8


def work(seat: Seat, jobs: int, results: int) -> None:
    with seat:
        for job in seat.drain(jobs):
            seat.send(results, job * job % 2 ** 64)


def hand_out(seat: Seat, jobs: int, results: int, stopped: threading.Event) -> None:
    sent = done = 0
    with seat:
        while not stopped.is_set():
            # The first case that can proceed, or the second, in turns.
            fired = seat.select([Recv(results), Send(jobs, sent)], word=sent)
            if fired.index == 0:
                done += 1
            else:
                sent += 1
        seat.close(jobs)
        while done < sent:
            seat.recv(results)
            done += 1
    print(done, 'jobs')


def main() -> None:
    journal, *chapters = sys.argv[1:]
    stopped = threading.Event()
    with Hub(procs=WORKERS + 1, keep=10_000, chapters=chapters[0] if chapters else None) as hub:
        boss = hub.seat(0)
        jobs, results = boss.make(16), boss.make(16)
        threads = [threading.Thread(target=work, args=(hub.seat(pid), jobs, results)) for pid in range(1, WORKERS + 1)]
        threads.append(threading.Thread(target=hand_out, args=(boss, jobs, results, stopped)))
        for thread in threads:
            thread.start()
        try:
            stopped.wait()
        except KeyboardInterrupt:
            stopped.set()
        for thread in threads:
            thread.join()
        Path(journal).write_bytes(hub.journal())


if __name__ == '__main__':
    main()
