"""A pool of workers: process 0 hands out jobs, 1 to 3 do them, and each result comes back."""
import threading

from chanhub import Hub, Seat


def work(seat: Seat, jobs: int, results: int) -> None:
    with seat:
        for job in seat.drain(jobs):
            seat.send(results, job * job)


def main() -> None:
    with Hub(procs=4) as hub:
        boss = hub.seat(0)
        jobs, results = boss.make(2), boss.make(100)
        workers = [threading.Thread(target=work, args=(hub.seat(pid), jobs, results)) for pid in (1, 2, 3)]
        for worker in workers:
            worker.start()
        for job in range(1, 11):
            boss.send(jobs, job)
        boss.close(jobs)
        print(sum(boss.recv(results) for _ in range(10)))
        boss.exit()
        for worker in workers:
            worker.join()


if __name__ == '__main__':
    main()
