"""Any object as a value: a producer, a consumer, and a select of both their results. A port is used like a queue.Queue."""
import threading

from chanhub import Hub, Port, Recv


def produce(jobs: Port) -> None:
    for job in range(1, 11):
        jobs.put({'number': job})
    jobs.close()


def consume(jobs: Port, squares: Port, reports: Port) -> None:
    count = 0
    for job in jobs:
        squares.put(job['number'] ** 2)
        count += 1
    reports.put(f'{count} jobs')


def main() -> None:
    with Hub(procs=3, objects=True) as hub:
        boss, producer, consumer = map(hub.seat, range(3))
        jobs, squares, reports = boss.make(2), boss.make(0), boss.make(0)
        threading.Thread(target=produce, args=[producer.port(jobs)]).start()
        threading.Thread(target=consume, args=[consumer.port(port) for port in (jobs, squares, reports)]).start()
        got = [boss.select([Recv(squares), Recv(reports)]) for _ in range(11)]
        report, = (fired.value for fired in got if fired.index == 1)
        print(report, sum(fired.value for fired in got if fired.index == 0))


if __name__ == '__main__':
    main()
