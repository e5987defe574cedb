"""The hub in asyncio: a task squares what a thread sends, and another one adds up the squares."""
import asyncio
import threading

from chanhub import Hub, Port


def send(jobs: Port) -> None:
    for job in range(1, 11):
        jobs.put(job)
    jobs.close()


async def square(jobs: Port, squares: Port) -> None:
    async for job in jobs:
        await squares.aput(job ** 2)
    squares.close()


async def add_up(squares: Port) -> int:
    return sum([number async for number in squares])


async def main() -> None:
    with Hub(procs=3, objects=True) as hub:
        sender, worker, boss = map(hub.seat, range(3))
        jobs, squares = boss.make(2), boss.make(2)
        threading.Thread(target=send, args=[sender.port(jobs)]).start()
        _, total = await asyncio.gather(square(worker.port(jobs), worker.port(squares)), add_up(squares))
        print(total)


if __name__ == '__main__':
    asyncio.run(main())
