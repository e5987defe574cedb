"""A select with a default: it receives 5 or sends 7, as a random word chooses, until neither can proceed."""
from random import getrandbits

from chanhub import Hub, Recv, Send


def main() -> None:
    with Hub(procs=1) as hub:
        seat = hub.seat(0)
        jobs, results = seat.make(1), seat.make(1)
        seat.send(jobs, 5)
        cases = [Recv(jobs), Send(results, 7)]
        while fired := seat.select(cases, default=True, word=getrandbits(64)):
            print('sent' if fired.index == 1 else f'got {fired.value}')
        print('neither')


if __name__ == '__main__':
    main()
