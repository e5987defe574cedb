"""A deadlock: each of two threads waits for the other to send first. Writes the journal to the file that it is given, if any."""
import sys
import threading
from pathlib import Path

from chanhub import Hub, Seat, Stalled


def ask_first(seat: Seat, mine: int, other: int) -> None:
    try:
        seat.send(mine, seat.recv(other))
    except Stalled:
        pass


def main() -> None:
    with Hub(procs=2) as hub:
        left, right = hub.seat(0).make(0), hub.seat(0).make(0)
        threads = [threading.Thread(target=ask_first, args=(hub.seat(0), left, right)),
                   threading.Thread(target=ask_first, args=(hub.seat(1), right, left))]
        for thread in threads:
            thread.start()
        for thread in threads:
            thread.join()
        journal = hub.journal()
        for line in sorted(journal.decode().splitlines()[-2:]):
            print('stalled:', line)
        if sys.argv[1:]:
            Path(sys.argv[1]).write_bytes(journal)


if __name__ == '__main__':
    main()
