"""A first program: a value that is sent and received, and a receive that can never end."""
from chanhub import Hub, Stalled

with Hub(procs=1) as hub, hub.seat(0) as seat:
    port = seat.make(1)
    seat.send(port, 9)
    print(seat.recv(port))
    try:
        seat.recv(port)
    except Stalled:
        print(hub.journal().decode(), end='')
