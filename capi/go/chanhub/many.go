package chanhub

/*
#include <chanhub.h>

// What a call of many values was told, and how many of them it sent or received.
typedef struct {
	chanhub_told told;
	size_t count;
} counted;

static counted send_all(uintptr_t hub, unsigned pid, unsigned port, const chanhub_value *values, size_t count) {
	counted all;
	all.told = chanhub_send_all((chanhub *)hub, pid, port, values, count, CHANHUB_NEVER, &all.count);
	return all;
}

static counted begin_send_all(uintptr_t hub, unsigned pid, unsigned port, const chanhub_value *values, size_t count, uint64_t deadline) {
	counted all;
	all.told = chanhub_begin_send_all((chanhub *)hub, pid, port, values, count, deadline, &all.count);
	return all;
}

static counted recv_up_to(uintptr_t hub, unsigned pid, unsigned port, chanhub_value *values, size_t most) {
	counted all;
	all.told = chanhub_recv_up_to((chanhub *)hub, pid, port, values, most, CHANHUB_NEVER, &all.count);
	return all;
}

static counted begin_recv_up_to(uintptr_t hub, unsigned pid, unsigned port, chanhub_value *values, size_t most, uint64_t deadline) {
	counted all;
	all.told = chanhub_begin_recv_up_to((chanhub *)hub, pid, port, values, most, deadline, &all.count);
	return all;
}
*/
import "C"

import (
	"context"
	"sync"
)

// SendAll sends the values on a port, in order. Each is a step of its own, as that of [Seat.Send], and SendAll waits as often as it must.
// It returns how many were sent: all of them, unless err says why the next one was not.
func (s *Seat) SendAll(port Port, values []Value) (sent int, err error) {
	if len(values) == 0 {
		return 0, nil
	}
	if err := s.hub.enter(s.pid); err != nil {
		return 0, err
	}
	all := C.send_all(s.hub.number(), within(s.pid), C.uint(port), &values[0].raw, C.size_t(len(values)))
	told := answer(all.told)
	return int(all.count), s.end(&told)
}

// RecvUpTo receives values from a port into values. It waits for the first one, as [Seat.Recv] does, and then takes more while the
// port's buffer holds any and values has room. A value for which it had to wait comes alone. RecvUpTo returns how many it received: at
// least one, unless err says why not. It returns [FaultBadCall] if values is empty.
func (s *Seat) RecvUpTo(port Port, values []Value) (received int, err error) {
	if len(values) == 0 {
		return 0, FaultBadCall
	}
	if err := s.hub.enter(s.pid); err != nil {
		return 0, err
	}
	all := C.recv_up_to(s.hub.number(), within(s.pid), C.uint(port), &values[0].raw, C.size_t(len(values)))
	told := answer(all.told)
	return int(all.count), s.end(&told)
}

// SendAllContext is like [Seat.SendAll], but gives up once the context is done, as [Seat.SendContext] does.
func (s *Seat) SendAllContext(ctx context.Context, port Port, values []Value) (sent int, err error) {
	if len(values) == 0 {
		return 0, nil
	}
	if err := s.hub.enter(s.pid); err != nil {
		return 0, err
	}
	sent, told := s.beginAll(ctx, port, values)
	return sent, errorOf(ctx, s.end(&told))
}

// beginAll sends the values, and waits where it must. It returns how many were sent, and what the last call was told.
func (s *Seat) beginAll(ctx context.Context, port Port, values []Value) (sent int, told answer) {
	deadline := deadlineOf(ctx)
	told.what = C.CHANHUB_SENT
	for told.what == C.CHANHUB_SENT && sent < len(values) {
		rest := values[sent:]
		all := C.begin_send_all(s.hub.number(), within(s.pid), C.uint(port), &rest[0].raw, C.size_t(len(rest)), deadline)
		sent += int(all.count)
		told = answer(all.told)
		if s.await(ctx, &told) && told.what == C.CHANHUB_SENT {
			sent++
		}
	}
	return sent, told
}

// RecvUpToContext is like [Seat.RecvUpTo], but gives up once the context is done, as [Seat.SendContext] does.
func (s *Seat) RecvUpToContext(ctx context.Context, port Port, values []Value) (received int, err error) {
	if len(values) == 0 {
		return 0, FaultBadCall
	}
	if err := s.hub.enter(s.pid); err != nil {
		return 0, err
	}
	most, deadline := C.size_t(len(values)), deadlineOf(ctx)
	all := C.begin_recv_up_to(s.hub.number(), within(s.pid), C.uint(port), &values[0].raw, most, deadline)
	received, told := int(all.count), answer(all.told)
	if s.await(ctx, &told) && told.what == C.CHANHUB_GOT {
		values[0].raw = told.value
		received = 1
	}
	return received, errorOf(ctx, s.end(&told))
}

// SendAll sends the values, as [Seat.SendAll] does. Those that were not sent do not stay in the Chan.
func (c *Chan[T]) SendAll(seat *Seat, values []T) (sent int, err error) {
	if err := c.isFor(seat); err != nil {
		return 0, err
	}
	room := roomFor(len(values))
	defer rooms.Put(room)
	c.putAll(seat, values, *room)
	sent, err = seat.SendAll(c.port, *room)
	c.dropAll((*room)[sent:])
	return sent, err
}

// SendAllContext is like [Chan.SendAll], but gives up once the context is done, as [Seat.SendAllContext] does.
func (c *Chan[T]) SendAllContext(ctx context.Context, seat *Seat, values []T) (sent int, err error) {
	if err := c.isFor(seat); err != nil {
		return 0, err
	}
	room := roomFor(len(values))
	defer rooms.Put(room)
	c.putAll(seat, values, *room)
	sent, err = seat.SendAllContext(ctx, c.port, *room)
	c.dropAll((*room)[sent:])
	return sent, err
}

// RecvUpTo receives values into values, as [Seat.RecvUpTo] does.
func (c *Chan[T]) RecvUpTo(seat *Seat, values []T) (received int, err error) {
	if err := c.isFor(seat); err != nil {
		return 0, err
	}
	room := roomFor(len(values))
	defer rooms.Put(room)
	received, err = seat.RecvUpTo(c.port, *room)
	c.takeAll((*room)[:received], values)
	return received, err
}

// RecvUpToContext is like [Chan.RecvUpTo], but gives up once the context is done, as [Seat.RecvUpToContext] does.
func (c *Chan[T]) RecvUpToContext(ctx context.Context, seat *Seat, values []T) (received int, err error) {
	if err := c.isFor(seat); err != nil {
		return 0, err
	}
	room := roomFor(len(values))
	defer rooms.Put(room)
	received, err = seat.RecvUpToContext(ctx, c.port, *room)
	c.takeAll((*room)[:received], values)
	return received, err
}

// rooms are for the numbers of many values. To allocate for each call would take longer than the call.
var rooms = sync.Pool{New: func() any { return new([]Value) }}

func roomFor(count int) *[]Value {
	room := rooms.Get().(*[]Value)
	if cap(*room) < count {
		*room = make([]Value, count)
	}
	*room = (*room)[:count]
	return room
}

// putAll keeps values that a process is to send, and stores their numbers.
func (c *Chan[T]) putAll(seat *Seat, values []T, numbers []Value) {
	first := c.hub.numbersFor(seat.pid, len(values))
	c.lock.Lock()
	defer c.lock.Unlock()
	for i, value := range values {
		number := first + 100*uint64(i)
		c.values.put(number, value)
		numbers[i] = Number(number)
	}
}

// dropAll drops the values with these numbers, which were not sent.
func (c *Chan[T]) dropAll(numbers []Value) {
	c.lock.Lock()
	defer c.lock.Unlock()
	for _, number := range numbers {
		c.values.take(number.number())
	}
}

// takeAll takes out the values with these numbers, which were received.
func (c *Chan[T]) takeAll(numbers []Value, values []T) {
	c.lock.Lock()
	defer c.lock.Unlock()
	for i, number := range numbers {
		values[i] = c.taken(number)
	}
}
