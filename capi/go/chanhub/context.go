package chanhub

/*
#include <chanhub.h>

// A call of one case, which then need not lie on Go's heap.
static chanhub_told begin_one(uintptr_t hub, unsigned pid, chanhub_case one, uint64_t deadline) {
	return chanhub_begin_until((chanhub *)hub, pid, &one, 1, false, 0, deadline);
}
*/
import "C"

import (
	"context"
	"math"
	"time"
)

// SendContext is like [Seat.Send], but gives up once the context is done. It then returns ctx.Err(), and the value was not sent. The hub
// must be opened with [Options].Timeouts; on any other, SendContext returns [FaultBadCall].
//
// If the context is done before the call, SendContext still sends the value if that needs no wait. If it can never be done, as
// [context.Background], SendContext is like Send.
func (s *Seat) SendContext(ctx context.Context, port Port, value Value) error {
	_, err := s.callUntil(ctx, SendCase(port, value))
	return err
}

// RecvContext is like [Seat.Recv], but gives up once the context is done, as [Seat.SendContext] does.
func (s *Seat) RecvContext(ctx context.Context, port Port) (Value, error) {
	return s.callUntil(ctx, RecvCase(port))
}

// SelectContext is like [Seat.Select], but gives up once the context is done, as [Seat.SendContext] does. The index is then -1.
func (s *Seat) SelectContext(ctx context.Context, word uint64, cases ...Case) (index int, value Value, err error) {
	if err := s.hub.enter(s.pid); err != nil {
		return -1, Value{}, err
	}
	first, count := raw(cases)
	told := answer(C.chanhub_begin_until(s.hub.at, within(s.pid), first, count, false, C.uint64_t(word), deadlineOf(ctx)))
	s.await(ctx, &told)
	value, err = s.endOfRecv(&told)
	return told.caseIndex(), value, errorOf(ctx, err)
}

// callUntil makes a call of this case, which ends at the latest when the context is done.
func (s *Seat) callUntil(ctx context.Context, c Case) (Value, error) {
	if err := s.hub.enter(s.pid); err != nil {
		return Value{}, err
	}
	told := answer(C.begin_one(s.hub.number(), within(s.pid), c.raw, deadlineOf(ctx)))
	s.await(ctx, &told)
	value, err := s.endOfRecv(&told)
	return value, errorOf(ctx, err)
}

// errorOf returns the error of a call. If it gave up, this is the error of its context, which may not be done yet in a hub that follows
// a journal.
func errorOf(ctx context.Context, err error) error {
	if err != context.DeadlineExceeded {
		return err
	}
	if err := ctx.Err(); err != nil {
		return err
	}
	if _, hasDeadline := ctx.Deadline(); !hasDeadline {
		return context.Canceled
	}
	return err
}

// deadlineOf returns the library's time at which the context is done. If it has no deadline but may be cancelled, that is a time far off.
func deadlineOf(ctx context.Context) C.uint64_t {
	if ctx.Done() == nil {
		return math.MaxUint64
	}
	if ctx.Err() != nil {
		return 0
	}
	deadline, hasDeadline := ctx.Deadline()
	if !hasDeadline {
		return math.MaxUint64 - 1
	}
	left := time.Until(deadline)
	if left < 0 {
		left = 0
	}
	return C.chanhub_in(C.uint64_t(left))
}

// watch makes the deadline of the waiting call pass when the context is done, or the hub is closed. This ends when stop returns.
func (s *Seat) watch(ctx context.Context) (stop func()) {
	expire := func() { C.chanhub_expire(s.hub.at, within(s.pid)) }
	if s.hub.isClosed() {
		expire() // Hub.Close came before the call began to wait
	}
	if ctx.Done() == nil {
		return func() {}
	}
	answered, stopped := make(chan struct{}), make(chan struct{})
	go func() {
		defer close(stopped)
		select {
		case <-ctx.Done():
			expire()
		case <-answered:
		}
	}()
	return func() {
		close(answered)
		<-stopped
	}
}

// await waits for the answer of a call that was begun, if it waits, at the latest until the context is done, and reports whether it
// waited. If there is no memory to time it out, it waits until there is.
func (s *Seat) await(ctx context.Context, told *answer) (waited bool) {
	if told.what != waiting {
		return false
	}
	defer s.watch(ctx)()
	for told.what == waiting {
		*told = answer(C.chanhub_resume(s.hub.at, within(s.pid), math.MaxUint64))
		if told.what == waiting {
			time.Sleep(time.Millisecond)
		}
	}
	return true
}

// SendContext is like [Chan.Send], but gives up once the context is done, as [Seat.SendContext] does.
func (c *Chan[T]) SendContext(ctx context.Context, seat *Seat, value T) error {
	if err := c.isFor(seat); err != nil {
		return err
	}
	number := c.put(seat, value)
	return c.sent(number, seat.SendContext(ctx, c.port, number))
}

// RecvContext is like [Chan.Recv], but gives up once the context is done, as [Seat.SendContext] does.
func (c *Chan[T]) RecvContext(ctx context.Context, seat *Seat) (value T, err error) {
	if err := c.isFor(seat); err != nil {
		return value, err
	}
	return c.received(seat.RecvContext(ctx, c.port))
}

// SelectChanContext is like [Seat.SelectChan], but gives up once the context is done, as [Seat.SendContext] does. The index is then -1.
func (s *Seat) SelectChanContext(ctx context.Context, cases ...ChanCase) (index int, err error) {
	choose := func(word uint64, cases ...Case) (int, Value, error) {
		return s.SelectContext(ctx, word, cases...)
	}
	return s.selectChan(choose, cases)
}
