package chanhub_test

import (
	"context"
	"fmt"
	"strings"
	"testing"
	"time"

	"chanhub/chanhub"
)

// numbers returns the numbers from first on as values.
func numbers(first uint64, count int) []chanhub.Value {
	values := make([]chanhub.Value, count)
	for i := range values {
		values[i] = chanhub.Number(first + uint64(i))
	}
	return values
}

// toldOf fails the test unless a call of many values was told this count and error.
func toldOf(t *testing.T, name string, found int, err error, wanted int, wantedErr error) {
	t.Helper()
	if found != wanted {
		t.Errorf("%s: %d values, not %d", name, found, wanted)
	}
	told(t, name, err, wantedErr)
}

func TestManyValuesAreThoseOfSoManyCalls(t *testing.T) {
	hub := open(t, chanhub.Edition2, 1, 100)
	seat := hub.Seat(0)
	port := makePort(t, seat, 3)
	values := []chanhub.Value{chanhub.Number(7), bytesOf(t, "\x00\xff"), chanhub.Number(9)}
	sent, err := seat.SendAll(port, values)
	toldOf(t, "send", sent, err, 3, nil)
	sent, err = seat.SendAll(port, nil)
	toldOf(t, "send of none", sent, err, 0, nil)
	room := make([]chanhub.Value, 2)
	received, err := seat.RecvUpTo(port, room)
	toldOf(t, "receive", received, err, 2, nil)
	if room[0] != values[0] || room[1] != values[1] {
		t.Errorf("received %v", room)
	}
	received, err = seat.RecvUpTo(port, nil)
	toldOf(t, "receive of none", received, err, 0, chanhub.FaultBadCall)
	received, err = seat.RecvUpTo(port, room)
	toldOf(t, "receive of the rest", received, err, 1, nil)
	if room[0] != values[2] {
		t.Errorf("received %v", room)
	}
	journal, _ := hub.Journal()
	wanted := "\n0 make 3\n0 send 1 7\n0 send 1 #00ff\n0 send 1 9\n0 recv 1\n0 recv 1\n0 recv 1\n"
	if !strings.HasSuffix(string(journal), "\nprocs 1"+wanted) {
		t.Errorf("journal %s", journal)
	}
}

func TestManyValuesAreRefused(t *testing.T) {
	hub := open(t, chanhub.Edition1, 1, 5)
	seat := hub.Seat(0)
	port := makePort(t, seat, 1000)
	sent, err := seat.SendAll(2, numbers(1, 2))
	toldOf(t, "no such port", sent, err, 0, chanhub.FaultNoPort)
	sent, err = hub.Seat(1).SendAll(port, numbers(1, 2))
	toldOf(t, "no such process", sent, err, 0, chanhub.FaultNoProcess)
	sent, err = seat.SendAll(port, numbers(1, 1000))
	toldOf(t, "a full journal", sent, err, 3, chanhub.FaultJournalFull)
	sent, err = seat.SendAllContext(in(t, long), port, numbers(1, 2))
	toldOf(t, "no contexts", sent, err, 0, chanhub.FaultBadCall)
	received, err := seat.RecvUpToContext(in(t, long), port, numbers(1, 2))
	toldOf(t, "no contexts", received, err, 0, chanhub.FaultBadCall)
	other := makeChan[int](t, open(t, chanhub.Edition1, 1, 5).Seat(0), 1)
	sent, err = other.SendAll(seat, []int{1})
	toldOf(t, "another hub", sent, err, 0, chanhub.FaultBadCall)
	received, err = other.RecvUpTo(seat, []int{1})
	toldOf(t, "another hub", received, err, 0, chanhub.FaultBadCall)
}

func TestASeatOfNoProcessSendsNothing(t *testing.T) {
	hub := open(t, chanhub.Edition1, 1, 100)
	c := makeChan[string](t, hub.Seat(0), 3)
	told(t, "send", c.Send(hub.Seat(0), "a"), nil)
	sent, err := c.SendAll(hub.Seat(100), []string{"b", "c"})
	toldOf(t, "no such process", sent, err, 0, chanhub.FaultNoProcess)
	told(t, "no such process", c.Send(hub.Seat(-1), "d"), chanhub.FaultBadCall)
	if got, err := c.Recv(hub.Seat(0)); got != "a" || err != nil {
		t.Errorf("received %q, %v", got, err)
	}
}

// What was sent before a send fails stays sent, and what was not does not stay in the Chan.
func TestASendOfManyFailsInTheMiddle(t *testing.T) {
	for name, row := range map[string]struct {
		fail   func(hub *chanhub.Hub, c *chanhub.Chan[string]) error
		wanted error
	}{
		"closed": {func(hub *chanhub.Hub, c *chanhub.Chan[string]) error { return c.Close(hub.Seat(1)) }, chanhub.ErrClosed},
		"stalled": {func(hub *chanhub.Hub, _ *chanhub.Chan[string]) error {
			_, err := hub.Seat(1).Recv(0)
			if err == chanhub.ErrStalled {
				return nil
			}
			return fmt.Errorf("told %w", err)
		}, chanhub.ErrStalled},
		"cancelled":         {func(hub *chanhub.Hub, _ *chanhub.Chan[string]) error { return hub.Seat(1).Cancel(0) }, chanhub.ErrCancelled},
		"the hub is closed": {func(hub *chanhub.Hub, _ *chanhub.Chan[string]) error { return hub.Close() }, chanhub.ErrHubClosed},
	} {
		t.Run(name, func(t *testing.T) {
			hub := open(t, chanhub.Edition2, 2, 100)
			c := makeChan[string](t, hub.Seat(0), 2)
			failed := make(chan error)
			go func() {
				untilItStands(t, hub, "0 send 1 300")
				failed <- row.fail(hub, c)
			}()
			sent, err := c.SendAll(hub.Seat(0), []string{"a", "b", "c", "d"})
			toldOf(t, "send", sent, err, 2, row.wanted)
			told(t, name, <-failed, nil)
			if err := hub.Seat(0).Exit(); err == chanhub.ErrHubClosed {
				return
			}
			room := make([]string, 9)
			received, err := c.RecvUpTo(hub.Seat(1), room)
			toldOf(t, "receive", received, err, 2, nil)
			if room[0] != "a" || room[1] != "b" || room[2] != "" {
				t.Errorf("received %q", room)
			}
		})
	}
}

func TestAReceiveOfManyFails(t *testing.T) {
	hub := open(t, chanhub.Edition1, 1, 100)
	seat := hub.Seat(0)
	c := makeChan[string](t, seat, 2)
	room := make([]string, 3)
	received, err := c.RecvUpTo(seat, room)
	toldOf(t, "a deadlock", received, err, 0, chanhub.ErrStalled)
	sent, err := c.SendAll(seat, []string{"a"})
	toldOf(t, "send", sent, err, 1, nil)
	told(t, "close", c.Close(seat), nil)
	sent, err = c.SendAll(seat, []string{"b"})
	toldOf(t, "send on a closed one", sent, err, 0, chanhub.ErrClosed)
	received, err = c.RecvUpTo(seat, room)
	toldOf(t, "what is left", received, err, 1, nil)
	received, err = c.RecvUpTo(seat, room)
	toldOf(t, "drained", received, err, 0, chanhub.ErrDrained)
	told(t, "close of the hub", hub.Close(), nil)
	received, err = c.RecvUpTo(seat, room)
	toldOf(t, "a closed hub", received, err, 0, chanhub.ErrHubClosed)
	sent, err = c.SendAll(seat, room)
	toldOf(t, "a closed hub", sent, err, 0, chanhub.ErrHubClosed)
}

// passMany passes 1,000 values by calls of many, and returns the errors of both sides.
func passMany(
	t *testing.T, capacity int, hub *chanhub.Hub,
	send func(c *chanhub.Chan[int], values []int) (int, error), recv func(c *chanhub.Chan[int], room []int) (int, error),
) {
	c := makeChan[int](t, hub.Seat(0), capacity)
	values := make([]int, 1000)
	for i := range values {
		values[i] = i
	}
	go func() {
		sent, err := send(c, values)
		toldOf(t, "send", sent, err, len(values), nil)
		told(t, "close", c.Close(hub.Seat(0)), nil)
	}()
	room := make([]int, 7)
	var all []int
	var err error
	for err == nil {
		var received int
		received, err = recv(c, room)
		all = append(all, room[:received]...)
	}
	told(t, "receive", err, chanhub.ErrDrained)
	if fmt.Sprint(all) != fmt.Sprint(values) {
		t.Errorf("received %v", all)
	}
}

func TestManyValuesWaitAsOftenAsTheyMust(t *testing.T) {
	for _, capacity := range []int{0, 1, 5, 1000} {
		hub := timed(t, 2)
		sender, receiver := hub.Seat(0), hub.Seat(1)
		passMany(t, capacity, hub,
			func(c *chanhub.Chan[int], values []int) (int, error) { return c.SendAll(sender, values) },
			func(c *chanhub.Chan[int], room []int) (int, error) { return c.RecvUpTo(receiver, room) })
		ctx := in(t, long)
		passMany(t, capacity, hub,
			func(c *chanhub.Chan[int], values []int) (int, error) { return c.SendAllContext(ctx, sender, values) },
			func(c *chanhub.Chan[int], room []int) (int, error) { return c.RecvUpToContext(ctx, receiver, room) })
	}
}

func TestContextsOfManyValues(t *testing.T) {
	hub := timed(t, 1)
	seat := hub.Seat(0)
	c := makeChan[int](t, seat, 2)
	room := make([]int, 9)
	done, cancel := context.WithCancel(context.Background())
	cancel()
	received, err := c.RecvUpToContext(done, seat, room)
	toldOf(t, "none", received, err, 0, context.Canceled)
	received, err = c.RecvUpToContext(in(t, time.Millisecond), seat, room)
	toldOf(t, "none", received, err, 0, context.DeadlineExceeded)
	sent, err := c.SendAllContext(in(t, time.Millisecond), seat, []int{1, 2, 3})
	toldOf(t, "the deadline", sent, err, 2, context.DeadlineExceeded)
	received, err = c.RecvUpToContext(done, seat, room)
	toldOf(t, "what needs no wait", received, err, 2, nil)
	ctx, cancel := context.WithCancel(context.Background())
	time.AfterFunc(time.Millisecond, cancel)
	sent, err = c.SendAllContext(ctx, seat, []int{4, 5, 6})
	toldOf(t, "cancelled", sent, err, 2, context.Canceled)
	sent, err = c.SendAllContext(context.Background(), seat, []int{7})
	toldOf(t, "a deadlock", sent, err, 0, chanhub.ErrStalled)
	sent, err = c.SendAllContext(done, seat, nil)
	toldOf(t, "send of none", sent, err, 0, nil)
	received, err = c.RecvUpToContext(done, seat, nil)
	toldOf(t, "receive of none", received, err, 0, chanhub.FaultBadCall)
	received, err = c.RecvUpToContext(done, seat, room[:1])
	toldOf(t, "as many as there is room for", received, err, 1, nil)
	if c.Len() != 1 || room[0] != 4 {
		t.Errorf("%d are left, received %d", c.Len(), room[0])
	}
}
