package chanhub_test

import (
	"context"
	"errors"
	"os"
	"strconv"
	"strings"
	"sync"
	"testing"
	"time"

	"chanhub/chanhub"
)

func TestCallsOnAClosedHubAreRefused(t *testing.T) {
	hub := open(t, chanhub.Edition2, 2, 100)
	seat := hub.Seat(0)
	port := makePort(t, seat, 1)
	told(t, "send", seat.Send(port, chanhub.Number(7)), nil)
	told(t, "close", hub.Close(), nil)
	told(t, "a second close", hub.Close(), nil)
	drain := seat.Drain(port)
	if drain.Next() {
		t.Error("a closed hub gives values")
	}
	told(t, "drain", drain.Err(), chanhub.ErrHubClosed)
	_, err := seat.Make(0)
	told(t, "make", err, chanhub.ErrHubClosed)
	told(t, "send", seat.Send(port, chanhub.Number(7)), chanhub.ErrHubClosed)
	_, err = seat.Recv(port)
	told(t, "receive", err, chanhub.ErrHubClosed)
	index, _, err := seat.Select(0, chanhub.RecvCase(port))
	told(t, "select", err, chanhub.ErrHubClosed)
	if index != -1 {
		t.Errorf("select: case %d", index)
	}
	_, _, err = seat.TrySelect(0)
	told(t, "select with a default", err, chanhub.ErrHubClosed)
	told(t, "close of a channel", seat.Close(port), chanhub.ErrHubClosed)
	told(t, "cancel", seat.Cancel(1), chanhub.ErrHubClosed)
	told(t, "start", seat.Start(1), chanhub.ErrHubClosed)
	told(t, "reopen", seat.Reopen(port, 1), chanhub.ErrHubClosed)
	told(t, "exit", seat.Exit(), chanhub.ErrHubClosed)
	told(t, "a process that was not", hub.Seat(2).Exit(), chanhub.ErrHubClosed)
	_, err = hub.Look(port)
	told(t, "look", err, chanhub.ErrHubClosed)
	_, err = hub.Journal()
	told(t, "journal", err, chanhub.ErrHubClosed)
}

func TestCloseEndsTheCallsThatWait(t *testing.T) {
	hub := open(t, chanhub.Edition1, 64, 1000)
	port := makePort(t, hub.Seat(0), 0)
	ended := make(chan error)
	go func() { ended <- hub.Seat(1).Send(port, chanhub.Number(7)) }()
	untilItStands(t, hub, "1 send 1 7")
	go func() {
		_, err := hub.Seat(2).Recv(0)
		ended <- err
	}()
	untilItStands(t, hub, "2 recv 0")
	go func() {
		_, _, err := hub.Seat(63).Select(0, chanhub.RecvCase(0), chanhub.SendCase(port, chanhub.Number(8)))
		ended <- err
	}()
	untilItStands(t, hub, "63 select 0 r0 s1:8")
	told(t, "close", hub.Close(), nil)
	for i := 0; i < 3; i++ {
		told(t, "a call that waited", <-ended, chanhub.ErrHubClosed)
	}
}

// Whoever closes at the same time has to wait until the memory is given back, and no call may go on in it.
func TestCloseWhileCallsRun(t *testing.T) {
	const procs = 16
	ways := []func(c *chanhub.Chan[int], seat *chanhub.Seat) error{
		func(c *chanhub.Chan[int], seat *chanhub.Seat) error { return c.Send(seat, 1) },
		func(c *chanhub.Chan[int], seat *chanhub.Seat) error {
			_, err := c.Recv(seat)
			return err
		},
		func(c *chanhub.Chan[int], seat *chanhub.Seat) error {
			_, err := seat.SelectChan(c.RecvCase(nil), c.SendCase(2))
			return err
		},
		func(c *chanhub.Chan[int], seat *chanhub.Seat) error {
			ctx, stop := context.WithTimeout(context.Background(), 100*time.Microsecond)
			defer stop()
			_, err := c.RecvContext(ctx, seat)
			return err
		},
	}
	for round := 0; round < 50; round++ {
		hub, err := chanhub.OpenWith(chanhub.Options{Procs: procs, Timeouts: round%2 == 1})
		told(t, "open", err, nil)
		c := makeChan[int](t, hub.Seat(0), round%3)
		var calls sync.WaitGroup
		calls.Add(procs + 1)
		for pid := 0; pid < procs; pid++ {
			call, seat := ways[pid%(3+round%2)], hub.Seat(pid)
			go func() {
				defer calls.Done()
				err := error(nil)
				for err == nil || errors.Is(err, context.DeadlineExceeded) {
					err = call(c, seat)
				}
				told(t, "a call", err, chanhub.ErrHubClosed)
			}()
		}
		go func() {
			defer calls.Done()
			err := error(nil)
			for err == nil {
				_, err = hub.Look(c.Port())
			}
			told(t, "look", err, chanhub.ErrHubClosed)
		}()
		time.Sleep(time.Duration(round) * 100 * time.Microsecond)
		var closes sync.WaitGroup
		closes.Add(2)
		for i := 0; i < 2; i++ {
			go func() {
				defer closes.Done()
				hub.Close()
			}()
		}
		closes.Wait()
		calls.Wait()
	}
}

// A process that is started while its hub is closed exits again, so that the calls that wait end.
func TestCloseWhileProcessesAreStarted(t *testing.T) {
	for round := 0; round < 200; round++ {
		hub, err := chanhub.Open(chanhub.Edition3, 3, 1_000_000)
		told(t, "open", err, nil)
		ended := make(chan error)
		go func() {
			_, err := hub.Seat(2).Recv(0)
			ended <- err
		}()
		go func() {
			err := error(nil)
			for err == nil {
				hub.Seat(1).Exit()
				err = hub.Seat(0).Start(1)
			}
			ended <- err
		}()
		time.Sleep(time.Duration(round) * 10 * time.Microsecond)
		told(t, "close", hub.Close(), nil)
		for i := 0; i < 2; i++ {
			told(t, "a call", <-ended, chanhub.ErrHubClosed)
		}
	}
}

// resident is how many bytes of memory the program has.
func resident(t *testing.T) int {
	t.Helper()
	statm, err := os.ReadFile("/proc/self/statm")
	if err != nil {
		t.Fatal(err)
	}
	pages, err := strconv.Atoi(strings.Fields(string(statm))[1])
	if err != nil {
		t.Fatal(err)
	}
	return pages * os.Getpagesize()
}

func TestCloseGivesMemoryBack(t *testing.T) {
	const hubs, steps, leastBytesOfAStep = 1000, 1000, 50
	before := resident(t)
	for i := 0; i < hubs; i++ {
		hub, err := chanhub.Open(chanhub.Edition1, 1, steps)
		if err != nil {
			t.Fatal(err)
		}
		for step := 0; step < steps; step++ {
			if _, _, err := hub.Seat(0).TrySelect(0); err != nil {
				t.Fatal(err)
			}
		}
		hub.Close()
	}
	if more := resident(t) - before; more > hubs*steps*leastBytesOfAStep/2 {
		t.Errorf("%d bytes more than before", more)
	}
}
