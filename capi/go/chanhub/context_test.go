package chanhub_test

import (
	"context"
	"errors"
	"math"
	"math/rand"
	"runtime"
	"strings"
	"sync"
	"testing"
	"time"

	"chanhub/chanhub"
)

const long = 2 * time.Minute // what takes longer is taken to hang

// timed opens a hub whose calls take contexts.
func timed(t *testing.T, procs int) *chanhub.Hub {
	t.Helper()
	hub, err := chanhub.OpenWith(chanhub.Options{Procs: procs, Timeouts: true})
	if err != nil {
		t.Fatal(err)
	}
	t.Cleanup(func() { hub.Close() })
	return hub
}

func in(t *testing.T, duration time.Duration) context.Context {
	ctx, stop := context.WithTimeout(context.Background(), duration)
	t.Cleanup(stop)
	return ctx
}

func isError(t *testing.T, name string, found, wanted error) {
	t.Helper()
	if !errors.Is(found, wanted) {
		t.Errorf("%s: found %v, wanted %v", name, found, wanted)
	}
}

func TestContextsOfSeats(t *testing.T) {
	hub := timed(t, 1)
	seat := hub.Seat(0)
	port, err := seat.Make(1)
	isError(t, "make", err, nil)
	began := time.Now()
	_, err = seat.RecvContext(in(t, 20*time.Millisecond), port)
	isError(t, "receive", err, context.DeadlineExceeded)
	if time.Since(began) < 20*time.Millisecond {
		t.Error("too soon")
	}
	isError(t, "send", seat.SendContext(in(t, long), port, chanhub.Number(7)), nil)
	isError(t, "full", seat.SendContext(in(t, time.Millisecond), port, chanhub.Number(8)), context.DeadlineExceeded)
	value, err := seat.RecvContext(context.Background(), port)
	if number, _ := value.Number(); number != 7 || err != nil {
		t.Errorf("found %v, %v", value, err)
	}
	index, _, err := seat.SelectContext(in(t, time.Millisecond), 0, chanhub.RecvCase(port), chanhub.RecvCase(0))
	isError(t, "select", err, context.DeadlineExceeded)
	if index != -1 {
		t.Errorf("found %d", index)
	}
	index, _, err = seat.SelectContext(in(t, long), 0, chanhub.RecvCase(port), chanhub.SendCase(port, chanhub.Number(1)))
	if index != 1 || err != nil {
		t.Errorf("found %d, %v", index, err)
	}
	isError(t, "close", seat.Close(port), nil)
	isError(t, "closed", seat.SendContext(in(t, long), port, chanhub.Number(8)), chanhub.ErrClosed)
	_, err = seat.Recv(0)
	isError(t, "a deadlock", err, chanhub.ErrStalled)
	_, err = seat.RecvContext(context.Background(), 0)
	isError(t, "a deadlock without an end to the context", err, chanhub.ErrStalled)
}

// A context without a deadline can be cancelled. With one that is done, a call is made if it needs no wait.
func TestContextsThatAreCancelled(t *testing.T) {
	hub := timed(t, 1)
	seat := hub.Seat(0)
	ctx, cancel := context.WithCancel(context.Background())
	for round := 0; round < 100; round++ {
		time.AfterFunc(time.Duration(round%5)*100*time.Microsecond, cancel)
		_, err := seat.RecvContext(ctx, 0)
		isError(t, "receive", err, context.Canceled)
		ctx, cancel = context.WithCancel(context.Background())
	}
	before, _ := hub.Journal()
	cancel()
	port, err := seat.Make(1)
	isError(t, "make", err, nil)
	_, err = seat.RecvContext(ctx, port)
	isError(t, "receive", err, context.Canceled)
	isError(t, "send", seat.SendContext(ctx, port, chanhub.Number(7)), nil)
	isError(t, "full", seat.SendContext(ctx, port, chanhub.Number(8)), context.Canceled)
	after, _ := hub.Journal()
	wanted := "0 make 1\n0 select 0 r1 default\n0 select 0 s1:7 default\n0 select 0 s1:8 default\n"
	if string(after) != string(before)+wanted {
		t.Errorf("found %s", after[len(before):])
	}
}

func TestContextsOfChans(t *testing.T) {
	hub := timed(t, 2)
	ann, bob := hub.Seat(0), hub.Seat(1)
	c, err := chanhub.MakeChan[string](ann, 0)
	isError(t, "make", err, nil)
	_, err = c.RecvContext(in(t, time.Millisecond), ann)
	isError(t, "receive", err, context.DeadlineExceeded)
	isError(t, "send", c.SendContext(in(t, time.Millisecond), ann, "lost"), context.DeadlineExceeded)
	_, err = ann.SelectChanContext(in(t, time.Millisecond), c.SendCase("lost too"), c.RecvCase(nil))
	isError(t, "select", err, context.DeadlineExceeded)
	var sending sync.WaitGroup
	sending.Add(1)
	go func() {
		defer sending.Done()
		isError(t, "send", c.SendContext(in(t, long), bob, "sent"), nil)
		isError(t, "send", c.SendContext(in(t, long), bob, "sent too"), nil)
		isError(t, "exit", bob.Exit(), nil)
	}()
	if value, err := c.RecvContext(in(t, long), ann); value != "sent" || err != nil {
		t.Errorf("found %q, %v", value, err)
	}
	var value string
	if index, err := ann.SelectChanContext(in(t, long), c.RecvCase(&value)); index != 0 || value != "sent too" || err != nil {
		t.Errorf("found %d, %q, %v", index, value, err)
	}
	sending.Wait()
	if n := c.Len(); n != 0 {
		t.Errorf("%d are left", n)
	}
}

// Many contexts are done, by their deadlines or by hand, while values pass: each value is received once or is left, and no goroutine is.
func TestContextsUnderLoad(t *testing.T) {
	const procs = 8
	before := runtime.NumGoroutine()
	for capacity := 0; capacity < 3; capacity++ {
		hub := timed(t, procs)
		c := makeChan[int](t, hub.Seat(0), capacity)
		var passed [procs][]int // what each process sent or received
		var calling sync.WaitGroup
		for pid := range passed {
			calling.Add(1)
			go func(pid int) {
				defer calling.Done()
				seat, random := hub.Seat(pid), rand.New(rand.NewSource(int64(pid)))
				for i := 0; i < 200; i++ {
					value, err := 1000*pid+i, error(nil)
					ctx, stop := context.WithTimeout(context.Background(), time.Duration(random.Intn(1000))*time.Microsecond)
					if random.Intn(4) == 0 {
						time.AfterFunc(50*time.Microsecond, stop)
					}
					if pid%2 == 0 {
						err = c.SendContext(ctx, seat, value)
					} else {
						value, err = c.RecvContext(ctx, seat)
					}
					stop()
					if err == nil {
						passed[pid] = append(passed[pid], value)
					} else if !errors.Is(err, context.DeadlineExceeded) && !errors.Is(err, context.Canceled) {
						t.Errorf("found %v", err)
					}
				}
			}(pid)
		}
		calling.Wait()
		left := make(map[int]bool)
		for pid := 0; pid < procs; pid += 2 {
			for _, value := range passed[pid] {
				left[value] = true
			}
		}
		for pid := 1; pid < procs; pid += 2 {
			for _, value := range passed[pid] {
				if !left[value] {
					t.Errorf("received %d", value)
				}
				delete(left, value)
			}
		}
		if c.Len() != len(left) {
			t.Errorf("%d are left, and not %d", c.Len(), len(left))
		}
	}
	for began := time.Now(); runtime.NumGoroutine() > before; time.Sleep(time.Millisecond) {
		if time.Since(began) > long {
			t.Fatalf("%d goroutines, and %d before", runtime.NumGoroutine(), before)
		}
	}
}

// Close ends calls with contexts, whenever it comes.
func TestContextsOfAHubThatIsClosed(t *testing.T) {
	for round := 0; round < 50; round++ {
		hub := timed(t, 2)
		ended := make(chan error, 2)
		for pid := 0; pid < 2; pid++ {
			seat := hub.Seat(pid)
			go func() {
				_, err := seat.RecvContext(in(t, 10*long), 0)
				ended <- err
			}()
		}
		time.Sleep(time.Duration(round%10) * 20 * time.Microsecond)
		isError(t, "close", hub.Close(), nil)
		isError(t, "the hub is closed", <-ended, chanhub.ErrHubClosed)
		isError(t, "the hub is closed", <-ended, chanhub.ErrHubClosed)
	}
}

func TestOptions(t *testing.T) {
	for _, row := range []struct {
		name    string
		options chanhub.Options
		wanted  error
	}{
		{"no processes", chanhub.Options{}, chanhub.ErrProcs},
		{"no processes", chanhub.Options{Timeouts: true}, chanhub.ErrProcs},
		{"64 with timeouts", chanhub.Options{Procs: 64, Timeouts: true}, chanhub.ErrProcs},
		{"a negative number", chanhub.Options{Procs: -1, Timeouts: true}, chanhub.ErrProcs},
		{"63 with timeouts", chanhub.Options{Procs: 63, Timeouts: true}, nil},
		{"64", chanhub.Options{Procs: 64}, nil},
		{"edition 1 with timeouts", chanhub.Options{Procs: 1, Edition: chanhub.Edition1, Timeouts: true}, chanhub.ErrEdition},
		{"edition 1", chanhub.Options{Procs: 1, Edition: chanhub.Edition1}, nil},
		{"a great limit", chanhub.Options{Procs: 1, Limit: math.MaxInt32}, chanhub.ErrLimit},
		{"a great keep", chanhub.Options{Procs: 1, Keep: math.MaxInt32}, chanhub.ErrKeep},
		{"both", chanhub.Options{Procs: 1, Limit: 5, Keep: 5}, chanhub.ErrKeep},
		{"chapters without keep", chanhub.Options{Procs: 1, Chapters: chanhub.Chapters{Func: func([]byte) {}}}, chanhub.ErrKeep},
		{"a bad name", chanhub.Options{Procs: 1, Keep: 5, Chapters: chanhub.Chapters{Files: "\x00"}}, chanhub.ErrFiles},
	} {
		hub, err := chanhub.OpenWith(row.options)
		isError(t, row.name, err, row.wanted)
		if (hub == nil) != (err != nil) {
			t.Errorf("%s: %v and %v", row.name, hub, err)
		}
		if hub != nil {
			isError(t, row.name, hub.Close(), nil)
		}
	}
}

func TestContextsNeedTimeouts(t *testing.T) {
	hub, err := chanhub.Open(chanhub.Edition2, 1, 100)
	isError(t, "open", err, nil)
	defer hub.Close()
	_, err = hub.Seat(0).RecvContext(in(t, long), 0)
	isError(t, "receive", err, chanhub.FaultBadCall)
	_, err = hub.Seat(0).RecvContext(context.Background(), 0)
	isError(t, "receive", err, chanhub.FaultBadCall)
}

// A hub that never ends, whose chapters have the clock's steps.
func TestContextsAcrossChapters(t *testing.T) {
	var texts []string
	chapters := chanhub.Chapters{Func: func(text []byte) { texts = append(texts, string(text)) }}
	hub, err := chanhub.OpenWith(chanhub.Options{Procs: 2, Keep: 10, Chapters: chapters, Timeouts: true})
	isError(t, "open", err, nil)
	var calling sync.WaitGroup
	for pid := 0; pid < 2; pid++ {
		seat := hub.Seat(pid)
		calling.Add(1)
		go func() {
			defer calling.Done()
			for i := 0; i < 50; i++ {
				_, err := seat.RecvContext(in(t, 200*time.Microsecond), 0)
				isError(t, "receive", err, context.DeadlineExceeded)
			}
		}()
	}
	calling.Wait()
	isError(t, "close", hub.Close(), nil)
	if len(texts) < 10 || !strings.HasSuffix(texts[len(texts)-1], "2 exit\n") {
		t.Errorf("%d chapters, the last of which is %q", len(texts), texts[len(texts)-1])
	}
}
