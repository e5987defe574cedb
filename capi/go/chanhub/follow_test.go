package chanhub_test

import (
	"context"
	"errors"
	"fmt"
	"strings"
	"sync"
	"testing"
	"time"

	"chanhub/chanhub"
)

const followed = "chanhub journal 2\nprocs 2\n0 make 0\n1 recv 1\n0 send 1 9\n0 close 1\n"

func follow(t *testing.T, journal []byte, goesOn bool) *chanhub.Hub {
	t.Helper()
	hub, err := chanhub.Follow(journal, goesOn)
	if err != nil {
		t.Fatal(err)
	}
	t.Cleanup(func() { hub.Close() })
	return hub
}

func diverges(t *testing.T, name string, err error, step uint64, text string) {
	t.Helper()
	var diverged chanhub.DivergedError
	if !errors.As(err, &diverged) || diverged.Step != step || !strings.HasSuffix(err.Error(), ": "+text) {
		t.Errorf("%s: found %v, wanted %s", name, err, text)
	}
}

// What the five processes of a run share: a channel of capacity 1, another of 0, and how long the longest context lasts.
type shared struct {
	a, b    *chanhub.Chan[sentBy]
	longest time.Duration
}

// What one process of a run does. It returns what it was told. Process 0 receives until the others have exited, so that it stalls.
type act func(s *shared, seat *chanhub.Seat) (told []any)

func sending(s *shared, seat *chanhub.Seat) (told []any) {
	if seat.Pid() == 0 {
		return append(told, s.a.Range(seat, func(value sentBy) bool {
			told = append(told, value)
			return true
		}))
	}
	for i := 0; i < 20; i++ {
		told = append(told, s.a.Send(seat, sentBy{seat.Pid(), i}))
	}
	return told
}

func selecting(s *shared, seat *chanhub.Seat) (told []any) {
	var value sentBy
	var index int
	var err error
	for i := 0; err == nil && (i < 20 || seat.Pid() == 0); i++ {
		own := sentBy{seat.Pid(), i}
		switch seat.Pid() {
		case 0:
			index, err = seat.SelectChan(s.a.RecvCase(&value), s.b.RecvCase(&value))
		case 1, 2:
			index, err = seat.SelectChan(s.a.SendCase(own), s.b.SendCase(own))
		default:
			index, err = seat.TrySelectChan(s.a.RecvCase(&value), s.b.SendCase(own), s.a.SendCase(own))
		}
		told = append(told, index, value, err)
	}
	return told
}

func trying(s *shared, seat *chanhub.Seat) (told []any) {
	if seat.Pid() == 0 {
		return sending(s, seat)
	}
	for i := 0; i < 20; i++ {
		var value sentBy
		var fired bool
		var err error
		if (seat.Pid()+i)%2 == 0 {
			fired, err = s.a.TrySend(seat, sentBy{seat.Pid(), i})
		} else {
			value, fired, err = s.a.TryRecv(seat)
		}
		told = append(told, value, fired, err)
	}
	return told
}

func many(s *shared, seat *chanhub.Seat) (told []any) {
	room := make([]sentBy, 3)
	var count int
	var err error
	for i := 0; err == nil && (i < 8 || seat.Pid() == 0); i++ {
		ctx, stop := context.WithTimeout(context.Background(), s.longest*time.Duration((i+seat.Pid())%4)/4)
		own := []sentBy{{seat.Pid(), i}, {seat.Pid(), -i}}
		received := room[:0]
		switch seat.Pid() {
		case 0:
			count, err = s.a.RecvUpTo(seat, room)
			received = room[:count]
		case 1, 2:
			count, err = s.a.SendAll(seat, own)
		case 3:
			count, err = s.b.SendAllContext(ctx, seat, own)
		case 4:
			count, err = s.b.RecvUpToContext(ctx, seat, room)
			received = room[:count]
		}
		stop()
		told = append(told, count, fmt.Sprint(received), err)
		if errors.Is(err, context.DeadlineExceeded) {
			err = nil
		}
	}
	return told
}

func givingUp(s *shared, seat *chanhub.Seat) (told []any) {
	if seat.Pid() == 0 {
		return sending(s, seat)
	}
	for i := 0; i < 10; i++ {
		own := sentBy{seat.Pid(), i}
		var value sentBy
		var index int
		var err error
		ctx, stop := context.WithTimeout(context.Background(), s.longest*time.Duration((i+seat.Pid())%4)/4)
		switch seat.Pid() {
		case 1:
			err = s.b.SendContext(ctx, seat, own)
		case 2:
			value, err = s.b.RecvContext(ctx, seat)
		case 3:
			index, err = seat.SelectChanContext(ctx, s.b.SendCase(own), s.a.RecvCase(&value))
		case 4:
			index, err = seat.SelectChanContext(ctx, s.b.RecvCase(&value), s.a.SendCase(own))
		}
		stop()
		told = append(told, index, value, err)
	}
	return told
}

// made has five processes act in a hub, and returns what each was told, and the journal.
func made(t *testing.T, hub *chanhub.Hub, act act, longest time.Duration) (told [5]string, journal string) {
	t.Helper()
	defer hub.Close()
	boss := hub.Seat(0)
	s := &shared{makeChan[sentBy](t, boss, 1), makeChan[sentBy](t, boss, 0), longest}
	var group sync.WaitGroup
	for pid := range told {
		group.Add(1)
		go func(pid int) {
			defer group.Done()
			seat := hub.Seat(pid)
			told[pid] = fmt.Sprint(act(s, seat))
			isError(t, "exit", seat.Exit(), nil)
		}(pid)
	}
	group.Wait()
	text, err := hub.Journal()
	isError(t, "journal", err, nil)
	return told, string(text)
}

// Each run is made again, whatever its channels carry, and whenever its contexts are done.
func TestFollowedRuns(t *testing.T) {
	for name, act := range map[string]act{
		"four senders": sending, "selects": selecting, "tries": trying, "contexts": givingUp, "many at once": many,
	} {
		t.Run(name, func(t *testing.T) {
			gaveUp := 0
			for i := 0; i < 200; i++ {
				hub, err := chanhub.OpenWith(chanhub.Options{Procs: 5, Timeouts: name == "contexts" || name == "many at once"})
				isError(t, "open", err, nil)
				told, journal := made(t, hub, act, 400*time.Microsecond)
				if !strings.Contains(told[0], chanhub.ErrStalled.Error()) {
					t.Fatalf("run %d: told %v", i, told)
				}
				longest := []time.Duration{0, time.Hour}[i%2]
				if again, same := made(t, follow(t, []byte(journal), false), act, longest); told != again || journal != same {
					t.Fatalf("run %d: told %v, and again %v", i, told, again)
				}
				gaveUp += strings.Count(journal, "\n5 cancel ")
			}
			if name == "contexts" && gaveUp < 200 {
				t.Errorf("%d calls gave up after a wait", gaveUp)
			}
		})
	}
}

func TestDivergences(t *testing.T) {
	hub := follow(t, []byte(followed), false)
	zero, one := hub.Seat(0), hub.Seat(1)
	port, err := zero.Make(0)
	isError(t, "make", err, nil)
	waits := make(chan error)
	go func() {
		_, err := one.Recv(port)
		waits <- err
	}()
	const text = "P0 asked send 1 8, step 3 is 0 send 1 9"
	diverges(t, "another value", zero.Send(port, chanhub.Number(8)), 3, text)
	diverges(t, "a call that waits", <-waits, 3, text)
	diverges(t, "an exit", zero.Exit(), 3, text)

	hub = follow(t, []byte("chanhub journal 2\nprocs 1\n0 select 7 r1 s0:#00ff default\n"), false)
	_, _, err = hub.Seat(0).TrySelect(7, chanhub.RecvCase(2), chanhub.SendCase(0, bytesOf(t, "\x00\xff")))
	diverges(t, "another case", err, 1, "P0 asked select 7 r2 s0:#00ff default, step 1 is 0 select 7 r1 s0:#00ff default")

	hub = follow(t, []byte("chanhub journal 1\nprocs 1\n0 make 1\n"), false)
	_, err = hub.Seat(0).Make(1)
	isError(t, "make", err, nil)
	diverges(t, "behind the end", hub.Seat(0).Exit(), 2, "P0 asked exit, the journal ends with step 1")

	hub = follow(t, []byte("chanhub journal 1\nprocs 1\n0 make 1\n"), true)
	port, err = hub.Seat(0).Make(1)
	isError(t, "make", err, nil)
	isError(t, "goes on", hub.Seat(0).Send(port, chanhub.Number(1)), nil)
}

// A context that was cancelled, though it is not now; and contexts count once the hub goes on.
func TestContextsOfAFollowedHub(t *testing.T) {
	const journal = "chanhub journal 2\nprocs 2\n1 recv 0\n0 select 0 r0 default\n0 cancel 1\n0 recv 0\n1 cancel 0\n1 recv 0\n"
	hub := follow(t, []byte(journal), true)
	seat := hub.Seat(0)
	ctx, cancel := context.WithCancel(context.Background())
	_, err := seat.RecvContext(ctx, 0)
	isError(t, "cancelled", err, context.Canceled)
	_, err = seat.RecvContext(in(t, 5*time.Millisecond), 0)
	isError(t, "the deadline", err, context.DeadlineExceeded)
	time.AfterFunc(5*time.Millisecond, cancel)
	_, err = seat.RecvContext(ctx, 0)
	isError(t, "cancelled", err, context.Canceled)
	_, err = seat.Recv(0)
	isError(t, "a deadlock", err, chanhub.ErrStalled)
	_, err = hub.Seat(1).Recv(0)
	isError(t, "the clock is nobody's", err, chanhub.FaultNoProcess)
}

func TestCloseOfAFollowedHub(t *testing.T) {
	hub := follow(t, []byte(followed), false)
	waits := make(chan error)
	go func() {
		_, err := hub.Seat(1).Recv(1)
		waits <- err
	}()
	hub.Close()
	isError(t, "a call that waits for its turn", <-waits, chanhub.ErrHubClosed)

	for i := 0; i < 100; i++ {
		hub := follow(t, []byte(followed), false)
		ended := make(chan error)
		go func() { ended <- hub.Seat(0).Exit() }()
		hub.Close()
		if err := <-ended; !errors.Is(err, chanhub.ErrHubClosed) {
			diverges(t, "while it is closed", err, 1, "P0 asked exit, step 1 is 0 make 0")
		}
	}
}

func TestJournalsThatAreNotFollowed(t *testing.T) {
	for journal, wanted := range map[string]chanhub.JournalError{
		"":                                      {Line: 1, IsMalformed: true},
		"chanhub journal 2\nprocs 1\n0 exits\n": {Line: 3, IsMalformed: true},
		"chanhub journal 2\nprocs 1\n0 exit\n0 exit\n": {Line: 4},
	} {
		_, err := chanhub.Follow([]byte(journal), false)
		isError(t, journal, err, wanted)
	}
}
