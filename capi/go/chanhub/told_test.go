package chanhub

import (
	"context"
	"errors"
	"runtime"
	"testing"
	"time"
)

func TestACallThatIsLeftWaitingIsAnError(t *testing.T) {
	left := &answer{what: 8}
	if err := left.err(); !errors.Is(err, FaultBusy) {
		t.Errorf("told %v", err)
	}
	if index := left.caseIndex(); index != -1 {
		t.Errorf("case %d", index)
	}
}

// A context that is done right behind its call leaves the next call of the seat alone.
func TestAContextIsWatchedDuringItsCallAlone(t *testing.T) {
	defer runtime.GOMAXPROCS(runtime.GOMAXPROCS(1)) // so that what watches it does not begin before the next call waits
	hub, err := OpenWith(Options{Procs: 2, Timeouts: true})
	if err != nil {
		t.Fatal(err)
	}
	defer hub.Close()
	seat, sender := hub.Seat(0), hub.Seat(1)
	port, err := seat.Make(0)
	if err != nil {
		t.Fatal(err)
	}
	for i := 0; i < 30; i++ {
		before, cancel := context.WithCancel(context.Background())
		stop := seat.watch(before)
		stop()
		cancel()
		time.AfterFunc(time.Millisecond, func() { sender.Send(port, Number(7)) })
		next, cancel := context.WithTimeout(context.Background(), time.Minute)
		_, err := seat.RecvContext(next, port)
		cancel()
		if err != nil {
			t.Fatalf("call %d: %v", i, err)
		}
	}
}
