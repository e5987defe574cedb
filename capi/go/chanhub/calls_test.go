package chanhub_test

import (
	"errors"
	"math"
	"strings"
	"testing"
	"time"

	"chanhub/chanhub"
)

// open opens a hub that is closed with the test.
func open(t *testing.T, edition chanhub.Edition, procs, limit int) *chanhub.Hub {
	t.Helper()
	hub, err := chanhub.Open(edition, procs, limit)
	if err != nil {
		t.Fatal(err)
	}
	t.Cleanup(func() { hub.Close() })
	return hub
}

// makePort makes a channel.
func makePort(t *testing.T, seat *chanhub.Seat, capacity int) chanhub.Port {
	t.Helper()
	port, err := seat.Make(capacity)
	if err != nil {
		t.Fatal(err)
	}
	return port
}

// told fails the test unless err is wanted.
func told(t *testing.T, name string, err, wanted error) {
	t.Helper()
	if !errors.Is(err, wanted) {
		t.Errorf("%s: told %v, not %v", name, err, wanted)
	}
}

// bytesOf returns the bytes of this text as a value.
func bytesOf(t *testing.T, text string) chanhub.Value {
	t.Helper()
	value, err := chanhub.Bytes([]byte(text))
	if err != nil {
		t.Fatal(err)
	}
	return value
}

// untilItStands waits until the journal has this line, so that its step has been made.
func untilItStands(t *testing.T, hub *chanhub.Hub, line string) {
	t.Helper()
	for {
		journal, err := hub.Journal()
		if err != nil {
			t.Fatal(err)
		}
		if strings.Contains(string(journal), "\n"+line+"\n") {
			return
		}
		time.Sleep(time.Millisecond)
	}
}

func TestValuesComeInOrder(t *testing.T) {
	hub := open(t, chanhub.Edition2, 1, 100)
	seat := hub.Seat(0)
	port := makePort(t, seat, 3)
	if port != 1 {
		t.Errorf("port %d", port)
	}
	sent := []chanhub.Value{chanhub.Number(math.MaxUint64), bytesOf(t, "seven"), bytesOf(t, "")}
	for _, value := range sent {
		told(t, "send", seat.Send(port, value), nil)
	}
	if counts, err := hub.Look(port); err != nil || counts != (chanhub.Counts{Capacity: 3, Sent: 3}) {
		t.Errorf("looked: %+v, %v", counts, err)
	}
	told(t, "close", seat.Close(port), nil)
	for _, wanted := range sent {
		if value, err := seat.Recv(port); err != nil || value != wanted {
			t.Errorf("received %v, %v, and not %v", value, err, wanted)
		}
	}
	if counts, err := hub.Look(port); err != nil || counts != (chanhub.Counts{Capacity: 3, Sent: 3, Received: 3, Closed: true}) {
		t.Errorf("looked: %+v, %v", counts, err)
	}
	_, err := seat.Recv(port)
	told(t, "receive of a drained port", err, chanhub.ErrDrained)
	told(t, "send on a closed port", seat.Send(port, sent[0]), chanhub.ErrClosed)
	journal, err := hub.Journal()
	told(t, "journal", err, nil)
	wanted := "chanhub journal 2\nprocs 1\n0 make 3\n0 send 1 18446744073709551615\n0 send 1 #736576656e\n0 send 1 #\n" +
		"0 close 1\n0 recv 1\n0 recv 1\n0 recv 1\n0 recv 1\n0 send 1 18446744073709551615\n"
	if string(journal) != wanted {
		t.Errorf("journal %q", journal)
	}
}

func TestAValueIsHandedOver(t *testing.T) {
	hub := open(t, chanhub.Edition1, 2, 100)
	port := makePort(t, hub.Seat(0), 0)
	sent := make(chan error)
	go func() { sent <- hub.Seat(0).Send(port, chanhub.Number(7)) }()
	if value, err := hub.Seat(1).Recv(port); err != nil || value != chanhub.Number(7) {
		t.Errorf("received %v, %v", value, err)
	}
	told(t, "send", <-sent, nil)
}

func TestSelectTellsItsCase(t *testing.T) {
	seat := open(t, chanhub.Edition1, 1, 100).Seat(0)
	port, closed := makePort(t, seat, 1), makePort(t, seat, 0)
	told(t, "close", seat.Close(closed), nil)
	never, send, recv := chanhub.RecvCase(0), chanhub.SendCase(port, chanhub.Number(5)), chanhub.RecvCase(port)
	none := chanhub.Value{}
	for _, row := range []struct {
		name  string
		try   bool
		word  uint64
		cases []chanhub.Case
		index int
		value chanhub.Value
		err   error
	}{
		{"nothing can proceed", true, 0, []chanhub.Case{recv}, -1, none, nil},
		{"no cases", true, 0, nil, -1, none, nil},
		{"a send", false, 0, []chanhub.Case{recv, send}, 1, none, nil},
		{"a receive", false, 0, []chanhub.Case{never, send, recv}, 2, chanhub.Number(5), nil},
		{"the first of two", true, 4, []chanhub.Case{send, chanhub.RecvCase(closed)}, 0, none, nil},
		{"the second of two", true, 3, []chanhub.Case{recv, chanhub.RecvCase(closed)}, 1, none, chanhub.ErrDrained},
		{"a send on a closed port", false, 0, []chanhub.Case{never, chanhub.SendCase(closed, none)}, 1, none, chanhub.ErrClosed},
		{"a stall", false, 0, []chanhub.Case{never}, -1, none, chanhub.ErrStalled},
		{"nine cases", true, 0, make([]chanhub.Case, 9), -1, none, chanhub.FaultTooManyCases},
		{"seventeen cases", true, 0, make([]chanhub.Case, 17), -1, none, chanhub.FaultBadCall},
	} {
		choose := seat.Select
		if row.try {
			choose = seat.TrySelect
		}
		index, value, err := choose(row.word, row.cases...)
		if index != row.index || value != row.value || !errors.Is(err, row.err) {
			t.Errorf("%s: case %d, %v, %v", row.name, index, value, err)
		}
	}
}

func TestOpeningsAreRefused(t *testing.T) {
	for _, row := range []struct {
		edition      chanhub.Edition
		procs, limit int
		err          error
	}{
		{1, 0, 1, chanhub.ErrProcs},
		{1, 65, 1, chanhub.ErrProcs},
		{1, -1, 1, chanhub.ErrProcs},
		{1, 256 + 1, 1, chanhub.ErrProcs},
		{1, 1<<32 + 1, 1, chanhub.ErrProcs},
		{2, 1, 0, chanhub.ErrLimit},
		{2, 1, 1_000_001, chanhub.ErrLimit},
		{2, 1, -1, chanhub.ErrLimit},
		{2, 1, 1<<32 + 1, chanhub.ErrLimit},
		{0, 1, 1, chanhub.ErrEdition},
		{4, 1, 1, chanhub.ErrEdition},
		{-1, 1, 1, chanhub.ErrEdition},
		{1<<32 + 1, 1, 1, chanhub.ErrEdition},
	} {
		hub, err := chanhub.Open(row.edition, row.procs, row.limit)
		if hub != nil || !errors.Is(err, row.err) {
			t.Errorf("%+v: %v", row, err)
		}
	}
}

func TestFaults(t *testing.T) {
	one := open(t, chanhub.Edition1, 1, 1_000)
	two := open(t, chanhub.Edition2, 2, 1_000)
	full := open(t, chanhub.Edition1, 1, 1)
	makePort(t, full.Seat(0), 0)
	first, seat := one.Seat(0), two.Seat(0)
	port := makePort(t, seat, 1)
	told(t, "close", seat.Close(port), nil)
	told(t, "exit", two.Seat(1).Exit(), nil)
	for _, row := range []struct {
		name   string
		err    error
		wanted chanhub.Fault
	}{
		{"no such process", two.Seat(2).Send(port, chanhub.Number(1)), chanhub.FaultNoProcess},
		{"an exited process", two.Seat(1).Send(port, chanhub.Number(1)), chanhub.FaultGone},
		{"a second exit", two.Seat(1).Exit(), chanhub.FaultGone},
		{"no such port", seat.Send(port+1, chanhub.Number(1)), chanhub.FaultNoPort},
		{"a close of port 0", seat.Close(0), chanhub.FaultNilClose},
		{"a second close", seat.Close(port), chanhub.FaultAlreadyClosed},
		{"a full journal", full.Seat(0).Close(1), chanhub.FaultJournalFull},
		{"a cancel of a call that does not wait", seat.Cancel(0), chanhub.FaultNotParked},
		{"a cancel in edition 1", first.Cancel(0), chanhub.FaultBadCall},
		{"a start in edition 2", seat.Start(1), chanhub.FaultBadCall},
		{"a reopen in edition 2", seat.Reopen(port, 1), chanhub.FaultBadCall},
		{"bytes in edition 1", first.Send(0, bytesOf(t, "seven")), chanhub.FaultBadCall},
		{"a negative process", two.Seat(-1).Exit(), chanhub.FaultBadCall},
		{"a process that C would cut to 0", two.Seat(1 << 32).Exit(), chanhub.FaultBadCall},
	} {
		told(t, row.name, row.err, row.wanted)
	}
	for _, capacity := range []int{-1, 1_025, 1 << 32} {
		_, err := seat.Make(capacity)
		told(t, "a capacity", err, chanhub.FaultBadCap)
	}
	_, err := two.Look(port + 1)
	told(t, "a look at no port", err, chanhub.FaultNoPort)
	for i := 2; i <= 64; i++ {
		makePort(t, seat, 0)
	}
	_, err = seat.Make(0)
	told(t, "a 65th port", err, chanhub.FaultTooManyPorts)
}

func TestStepsLeft(t *testing.T) {
	are := func(name string, hub *chanhub.Hub, wanted uint64) {
		t.Helper()
		if left := hub.StepsLeft(); left != wanted {
			t.Errorf("%s: %d are left", name, left)
		}
	}
	hub := open(t, chanhub.Edition1, 2, 2)
	are("open", hub, 2)
	port := makePort(t, hub.Seat(0), 0)
	told(t, "exit", hub.Seat(1).Exit(), nil)
	are("a step and an exit", hub, 1)
	told(t, "close", hub.Seat(0).Close(port), nil)
	are("full", hub, 0)
	told(t, "full", hub.Seat(0).Close(port), chanhub.FaultJournalFull)
	endless := openEndless(t, 1, 1, chanhub.Chapters{})
	are("endless", endless, math.MaxUint64)
	told(t, "close", endless.Close(), nil)
	are("closed", endless, 0)
}

func TestASecondCallWhileOneWaitsIsBusy(t *testing.T) {
	hub := open(t, chanhub.Edition1, 2, 100)
	port := makePort(t, hub.Seat(0), 0)
	received := make(chan chanhub.Value)
	go func() {
		value, _ := hub.Seat(1).Recv(port)
		received <- value
	}()
	untilItStands(t, hub, "1 recv 1")
	told(t, "a second call", hub.Seat(1).Send(port, chanhub.Number(8)), chanhub.FaultBusy)
	told(t, "send", hub.Seat(0).Send(port, chanhub.Number(7)), nil)
	if value := <-received; value != chanhub.Number(7) {
		t.Errorf("received %v", value)
	}
}

func TestEverybodyWhoWaitsIsToldOfAStall(t *testing.T) {
	hub := open(t, chanhub.Edition1, 3, 100)
	port := makePort(t, hub.Seat(0), 0)
	stalled := make(chan error)
	go func() { stalled <- hub.Seat(0).Send(port, chanhub.Number(1)) }()
	go func() {
		_, _, err := hub.Seat(1).Select(0, chanhub.RecvCase(0))
		stalled <- err
	}()
	told(t, "exit", hub.Seat(2).Exit(), nil)
	told(t, "the first", <-stalled, chanhub.ErrStalled)
	told(t, "the second", <-stalled, chanhub.ErrStalled)
}

func TestACallThatWaitsIsCancelled(t *testing.T) {
	hub := open(t, chanhub.Edition2, 2, 100)
	port := makePort(t, hub.Seat(0), 0)
	cancelled := make(chan error)
	go func() {
		_, err := hub.Seat(1).Recv(port)
		cancelled <- err
	}()
	untilItStands(t, hub, "1 recv 1")
	told(t, "cancel", hub.Seat(0).Cancel(1), nil)
	told(t, "receive", <-cancelled, chanhub.ErrCancelled)
}

func TestAProcessThatHasExitedIsStartedAgain(t *testing.T) {
	hub := open(t, chanhub.Edition3, 2, 100)
	boss, worker := hub.Seat(0), hub.Seat(1)
	port := makePort(t, boss, 2)
	for _, other := range []int{1, 0, 2} {
		told(t, "a start", boss.Start(other), chanhub.FaultNotGone)
	}
	for _, other := range []int{-1, 256, 1<<32 + 1} {
		told(t, "a start of what no process can be", boss.Start(other), chanhub.FaultBadCall)
	}
	told(t, "exit", worker.Exit(), nil)
	told(t, "send", worker.Send(port, chanhub.Number(1)), chanhub.FaultGone)
	told(t, "start", boss.Start(1), nil)
	told(t, "send", worker.Send(port, chanhub.Number(1)), nil)
	told(t, "send of another seat", hub.Seat(1).Send(port, chanhub.Number(2)), nil)
	told(t, "exit", hub.Seat(1).Exit(), nil)
	for number := uint64(1); number <= 2; number++ {
		if value, err := boss.Recv(port); err != nil || value != chanhub.Number(number) {
			t.Errorf("received %v, %v", value, err)
		}
	}
	_, err := boss.Recv(port)
	told(t, "receive", err, chanhub.ErrStalled)
	journal, _ := hub.Journal()
	wanted := "chanhub journal 3\nprocs 2\n0 make 2\n0 start 1\n0 start 0\n0 start 2\n1 exit\n0 start 1\n1 send 1 1\n1 send 1 2\n1 exit\n" +
		"0 recv 1\n0 recv 1\n0 recv 1\n"
	if string(journal) != wanted {
		t.Errorf("journal %q", journal)
	}
}

func TestAClosedPortIsOpenedAgain(t *testing.T) {
	hub := open(t, chanhub.Edition3, 1, 100)
	seat := hub.Seat(0)
	port := makePort(t, seat, 1)
	told(t, "reopen of an open port", seat.Reopen(port, 2), chanhub.FaultInUse)
	told(t, "send", seat.Send(port, chanhub.Number(1)), nil)
	told(t, "close", seat.Close(port), nil)
	told(t, "reopen of a port with a value", seat.Reopen(port, 2), chanhub.FaultInUse)
	_, err := seat.Recv(port)
	told(t, "receive", err, nil)
	_, err = seat.Recv(port)
	told(t, "receive", err, chanhub.ErrDrained)
	for _, capacity := range []int{-1, 1_025, 1 << 32} {
		told(t, "a capacity", seat.Reopen(port, capacity), chanhub.FaultBadCap)
	}
	told(t, "reopen of no port", seat.Reopen(port+1, 0), chanhub.FaultNoPort)
	told(t, "reopen of port 0", seat.Reopen(0, 0), chanhub.FaultNilClose)
	told(t, "reopen", seat.Reopen(port, 2), nil)
	for number := uint64(2); number <= 3; number++ {
		told(t, "send", seat.Send(port, chanhub.Number(number)), nil)
	}
	if counts, err := hub.Look(port); err != nil || counts != (chanhub.Counts{Capacity: 2, Sent: 3, Received: 1}) {
		t.Errorf("looked: %+v, %v", counts, err)
	}
	if value, err := seat.Recv(port); err != nil || value != chanhub.Number(2) {
		t.Errorf("received %v, %v", value, err)
	}
}

func TestDrainTellsItsEnd(t *testing.T) {
	hub := open(t, chanhub.Edition1, 1, 7)
	seat := hub.Seat(0)
	port := makePort(t, seat, 1)
	told(t, "send", seat.Send(port, chanhub.Number(7)), nil)
	drain := func(wanted error) {
		t.Helper()
		values := seat.Drain(port)
		for values.Next() {
			if values.Value() != chanhub.Number(7) {
				t.Errorf("received %v", values.Value())
			}
		}
		if values.Next() || values.Next() {
			t.Error("it goes on after its end")
		}
		told(t, "drain", values.Err(), wanted)
	}
	drain(chanhub.ErrStalled)
	told(t, "send", seat.Send(port, chanhub.Number(7)), nil)
	told(t, "close", seat.Close(port), nil)
	drain(chanhub.FaultJournalFull)
	journal, _ := hub.Journal()
	wanted := "chanhub journal 1\nprocs 1\n0 make 1\n0 send 1 7\n0 recv 1\n0 recv 1\n0 send 1 7\n0 close 1\n0 recv 1\n"
	if string(journal) != wanted {
		t.Errorf("journal %q", journal)
	}
	other := open(t, chanhub.Edition1, 1, 100).Seat(0)
	closed := makePort(t, other, 2)
	told(t, "send", other.Send(closed, chanhub.Number(7)), nil)
	told(t, "close", other.Close(closed), nil)
	values := other.Drain(closed)
	if !values.Next() || values.Value() != chanhub.Number(7) || values.Next() || values.Err() != nil {
		t.Errorf("a drained port: %v, %v", values.Value(), values.Err())
	}
}

func TestManyGoroutinesPassValues(t *testing.T) {
	const pairs, values = 31, 500
	hub := open(t, chanhub.Edition1, 2*pairs+1, 100_000)
	boss := hub.Seat(2 * pairs)
	port := makePort(t, boss, 3)
	sent, received := make(chan error, pairs), make(chan error, pairs)
	sums := make(chan uint64, pairs)
	for pid := 0; pid < pairs; pid++ {
		sender, receiver := hub.Seat(pid), hub.Seat(pairs+pid)
		go func() {
			defer sender.Exit()
			for number := uint64(1); number <= values; number++ {
				if err := sender.Send(port, chanhub.Number(number)); err != nil {
					sent <- err
					return
				}
			}
			sent <- nil
		}()
		go func() {
			defer receiver.Exit()
			sum := uint64(0)
			drain := receiver.Drain(port)
			for drain.Next() {
				number, _ := drain.Value().Number()
				sum += number
			}
			sums <- sum
			received <- drain.Err()
		}()
	}
	for i := 0; i < pairs; i++ {
		told(t, "a sender", <-sent, nil)
	}
	told(t, "close", boss.Close(port), nil)
	sum := uint64(0)
	for i := 0; i < pairs; i++ {
		sum += <-sums
		told(t, "a receiver", <-received, nil)
	}
	if wanted := uint64(pairs * values * (values + 1) / 2); sum != wanted {
		t.Errorf("received %d, and not %d", sum, wanted)
	}
}
