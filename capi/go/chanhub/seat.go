package chanhub

/*
#include <chanhub.h>

// Calls with the hub as a number, since cgo looks closer at each pointer, and allocates for that.

static chanhub_told send_to(uintptr_t hub, unsigned pid, unsigned port, chanhub_value value) {
	return chanhub_send((chanhub *)hub, pid, port, value);
}

static chanhub_told recv_from(uintptr_t hub, unsigned pid, unsigned port) {
	return chanhub_recv((chanhub *)hub, pid, port);
}

static chanhub_told select_of(uintptr_t hub, unsigned pid, const chanhub_case *cases, size_t count, bool has_default, uint64_t word) {
	return chanhub_select((chanhub *)hub, pid, cases, count, has_default, word);
}

static chanhub_told try_one(uintptr_t hub, unsigned pid, chanhub_case one) {
	return chanhub_select((chanhub *)hub, pid, &one, 1, true, 0);
}
*/
import "C"

// A Seat is a handle to a process of a hub. Only one goroutine at a time may call through it; several may take turns. While a
// call of the process waits, any other call of the process returns [FaultBusy]. Two seats with the same number are handles to the
// same process.
type Seat struct {
	hub *Hub
	pid int
}

// Pid returns the number of the process.
func (s *Seat) Pid() int {
	return s.pid
}

// Make makes a channel that buffers up to capacity values, and returns its port. The capacity is from 0 to 1,024. With capacity 0,
// each send waits for a receive.
func (s *Seat) Make(capacity int) (Port, error) {
	if err := s.hub.enter(s.pid); err != nil {
		return 0, err
	}
	told := answer(C.chanhub_make(s.hub.at, within(s.pid), C.uint32_t(within(capacity))))
	return Port(told.port), s.end(&told)
}

// Send sends a value on a port. It waits until a receiver takes the value or the buffer has room for it. It returns [ErrClosed] if
// the port is closed.
func (s *Seat) Send(port Port, value Value) error {
	if err := s.hub.enter(s.pid); err != nil {
		return err
	}
	told := answer(C.send_to(s.hub.number(), within(s.pid), C.uint(port), value.raw))
	return s.end(&told)
}

// Recv receives a value from a port. It waits until there is one. It returns [ErrDrained] if the port is closed and empty.
func (s *Seat) Recv(port Port) (Value, error) {
	if err := s.hub.enter(s.pid); err != nil {
		return Value{}, err
	}
	told := answer(C.recv_from(s.hub.number(), within(s.pid), C.uint(port)))
	return s.endOfRecv(&told)
}

// A Case is a case of a select. [SendCase] and [RecvCase] return one.
type Case struct {
	raw C.chanhub_case
}

// SendCase returns a case that sends a value on a port.
func SendCase(port Port, value Value) Case {
	return Case{C.chanhub_case{sends: true, port: C.uint16_t(port), value: value.raw}}
}

// RecvCase returns a case that receives a value from a port.
func RecvCase(port Port) Case {
	return Case{C.chanhub_case{port: C.uint16_t(port)}}
}

// Select fires one of the cases that can proceed, or waits until one can. If k cases can proceed, the one with index word % k among
// them fires. Word 0 always picks the first.
//
// For a fair choice, pass a random word, such as that of [math/rand.Uint64]. Before Go 1.20, that function returns the same numbers
// in every run unless the program calls [math/rand.Seed].
//
// Select returns the index of the case that fired and, for a receive, the value. If err is [ErrClosed] or [ErrDrained], index is
// that of the case that failed; with any other error, index is -1.
func (s *Seat) Select(word uint64, cases ...Case) (index int, value Value, err error) {
	return s.selectOf(false, word, cases)
}

// TrySelect is like [Seat.Select] with a default: it never waits. If no case can proceed, it returns index -1 and a nil error.
func (s *Seat) TrySelect(word uint64, cases ...Case) (index int, value Value, err error) {
	return s.selectOf(true, word, cases)
}

func (s *Seat) selectOf(hasDefault bool, word uint64, cases []Case) (int, Value, error) {
	if err := s.hub.enter(s.pid); err != nil {
		return -1, Value{}, err
	}
	first, count := raw(cases)
	told := answer(C.select_of(s.hub.number(), within(s.pid), first, count, C.bool(hasDefault), C.uint64_t(word)))
	value, err := s.endOfRecv(&told)
	return told.caseIndex(), value, err
}

// try fires this case only if that needs no wait, and reports whether it did.
func (s *Seat) try(c Case) (value Value, fired bool, err error) {
	if err := s.hub.enter(s.pid); err != nil {
		return Value{}, false, err
	}
	told := answer(C.try_one(s.hub.number(), within(s.pid), c.raw))
	value, err = s.endOfRecv(&told)
	return value, err == nil && told.what != C.CHANHUB_DEFAULT, err
}

// raw returns the cases as the library takes them.
func raw(cases []Case) (first *C.chanhub_case, count C.size_t) {
	if len(cases) > 0 {
		first = &cases[0].raw
	}
	return first, C.size_t(len(cases))
}

// Close closes a port. Waiting sends return [ErrClosed], and waiting receives return [ErrDrained]. Close returns
// [FaultAlreadyClosed] if the port is closed already, and [FaultNilClose] for port 0.
func (s *Seat) Close(port Port) error {
	if err := s.hub.enter(s.pid); err != nil {
		return err
	}
	told := answer(C.chanhub_close(s.hub.at, within(s.pid), C.uint(port)))
	return s.end(&told)
}

// Reopen opens a port again that is closed and empty, with a buffer for up to capacity values, from 0 to 1,024. It returns [FaultInUse]
// if the port is open or holds a value. The port keeps its number, so nobody should still use it for what it was. Reopen requires
// [Edition3].
func (s *Seat) Reopen(port Port, capacity int) error {
	if err := s.hub.enter(s.pid); err != nil {
		return err
	}
	told := answer(C.chanhub_reopen(s.hub.at, within(s.pid), C.uint(port), C.uint32_t(within(capacity))))
	return s.end(&told)
}

// Exit ends the process. Later calls of the process return [FaultGone], unless it is started again. Once a process has exited, a deadlock
// among the others can be reported.
func (s *Seat) Exit() error {
	if err := s.hub.enter(s.pid); err != nil {
		return err
	}
	told := answer(C.chanhub_exit(s.hub.at, within(s.pid)))
	return s.end(&told)
}

// Start starts another process again, which has exited. It returns [FaultNotGone] if that process has not exited or does not exist. Start
// requires [Edition3].
//
// Then each seat of that process can call again, whether it is from before or [Hub.Seat] returns it now. Start a process before the
// goroutine that is to call as it. If there is no such goroutine in the end, call [Seat.Exit] for the process, as with [Open].
func (s *Seat) Start(other int) error {
	// It counts as a call of the other process too: if the hub is closed meanwhile, that one has to exit after it.
	if err := s.hub.enter(other); err != nil {
		return err
	}
	defer s.hub.leave(other)
	if err := s.hub.enter(s.pid); err != nil {
		return err
	}
	told := answer(C.chanhub_start(s.hub.at, within(s.pid), within(other)))
	return s.end(&told)
}

// Cancel ends the waiting call of another process, which then returns [ErrCancelled]. Cancel returns [FaultNotParked] if that
// process has no waiting call. It requires [Edition2] or [Edition3].
func (s *Seat) Cancel(other int) error {
	if err := s.hub.enter(s.pid); err != nil {
		return err
	}
	told := answer(C.chanhub_cancel(s.hub.at, within(s.pid), within(other)))
	return s.end(&told)
}

// end ends a call of the process that entered the library, and returns the error that it was told, if any.
func (s *Seat) end(told *answer) error {
	err := told.err()
	if told.fault == C.CHANHUB_DIVERGED {
		err = DivergedError{Step: uint64(told.value.number), Text: s.hub.divergence()}
	}
	if s.hub.leave(s.pid) && told.isOfClose() {
		return ErrHubClosed
	}
	return err
}

// endOfRecv ends a call like end, and returns the value that it received, if any.
func (s *Seat) endOfRecv(told *answer) (Value, error) {
	if err := s.end(told); err != nil {
		return Value{}, err
	}
	return Value{told.value}, nil
}
