// Package chanhub provides channels like Go's, in a hub that reports deadlocks and keeps a journal of its steps.
//
// A hub has 1 to 64 processes. Each goroutine acts as one process, through its [Seat]. A call that has to wait blocks its
// goroutine and delays no other call.
//
// # Deadlocks
//
// If every process that has not exited is waiting, none of their calls can ever end. Each of these calls then returns
// [ErrStalled]. To see who waited for whom, write [Hub.Journal] to a file, and run tools/explain.sh on it in this repository. The
// picture shows processes and channels by number: [Seat.Pid] and [Port].
//
// A hub watches only its own processes, so it can report a deadlock while other goroutines of the program still run. Go's runtime
// reports a deadlock only if all goroutines are asleep, or all those of a testing/synctest bubble. Outside a bubble it reports none
// at all in a program that uses cgo, as this package does (tried with Go 1.19).
//
// No deadlock is reported while a process that has not exited is outside the hub, such as in I/O or in a call of [sync.Mutex.Lock]
// or [sync.WaitGroup.Wait]. Once it waits in a call or exits, deadlocks are reported again. Therefore call [Seat.Exit] after the
// last call of a process: before its goroutine returns, and before a wait that only other processes can end, such as that of a
// WaitGroup.
//
// If a program hangs, run it with CHANHUB_WATCH=60:hung.journal in its environment. If nothing moves in a hub for 60 seconds while a
// call waits there, the library writes its journal to that file. The picture shows the calls that still wait.
//
// # Deadlocks in tests
//
// A stall ends several calls at once. Each goroutine should handle the error before it calls [Seat.Exit], so that the stalled calls
// are the journal's last entries. The first goroutine saves the journal, and the others wait until it is saved. `once` is the test's
// [sync.Once], and `file` is a path with the test's name:
//
//	if errors.Is(err, chanhub.ErrStalled) {
//		once.Do(func() { journal, _ := hub.Journal(); os.WriteFile(file, journal, 0o666) })
//		t.Error("deadlock: run tools/explain.sh " + file)
//	}
//
// A deferred Exit runs after this code, and also after a panic. A stalled call had no effect. A process may call again, but if all
// repeat their calls, they stall again: let one of them back off, exit or close a port.
//
// # Memory order
//
// One lock orders all steps. What a goroutine wrote before a send or a close is visible to the goroutine that receives the value or
// learns of the close. What a goroutine wrote before it received a value from a port is visible to a goroutine whose later send
// needed the room that this receive made, whether or not that send had to wait. The race detector knows this order. But it takes all
// calls through cgo to be ordered, even those that pass no value to each other, so it can miss some races.
//
// # Values of any type
//
// A [Seat] sends and receives numbers or short byte strings, each a [Value]. A [Chan] carries values of any type instead.
//
// # Errors
//
// A call that fails returns [ErrClosed], [ErrDrained], [ErrStalled], [ErrCancelled] or [ErrHubClosed], the error of its context, a
// [DivergedError], or a [Fault] if the hub did not carry it out. Use [errors.Is] to test for a particular error, and [errors.As] to get a Fault.
//
// # Limits
//
// A hub of [Open] keeps its whole journal. It makes at most 1,000,000 steps, not counting exits, so it suits tests and finite runs.
// A hub of [OpenEndless] never ends. It keeps the newest steps, and the older ones go where its [Chapters] say.
//
// A hub has at most 64 ports, and a closed port still counts. In [Edition3] a process that has exited can be started again, and a closed
// port opened again.
//
// # Contexts
//
// A hub of [OpenWith] with [Options].Timeouts has calls that give up once a [context.Context] is done: [Seat.RecvContext],
// [Chan.RecvContext] and so on. They return the context's error. While one of them waits, no deadlock is reported, since something can
// still happen.
//
// # Threads
//
// Each call goes through cgo; [Seat.SendAll] and [Seat.RecvUpTo] do so once for many values. A goroutine whose call
// waits holds an operating system thread, so the calls of a hub may hold up to 64 threads. Other goroutines keep
// running.
//
// # The library
//
// The package links libchanhub.a from the folder capi/out of this repository, where `make -C capi` builds it. To link a library in
// another folder, set CGO_LDFLAGS=-L/its/folder and, for its header, CGO_CFLAGS=-I/folder. The go tool does not notice that the
// library was rebuilt; use `go build -a` to link the new one.
package chanhub

/*
#cgo CFLAGS: -I${SRCDIR}/../..
#cgo LDFLAGS: -L${SRCDIR}/../../out -l:libchanhub.a -lpthread
#include <chanhub.h>
*/
import "C"

import (
	"math"
	"sync"
	"sync/atomic"
	"unsafe"
)

// An Edition determines what the calls on a hub may contain. Use Edition2 unless numbers are enough.
type Edition int

const (
	// In Edition1, values are numbers, and a select has up to 8 cases.
	Edition1 Edition = 1
	// In Edition2, values may also be bytes, a select has up to 16 cases, and [Seat.Cancel] works.
	Edition2 Edition = 2
	// In Edition3, [Seat.Start] and [Seat.Reopen] work too.
	Edition3 Edition = 3
)

// A Port is the number of a channel. Ports are numbered from 1 in the order in which they are made. Port 0 always exists and is
// never ready, like a nil channel in Go.
type Port uint16

// Counts is the state of a port. Sent and Received count since the hub was opened. The port's buffer holds Sent - Received values.
type Counts struct {
	Capacity       int
	Sent, Received uint64
	Closed         bool
}

// A Hub is a hub of channels. Several goroutines may call its methods at the same time.
type Hub struct {
	at        *C.chanhub
	isEndless bool
	handler   *handler // nil if nothing gets the chapters
	freed     sync.Once
	unwritten error          // what Close returns
	closed    int32          // atomic: 1 once Close has begun
	processes []process      // the last stands for nobody
	left      sync.WaitGroup // those whose calls Close waits for
}

// A process of a hub, as this package knows it, in a line of the cache of its own.
type process struct {
	given   uint64 // atomic: the number of values that it gave to Chans
	calling int32  // atomic: the number of its calls in the library; less than 0 once no further one may begin
	_       [52]byte
}

// refused is what calling counts from once no further call may begin.
const refused = math.MinInt32

// newHub returns a hub that was opened with so many processes.
func newHub(at *C.chanhub, procs int) *Hub {
	return &Hub{at: at, processes: make([]process, procs+1)}
}

// Open opens a hub with 1 to 64 processes. The limit (1 to 1,000,000) is the most steps that the hub makes; exits do
// not count. Call [Hub.Close] to free its memory.
//
// If no goroutine calls as one of the processes, call [Seat.Exit] for it. Until then, no deadlock among the others is reported.
//
// Open returns [ErrProcs], [ErrLimit], [ErrEdition] or [ErrMemory] if it fails.
func Open(edition Edition, procs int, limit int) (*Hub, error) {
	var at *C.chanhub
	refusal := C.chanhub_open(&at, within(int(edition)), within(procs), C.uint32_t(within(limit)))
	if refusal != 0 {
		return nil, refusalOf(refusal, ErrLimit)
	}
	return newHub(at, procs), nil
}

// refusalOf returns the error for a hub that was not opened. The error for refusal 2 is given.
func refusalOf(refusal C.int, second error) error {
	switch refusal {
	case 1:
		return ErrProcs
	case 2:
		return second
	case 4:
		return ErrEdition
	}
	return ErrMemory
}

// Seat returns the seat of the process with number pid. Processes are numbered from 0. If the hub has no such process, each call
// through the seat returns a Fault.
func (h *Hub) Seat(pid int) *Seat {
	return &Seat{hub: h, pid: pid}
}

// Look returns the present state of a port. It returns [FaultNoPort] if the port has not been made.
func (h *Hub) Look(port Port) (Counts, error) {
	if err := h.enter(nobody); err != nil {
		return Counts{}, err
	}
	counts := C.chanhub_look(h.at, C.uint(port))
	h.leave(nobody)
	if !counts.made {
		return Counts{}, FaultNoPort
	}
	return Counts{int(counts.cap), uint64(counts.sent), uint64(counts.received), bool(counts.closed)}, nil
}

// StepsLeft returns how many more steps other than exits the hub makes, by all its processes, before it returns [FaultJournalFull].
// It returns [math.MaxUint64] for a hub that never ends, and 0 once the hub is closed.
func (h *Hub) StepsLeft() uint64 {
	if h.enter(nobody) != nil {
		return 0
	}
	defer h.leave(nobody)
	return uint64(C.chanhub_steps_left(h.at))
}

// Journal returns the text of the journal so far, and for a hub of [OpenEndless] that of the present chapter. It needs no seat, so it
// also works while every process waits. Other calls on the hub are delayed while the text is made. `chanhub replay` reads a text of
// at most 67,108,864 bytes. A chapter is never longer. Journal returns [FaultNoMemory] if memory runs out.
func (h *Hub) Journal() ([]byte, error) {
	text, err := h.text(func(hub *C.chanhub, length *C.size_t) *C.char {
		return C.chanhub_journal(hub, length)
	})
	if err == nil && text == nil {
		err = FaultNoMemory
	}
	return text, err
}

// text returns a text that the library makes, or nil if it makes none.
func (h *Hub) text(read func(hub *C.chanhub, length *C.size_t) *C.char) ([]byte, error) {
	if err := h.enter(nobody); err != nil {
		return nil, err
	}
	var length C.size_t
	text := read(h.at, &length)
	h.leave(nobody)
	if text == nil {
		return nil, nil
	}
	defer C.chanhub_free_text(text)
	return copyOf(text, length), nil
}

// copyOf returns the bytes of a text of the library, and nil for NULL, which has length 0.
func copyOf(text *C.char, length C.size_t) []byte {
	return append([]byte(nil), unsafe.Slice((*byte)(unsafe.Pointer(text)), int(length))...)
}

// Close ends the hub and frees its memory. It may be called more than once and by several goroutines.
//
// Later calls return [ErrHubClosed], including [Hub.Journal]. Of the calls that are running, those that wait return ErrHubClosed,
// and those that can proceed return their result. Close returns after all running calls have left the library; none of them waits
// any longer.
//
// The chapters that a hub of [OpenEndless] still keeps go where its [Chapters] say before Close returns. The last one ends with the
// exits of the processes. If a chapter was not written to its file, Close returns an error that wraps the first [syscall.Errno]. It
// returns no other error.
func (h *Hub) Close() error {
	h.freed.Do(func() {
		h.shut()
		h.left.Wait()
		C.chanhub_free(h.at)
		h.unwritten = h.handler.end()
	})
	return h.unwritten
}

// shut lets no further call begin, ends a hub that follows a journal, exits the processes that have no running call, and ends the
// waits of those that have a context. The others exit when their calls leave. Every process has then soon exited or is waiting, so the
// hub stalls the calls that wait, and none is left.
func (h *Hub) shut() {
	atomic.StoreInt32(&h.closed, 1)
	idle := h.refuse()
	C.chanhub_stop(h.at)
	for _, pid := range idle {
		h.exit(pid)
	}
	for pid := 0; h.has(pid); pid++ {
		C.chanhub_expire(h.at, C.uint(pid))
	}
}

func (h *Hub) isClosed() bool {
	return atomic.LoadInt32(&h.closed) == 1
}

// refuse lets no further call begin, and returns the processes that have no running call.
func (h *Hub) refuse() (idle []int) {
	h.left.Add(len(h.processes))
	for pid := range h.processes {
		if atomic.AddInt32(&h.processes[pid].calling, refused) == refused {
			h.left.Done()
			idle = append(idle, pid)
		}
	}
	return idle
}

// exit exits a process of a closed hub.
func (h *Hub) exit(pid int) {
	if h.has(pid) {
		C.chanhub_exit(h.at, C.uint(pid))
	}
}

// nobody stands for the process of Look, Journal, Before and Cut, which have none.
const nobody = -1

// enter lets a call of a process into the library, or returns ErrHubClosed. The memory is kept until the call leaves.
func (h *Hub) enter(pid int) error {
	calling := &h.process(pid).calling
	for {
		count := atomic.LoadInt32(calling)
		if count < 0 {
			return ErrHubClosed
		}
		if atomic.CompareAndSwapInt32(calling, count, count+1) {
			return nil
		}
	}
}

// leave ends a call, and reports whether the hub is closed. If so, the process exits with the last of its calls.
func (h *Hub) leave(pid int) (closed bool) {
	if atomic.AddInt32(&h.process(pid).calling, -1) == refused {
		h.exit(pid)
		h.left.Done()
	}
	return h.isClosed()
}

// process returns the process with this number. If there is none, it returns nobody's.
func (h *Hub) process(pid int) *process {
	if !h.has(pid) {
		pid = len(h.processes) - 1
	}
	return &h.processes[pid]
}

func (h *Hub) has(pid int) bool {
	return 0 <= pid && pid < len(h.processes)-1
}

// numbersFor returns the numbers of the next values that a process gives to Chans: the first, after which each is 100 more. They depend
// on nothing that other processes do, so a run that is followed sends the same numbers. If there is no such process, the hub will refuse
// their sends, and they are nobody else's.
func (h *Hub) numbersFor(pid, count int) (first uint64) {
	given := atomic.AddUint64(&h.process(pid).given, uint64(count))
	if !h.has(pid) {
		pid = 99
	}
	return 100*(given-uint64(count)+1) + uint64(pid)
}

// number returns the hub as a number.
func (h *Hub) number() C.uintptr_t {
	return C.uintptr_t(uintptr(unsafe.Pointer(h.at)))
}

// within converts a number for the library. A number that C would truncate becomes the greatest one, which the library refuses.
func within(number int) C.uint {
	if number < 0 || number > math.MaxUint32 {
		return math.MaxUint32
	}
	return C.uint(number)
}
