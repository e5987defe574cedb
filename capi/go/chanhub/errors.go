package chanhub

// #include <chanhub.h>
import "C"

import (
	"errors"
	"fmt"
)

// Errors that calls return. A call may also return a [Fault].
var (
	// ErrClosed is returned by a send on a closed port.
	ErrClosed = errors.New("chanhub: send on a closed port")
	// ErrDrained is returned by a receive from a port that is closed and empty.
	ErrDrained = errors.New("chanhub: receive from a port that is closed and empty")
	// ErrStalled is returned by each call of a deadlock: every process that had not exited was waiting. The call had no effect. To
	// see who waited for whom, write [Hub.Journal] to a file, and run tools/explain.sh on it.
	ErrStalled = errors.New("chanhub: every process was waiting")
	// ErrCancelled is returned by a call that another process cancelled. The call had no effect.
	ErrCancelled = errors.New("chanhub: another process cancelled the call")
	// ErrHubClosed is returned by a call that [Hub.Close] ended, or that began after it. The call had no effect.
	ErrHubClosed = errors.New("chanhub: the hub is closed")
)

// Errors that [Open], [OpenEndless] and [OpenWith] return.
var (
	ErrProcs   = errors.New("chanhub: the number of processes must be between 1 and 64, or 63 with timeouts")
	ErrLimit   = errors.New("chanhub: the step limit must be between 1 and 1,000,000")
	ErrKeep    = errors.New("chanhub: the number of steps to keep must be between 1 and 900,000")
	ErrFiles   = errors.New("chanhub: the name of the files has a zero byte")
	ErrEdition = errors.New("chanhub: the edition must be 1, 2 or 3, and 2 or 3 with timeouts")
	ErrMemory  = errors.New("chanhub: out of memory")
)

// ErrTooLong is returned by [Bytes] for more than 32 bytes.
var ErrTooLong = errors.New("chanhub: a value has at most 32 bytes")

// A Fault is the reason why the hub did not carry out a call. It has the same number in chanhub.h and in the events of a journal.
type Fault uint8

// The faults. The page docs/SEMANTICS.md explains them, but for fault 13, which exists only in the library.
const (
	FaultNoProcess     Fault = C.CHANHUB_NO_PROCESS     // the hub has no such process
	FaultGone          Fault = C.CHANHUB_GONE           // the process has exited
	FaultBusy          Fault = C.CHANHUB_BUSY           // a call of the process is still open, in another goroutine
	FaultTooManyCases  Fault = C.CHANHUB_TOO_MANY_CASES // more than 8 cases in edition 1
	FaultNoPort        Fault = C.CHANHUB_NO_PORT        // the hub has no such port
	FaultBadCap        Fault = C.CHANHUB_BAD_CAP        // the capacity is not between 0 and 1,024
	FaultTooManyPorts  Fault = C.CHANHUB_TOO_MANY_PORTS // the hub already has 64 ports
	FaultNilClose      Fault = C.CHANHUB_NIL_CLOSE      // close or reopen of port 0
	FaultAlreadyClosed Fault = C.CHANHUB_ALREADY_CLOSED // close of a closed port
	FaultJournalFull   Fault = C.CHANHUB_JOURNAL_FULL   // the hub has reached its step limit; an exit is still possible
	FaultNoMemory      Fault = C.CHANHUB_NO_MEMORY      // out of memory; an exit is still possible, unless a chapter would begin with it
	FaultNotParked     Fault = C.CHANHUB_NOT_PARKED     // the process has no waiting call to cancel
	FaultBadCall       Fault = C.CHANHUB_BAD_CALL       // a process number outside 0 to 255, more than 16 cases, a call that needs another Edition or Timeouts, or a cut of a hub of Open
	FaultInUse         Fault = C.CHANHUB_IN_USE         // reopen of a port that is open or holds a value
	FaultNotGone       Fault = C.CHANHUB_NOT_GONE       // start of a process that has not exited, or does not exist
)

var faultTexts = map[Fault]string{
	FaultNoProcess:     "no such process",
	FaultGone:          "the process has exited",
	FaultBusy:          "a call of the process is still open",
	FaultTooManyCases:  "more than 8 cases in edition 1",
	FaultNoPort:        "no such port",
	FaultBadCap:        "the capacity is not between 0 and 1,024",
	FaultTooManyPorts:  "the hub already has 64 ports",
	FaultNilClose:      "close of port 0",
	FaultAlreadyClosed: "close of a closed port",
	FaultJournalFull:   "the hub has reached its step limit",
	FaultNoMemory:      "out of memory",
	FaultNotParked:     "the process has no waiting call to cancel",
	FaultBadCall:       "a process number outside 0 to 255, more than 16 cases, a call that needs another edition or timeouts, or a cut of a hub that ends",
	FaultInUse:         "the port is in use",
	FaultNotGone:       "the process has not exited",
}

// Error returns the number of the fault and its meaning.
func (f Fault) Error() string {
	text, isKnown := faultTexts[f]
	if !isKnown {
		text = "a number that chanhub.h does not define"
	}
	return fmt.Sprintf("chanhub: fault %d: %s", uint8(f), text)
}
