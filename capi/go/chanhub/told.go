package chanhub

// #include <chanhub.h>
import "C"

import "context"

// waiting is the answer of a call that still waits. No call of this package returns it.
const waiting = 8

// answer is what a call was told.
type answer C.chanhub_told

// err returns the error that ended the call, if any; for one that diverged it is Seat.end that says where.
func (a *answer) err() error {
	switch a.what {
	case C.CHANHUB_CLOSED:
		return ErrClosed
	case C.CHANHUB_DRAINED:
		return ErrDrained
	case C.CHANHUB_STALLED:
		return ErrStalled
	case C.CHANHUB_CANCELLED:
		return ErrCancelled
	case C.CHANHUB_TIMED_OUT:
		return context.DeadlineExceeded
	case C.CHANHUB_FAULT:
		return Fault(a.fault)
	case waiting:
		return FaultBusy
	}
	return nil
}

// isOfClose reports whether this is what Hub.Close has a call told that waits.
func (a *answer) isOfClose() bool {
	return a.what == C.CHANHUB_STALLED || a.what == C.CHANHUB_TIMED_OUT || a.fault == C.CHANHUB_DIVERGED
}

// caseIndex returns the index of the case that the answer is about, or -1.
func (a *answer) caseIndex() int {
	switch a.what {
	case C.CHANHUB_SENT, C.CHANHUB_GOT, C.CHANHUB_CLOSED, C.CHANHUB_DRAINED:
		return int(a.index)
	}
	return -1
}
