package chanhub

/*
#include <chanhub.h>

static int follow(chanhub **hub, const char *journal, size_t length, bool goes_on, uint32_t *line) {
	chanhub_options options = { .journal = journal, .journal_length = length, .goes_on = goes_on, .journal_line = line };
	return chanhub_open_with(hub, &options);
}
*/
import "C"

import (
	"bytes"
	"fmt"
	"strconv"
	"unsafe"
)

// A DivergedError is returned by a call where the journal that the hub follows has another step. The call was not made.
type DivergedError struct {
	Step uint64 // the number of the journal's step, from 1
	Text string // what was asked, and what the journal has; empty if there was no memory for it
}

// Error says what was asked and what the journal has, such as "P2 asked send 2 3, step 17 is 2 send 2 2".
func (e DivergedError) Error() string {
	if e.Text == "" {
		e.Text = fmt.Sprintf("step %d", e.Step)
	}
	return "chanhub: the journal that the hub follows has another step here: " + e.Text
}

// divergence returns what was asked and what the journal has, where the hub diverged.
func (h *Hub) divergence() string {
	text, _ := h.text(func(hub *C.chanhub, length *C.size_t) *C.char {
		return C.chanhub_divergence(hub, length)
	})
	return string(text)
}

// A JournalError is returned by [Follow] for a journal that cannot be followed.
type JournalError struct {
	Line        int  // the first line at fault, from 1
	IsMalformed bool // whether it is malformed; otherwise no hub admits its step
}

// Error says what is wrong with the journal, and in which line.
func (e JournalError) Error() string {
	if e.IsMalformed {
		return fmt.Sprintf("chanhub: the journal is malformed, in line %d", e.Line)
	}
	return fmt.Sprintf("chanhub: no hub admits the step of the journal in line %d", e.Line)
}

// Follow opens a hub that follows a journal, such as [Hub.Journal] of another hub returned: its edition, its processes and its steps. Call
// [Hub.Close] to free its memory.
//
// A step is made only in its turn: a call whose step is its process's next in the journal waits until it is the next of all. So each call
// has the answer that the journal has, whatever the schedule of the goroutines is. A process that makes no further step in the journal
// waits until all of it is made.
//
// A call with another step than its process's next one returns a [DivergedError], and so does a call once all of the journal is made.
// Then the hub ends: all calls return the same, also those that wait. If goesOn is true, it goes on as a hub that follows nothing instead;
// once all of the journal is made, it then makes any call.
//
// If the hub of the journal had Timeouts, a call with a context gives up if, and only if, it did there, whatever time it is now,
// and whether or not its context is done. It then returns the error of its context, or what that will be. Once the hub goes on
// freely, contexts count.
//
// A select fires the case that it fired there, whatever word it passes.
//
// A process that never makes its next step holds up all whose turn is later. Chapters cannot be followed.
//
// Follow returns a [JournalError] if the journal cannot be followed, and [ErrMemory] if memory runs out.
func Follow(journal []byte, goesOn bool) (*Hub, error) {
	var at *C.chanhub
	var line C.uint32_t
	text := append(journal[:len(journal):len(journal)], 0) // there is a first byte
	refusal := C.follow(&at, (*C.char)(unsafe.Pointer(&text[0])), C.size_t(len(journal)), C.bool(goesOn), &line)
	switch refusal {
	case 0:
		procs := procsOf(journal)
		if C.chanhub_has_clock(at) {
			procs-- // the clock is nobody's
		}
		return newHub(at, procs), nil
	case 5, 6:
		return nil, JournalError{Line: int(line), IsMalformed: refusal == 5}
	}
	return nil, refusalOf(refusal, ErrLimit)
}

// procsOf returns the number of processes that the second line of a journal says, which the library has read.
func procsOf(journal []byte) int {
	procs, _ := strconv.Atoi(string(bytes.Fields(journal)[4]))
	return procs
}
