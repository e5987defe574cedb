package chanhub

/*
#include <chanhub.h>
#include <stdlib.h>

// chapters.go exports it.
extern void chanhubGiveChapter(uintptr_t handle, char *text, size_t length);

static void give_chapter(void *handle, const char *text, size_t length) {
	chanhubGiveChapter((uintptr_t)handle, (char *)text, length);
}

static int open_endless(chanhub **hub, unsigned edition, unsigned procs, uint32_t keep, uintptr_t handle) {
	return chanhub_open_endless(hub, edition, procs, keep, handle ? give_chapter : NULL, (void *)handle);
}
*/
import "C"

import (
	"fmt"
	"runtime/cgo"
	"strings"
	"syscall"
	"unsafe"
)

// Chapters says what becomes of the chapters that a hub no longer keeps. The zero Chapters discards them. If both fields are set,
// each chapter is written before the function gets it.
type Chapters struct {
	// Func gets the text of each chapter, once and in order. It gets nil if there was no memory for the text; that chapter is lost.
	// The function may keep the text.
	//
	// The call that made the chapter fall out of the hub returns, or waits for its answer, only after the function has returned.
	// Other calls go on meanwhile, but a call that makes another chapter fall out waits too. So the function must not wait for such
	// a call. It must not make steps, cut or close the hub either, since that could wait for the function itself. It may call
	// [Hub.Look], [Hub.Journal] and [Hub.Before].
	//
	// The function runs on a goroutine of its own. A panic that it does not recover ends the program, as on every goroutine.
	Func func(text []byte)

	// Files is the name of the files to which the chapters are written: Files.0, Files.1, and so on, one for each chapter. A file
	// gets its name once it is whole, and replaces one that has the same name; before, it is called Files.0.tmp. `chanhub_tool chain`
	// checks that the files, given in order, are one history.
	//
	// If a chapter cannot be written, its file is left out, and the hub goes on. The first time, a line on standard error says why,
	// and [Hub.Close] returns the error.
	Files string
}

// OpenEndless opens a hub that never ends, with 1 to 64 processes. Call [Hub.Close] to free its memory.
//
// Its journal is cut into chapters. A new chapter begins with a checkpoint: steps that make the ports, the values in their buffers, the
// exits and the waiting calls again. Once keep steps (1 to 900,000) came behind it, and twice as many as it has, or the text would grow
// too long for `chanhub replay`, the next step begins a new chapter. So each chapter is a journal of its own, which all tools read. Nothing
// else shows that the journal was cut: every call returns what it would if the hub had kept its whole journal.
//
// The hub keeps the present chapter, which [Hub.Journal] returns, and the one before it, which [Hub.Before] returns. So the last keep
// steps are always there, or as many as two texts hold. When a chapter begins, the chapter before falls out of the hub: [Chapters]
// says what becomes of it. When the hub is closed, the chapters that it still keeps fall out too.
//
// The hub has two chapters in memory, and up to four while they fall out. A checkpoint has at most 65,792 steps, which takes 64 full ports
// of capacity 1,024. At most keep steps come behind it, or twice as many as it has, if these are more.
//
// If no goroutine calls as one of the processes, call [Seat.Exit] for it, as with [Open].
//
// OpenEndless returns [ErrProcs], [ErrKeep], [ErrEdition], [ErrFiles] or [ErrMemory] if it fails.
func OpenEndless(edition Edition, procs, keep int, chapters Chapters) (*Hub, error) {
	handler, err := newHandler(chapters)
	if err != nil {
		return nil, err
	}
	var at *C.chanhub
	refusal := C.open_endless(&at, within(int(edition)), within(procs), C.uint32_t(within(keep)), handler.number())
	if refusal != 0 {
		handler.end()
		return nil, refusalOf(refusal, ErrKeep)
	}
	hub := newHub(at, procs)
	hub.isEndless, hub.handler = true, handler
	return hub, nil
}

// Before returns the text of the chapter before the present one. It returns nil if there is none, or if memory runs out. Only a hub
// of [OpenEndless] has one, once its journal was cut. As with [Hub.Journal], this needs no seat.
func (h *Hub) Before() ([]byte, error) {
	return h.text(func(hub *C.chanhub, length *C.size_t) *C.char {
		return C.chanhub_before(hub, length)
	})
}

// Cut ends the present chapter, as if it were full. It becomes the chapter before, and the one that was before falls out of the hub.
// Waiting calls go on waiting. Cut needs no seat. Use it where a chapter should end, such as after a batch of work or once a day.
//
// Cut returns [FaultNoMemory] if memory runs out, and [FaultBadCall] for a hub of [Open]. Nothing has changed then.
func (h *Hub) Cut() error {
	if err := h.enter(nobody); err != nil {
		return err
	}
	wasCut := C.chanhub_cut(h.at)
	h.leave(nobody)
	if wasCut {
		return nil
	}
	if h.isEndless {
		return FaultNoMemory
	}
	return FaultBadCall
}

// A handler gets the chapters of a hub.
type handler struct {
	function func(text []byte)
	name     string
	files    *C.chanhub_files // nil if no files are written
	handle   cgo.Handle       // what the library has of it
}

// newHandler returns a handler that has to be ended, or nil if nothing is to get the chapters.
func newHandler(chapters Chapters) (*handler, error) {
	if strings.ContainsRune(chapters.Files, 0) {
		return nil, ErrFiles
	}
	if chapters.Func == nil && chapters.Files == "" {
		return nil, nil
	}
	h := &handler{function: chapters.Func, name: chapters.Files}
	if h.name != "" {
		h.files = &C.chanhub_files{name: C.CString(h.name)}
	}
	h.handle = cgo.NewHandle(h)
	return h, nil
}

// number returns the number by which the library has the handler, 0 for nil.
func (h *handler) number() C.uintptr_t {
	if h == nil {
		return 0
	}
	return C.uintptr_t(h.handle)
}

// end frees what the handler holds outside of Go's memory. It returns an error if a chapter was not written.
func (h *handler) end() error {
	if h == nil {
		return nil
	}
	h.handle.Delete()
	if h.files == nil {
		return nil
	}
	C.free(unsafe.Pointer(h.files.name))
	if h.files.error == 0 {
		return nil
	}
	return fmt.Errorf("chanhub: a chapter was not written to %s: %w", h.name, syscall.Errno(h.files.error))
}

// give gets a chapter from the library, which gives one at a time.
func (h *handler) give(text *C.char, length C.size_t) {
	if h.files != nil {
		C.chanhub_write_chapter(unsafe.Pointer(h.files), text, length)
	}
	if h.function != nil {
		h.call(copyOf(text, length))
	}
}

// call calls the function on another goroutine: neither a panic nor runtime.Goexit may unwind the library.
func (h *handler) call(text []byte) {
	ended := make(chan struct{})
	go func() {
		defer close(ended)
		h.function(text)
	}()
	<-ended
}
