package chanhub

// #include <chanhub.h>
import "C"

import "runtime/cgo"

// chanhubGiveChapter gets a chapter for the handler with this number. A file that exports defines nothing in C, so endless.go has
// the function that calls it.
//
//export chanhubGiveChapter
func chanhubGiveChapter(number C.uintptr_t, text *C.char, length C.size_t) {
	cgo.Handle(number).Value().(*handler).give(text, length)
}
