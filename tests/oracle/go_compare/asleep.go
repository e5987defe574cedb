package main

import (
	"bytes"
	"runtime"
	"time"
)

// What a goroutine that waits on channels is called in a dump of all goroutines. One that has been woken is called "runnable"
// there from the moment on in which it was, and no timer or file wakes any of ours.
var sleeps = map[string]bool{
	"chan receive":            true,
	"chan receive (nil chan)": true,
	"chan send":               true,
	"chan send (nil chan)":    true,
	"select":                  true,
	"select (no cases)":       true,
}

const patience = 30 * time.Second

// settle returns once all other goroutines wait on channels. The dump is made while the runtime has stopped all of them, so
// they wait at one moment; from then on none can go on before the caller wakes it.
func settle() {
	until := time.Now().Add(patience)
	for {
		runtime.Gosched()
		dump := allGoroutines()
		if allOthersSleep(dump) {
			return
		}
		if time.Now().After(until) {
			panic("goroutines that neither end nor wait on a channel:\n" + string(dump))
		}
	}
}

var dumpRoom = make([]byte, 1<<16)

func allGoroutines() []byte {
	for {
		length := runtime.Stack(dumpRoom, true)
		if length < len(dumpRoom) {
			return dumpRoom[:length]
		}
		dumpRoom = make([]byte, 2*len(dumpRoom))
	}
}

// allOthersSleep reads the heads `goroutine 7 [chan send, 2 minutes]:` of a dump. The first is that of the caller.
func allOthersSleep(dump []byte) bool {
	blocks := bytes.Split(dump, []byte("\n\n"))
	for _, block := range blocks[1:] {
		if !sleeps[stateOf(block)] {
			return false
		}
	}
	return true
}

func stateOf(block []byte) string {
	_, rest, _ := bytes.Cut(block, []byte("["))
	state, _, _ := bytes.Cut(rest, []byte("]"))
	state, _, _ = bytes.Cut(state, []byte(","))
	return string(state)
}
