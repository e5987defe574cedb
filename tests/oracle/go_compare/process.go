package main

import (
	"reflect"
	"sync/atomic"
)

// answer is what a step came to: `case INDEX WHAT`, or WHAT alone where the index is noCase.
type answer struct {
	index int
	what  string
}

// noCase stands for a case that is not there, or that a panic does not tell.
const noCase = -1

var (
	done         = answer{noCase, "done"}
	tookDefault  = answer{noCase, "default"}
	tookWayOut   = answer{noCase, "ended from outside"}
	sentOnClosed = answer{noCase, "closed"}
)

// process is a goroutine that makes the steps which it is given, one at a time.
type process struct {
	steps  chan func() answer
	told   atomic.Pointer[answer] // nil while a step is at work or waits
	wayOut chan struct{}          // the case more of a call that others may end
	isGone bool
}

func startProcess() *process {
	p := &process{steps: make(chan func() answer), wayOut: make(chan struct{})}
	go p.run()
	return p
}

func (p *process) run() {
	for step := range p.steps {
		told := step()
		p.told.Store(&told)
	}
	p.told.Store(&done)
}

// give has an idle process begin a step.
func (p *process) give(step func() answer) {
	p.told.Store(nil)
	p.steps <- step
}

// exit ends the goroutine of an idle process.
func (p *process) exit() {
	p.told.Store(nil)
	p.isGone = true
	close(p.steps)
}

// offer is a case over a channel itself: nil for port 0.
type offer struct {
	isSend  bool
	channel chan string
	value   string
}

// call makes one call on Go's channels: a send or receive statement, a select statement, or for several cases a select by
// reflection, which takes any number. wayOut is nil where no case is added.
func call(offers []offer, hasDefault bool, wayOut chan struct{}) (told answer) {
	defer func() {
		if text := panicText(recover()); text != "" {
			mustBe(text, "send on closed channel")
			told = sentOnClosed
		}
	}()
	if len(offers) != 1 {
		return choose(offers, hasDefault, wayOut)
	}
	if offers[0].isSend {
		return send(offers[0].channel, offers[0].value, hasDefault, wayOut)
	}
	return receive(offers[0].channel, hasDefault, wayOut)
}

func send(channel chan string, value string, hasDefault bool, wayOut chan struct{}) answer {
	switch {
	case hasDefault:
		select {
		case channel <- value:
		default:
			return tookDefault
		}
	case wayOut != nil:
		select {
		case channel <- value:
		case <-wayOut:
			return tookWayOut
		}
	default:
		channel <- value
	}
	return answer{0, "sent"}
}

func receive(channel chan string, hasDefault bool, wayOut chan struct{}) answer {
	var value string
	var isOpen bool
	switch {
	case hasDefault:
		select {
		case value, isOpen = <-channel:
		default:
			return tookDefault
		}
	case wayOut != nil:
		select {
		case value, isOpen = <-channel:
		case <-wayOut:
			return tookWayOut
		}
	default:
		value, isOpen = <-channel
	}
	return received(0, value, isOpen)
}

func received(index int, value string, isOpen bool) answer {
	if !isOpen {
		return answer{index, "drained"}
	}
	return answer{index, "got " + value}
}

func choose(offers []offer, hasDefault bool, wayOut chan struct{}) answer {
	var cases []reflect.SelectCase
	for _, o := range offers {
		if o.isSend {
			cases = append(cases, reflect.SelectCase{
				Dir: reflect.SelectSend, Chan: reflect.ValueOf(o.channel), Send: reflect.ValueOf(o.value)})
		} else {
			cases = append(cases, reflect.SelectCase{Dir: reflect.SelectRecv, Chan: reflect.ValueOf(o.channel)})
		}
	}
	if hasDefault {
		cases = append(cases, reflect.SelectCase{Dir: reflect.SelectDefault})
	} else if wayOut != nil {
		cases = append(cases, reflect.SelectCase{Dir: reflect.SelectRecv, Chan: reflect.ValueOf(wayOut)})
	}
	index, value, isOpen := reflect.Select(cases)
	switch {
	case index == len(offers) && hasDefault:
		return tookDefault
	case index == len(offers):
		return tookWayOut
	case offers[index].isSend:
		return answer{index, "sent"}
	}
	return received(index, value.String(), isOpen)
}

// closeChannel closes, and answers a panic by the number that a hub has for it.
func closeChannel(channel chan string) (told answer) {
	defer func() {
		switch text := panicText(recover()); text {
		case "":
		case "close of nil channel":
			told = answer{noCase, "fault 8"}
		default:
			mustBe(text, "close of closed channel")
			told = answer{noCase, "fault 9"}
		}
	}()
	close(channel)
	return done
}

// panicText gives what a panic of Go's runtime says, and nothing where there was none. What is no such panic goes on.
func panicText(recovered any) string {
	if recovered == nil {
		return ""
	}
	if err, isError := recovered.(error); isError {
		return err.Error()
	}
	panic(recovered)
}

func mustBe(text, wanted string) {
	if text != wanted {
		panic("another panic than " + wanted + ": " + text)
	}
}
