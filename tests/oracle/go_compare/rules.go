package main

import "math"

const (
	mostCapacity = 1024
	mostPorts    = 64
)

// mostCases of a call in an edition. A journal of a later one than the first has no call of more, so none is refused there.
func mostCases(edition int) int {
	if edition == 1 {
		return 8
	}
	return 16
}

// fault gives the number of the fault by which a hub answers what has no like in Go, and 0 for what Go is asked.
func (r *run) fault(e entry) int {
	switch {
	case e.pid >= len(r.processes):
		return 1
	case r.processes[e.pid].isGone:
		return 2
	case r.isOpen(e.pid):
		return 3
	}
	switch e.step {
	case "make":
		return r.faultOfMake(e.number)
	case "call":
		return r.faultOfCall(e.cases)
	case "close":
		if e.number >= len(r.channels) {
			return 5
		}
	case "cancel":
		if !r.isOpen(e.number) {
			return 12
		}
	case "start":
		if e.number >= len(r.processes) || !r.processes[e.number].isGone {
			return 17
		}
	case "reopen":
		return r.faultOfReopen(e.number, e.capacity)
	}
	return 0
}

func (r *run) faultOfMake(capacity int) int {
	switch {
	case capacity > mostCapacity:
		return 6
	case len(r.channels) > mostPorts: // port 0 counts too
		return 7
	}
	return 0
}

func (r *run) faultOfCall(cases []communication) int {
	if len(cases) > mostCases(r.edition) {
		return 4
	}
	for _, c := range cases {
		if c.port >= len(r.channels) {
			return 5
		}
	}
	return 0
}

func (r *run) faultOfReopen(port, capacity int) int {
	switch {
	case port >= len(r.channels):
		return 5
	case capacity > mostCapacity:
		return 6
	case port == 0:
		return 8
	case !r.isClosed[port] || len(r.channels[port]) > 0:
		return 16
	}
	return 0
}

func (r *run) isOpen(pid int) bool {
	for _, o := range r.open {
		if o.pid == pid {
			return true
		}
	}
	return false
}

// isStalled tells whether there are goroutines of processes, and all of them wait in a call.
func (r *run) isStalled() bool {
	alive := 0
	for _, p := range r.processes {
		if !p.isGone {
			alive++
		}
	}
	return alive > 0 && len(r.open) == alive
}

// fits tells of each case whether its port alone lets it proceed, as `len`, `cap` and the closes tell.
func (r *run) fits(cases []communication) []bool {
	fits := make([]bool, len(cases))
	for index, c := range cases {
		channel := r.channels[c.port]
		if c.isSend {
			fits[index] = len(channel) < cap(channel) || r.isClosed[c.port]
		} else {
			fits[index] = len(channel) > 0 || r.isClosed[c.port]
		}
	}
	return fits
}

// ready gives the cases that could proceed when a call was made, by their ports or by a call that waited. Nothing that Go is asked
// depends on it: it says which choice word asks for the case that Go drew.
func (r *run) ready(asked choice) []int {
	var ready []int
	for index, c := range r.followed[asked.place].cases {
		if asked.fits[index] || r.someoneWaits(asked.open, !c.isSend, c.port) {
			ready = append(ready, index)
		}
	}
	return ready
}

func (r *run) someoneWaits(open []openCall, isSend bool, port int) bool {
	for _, o := range open {
		for _, c := range r.followed[o.place].cases {
			if c.isSend == isSend && c.port == port {
				return port != 0
			}
		}
	}
	return false
}

// setWords has each call ask for the case that Go took. It comes last: once a case of a waiting call has moved to port 0, it no
// longer made a case of another call ready.
func (r *run) setWords() {
	for _, c := range r.choices {
		e := &r.followed[c.place]
		e.word = wordFor(e.word, r.ready(c), c.fired)
	}
}

// wordFor gives the word nearest to this one that asks for the case `fired` of those that can proceed. Where that case is none
// of them it gives the word itself.
func wordFor(word uint64, ready []int, fired int) uint64 {
	for place, index := range ready {
		if index != fired {
			continue
		}
		count := uint64(len(ready))
		first := word - word%count
		if first > math.MaxUint64-uint64(place) {
			first -= count
		}
		return first + uint64(place)
	}
	return word
}

// named gives a panic the case that it does not tell: the lowest send on a closed port.
func (r *run) named(told answer, cases []communication) answer {
	if told != sentOnClosed {
		return told
	}
	for index, c := range cases {
		if c.isSend && r.isClosed[c.port] {
			return answer{index, told.what}
		}
	}
	panic("a send panicked, and no port that it can be on is closed")
}

// moveLower moves to port 0 the cases at which a hub would have ended this waiting call, below the one that Go took: those on its
// port and of its side, or of both sides where a close ended it. It tells whether there are any.
func moveLower(cases []communication, ended answer) bool {
	fired := cases[ended.index]
	byClose := ended.what == "drained" || ended.what == "closed"
	isMoved := false
	for index := range cases[:ended.index] {
		c := &cases[index]
		if c.port == fired.port && (c.isSend == fired.isSend || byClose) {
			c.port = 0
			isMoved = true
		}
	}
	return isMoved
}

func areNil(cases []communication) bool {
	for _, c := range cases {
		if c.port != 0 {
			return false
		}
	}
	return true
}
