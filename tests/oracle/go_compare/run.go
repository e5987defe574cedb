package main

import (
	"fmt"
	"runtime"
)

// run makes the steps of a journal on Go's own channels, and tells what came of them in the words of a hub.
type run struct {
	isPlain   bool // calls have no way out, so the run ends at the first stall or cancel
	edition   int
	processes []*process
	channels  []chan string // by port; nil for port 0
	isClosed  map[int]bool  // by port
	open      []openCall    // those that wait, oldest first
	followed  []entry       // the entries, changed to ask for what Go drew
	choices   []choice      // of calls of which several cases could proceed
	events    []string
	counts    counts
}

// openCall is a call that waits, and where it stands among the entries.
type openCall struct {
	pid   int
	place int
}

// choice is a call, what let its cases proceed when it was made, and the case that Go took.
type choice struct {
	place int
	fits  []bool     // by case, whether its port did
	open  []openCall // those that waited
	fired int
}

// counts of what Go drew.
type counts struct {
	drawn     int // calls of which several cases could proceed
	notLowest int // calls that waited, and ended at another case than the lowest that fits
}

func (c *counts) add(more counts) {
	c.drawn += more.drawn
	c.notLowest += more.notLowest
}

// runJournal gives the journal that follows Go, its events and the counts.
func runJournal(asked journal, isPlain bool) (journal, []string, counts) {
	settle()
	before := runtime.NumGoroutine()
	r := run{isPlain: isPlain, edition: asked.edition, channels: []chan string{nil}, isClosed: map[int]bool{}}
	for len(r.processes) < asked.processes {
		r.processes = append(r.processes, startProcess())
	}
	settle()
	for _, e := range asked.entries {
		if !r.step(e) {
			break
		}
	}
	r.setWords()
	r.endAll()
	if left := runtime.NumGoroutine() - before; left != 0 {
		panic(fmt.Sprintf("%d goroutines are left", left))
	}
	return journal{asked.edition, asked.processes, r.followed}, r.events, r.counts
}

// step makes one step and tells all that came of it; whether the run goes on.
func (r *run) step(e entry) bool {
	fault := r.fault(e)
	if r.isPlain && e.step == "cancel" && fault == 0 {
		return false
	}
	e.cases = append([]communication(nil), e.cases...)
	r.followed = append(r.followed, e)
	if fault != 0 {
		r.tell(e.pid, answer{noCase, fmt.Sprintf("fault %d", fault)})
		return true
	}
	asked := choice{place: len(r.followed) - 1, fits: r.fits(e.cases), open: r.open}
	r.begin(e)
	settle()
	r.tellCaller(asked)
	r.tellEnded()
	return !r.isStalled() || r.stall()
}

// begin has the goroutine of an idle process begin a step.
func (r *run) begin(e entry) {
	p := r.processes[e.pid]
	switch e.step {
	case "make":
		p.give(func() answer {
			r.channels = append(r.channels, make(chan string, e.number))
			return answer{noCase, fmt.Sprintf("made %d", len(r.channels)-1)}
		})
	case "call":
		offers := r.offers(e.cases)
		wayOut := p.wayOut
		if r.isPlain && !areNil(e.cases) {
			wayOut = nil
		}
		p.give(func() answer { return call(offers, e.hasDefault, wayOut) })
	case "close":
		channel := r.channels[e.number]
		p.give(func() answer { return closeChannel(channel) })
	case "cancel":
		wayOut := r.processes[e.number].wayOut
		p.give(func() answer {
			wayOut <- struct{}{}
			return done
		})
	case "start":
		p.give(func() answer {
			r.processes[e.number] = startProcess()
			return done
		})
	case "reopen":
		p.give(func() answer {
			r.channels[e.number] = make(chan string, e.capacity)
			return done
		})
	case "exit":
		p.exit()
	}
}

func (r *run) offers(cases []communication) []offer {
	var offers []offer
	for _, c := range cases {
		offers = append(offers, offer{c.isSend, r.channels[c.port], c.value})
	}
	return offers
}

// tellCaller tells what the last step was answered.
func (r *run) tellCaller(asked choice) {
	e := r.followed[asked.place]
	told := r.processes[e.pid].told.Load()
	if told == nil {
		r.open = append(r.open, openCall{e.pid, asked.place})
		r.tell(e.pid, answer{noCase, "parked"})
		return
	}
	if *told == done && (e.step == "close" || e.step == "reopen") {
		r.isClosed[e.number] = e.step == "close"
	}
	ended := r.named(*told, e.cases)
	if len(r.ready(asked)) > 1 {
		r.counts.drawn++
		asked.fired = ended.index
		r.choices = append(r.choices, asked)
	}
	r.tell(e.pid, ended)
}

// tellEnded tells of each open call that the last step ended, oldest first: Go has no order among them.
func (r *run) tellEnded() {
	var still []openCall
	for _, o := range r.open {
		told := r.processes[o.pid].told.Load()
		switch {
		case told == nil:
			still = append(still, o)
		case *told == tookWayOut:
			r.tell(o.pid, answer{noCase, "cancelled"})
		default:
			cases := r.followed[o.place].cases
			ended := r.named(*told, cases)
			if moveLower(cases, ended) {
				r.counts.notLowest++
			}
			r.tell(o.pid, ended)
		}
	}
	r.open = still
}

// stall is where Go's runtime says "all goroutines are asleep - deadlock!" and ends the program, but for the goroutine that
// drives the others here. A plain run ends too. In a whole one each call is ended from outside, and the run goes on.
func (r *run) stall() bool {
	for _, o := range r.open {
		r.tell(o.pid, answer{noCase, "stalled"})
	}
	if !r.isPlain {
		r.endOpen()
	}
	return !r.isPlain
}

// endOpen ends all calls that wait, each of which has a way out.
func (r *run) endOpen() {
	for _, o := range r.open {
		r.processes[o.pid].wayOut <- struct{}{}
	}
	settle()
	for _, o := range r.open {
		if told := r.processes[o.pid].told.Load(); told == nil || *told != tookWayOut {
			panic("a call that waits took another case than its way out")
		}
	}
	r.open = nil
}

// endAll lets all goroutines end. A close of all ports ends the calls that have no way out.
func (r *run) endAll() {
	for port := 1; port < len(r.channels); port++ {
		if !r.isClosed[port] {
			close(r.channels[port])
			r.isClosed[port] = true
		}
	}
	settle()
	var still []openCall
	for _, o := range r.open {
		if r.processes[o.pid].told.Load() == nil {
			still = append(still, o)
		}
	}
	r.open = still
	r.endOpen()
	for _, p := range r.processes {
		if !p.isGone {
			p.exit()
		}
	}
	settle()
}

func (r *run) tell(pid int, told answer) {
	if told.index == noCase {
		r.events = append(r.events, fmt.Sprintf("%d %s\n", pid, told.what))
	} else {
		r.events = append(r.events, fmt.Sprintf("%d case %d %s\n", pid, told.index, told.what))
	}
}
