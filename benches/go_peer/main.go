// Command go_peer times Go's own channels, which keep no journal, on workloads of `hub_trials`.
//
//	go_peer times [CALLS [RUNS]]
//
// It prints `NAME best N median M` for each workload, in calls a second, over RUNS runs (10), each on new channels. CALLS
// (200,000) is the number of calls that all goroutines together make in a run. All begin at one signal, and the time ends
// with the last one. There are no looks: `len` tells neither how many values were sent and received nor whether the
// channel is closed.
package main

import (
	"fmt"
	"os"
	"sort"
	"strconv"
	"sync"
	"time"
)

// seven is what each send sends.
const seven = uint64(7)

// A script makes the calls of one goroutine in so many rounds.
type script func(rounds int)

// A workload has a name, the number of calls that its goroutines together make in a round, and what makes new channels
// and the scripts that use them.
type workload struct {
	name    string
	inRound int
	scripts func() []script
}

var workloads = []workload{
	{"alone", 2, alone},
	{"ping_pong", 4, pingPong},
	{"one_to_one", 2, oneToOne},
	{"four_to_four", 8, fourToFour},
	{"select_over_four", 8, selectOverFour},
}

func alone() []script {
	port := make(chan uint64, 64)
	return []script{sendThenReceive(port, port)}
}

func pingPong() []script {
	there, back := make(chan uint64), make(chan uint64)
	return []script{sendThenReceive(there, back), receiveThenSend(there, back)}
}

func oneToOne() []script {
	port := make(chan uint64, 64)
	return []script{send(port), receive(port)}
}

func fourToFour() []script {
	port := make(chan uint64, 64)
	sends, receives := send(port), receive(port)
	return []script{sends, sends, sends, sends, receives, receives, receives, receives}
}

func selectOverFour() []script {
	var ports [4]chan uint64
	scripts := []script{}
	for place := range ports {
		ports[place] = make(chan uint64, 16)
		scripts = append(scripts, send(ports[place]))
	}
	return append(scripts, selectFour(ports))
}

func send(port chan<- uint64) script {
	return func(rounds int) {
		for ; rounds > 0; rounds-- {
			port <- seven
		}
	}
}

func receive(port <-chan uint64) script {
	return func(rounds int) {
		for ; rounds > 0; rounds-- {
			check(<-port)
		}
	}
}

func sendThenReceive(to chan<- uint64, from <-chan uint64) script {
	return func(rounds int) {
		for ; rounds > 0; rounds-- {
			to <- seven
			check(<-from)
		}
	}
}

func receiveThenSend(from <-chan uint64, to chan<- uint64) script {
	return func(rounds int) {
		for ; rounds > 0; rounds-- {
			check(<-from)
			to <- seven
		}
	}
}

// selectFour receives four times in a round, from any of the four ports.
func selectFour(ports [4]chan uint64) script {
	one, two, three, four := ports[0], ports[1], ports[2], ports[3]
	return func(rounds int) {
		for calls := 4 * rounds; calls > 0; calls-- {
			select {
			case value := <-one:
				check(value)
			case value := <-two:
				check(value)
			case value := <-three:
				check(value)
			case value := <-four:
				check(value)
			}
		}
	}
}

// check ends the program if this is not the value that was sent.
func check(value uint64) {
	if value != seven {
		panic("a wrong value")
	}
}

// A span is from when to when one goroutine made its calls.
type span struct{ begun, ended time.Time }

// rate tells the calls a second in one run on new channels, from the signal for which all goroutines wait to the end of
// the last.
func rate(timed workload, calls int) int {
	scripts := timed.scripts()
	rounds := calls / timed.inRound
	spans := make([]span, len(scripts))
	var start, all sync.WaitGroup
	start.Add(len(scripts))
	all.Add(len(scripts))
	for place := range scripts {
		go func(follow script, own *span) {
			defer all.Done()
			start.Done()
			start.Wait()
			begun := time.Now()
			follow(rounds)
			*own = span{begun, time.Now()}
		}(scripts[place], &spans[place])
	}
	all.Wait()
	took := whole(spans).Seconds()
	return int(float64(rounds*timed.inRound) / took)
}

// whole tells how long it is from the earliest beginning to the latest end.
func whole(spans []span) time.Duration {
	first, last := spans[0].begun, spans[0].ended
	for _, one := range spans {
		if one.begun.Before(first) {
			first = one.begun
		}
		if one.ended.After(last) {
			last = one.ended
		}
	}
	return last.Sub(first)
}

// show runs a workload so many times, and prints its line.
func show(timed workload, calls, runs int) {
	rates := make([]int, runs)
	for run := range rates {
		rates[run] = rate(timed, calls)
	}
	sort.Ints(rates)
	median := (rates[(runs-1)/2] + rates[runs/2]) / 2
	fmt.Printf("%s best %d median %d\n", timed.name, rates[runs-1], median)
}

// numbersOf reads CALLS and RUNS, where they are said.
func numbersOf(words []string) (calls, runs int, fit bool) {
	numbers := []int{200000, 10}
	if len(words) == 0 || words[0] != "times" || len(words) > 3 {
		return 0, 0, false
	}
	for place, word := range words[1:] {
		number, err := strconv.Atoi(word)
		if err != nil || number < 1 {
			return 0, 0, false
		}
		numbers[place] = number
	}
	return numbers[0], numbers[1], true
}

func main() {
	calls, runs, fit := numbersOf(os.Args[1:])
	if !fit {
		fmt.Fprintln(os.Stderr, "words: times [CALLS [RUNS]]")
		os.Exit(2)
	}
	for _, timed := range workloads {
		show(timed, calls, runs)
	}
}
