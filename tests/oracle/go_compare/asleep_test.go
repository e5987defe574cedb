package main

import (
	"sync/atomic"
	"testing"
)

func isSettled() bool {
	return allOthersSleep(allGoroutines())
}

func TestGoroutinesThatWaitAreSeen(t *testing.T) {
	ended := make(chan string)
	var nothing chan string
	waits := map[string]func(){
		"receive":       func() { <-ended },
		"send":          func() { ended <- "" },
		"select":        func() { choose([]offer{{false, nothing, ""}}, false, make(chan struct{})) },
		"nil receive":   func() { <-nothing },
		"nil send":      func() { nothing <- "" },
		"empty select":  func() { select {} },
		"several cases": func() { choose([]offer{{false, nothing, ""}, {true, make(chan string), "1"}}, false, nil) },
	}
	for name, wait := range waits {
		var isThere atomic.Bool
		go func(wait func()) {
			isThere.Store(true)
			wait()
		}(wait)
		settle()
		if !isThere.Load() {
			t.Errorf("%s: settled before the goroutine began", name)
		}
		if name == "receive" {
			ended <- ""
		} else if name == "send" {
			<-ended
		}
	}
}

func TestGoroutineAtWorkIsSeen(t *testing.T) {
	var isOver atomic.Bool
	go func() {
		for !isOver.Load() {
		}
	}()
	for i := 0; i < 100; i++ {
		if isSettled() {
			t.Fatal("a goroutine that computes was taken for one that waits")
		}
	}
	isOver.Store(true)
	settle()
}

func TestWokenGoroutineIsSeen(t *testing.T) {
	for i := 0; i < 100; i++ {
		var isOver atomic.Bool
		woken := make(chan string)
		go func() {
			<-woken
			for !isOver.Load() {
			}
		}()
		settle()
		woken <- ""
		if isSettled() {
			t.Fatal("a goroutine that was woken was taken for one that waits")
		}
		isOver.Store(true)
		settle()
	}
}
