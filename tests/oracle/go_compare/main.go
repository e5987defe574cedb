// Command go_compare makes the steps of journals on Go's own channels, and compares the answers with a replay by chanhub.
//
//	go_compare [-keep FOLDER] PROGRAM JOURNAL ..
//
// Each process is a goroutine, and each port is a channel. A step begins only when every goroutine waits on a channel or has
// ended. Therefore Go makes the steps in the order of the journal. Go's runtime chooses some answers at random. This command
// does not steer it. Instead, it changes the journal to follow what Go chose, and PROGRAM replays the changed journal:
//
//   - If several cases can proceed, Go takes one of them. The choice word is changed so that it picks the same case.
//   - If a call waits with several cases on one port, a hub ends it at the lowest case that fits. Go 1.19 may end it at any case
//     that fits. If the port is closed while the call waits, Go ends it at a receive. If Go's case is not the lowest, the lower
//     ones get port 0, on which nothing can proceed. This is the only class of difference between the two, and its calls are
//     counted.
//   - If a select panics, Go does not say which send caused it. The lowest send on a closed port is reported.
//   - If one step ends several calls, Go has no order among them. They are reported in order of arrival.
//
// A process that is started again is another goroutine, and a port that is opened again is another channel.
//
// Faults 1 to 7, 12, 16 and 17, and fault 8 of a reopen, have no counterpart in Go. Their answers come from the rules; Go runs no
// step.
//
// Each journal is run twice:
//
//   - plain: each call has only its own cases. It is a send, receive or select statement, or a select by reflection. A Go program
//     ends when all its goroutines wait, so the run ends there. It also ends before the first cancel of a waiting call, because
//     Go cannot end a call from outside.
//   - whole: each call that may wait has one more case. This case is a receive, which ends the call at a stall or a cancel.
//
// A call whose cases are all on port 0 has this additional case in both runs, so that its goroutine can end.
package main

import (
	"bytes"
	"flag"
	"fmt"
	"os"
	"os/exec"
	"path/filepath"
	"strings"
)

var keep = flag.String("keep", "", "a folder for the journals that follow Go, each with its arguments and its events beside it")

func main() {
	flag.Usage = func() {
		fmt.Fprintln(os.Stderr, "usage: go_compare [-keep FOLDER] PROGRAM JOURNAL ..")
		flag.PrintDefaults()
	}
	flag.Parse()
	if flag.NArg() < 2 {
		flag.Usage()
		os.Exit(2)
	}
	passed, failed := 0, 0
	var all counts
	for _, path := range flag.Args()[1:] {
		text, err := os.ReadFile(path)
		mustDo(err)
		asked := readJournal(string(text))
		for _, isPlain := range []bool{true, false} {
			differs := compareRun(path, asked, isPlain, &all)
			if differs == "" {
				passed++
			} else {
				failed++
				fmt.Println("failed:", differs)
			}
		}
	}
	fmt.Printf("calls of which several cases could proceed, so that Go drew: %d\n", all.drawn)
	fmt.Printf("calls that waited with several cases on one port, and did not end at the lowest: %d\n", all.notLowest)
	fmt.Printf("%d passed, %d failed\n", passed, failed)
	if failed > 0 {
		os.Exit(1)
	}
}

// compareRun runs a journal in one of the two ways. It returns the name of the run and its first difference, or an empty string
// if there is none.
func compareRun(path string, asked journal, isPlain bool, all *counts) string {
	name := filepath.Base(path) + "_whole"
	if isPlain {
		name = filepath.Base(path) + "_plain"
	}
	followed, events, more := runJournal(asked, isPlain)
	all.add(more)
	if *keep != "" {
		keepCase(filepath.Join(*keep, name), followed, events)
	}
	differs := compare(flag.Arg(0), followed, events)
	if differs == "" {
		return ""
	}
	return name + ": " + differs
}

func mustDo(err error) {
	if err != nil {
		fmt.Fprintln(os.Stderr, "go_compare:", err)
		os.Exit(2)
	}
}

func keepCase(path string, followed journal, events []string) {
	mustDo(os.MkdirAll(filepath.Dir(path), 0o777))
	mustDo(os.WriteFile(path, []byte(followed.text()), 0o666))
	mustDo(os.WriteFile(path+".args", []byte("replay\n"), 0o666))
	mustDo(os.WriteFile(path+".stdout", []byte(strings.Join(events, "")), 0o666))
}

// compare replays a journal. It returns an empty string if the program's events are those of Go's channels. Otherwise it describes
// the first line that differs, or why the replay failed.
func compare(program string, followed journal, events []string) string {
	replay := exec.Command(program, "replay")
	replay.Stdin = strings.NewReader(followed.text())
	var faults bytes.Buffer
	replay.Stderr = &faults
	output, err := replay.Output()
	if err != nil {
		return fmt.Sprintf("%v: %s", err, faults.String())
	}
	lines := strings.SplitAfter(string(output), "\n")
	for place := 0; place < len(lines) || place < len(events); place++ {
		if hub, runtime := lineAt(lines, place), lineAt(events, place); hub != runtime {
			return fmt.Sprintf("event %d: the replay tells %q, Go %q", place+1, hub, runtime)
		}
	}
	return ""
}

func lineAt(lines []string, place int) string {
	if place < len(lines) {
		return lines[place]
	}
	return ""
}
