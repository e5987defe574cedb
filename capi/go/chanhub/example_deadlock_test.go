package chanhub_test

import (
	"errors"
	"fmt"
	"log"
	"os"
	"path/filepath"
	"sort"
	"strings"
	"sync"

	"chanhub/chanhub"
)

// A deadlock: each of two goroutines waits for the other to send first. The journal is written to a file for tools/explain.sh.
func Example_deadlock() {
	hub, err := chanhub.Open(chanhub.Edition1, 2, 1000)
	if err != nil {
		log.Fatal(err)
	}
	defer hub.Close()
	left, _ := hub.Seat(0).Make(0)
	right, _ := hub.Seat(0).Make(0)
	var both sync.WaitGroup
	askFirst := func(seat *chanhub.Seat, mine, other chanhub.Port) {
		defer both.Done()
		value, err := seat.Recv(other)
		if err == nil {
			err = seat.Send(mine, value)
		}
		if !errors.Is(err, chanhub.ErrStalled) {
			log.Fatalf("not stalled: %v", err)
		}
	}
	both.Add(2)
	go askFirst(hub.Seat(0), left, right)
	go askFirst(hub.Seat(1), right, left)
	both.Wait()
	journal, err := hub.Journal()
	if err != nil {
		log.Fatal(err)
	}
	file := filepath.Join(os.TempDir(), "deadlock.journal")
	if err := os.WriteFile(file, journal, 0o666); err != nil {
		log.Fatal(err)
	}
	lines := strings.Split(strings.TrimSpace(string(journal)), "\n")
	calls := lines[len(lines)-2:]
	sort.Strings(calls)
	for _, call := range calls {
		fmt.Println("stalled:", call)
	}
	// Output:
	// stalled: 0 recv 2
	// stalled: 1 recv 1
}
