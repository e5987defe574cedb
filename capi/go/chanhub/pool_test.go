package chanhub_test

import (
	"os"
	"strings"
	"sync"
	"testing"

	"chanhub/chanhub"
)

// The pool's example saves the journal of a stall before a process exits.
func TestPoolSavesTheJournalOfAStall(t *testing.T) {
	folder, err := os.Getwd()
	if err != nil {
		t.Fatal(err)
	}
	if err := os.Chdir(t.TempDir()); err != nil {
		t.Fatal(err)
	}
	defer os.Chdir(folder)
	once = sync.Once{}
	hub := open(t, chanhub.Edition1, 2, 100)
	boss := hub.Seat(0)
	jobs, results := makePort(t, boss, 2), makePort(t, boss, 2)
	ended := make(chan error)
	go func() { ended <- square(hub, hub.Seat(1), jobs, results) }()
	_, err = boss.Recv(results)
	told(t, "the boss", saving(hub, err), chanhub.ErrStalled)
	told(t, "the worker", <-ended, chanhub.ErrStalled)
	saved, err := os.ReadFile("stalled.journal")
	if err != nil {
		t.Fatal(err)
	}
	lines := strings.Split(strings.TrimSpace(string(saved)), "\n")
	if last := strings.Join(lines[len(lines)-2:], ", "); last != "0 recv 2, 1 recv 1" && last != "1 recv 1, 0 recv 2" {
		t.Errorf("the saved journal ends with: %s", last)
	}
}
