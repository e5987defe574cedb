package chanhub_test

import (
	"errors"
	"fmt"
	"log"
	"os"
	"sync"

	"chanhub/chanhub"
)

var once sync.Once

// saving returns err. If a call stalled, it first saves the journal, once.
func saving(hub *chanhub.Hub, err error) error {
	if errors.Is(err, chanhub.ErrStalled) {
		once.Do(func() {
			journal, _ := hub.Journal()
			os.WriteFile("stalled.journal", journal, 0o666)
			log.Print("deadlock: see stalled.journal")
		})
	}
	return err
}

// square sends the square of each job, until there are no more.
func square(hub *chanhub.Hub, seat *chanhub.Seat, jobs, results chanhub.Port) error {
	defer seat.Exit() // after the journal is saved; also after a panic
	values := seat.Drain(jobs)
	for values.Next() {
		job, _ := values.Value().Number()
		if err := seat.Send(results, chanhub.Number(job*job)); err != nil {
			return saving(hub, err)
		}
	}
	return saving(hub, values.Err())
}

// Three workers square ten numbers, and process 0 adds up the squares.
func Example_pool() {
	hub, err := chanhub.Open(chanhub.Edition1, 4, 1000)
	check := func(err error) {
		if saving(hub, err) != nil {
			log.Fatal(err)
		}
	}
	check(err)
	defer hub.Close()
	boss := hub.Seat(0)
	jobs, err := boss.Make(2)
	check(err)
	results, err := boss.Make(100)
	check(err)
	ended := make(chan error, 3)
	for pid := 1; pid <= 3; pid++ {
		worker := hub.Seat(pid)
		go func() { ended <- square(hub, worker, jobs, results) }()
	}
	for job := uint64(1); job <= 10; job++ {
		check(boss.Send(jobs, chanhub.Number(job)))
	}
	check(boss.Close(jobs))
	sum := uint64(0)
	for i := 0; i < 10; i++ {
		result, err := boss.Recv(results)
		check(err)
		number, _ := result.Number()
		sum += number
	}
	check(boss.Exit())
	for i := 0; i < 3; i++ {
		check(<-ended)
	}
	fmt.Println(sum)
	// Output: 385
}
