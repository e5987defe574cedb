package chanhub_test

import (
	"context"
	"errors"
	"fmt"
	"log"
	"time"

	"chanhub/chanhub"
)

// A receive that gives up when its context is done.
func Example_context() {
	check := func(err error) {
		if err != nil {
			log.Fatal(err)
		}
	}
	hub, err := chanhub.OpenWith(chanhub.Options{Procs: 1, Timeouts: true})
	check(err)
	defer hub.Close()
	seat := hub.Seat(0)
	jobs, err := chanhub.MakeChan[string](seat, 1)
	check(err)
	ctx, stop := context.WithTimeout(context.Background(), 20*time.Millisecond)
	defer stop()
	check(jobs.SendContext(ctx, seat, "a job"))
	job, err := jobs.RecvContext(ctx, seat)
	fmt.Println(job, err)
	_, err = jobs.RecvContext(ctx, seat)
	fmt.Println(errors.Is(err, context.DeadlineExceeded))
	// Output:
	// a job <nil>
	// true
}
