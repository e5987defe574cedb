package chanhub_test

import (
	"fmt"
	"log"

	"chanhub/chanhub"
)

func check(err error) {
	if err != nil {
		log.Fatal(err)
	}
}

// A producer, a consumer, and a select of both their results. Example_native is the same program with Go's own channels.
func Example_chan() {
	hub, err := chanhub.Open(chanhub.Edition2, 3, 1000)
	check(err)
	defer hub.Close()
	boss, producer, consumer := hub.Seat(0), hub.Seat(1), hub.Seat(2)
	jobs, _ := chanhub.MakeChan[int](boss, 2)
	squares, _ := chanhub.MakeChan[int](boss, 0)
	reports, _ := chanhub.MakeChan[string](boss, 0)
	go func() {
		for job := 1; job <= 10; job++ {
			check(jobs.Send(producer, job))
		}
		check(jobs.Close(producer))
	}()
	go func() {
		count := 0
		check(jobs.Range(consumer, func(job int) bool {
			count++
			return squares.Send(consumer, job*job) == nil
		}))
		check(reports.Send(consumer, fmt.Sprint(count, " jobs")))
	}()
	sum, square, report := 0, 0, ""
	for i := 0; i < 11; i++ {
		index, err := boss.SelectChan(squares.RecvCase(&square), reports.RecvCase(&report))
		check(err)
		if index == 0 {
			sum += square
		}
	}
	fmt.Println(report, sum)
	// Output: 10 jobs 385
}
