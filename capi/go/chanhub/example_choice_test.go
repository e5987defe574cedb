package chanhub_test

import (
	"fmt"
	"log"
	"math/rand"
	"time"

	"chanhub/chanhub"
)

// A select with a default: it receives 5 or sends 7, as a random word chooses, until neither can proceed.
func Example_choice() {
	rand.Seed(time.Now().UnixNano()) // from Go 1.20 on, the generator seeds itself
	hub, err := chanhub.Open(chanhub.Edition1, 1, 1000)
	if err != nil {
		log.Fatal(err)
	}
	defer hub.Close()
	seat := hub.Seat(0)
	jobs, _ := seat.Make(1)
	results, _ := seat.Make(1)
	if err := seat.Send(jobs, chanhub.Number(5)); err != nil {
		log.Fatal(err)
	}
	cases := []chanhub.Case{chanhub.RecvCase(jobs), chanhub.SendCase(results, chanhub.Number(7))}
	for index := 0; index >= 0; {
		var value chanhub.Value
		index, value, err = seat.TrySelect(rand.Uint64(), cases...)
		switch {
		case err != nil:
			log.Fatal(err)
		case index == 0:
			fmt.Println("got", value)
		case index == 1:
			fmt.Println("sent")
		}
	}
	fmt.Println("neither")
	// Unordered output:
	// got 5
	// sent
	// neither
}
