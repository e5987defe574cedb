package chanhub_test

import (
	"fmt"
	"log"

	"chanhub/chanhub"
)

// The first chapter ends after two steps. The next one begins with a checkpoint: the port is made again, with the value in its buffer.
func ExampleOpenEndless() {
	check := func(err error) {
		if err != nil {
			log.Fatal(err)
		}
	}
	show := func(text []byte) { fmt.Printf("%s\n", text) }
	hub, err := chanhub.OpenEndless(chanhub.Edition2, 1, 2, chanhub.Chapters{Func: show})
	check(err)
	defer hub.Close()
	seat := hub.Seat(0)
	port, err := seat.Make(1)
	check(err)
	check(seat.Send(port, chanhub.Number(7)))
	_, err = seat.Recv(port)
	check(err)
	check(seat.Exit())
	check(hub.Close())
	// Output:
	// chanhub journal 2
	// procs 1
	// 0 make 1
	// 0 send 1 7
	//
	// chanhub journal 2
	// procs 1
	// 0 make 1
	// 0 send 1 7
	// 0 recv 1
	// 0 exit
}
