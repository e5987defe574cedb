package chanhub

import "errors"

// A Drain receives values from a port until the port is closed and empty:
//
//	values := seat.Drain(port)
//	for values.Next() {
//		fmt.Println(values.Value())
//	}
//	if err := values.Err(); err != nil {
//		return err // stalled, cancelled, not carried out, or the hub is closed
//	}
//
// Between two values the seat is free for other calls.
type Drain struct {
	seat  *Seat
	port  Port
	value Value
	end   error
}

// Drain returns a [Drain] that receives from a port until the port is closed and empty.
func (s *Seat) Drain(port Port) *Drain {
	return &Drain{seat: s, port: port}
}

// Next receives the next value, which [Drain.Value] then returns. It waits until there is one, and returns true. It returns false
// if the port is closed and empty, or if the receive fails. After that it always returns false, without making a step.
func (d *Drain) Next() bool {
	if d.end != nil {
		return false
	}
	d.value, d.end = d.seat.Recv(d.port)
	return d.end == nil
}

// Value returns the value that the last call of Next received.
func (d *Drain) Value() Value {
	return d.value
}

// Err returns the error that ended the iteration, once Next has returned false. It returns nil if the port was closed and empty.
func (d *Drain) Err() error {
	if errors.Is(d.end, ErrDrained) {
		return nil
	}
	return d.end
}
