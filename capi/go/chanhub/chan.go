package chanhub

import (
	"errors"
	"hash/maphash"
	"sync"
)

// A Chan is a channel of a hub that carries values of type T. [MakeChan] makes one. Several goroutines may call its methods at the
// same time, each with the [Seat] of its own process.
//
// The hub carries a number for each value, which the journal shows: 100 * k + pid for the value that process pid gave to the Chans of
// the hub as its k-th, counted from 1. So the second value of process 3 has number 203. Values that were not sent count too.
//
// The value itself waits in the Chan until whoever receives the number takes it out. A value that is not sent does not stay there.
type Chan[T any] struct {
	hub      *Hub
	port     Port
	capacity int

	lock   sync.Mutex
	values table[T] // those whose numbers are in the hub
}

// MakeChan makes a channel that buffers up to capacity values, from 0 to 1,024. With capacity 0, each send waits for a receive.
func MakeChan[T any](seat *Seat, capacity int) (*Chan[T], error) {
	port, err := seat.Make(capacity)
	if err != nil {
		return nil, err
	}
	return &Chan[T]{hub: seat.hub, port: port, capacity: capacity, values: newTable[T]()}, nil
}

// Port returns the number of the channel, by which journals, stories and pictures name it. Use it in no call that sends, receives or
// reopens.
func (c *Chan[T]) Port() Port {
	return c.port
}

// Cap returns the capacity of the buffer.
func (c *Chan[T]) Cap() int {
	return c.capacity
}

// Len returns the number of values in the buffer, and 0 once the hub is closed.
func (c *Chan[T]) Len() int {
	counts, _ := c.hub.Look(c.port)
	return int(counts.Sent - counts.Received)
}

// Send sends a value. It waits until a receiver takes the value or the buffer has room for it. It returns [ErrClosed] if the
// channel is closed. With any error, the value was not sent.
func (c *Chan[T]) Send(seat *Seat, value T) error {
	if err := c.isFor(seat); err != nil {
		return err
	}
	number := c.put(seat, value)
	return c.sent(number, seat.Send(c.port, number))
}

// sent ends a send of the value with this number, which is dropped if it was not sent.
func (c *Chan[T]) sent(number Value, err error) error {
	if err != nil {
		c.drop(number)
	}
	return err
}

// TrySend sends a value only if that needs no wait, and reports whether it did.
func (c *Chan[T]) TrySend(seat *Seat, value T) (sent bool, err error) {
	if err := c.isFor(seat); err != nil {
		return false, err
	}
	number := c.put(seat, value)
	_, sent, err = seat.try(SendCase(c.port, number))
	if !sent {
		c.drop(number)
	}
	return sent, err
}

// Recv receives a value. It waits until there is one. It returns [ErrDrained] if the channel is closed and empty.
func (c *Chan[T]) Recv(seat *Seat) (value T, err error) {
	if err := c.isFor(seat); err != nil {
		return value, err
	}
	return c.received(seat.Recv(c.port))
}

// received returns the value whose number was received.
func (c *Chan[T]) received(number Value, err error) (value T, _ error) {
	if err != nil {
		return value, err
	}
	return c.take(number), nil
}

// TryRecv receives a value only if that needs no wait, and reports whether it did.
func (c *Chan[T]) TryRecv(seat *Seat) (value T, received bool, err error) {
	if err := c.isFor(seat); err != nil {
		return value, false, err
	}
	number, received, err := seat.try(RecvCase(c.port))
	if received {
		value = c.take(number)
	}
	return value, received, err
}

// Range receives values and calls yield with each, until the channel is closed and empty or yield returns false. Then it returns
// nil. It returns any other error that ends a receive, such as [ErrStalled]. The seat is free for other calls while yield runs.
func (c *Chan[T]) Range(seat *Seat, yield func(value T) bool) error {
	for {
		value, err := c.Recv(seat)
		if errors.Is(err, ErrDrained) {
			return nil
		}
		if err != nil {
			return err
		}
		if !yield(value) {
			return nil
		}
	}
}

// Close closes the channel. Waiting sends return [ErrClosed]. Receives return the values that were sent before, and then
// [ErrDrained]. Close returns [FaultAlreadyClosed] if the channel is closed already.
func (c *Chan[T]) Close(seat *Seat) error {
	if err := c.isFor(seat); err != nil {
		return err
	}
	return seat.Close(c.port)
}

// A ChanCase is a case of [Seat.SelectChan]. [Chan.SendCase] and [Chan.RecvCase] return one. It may be used again.
type ChanCase interface {
	isFor(seat *Seat) error
	// begin returns the case for the hub. It puts the value of a send into its Chan.
	begin(seat *Seat) Case
	// end drops the value again if the case did not fire, and stores the value that it received if it did.
	end(begun Case, hasFired bool, received Value)
}

type chanSend[T any] struct {
	*Chan[T]
	value T
}

type chanRecv[T any] struct {
	*Chan[T]
	value *T
}

// SendCase returns a case that sends this value.
func (c *Chan[T]) SendCase(value T) ChanCase {
	return chanSend[T]{c, value}
}

// RecvCase returns a case that receives a value and stores it there, unless value is nil.
func (c *Chan[T]) RecvCase(value *T) ChanCase {
	return chanRecv[T]{c, value}
}

// SelectChan fires one of the cases that can proceed, or waits until one can. If several can, it fires a random one of them.
//
// It returns the index of the case that fired. If err is [ErrClosed] or [ErrDrained], the index is that of the case that failed;
// with any other error, it is -1.
func (s *Seat) SelectChan(cases ...ChanCase) (index int, err error) {
	return s.selectChan(s.Select, cases)
}

// TrySelectChan is like [Seat.SelectChan] with a default: it never waits. If no case can proceed, it returns index -1 and a nil
// error.
func (s *Seat) TrySelectChan(cases ...ChanCase) (index int, err error) {
	return s.selectChan(s.TrySelect, cases)
}

func (s *Seat) selectChan(
	choose func(word uint64, cases ...Case) (int, Value, error), cases []ChanCase,
) (int, error) {
	for _, c := range cases {
		if err := c.isFor(s); err != nil {
			return -1, err
		}
	}
	begun := make([]Case, len(cases))
	for i, c := range cases {
		begun[i] = c.begin(s)
	}
	index, received, err := choose(randomWord(), begun...)
	for i, c := range cases {
		c.end(begun[i], err == nil && i == index, received)
	}
	return index, err
}

// randomWord returns a random number. Before Go 1.20, those of math/rand are the same in every run.
func randomWord() uint64 {
	return new(maphash.Hash).Sum64()
}

func (c chanSend[T]) begin(seat *Seat) Case {
	return SendCase(c.port, c.put(seat, c.value))
}

func (c chanSend[T]) end(begun Case, hasFired bool, _ Value) {
	if !hasFired {
		c.drop(Value{begun.raw.value})
	}
}

func (c chanRecv[T]) begin(*Seat) Case {
	return RecvCase(c.port)
}

func (c chanRecv[T]) end(_ Case, hasFired bool, received Value) {
	if !hasFired {
		return
	}
	value := c.take(received)
	if c.value != nil {
		*c.value = value
	}
}

// isFor returns [FaultBadCall] if the seat is one of another hub.
func (c *Chan[T]) isFor(seat *Seat) error {
	if seat.hub != c.hub {
		return FaultBadCall
	}
	return nil
}

// put keeps a value that a process is to send, and returns its number.
func (c *Chan[T]) put(seat *Seat, value T) Value {
	number := c.hub.numbersFor(seat.pid, 1)
	c.lock.Lock()
	defer c.lock.Unlock()
	c.values.put(number, value)
	return Number(number)
}

// drop drops the value with this number, which was not sent.
func (c *Chan[T]) drop(number Value) {
	c.lock.Lock()
	defer c.lock.Unlock()
	c.values.take(number.number())
}

// take takes out the value with this number, which was received.
func (c *Chan[T]) take(number Value) T {
	c.lock.Lock()
	defer c.lock.Unlock()
	return c.taken(number)
}

// taken takes out the value with this number. The caller holds the lock.
func (c *Chan[T]) taken(number Value) T {
	value, isThere := c.values.take(number.number())
	if !isThere {
		panic("chanhub: a value came from the port of a Chan that was not sent by it")
	}
	return value
}
